//! Before anything is timed: all three programs give the same replies and leave the same in the lent lists, on every
//! street that is timed and on damaged ones, which get every refusal.

use crate::calls::{Calls, Measure, Plan, Sheet, Writing, LARGEST_SHEET};
use crate::inputs::{streets, Case, CYCLES, REDS, SIGNALS};
use crate::library::Library;
use crate::plain::{range, Plain};
use crate::same::Same;

#[derive(Debug, PartialEq)]
struct Replies {
    sheet: Sheet,
    equal: (Plan, Vec<u32>),
    moved: (Plan, Vec<u32>),
    measure: Measure,
    writing: (Writing, Vec<u8>),
}

fn replies<T: Calls>(case: &Case) -> Replies {
    let Case { cycle, reds, distances, out, back, .. } = case;
    let (mut first, mut second, mut bytes) = (case.lent.clone(), case.lent.clone(), case.bytes.clone());
    let equal = T::equal(*cycle, reds, distances, out, back, &mut first);
    let moved = T::moved(*cycle, reds, distances, out, back, case.width, &mut second);
    let writing = T::write(*cycle, reds, distances, out, back, &mut bytes);
    Replies {
        sheet: T::read(&case.sheet),
        equal: (equal, first),
        moved: (moved, second),
        measure: T::measure(*cycle, reds, distances, out, back, &case.measured),
        writing: (writing, bytes),
    }
}

/// Which codes the replies carry, one bit a code. Those of writing stand apart, since its code 3 is about another list.
#[derive(Default)]
struct Codes {
    writing: u32,
    others: u32,
}

impl Codes {
    fn add(&mut self, replies: &Replies) {
        let Replies { sheet, equal, moved, measure, writing } = replies;
        self.writing |= 1 << writing.0.code;
        self.others |= 1 << sheet.code | 1 << equal.0.code | 1 << moved.0.code | 1 << measure.code;
    }
}

fn hold(case: &Case, seen: &mut Codes) -> Result<(), String> {
    let library = replies::<Library>(case);
    for (name, others) in [("same", replies::<Same>(case)), ("plain", replies::<Plain>(case))] {
        if others != library {
            return Err(format!("{case:?}\nlibrary {library:?}\n{name} {others:?}"));
        }
    }
    seen.add(&library);
    Ok(())
}

/// The case after an edit.
fn edited(case: &Case, edit: impl FnOnce(&mut Case)) -> Case {
    let mut case = case.clone();
    edit(&mut case);
    case
}

/// The case with other widths and other offsets to measure, some of them out of range.
fn asked(case: &Case) -> Vec<Case> {
    let last = case.reds.len() - 1;
    let (least, most) = range(case);
    let widths = [0, least - 1, least, least + 1, most - 1, most, most + 1, -1].map(|width| width as u32);
    let mut all: Vec<Case> = widths.iter().map(|&width| edited(case, |c| c.width = width)).collect();
    all.extend((1..8).map(|k| edited(case, |c| c.measured.iter_mut().for_each(|f| *f = *f * k % (2 * c.cycle)))));
    all.push(edited(case, |c| c.measured[last] = 2 * c.cycle));
    all.push(edited(case, |c| c.measured.push(0)));
    all.push(edited(case, |c| c.lent.truncate(last)));
    all
}

/// The case's street with one fault at a time.
fn faulty(case: &Case) -> Vec<Case> {
    let last = case.reds.len() - 1;
    let mut all = vec![
        edited(case, |c| c.reds.clear()),
        edited(case, |c| c.cycle = 9),
        edited(case, |c| c.reds[last] = c.cycle),
        edited(case, |c| c.distances[last] = 20_000_001),
    ];
    if last > 0 {
        all.push(edited(case, |c| c.distances[last] = c.distances[last - 1]));
        all.push(edited(case, |c| c.out[last - 1] = 999));
        all.push(edited(case, |c| c.back[last - 1] = 40_001));
    }
    all
}

/// The case with no reds, with the least ones, and with the greatest, each with like distances and speeds, and so with the
/// shortest sheet and the longest.
fn extreme(case: &Case) -> Vec<Case> {
    let numbers = |red: u32, first: u32, speed: u32| {
        edited(case, |c| {
            c.reds.fill(red);
            c.distances = (first..).take(c.reds.len()).collect();
            c.out.fill(speed);
            c.back.fill(speed);
            c.complete();
        })
    };
    let far = 20_000_001 - case.reds.len() as u32;
    vec![numbers(0, 0, 1_000), numbers(1, 0, 1_000), numbers(case.cycle - 1, far, 40_000)]
}

/// The case with signals that rest in green: the first, the last, every other one, all but the last, and all.
fn resting(case: &Case) -> Vec<Case> {
    let last = case.reds.len() - 1;
    let rests: [fn(usize, usize) -> bool; 5] =
        [|j, _| j == 0, |j, last| j == last, |j, _| j % 2 == 1, |j, last| j < last, |_, _| true];
    let rested = |rests: fn(usize, usize) -> bool| {
        edited(case, |c| {
            c.reds.iter_mut().enumerate().filter(|&(j, _)| rests(j, last)).for_each(|(_, red)| *red = 0);
            c.complete();
        })
    };
    rests.iter().map(|&rests| rested(rests)).collect()
}

/// The case over lists of bytes that are empty, a byte too short for its sheet, just long enough, and a byte longer.
fn resized(case: &Case) -> Vec<Case> {
    let enough = case.sheet.len();
    [0, enough - 1, enough, enough + 1].iter().map(|&count| edited(case, |c| c.bytes.truncate(count))).collect()
}

/// The case with its sheet cut short, longer, or with another byte at a place.
fn misspelt(case: &Case) -> Vec<Case> {
    let mut all =
        vec![edited(case, |c| c.sheet.push(b'\n')), edited(case, |c| c.sheet.resize(LARGEST_SHEET + 1, b'0'))];
    for at in (0..case.sheet.len()).step_by(1 + case.sheet.len() / 40) {
        all.push(edited(case, |c| c.sheet.truncate(at)));
        all.extend(b"039 \nx\xff".iter().map(|&byte| edited(case, |c| c.sheet[at] = byte)));
        all.push(edited(case, |c| c.sheet.insert(at, b'0')));
    }
    all
}

/// Compares all replies. Gives how many cases there were, or the first on which the programs differ.
pub fn agree() -> Result<usize, String> {
    let (mut count, mut seen) = (0, Codes::default());
    for signals in SIGNALS {
        for (cycle, reds) in CYCLES.iter().flat_map(|&cycle| REDS.map(|reds| (cycle, reds))) {
            let timed = streets(signals, cycle, reds);
            let mut all = timed.clone();
            all.extend(extreme(&timed[0]));
            let resting = resting(&timed[0]);
            all.extend(resting.iter().flat_map(asked));
            all.extend(resting);
            all.extend(faulty(&timed[0]));
            all.extend(all.iter().flat_map(resized).collect::<Vec<_>>());
            all.extend(asked(&timed[0]));
            all.extend(misspelt(&timed[0]));
            all.iter().try_for_each(|case| hold(case, &mut seen))?;
            count += all.len();
        }
    }
    // Bit 0 is a reply; code 8 is for platoons alone, and no call here has them. Writing has the codes 2 to 7.
    match seen {
        Codes { writing: 0b1111_1101, others: 0b110_1111_1111 } => Ok(count),
        Codes { writing, others } => {
            Err(format!("the cases miss a code; writing has {writing:#b}, the others {others:#b}"))
        }
    }
}
