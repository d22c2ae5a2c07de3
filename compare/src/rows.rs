//! Rows of surveys: those that a person types, those of streets in whole eighths, and random ones with floats, running
//! distances, reds and counts at their limits and past them.

use crate::cases::LARGEST_ROOM;
use crate::offsets::LARGEST;
use crate::random::Random;
use crate::street::{Street, CYCLE, MAX_SIGNALS, SPEED};
use crate::streets;
use crate::survey::{self, lines, Row, CHAINAGE, EIGHTH, GAP, MOST, NAN};
use crate::trial::Case;

/// The sign of a float, by its bits.
pub const NEGATIVE: u64 = 1 << 63;

/// Floats at the limits of what is accepted, with their names: ends, and the floats next to them.
pub const LIMITS: [(&str, u64); 42] = [
    ("zero", 0),
    ("negative zero", NEGATIVE),
    ("the least float", 1),
    ("the least float below zero", NEGATIVE | 1),
    ("the last float with no leading digit", 0x000f_ffff_ffff_ffff),
    ("the first float with one", 0x0010_0000_0000_0000),
    ("a sixteenth", 0x3fb0_0000_0000_0000),
    ("one place below an eighth", 0x3fbf_ffff_ffff_ffff),
    ("an eighth", 0x3fc0_0000_0000_0000),
    ("one place above an eighth", 0x3fc0_0000_0000_0001),
    ("three sixteenths", 0x3fc8_0000_0000_0000),
    ("a quarter", 0x3fd0_0000_0000_0000),
    ("three eighths", 0x3fd8_0000_0000_0000),
    ("one place below one", 0x3fef_ffff_ffff_ffff),
    ("one", 0x3ff0_0000_0000_0000),
    ("one place above one", 0x3ff0_0000_0000_0001),
    ("one and a sixteenth", 0x3ff1_0000_0000_0000),
    ("an eighth below 20,000", 0x40d3_87f8_0000_0000),
    ("a sixteenth below 20,000", 0x40d3_87fc_0000_0000),
    ("one place below 20,000", 0x40d3_87ff_ffff_ffff),
    ("20,000", 0x40d3_8800_0000_0000),
    ("one place above 20,000", 0x40d3_8800_0000_0001),
    ("a sixteenth above 20,000", 0x40d3_8804_0000_0000),
    ("an eighth above 20,000", 0x40d3_8808_0000_0000),
    ("2^29, which is 2^32 eighths", 0x41c0_0000_0000_0000),
    ("2^29 and an eighth", 0x41c0_0000_0100_0000),
    ("2^53", 0x4340_0000_0000_0000),
    ("2^61, which is 2^64 eighths", 0x43c0_0000_0000_0000),
    ("the greatest float", 0x7fef_ffff_ffff_ffff),
    ("infinity", 0x7ff0_0000_0000_0000),
    ("a NaN of the least payload", 0x7ff0_0000_0000_0001),
    ("a NaN of an eighth's digits", 0x7ff0_8000_0000_0000),
    ("the plain NaN", NAN),
    ("a NaN of every digit", 0x7fff_ffff_ffff_ffff),
    ("a negative eighth", 0xbfc0_0000_0000_0000),
    ("a negative one", 0xbff0_0000_0000_0000),
    ("a negative 20,000", 0xc0d3_8800_0000_0000),
    ("the greatest float below zero", 0xffef_ffff_ffff_ffff),
    ("a negative infinity", 0xfff0_0000_0000_0000),
    ("a negative NaN of the least payload", 0xfff0_0000_0000_0001),
    ("the plain NaN with a sign", 0xfff8_0000_0000_0000),
    ("every bit", 0xffff_ffff_ffff_ffff),
];

/// The bits of so many eighths.
pub fn float(eighths: i64) -> u64 {
    (eighths as f64 / 8.0).to_bits()
}

/// Rows as a person types them, a row a line with its numbers in decimal, as lines for `cases`.
pub fn typed(text: &str) -> Vec<u8> {
    let row = |line: &str| match line.split_whitespace().collect::<Vec<&str>>()[..] {
        [kind, position, outbound, inbound, red] => {
            let bits = |word: &str| word.parse::<f64>().map(f64::to_bits).expect("a number");
            let kind = if kind == "chainage" { CHAINAGE } else { GAP };
            let red = red.parse().expect("a red");
            Row { kind, floats: [position, outbound, inbound].map(bits), red }
        }
        _ => panic!("`{line}` is no row"),
    };
    lines(&text.lines().map(row).collect::<Vec<Row>>())
}

/// The rows of a street in whole eighths, a position by chainage where `chained` says so and else by gap.
pub fn of_street(street: &Street, mut chained: impl FnMut() -> bool) -> Vec<Row> {
    let mut before = 0;
    let row = |k: usize| {
        let (kind, from) = if chained() { (CHAINAGE, 0) } else { (GAP, before) };
        before = street.distances[k];
        let speed = |speeds: &[i64]| if k > 0 { float(speeds[k - 1] / EIGHTH) } else { 0 };
        let floats = [float((before - from) / EIGHTH), speed(&street.outbound), speed(&street.inbound)];
        Row { kind, floats, red: street.reds[k] }
    };
    (0..street.signals()).map(row).collect()
}

/// A random street that no check refuses, with every distance and speed a whole number of eighths.
pub fn street(random: &mut Random) -> Street {
    let street = streets::street(random);
    let n = street.signals();
    let (outbound, inbound) = (speeds(random, n - 1), speeds(random, n - 1));
    Street { distances: distances(random, n), outbound, inbound, ..street }
}

/// Distances from gaps of one style: a few eighths, blocks, one length, or up to the greatest distance.
fn distances(random: &mut Random, n: usize) -> Vec<i64> {
    let (style, most) = (random.below(5), MOST / n as i64);
    let same = random.within(1, most);
    let mut along = vec![0];
    for k in 1..n {
        let gap = match style {
            0 => random.within(1, 3),
            1 => random.within(1, 400),
            2 => same,
            3 => random.within(1, most),
            _ => 8 * random.within(1, most / 8),
        };
        along.push(along[k - 1] + gap);
    }
    let spare = MOST - along[n - 1];
    let (any, start) = (random.within(0, spare), random.below(4));
    let start = [0, 0, any, spare][start];
    along.into_iter().map(|distance| EIGHTH * (start + distance)).collect()
}

/// Speeds of one style: one for all, the ends of the range, whole metres a second, or any.
fn speeds(random: &mut Random, links: usize) -> Vec<i64> {
    let any = |random: &mut Random| EIGHTH * random.within(SPEED.0 / EIGHTH, SPEED.1 / EIGHTH);
    let (style, same) = (random.below(4), any(random));
    let speed = |_| match style {
        0 => same,
        1 => random.pick(&[SPEED.0, SPEED.1]),
        2 => 1_000 * random.within(SPEED.0 / 1_000, SPEED.1 / 1_000),
        _ => any(random),
    };
    (0..links).map(speed).collect()
}

/// A zero of either sign.
fn zero(random: &mut Random) -> u64 {
    random.pick(&[0, NEGATIVE])
}

/// The rows of a street by chainage, by gap or mixed, where a zero may have either sign.
pub fn rows(random: &mut Random, street: &Street) -> Vec<Row> {
    let style = random.below(4);
    let mut rows = of_street(street, || [true, false, random.one_in(2), random.one_in(2)][style]);
    if random.one_in(2) {
        rows[0].floats[1] = zero(random);
        rows[0].floats[2] = zero(random);
    }
    for row in &mut rows {
        if row.floats[0] == 0 {
            row.floats[0] = zero(random);
        }
    }
    rows
}

/// A survey that is asked about: its rows, and the cycle of the request.
#[derive(Clone, Debug)]
pub struct Survey {
    pub cycle: i64,
    pub rows: Vec<Row>,
}

impl Survey {
    /// The rows of a street, or such rows with one to three things at their limits or past them.
    pub fn random(random: &mut Random) -> Survey {
        let street = street(random);
        let mut survey = Survey { cycle: street.cycle, rows: rows(random, &street) };
        if !random.one_in(4) {
            for _ in 0..random.pick(&[1, 1, 1, 1, 1, 2, 3]) {
                damage(random, &mut survey);
            }
        }
        survey
    }
}

fn damage(random: &mut Random, survey: &mut Survey) {
    // Some damage takes rows away; where none is left there is nothing more to damage.
    if survey.rows.is_empty() {
        return;
    }
    match random.below(26) {
        0..=10 => a_float(random, survey),
        11 | 12 => at_the_end(random, survey),
        13 => first_speeds(random, survey),
        14..=16 => a_speed(random, survey),
        17 | 18 => not_above(random, survey),
        19..=21 => a_red(random, survey),
        22 | 23 => survey.cycle = random.pick(&[0, CYCLE.0 - 1, CYCLE.0, CYCLE.1, CYCLE.1 + 1, LARGEST]),
        24 => a_count(random, survey),
        _ => a_bit(random, survey),
    }
}

/// A row: the first, the last or any.
fn place(random: &mut Random, survey: &Survey) -> usize {
    let (n, any) = (survey.rows.len(), random.below(survey.rows.len()));
    random.pick(&[0, n - 1, any, any])
}

/// Any of the three floats at a limit.
fn a_float(random: &mut Random, survey: &mut Survey) {
    let f = random.below(3);
    // What the first row's speeds may be is soon told, so these are mostly a later row's.
    let least = usize::from(f > 0 && survey.rows.len() > 1 && !random.one_in(4));
    let k = place(random, survey).max(least);
    survey.rows[k].floats[f] = random.pick(&LIMITS).1;
    if random.one_in(3) {
        survey.rows[k].kind = random.pick(&[CHAINAGE, GAP]);
    }
}

/// Any of the three floats with one bit turned over, or of random bits.
fn a_bit(random: &mut Random, survey: &mut Survey) {
    let (k, f) = (place(random, survey), random.below(3));
    let any = (random.below(1 << 32) << 32 | random.below(1 << 32)) as u64;
    let turned = survey.rows[k].floats[f] ^ 1 << random.below(64);
    survey.rows[k].floats[f] = random.pick(&[turned, turned, any]);
}

/// The running distance before a row, in eighths; 0 where a row before it is bad.
fn before(survey: &Survey, k: usize) -> i64 {
    let street = survey::street(survey.cycle, &survey.rows[..k]);
    street.map_or(0, |street| street.distances[k - 1] / EIGHTH)
}

/// A running distance of 20,000 m or an eighth off, at the last row, which may be one that was not the last.
fn at_the_end(random: &mut Random, survey: &mut Survey) {
    let (k, kind) = (place(random, survey), random.pick(&[CHAINAGE, GAP, GAP]));
    let from = if kind == GAP { before(survey, k) } else { 0 };
    let end = random.pick(&[MOST - 1, MOST, MOST, MOST + 1, MOST + 1]);
    survey.rows[k].kind = kind;
    survey.rows[k].floats[0] = float(end - from);
    if !random.one_in(4) {
        survey.rows.truncate(k + 1);
    }
}

/// Speeds in the first row: one, the other or both.
fn first_speeds(random: &mut Random, survey: &mut Survey) {
    let speed = random.pick(&[1, 8, 80, 320, MOST]);
    let spared = random.below(3);
    for f in [1, 2].into_iter().filter(|&f| f != spared) {
        survey.rows[0].floats[f] = float(speed);
    }
}

/// A speed at an end of its range or past it, or a zero of either sign. A single row has no link.
fn a_speed(random: &mut Random, survey: &mut Survey) {
    let (k, f) = (place(random, survey).max(1), random.pick(&[1, 2]));
    let ends = [SPEED.0 / EIGHTH, SPEED.1 / EIGHTH];
    let near = [ends[0] - 1, ends[0], ends[1], ends[1] + 1, MOST].map(float);
    if let Some(row) = survey.rows.get_mut(k) {
        row.floats[f] = if random.one_in(3) { zero(random) } else { random.pick(&near) };
    }
}

/// A signal at or before the one before: an equal or a falling chainage, or a gap of either zero.
fn not_above(random: &mut Random, survey: &mut Survey) {
    let k = place(random, survey);
    let last = before(survey, k);
    let (chainage, gap) = (random.pick(&[last, last, (last - 1).max(0), 0]), zero(random));
    let chained = random.one_in(2);
    survey.rows[k].kind = if chained { CHAINAGE } else { GAP };
    survey.rows[k].floats[0] = if chained { float(chainage) } else { gap };
}

fn a_red(random: &mut Random, survey: &mut Survey) {
    let (k, cycle) = (place(random, survey), survey.cycle);
    let red = random.pick(&[0, 1, cycle - 1, cycle, cycle, cycle + 1, LARGEST]);
    survey.rows[k].red = red.clamp(0, LARGEST);
}

/// No row, one, as many as a street may have signals, or more.
fn a_count(random: &mut Random, survey: &mut Survey) {
    let count = random.pick(&[0, 1, MAX_SIGNALS, MAX_SIGNALS + 1, MAX_SIGNALS + 1, 40]);
    survey.rows.truncate(count);
    while survey.rows.len() < count {
        let row = random.pick(&survey.rows);
        survey.rows.push(row);
    }
}

/// What is put into a line, where it mostly makes the line no row.
const SLIPS: [&str; 14] =
    [" ", "  ", "\n", "\r", "\t", "0", "-", "+", "x", "F", "nan", " 7", ".", "chainage"];

/// The lines with a slip: something put in, a byte or a line end taken out, a large letter, or the end cut off.
fn misspelt(random: &mut Random, lines: &[u8]) -> Vec<u8> {
    let mut text = lines.to_vec();
    let (any, late) = (random.below(text.len() + 1), text.len() - random.below(text.len().min(60) + 1));
    let at = random.pick(&[any, late]);
    let space = text.iter().position(|&byte| byte == b' ').unwrap_or(at);
    let put = |text: &mut Vec<u8>, at: usize, slip: &str| drop(text.splice(at..at, slip.bytes()));
    match random.below(8) {
        0..=2 => put(&mut text, at, random.pick(&SLIPS)),
        3 => put(&mut text, space, random.pick(&SLIPS)),
        4 => drop(text.pop()),
        5 => text.make_ascii_uppercase(),
        6 => text.truncate(at),
        _ if at < text.len() => drop(text.remove(at)),
        _ => put(&mut text, at, random.pick(&SLIPS)),
    }
    text
}

/// A random survey as a case for `cases`, now and then with the length of the lent list or with a slip in its lines.
pub fn case(random: &mut Random, number: u64) -> Case {
    let Survey { cycle, rows } = Survey::random(random);
    let (n, any) = (rows.len(), random.below(LARGEST_ROOM + 1));
    let room = random.pick(&[0, n.saturating_sub(1), n.saturating_sub(1), n, LARGEST_ROOM, any]);
    let words = if random.one_in(6) { format!(" room {}", room.min(LARGEST_ROOM)) } else { String::new() };
    let sheet = lines(&rows);
    let seldom = if n > MAX_SIGNALS { 4 } else { 16 };
    let sheet = if random.one_in(seldom) { misspelt(random, &sheet) } else { sheet };
    Case { number, request: format!("survey {cycle}{words}"), sheet }
}
