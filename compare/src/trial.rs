//! Cases made from a seed and a number, put to the programs in runs of many, and compared with the model.

use crate::cases::{input, reply, LARGEST_INPUT, LARGEST_ROOM};
use crate::printed::plan_prints;
use crate::random::Random;
use crate::run::Program;
use crate::sheet::write;
use crate::street::Street;
use crate::{damage, limits, streets};
use std::env;
use std::fmt::{Debug, Display, Formatter};

/// One request and its sheet; `number` makes it again from the seed.
#[derive(Clone)]
pub struct Case {
    pub number: u64,
    pub request: String,
    pub sheet: Vec<u8>,
}

impl Debug for Case {
    fn fmt(&self, text: &mut Formatter) -> std::fmt::Result {
        write!(text, "`{}` {}", self.request, self.sheet.escape_ascii())
    }
}

impl Case {
    pub fn equal(number: u64, sheet: Vec<u8>) -> Case {
        Case { number, request: "equal".to_string(), sheet }
    }

    /// A request about a street, made without a number.
    pub fn about(street: &Street, request: impl Display) -> Case {
        Case { number: 0, request: request.to_string(), sheet: write(street) }
    }

    /// A request with a sheet of the street that may be damaged, but holds no byte 0.
    pub fn asking(random: &mut Random, number: u64, request: String, street: &Street) -> Case {
        let case = Case { number, request, sheet: sheet(random, street) };
        if case.has_zero() {
            return Case { sheet: write(street), ..case };
        }
        case
    }

    pub fn random(seed: u64, number: u64) -> Case {
        let random = &mut Random::new(seed, number);
        let street = streets::street(random);
        let signals = street.signals();
        let mut case = Case::equal(number, sheet(random, &street));
        if random.one_in(8) && !case.has_zero() {
            let any = random.below(LARGEST_ROOM + 1);
            case.request =
                format!("equal room {}", random.pick(&[0, signals - 1, signals, LARGEST_ROOM, any]));
        }
        case
    }

    /// A byte 0 separates cases, so such a sheet goes to `plan` alone.
    pub fn has_zero(&self) -> bool {
        self.sheet.contains(&0)
    }

    /// Whether `plan` is asked too: it has no request but the equal plan with a full list.
    pub fn suits_plan(&self) -> bool {
        self.request == "equal"
    }

    pub fn bytes(&self) -> Vec<u8> {
        [self.request.as_bytes(), b"\n", &self.sheet].concat()
    }

    pub fn print(&self) {
        println!("request `{}`, sheet of {} bytes:", self.request, self.sheet.len());
        for line in self.sheet.split_inclusive(|&byte| byte == 10) {
            println!("    {}", line.escape_ascii());
        }
    }
}

/// A sheet of the street, as it is or with numbers past their ranges or damaged bytes.
fn sheet(random: &mut Random, street: &Street) -> Vec<u8> {
    match random.below(20) {
        0..=11 => write(street),
        12..=14 => limits::sheet(random, street.clone()),
        _ => damage::sheet(random, street),
    }
}

/// A case on which a program and the model differ.
pub struct Difference {
    pub case: Case,
    pub program: String,
    pub model: String,
    pub answer: String,
}

impl Difference {
    pub fn print(&self) {
        self.case.print();
        println!("the model answers\n{}", indented(&self.model));
        println!("the program {} answers\n{}", self.program, indented(&self.answer));
    }
}

pub fn indented(text: &str) -> String {
    text.lines().map(|line| format!("    {line}\n")).collect()
}

/// Splits cases into runs that the program `cases` takes whole.
pub fn runs(cases: &[Case]) -> Vec<&[Case]> {
    let mut runs = vec![];
    let (mut from, mut length) = (0, 0);
    for (k, case) in cases.iter().enumerate() {
        let more = case.bytes().len() + 1;
        if length + more > LARGEST_INPUT {
            runs.push(&cases[from..k]);
            (from, length) = (k, 0);
        }
        length += more;
    }
    runs.push(&cases[from..]);
    runs
}

/// Puts one run to `cases` and finds the first case whose reply is not the model's.
pub fn compare_run(program: &Program, run: &[Case]) -> Option<Difference> {
    let bytes: Vec<Vec<u8>> = run.iter().map(Case::bytes).collect();
    let replies: Vec<String> = bytes.iter().map(|case| reply(case) + "\n").collect();
    let answer = match program.answer(&input(&bytes)) {
        Ok(answer) if answer == replies.concat().as_bytes() => return None,
        Ok(answer) => String::from_utf8_lossy(&answer).into_owned(),
        Err(fault) => fault,
    };
    let mut rest = answer.as_str();
    for (case, model) in run.iter().zip(&replies) {
        match rest.strip_prefix(model.as_str()) {
            Some(after) => rest = after,
            None => return Some(difference(program, case, model, rest)),
        }
    }
    let last = run.last().expect("a run has a case");
    Some(difference(program, last, "nothing after its reply", rest))
}

fn difference(program: &Program, case: &Case, model: &str, rest: &str) -> Difference {
    // What stands after the next empty line belongs to later cases.
    let answer = rest.split_inclusive("\n\n").next().unwrap_or("");
    Difference {
        case: case.clone(),
        program: program.name.clone(),
        model: model.to_string(),
        answer: answer.to_string(),
    }
}

/// Puts one sheet to `plan` by itself.
pub fn compare_plan(program: &Program, case: &Case) -> Option<Difference> {
    let model = plan_prints(&case.sheet);
    let answer = match program.answer(&case.sheet) {
        Ok(answer) if answer == model.as_bytes() => return None,
        Ok(answer) => String::from_utf8_lossy(&answer).into_owned(),
        Err(fault) => fault,
    };
    Some(Difference { case: case.clone(), program: program.name.clone(), model, answer })
}

/// Does the work of each item in as many threads as the machine has processors, and keeps what was found.
pub fn in_parallel<T: Sync, R: Send>(items: &[T], work: impl Fn(&T) -> Option<R> + Sync) -> Vec<R> {
    let threads = std::thread::available_parallelism().map_or(1, |count| count.get());
    let share = |k: usize| items.iter().skip(k).step_by(threads).filter_map(&work).collect::<Vec<R>>();
    std::thread::scope(|scope| {
        let (share, all) = (&share, 0..threads);
        let started: Vec<_> = all.map(|k| scope.spawn(move || share(k))).collect();
        started.into_iter().flat_map(|thread| thread.join().expect("a comparison ends")).collect()
    })
}

/// A number that the environment sets, in decimal.
pub fn setting(variable: &str) -> Option<u64> {
    let text = env::var(variable).ok()?;
    Some(text.parse().unwrap_or_else(|_| panic!("{variable} is a whole number, not `{text}`")))
}
