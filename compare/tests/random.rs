//! Random streets and damaged sheets through `cases`, and some of them, with all that hold a byte 0, through `plan`.
//!
//! `COMPARE_SEED` sets the seed and `COMPARE_SHEETS` the number of sheets; `COMPARE_CASE` replays one case by its number.

use compare::cases::reply;
use compare::coverage::Coverage;
use compare::hold::report;
use compare::printed::{plan_prints, planned};
use compare::run::Program;
use compare::trial::{compare_plan, compare_run, in_parallel, indented, runs, setting, Case, Difference};

const SEED: u64 = 1_966;
const SHEETS: u64 = 24_000;
/// Besides the sheets with a byte 0, every so many-th case goes through `plan` by itself.
const PLAN_STEP: u64 = 400;

#[test]
fn programs_answer_as_the_model_does() {
    let seed = setting("COMPARE_SEED").unwrap_or(SEED);
    println!("seed {seed}");
    if let Some(number) = setting("COMPARE_CASE") {
        return replay(seed, number);
    }
    let sheets = setting("COMPARE_SHEETS").unwrap_or(SHEETS);
    let all: Vec<Case> = (0..sheets).map(|number| Case::random(seed, number)).collect();
    let (alone, together): (Vec<Case>, Vec<Case>) = all.into_iter().partition(Case::has_zero);
    let mut differences = through_cases(&together);
    differences.extend(through_plan(&alone, &together));
    report("random", seed, &differences);
    cover(&together);
    assert!(!alone.is_empty(), "no sheet held a byte 0");
}

fn through_cases(cases: &[Case]) -> Vec<Difference> {
    let program = Program::cases();
    let runs = runs(cases);
    println!("{} sheets through `cases` in {} runs", cases.len(), runs.len());
    in_parallel(&runs, |run| compare_run(&program, run))
}

fn through_plan(alone: &[Case], together: &[Case]) -> Vec<Difference> {
    let program = Program::plan();
    let some = together.iter().filter(|case| case.number % PLAN_STEP == 0 && case.suits_plan());
    let chosen: Vec<&Case> = alone.iter().chain(some).collect();
    println!("{} sheets through `plan`, {} of them with a byte 0", chosen.len(), alone.len());
    in_parallel(&chosen, |case| compare_plan(&program, case))
}

fn cover(cases: &[Case]) {
    let mut coverage = Coverage::default();
    for case in cases {
        coverage.add(&case.sheet, &planned(&case.sheet, room(case)));
    }
    coverage.print();
    let gaps = coverage.gaps();
    assert!(gaps.is_empty(), "this run shows too little: {}", gaps.join("; "));
}

/// The length of the lent list in a case's request.
fn room(case: &Case) -> usize {
    let word = case.request.rsplit(' ').next().expect("a request has a word");
    word.parse().unwrap_or(32)
}

/// Shows one case and what both answer, the same or not.
fn replay(seed: u64, number: u64) {
    let case = Case::random(seed, number);
    let (found, text) = if case.has_zero() {
        (compare_plan(&Program::plan(), &case), plan_prints(&case.sheet))
    } else {
        (compare_run(&Program::cases(), std::slice::from_ref(&case)), reply(&case.bytes()))
    };
    report("random", seed, &Vec::from_iter(found));
    println!("case {number}");
    case.print();
    println!("the model and the program both answer\n{}", indented(&text));
}
