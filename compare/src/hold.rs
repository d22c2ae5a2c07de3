//! Random cases of one test held to the model: the report of a difference, the replay of one case, and plain replies.

use crate::cases::{input, output, reply};
use crate::equal::Plan;
use crate::moved::Ask;
use crate::named::as_promised;
use crate::offsets::request;
use crate::printed::plan_in;
use crate::run::Program;
use crate::street::Street;
use crate::trial::{compare_run, in_parallel, indented, runs, setting, Case, Difference};
use std::fmt::Display;

/// Prints the first differences with the command that makes each again, and fails if there is one.
pub fn report(test: &str, seed: u64, differences: &[Difference]) {
    for difference in differences.iter().take(3) {
        let number = difference.case.number;
        println!("\ncase {number} of seed {seed} differs");
        difference.print();
        println!("in compare/, this replays it alone:");
        println!("    COMPARE_SEED={seed} COMPARE_CASE={number} cargo test --offline --locked --test {test} -- --show-output");
    }
    assert!(differences.is_empty(), "{} runs differ from the model", differences.len());
}

/// Puts random cases to `cases`, or the one that the environment names, and gives them back to be counted.
pub fn hold(test: &str, seed: u64, count: u64, make: fn(u64, u64) -> Case) -> Option<Vec<Case>> {
    let seed = setting("COMPARE_SEED").unwrap_or(seed);
    println!("seed {seed}");
    if let Some(number) = setting("COMPARE_CASE") {
        replay(test, seed, make(seed, number));
        return None;
    }
    let cases: Vec<Case> = (0..count).map(|number| make(seed, number)).collect();
    report(test, seed, &compare_all(&cases));
    Some(cases)
}

/// Puts cases to `cases` in as few runs as it takes, and finds where a reply is not the model's.
pub fn compare_all(cases: &[Case]) -> Vec<Difference> {
    let program = Program::cases();
    let runs = runs(cases);
    println!("{} requests through `cases` in {} runs", cases.len(), runs.len());
    in_parallel(&runs, |run| compare_run(&program, run))
}

fn replay(test: &str, seed: u64, case: Case) {
    let found = compare_run(&Program::cases(), std::slice::from_ref(&case));
    report(test, seed, &Vec::from_iter(found));
    println!("case {}", case.number);
    case.print();
    println!("the model and the program both answer\n{}", indented(&reply(&case.bytes())));
}

/// What `cases` itself replies to each of the cases, without the empty lines.
pub fn replies(program: &Program, cases: &[Case]) -> Vec<String> {
    let answer = |run: &[Case]| {
        let bytes: Vec<Vec<u8>> = run.iter().map(Case::bytes).collect();
        let text = program.answer(&input(&bytes)).unwrap_or_else(|fault| panic!("{fault}"));
        let text = String::from_utf8(text).expect("a reply is plain text");
        let replies: Vec<String> = text.split_terminator("\n\n").map(str::to_string).collect();
        assert_eq!(replies.len(), run.len(), "each case has a reply");
        replies
    };
    runs(cases).into_iter().flat_map(answer).collect()
}

/// The plans that `cases` itself replies with.
pub fn plans(cases: &[Case]) -> Vec<Plan> {
    let texts = replies(&Program::cases(), cases);
    let plan = |(case, text): (&Case, &String)| {
        plan_in(text).unwrap_or_else(|| panic!("`{text}` is no plan, on {case:?}"))
    };
    cases.iter().zip(&texts).map(plan).collect()
}

/// The plans that `cases` itself replies with to each thing that is asked of each street.
pub fn plans_asked<A: Display>(asked: &[(Street, Vec<A>)]) -> Vec<Vec<Plan>> {
    let about = |(street, asks): &(Street, Vec<A>)| {
        asks.iter().map(|ask| Case::about(street, ask)).collect::<Vec<Case>>()
    };
    let mut replies = plans(&asked.iter().flat_map(about).collect::<Vec<Case>>()).into_iter();
    asked.iter().map(|(_, asks)| replies.by_ref().take(asks.len()).collect()).collect()
}

/// The same plans one after the other, and beside each its street.
pub fn planned(asked: &[(Street, Vec<Ask>)]) -> (Vec<Street>, Vec<Plan>) {
    let beside = |((street, _), plans): (&(Street, Vec<Ask>), Vec<Plan>)| {
        let street = street.clone();
        plans.into_iter().map(move |plan| (street.clone(), plan))
    };
    asked.iter().zip(plans_asked(asked)).flat_map(beside).unzip()
}

/// The outbound and inbound widths that `cases` itself measures under each plan's offsets.
pub fn widths(streets: &[Street], plans: &[Plan]) -> Vec<(i64, i64)> {
    let measure = |(street, plan): (&Street, &Plan)| Case::about(street, request(&plan.offsets));
    let cases: Vec<Case> = streets.iter().zip(plans).map(measure).collect();
    let numbers = |text: &String| {
        let numbers: Vec<i64> = text.split(' ').filter_map(|word| word.parse().ok()).collect();
        match numbers[..] {
            [out, _, back, _] => (out, back),
            _ => panic!("`{text}` is no measure"),
        }
    };
    replies(&Program::cases(), &cases).iter().map(numbers).collect()
}

/// Holds such plans to what they promise, by the widths that `cases` itself measures, and gives them back to be counted.
pub fn promised(asked: &[(Street, Vec<Ask>)]) -> Vec<Plan> {
    let (streets, plans) = planned(asked);
    for ((widths, plan), street) in widths(&streets, &plans).into_iter().zip(&plans).zip(&streets) {
        assert!(as_promised(street, plan, widths), "{widths:?} and {plan:?} on {street:?}");
    }
    plans
}

/// Some requests about one sheet, and the text that each of them gets.
pub type Row<'a> = (&'a [&'a str], &'a [u8], &'a str);

/// Holds the program and the model to the texts of the rows, in one run.
pub fn expect(rows: &[Row]) {
    let case =
        |request: &str, sheet: &[u8]| Case { number: 0, request: request.to_string(), sheet: sheet.to_vec() };
    let each = rows.iter().flat_map(|&(requests, sheet, text)| {
        requests.iter().map(move |request| (case(request, sheet), text))
    });
    let (cases, texts): (Vec<Case>, Vec<&str>) = each.unzip();
    let answers = replies(&Program::cases(), &cases);
    for ((case, text), answer) in cases.iter().zip(texts).zip(answers) {
        assert_eq!(output(&case.bytes()), format!("{text}\n\n"), "the model, on {case:?}");
        assert_eq!(answer, text, "the program, on {case:?}");
    }
}
