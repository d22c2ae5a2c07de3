//! Random streets and offsets measured by `cases`, and what measured bands say of the equal plan.
//!
//! `COMPARE_SEED` sets the seed of the random cases, and `COMPARE_CASE` replays one of them by its number.

use compare::bands::{directions, longest, measure_fault, Band};
use compare::brute::beaten;
use compare::cases::{request, Request};
use compare::equal::Plan;
use compare::hold::{compare_all, expect, hold, plans, widths};
use compare::moved::Ask;
use compare::offsets::{every, list, request as asking};
use compare::random::Random;
use compare::resting::{holds, Resting};
use compare::sheet::{read, STREET_A};
use compare::street::Street;
use compare::streets;
use compare::tally::Tally;
use compare::trial::{in_parallel, Case, Difference};

const SEED: u64 = 1_118;
const CASES: u64 = 4_000;

fn random_case(seed: u64, number: u64) -> Case {
    let random = &mut Random::new(seed, number);
    let street = streets::street(random);
    let request = asking(&list(random, &street));
    Case::asking(random, number, request, &street)
}

#[test]
fn cases_measures_as_the_model_does() {
    if let Some(cases) = hold("measure", SEED, CASES, random_case) {
        cover(&cases);
    }
}

/// Counts the cases, and fails where a kind of them was tried too seldom.
fn cover(cases: &[Case]) {
    let mut tally = Tally::of(&[
        ("requests", 4_000),
        ("measured", 1_500),
        ("measured with 20 signals or more", 400),
        ("measured with a band and 20 signals or more", 200),
        ("measured with a red of 0", 300),
        ("measured with every red 0", 30),
        ("with both widths 0", 300),
        ("with one width 0", 100),
        ("with tied stretches", 60),
        ("with a band over the end of the cycle", 200),
        ("refused by code 1", 100),
        ("refused by code 2", 100),
        ("refused by code 4", 20),
        ("refused by code 5", 20),
        ("refused by code 6", 20),
        ("refused by code 7", 20),
        ("refused by code 10", 100),
        ("refused by code 10 after signal 1", 50),
    ]);
    cases.iter().for_each(|case| note(&mut tally, case));
    tally.close();
}

fn note(tally: &mut Tally, case: &Case) {
    let offsets = match request(case.request.as_bytes()) {
        Some(Request::Measure { offsets }) => offsets,
        _ => panic!("{case:?}"),
    };
    let served = read(&case.sheet).and_then(|street| match measure_fault(&street, &offsets) {
        Some(refusal) => Err(refusal),
        None => Ok(street),
    });
    tally.note("requests", true);
    match served {
        Ok(street) => note_bands(tally, &street, directions(&street, &offsets)),
        Err(refusal) => {
            tally.note(&format!("refused by code {}", refusal.code), true);
            tally.note("refused by code 10 after signal 1", refusal.code == 10 && refusal.place > 1);
        }
    }
}

/// Counts a measured street by the lengths of its stretches from each start, outbound and inbound.
fn note_bands(tally: &mut Tally, street: &Street, stretches: [Vec<i64>; 2]) {
    let many = street.signals() >= 20;
    let bands: Vec<Band> =
        stretches.iter().map(|lengths| longest(lengths)).filter(|band| band.width > 0).collect();
    let tied = stretches.iter().any(|lengths| {
        let width = longest(lengths).width;
        width > 0 && lengths.iter().filter(|&&length| length == width).count() > 1
    });
    tally.note("measured", true);
    tally.note("measured with 20 signals or more", many);
    tally.note("measured with a band and 20 signals or more", many && !bands.is_empty());
    tally.note("measured with a red of 0", street.reds.contains(&0));
    tally.note("measured with every red 0", holds(street, Resting::All));
    tally.note("with both widths 0", bands.is_empty());
    tally.note("with one width 0", bands.len() == 1);
    tally.note("with tied stretches", tied);
    let over = bands.iter().any(|band| band.start + band.width > street.halves());
    tally.note("with a band over the end of the cycle", over);
}

/// One signal that is red for 2 of 20 halves, two together that are red for 4, and two that leave no band.
const ONE: &[u8] = b"1\n10\n1\n0 1\n0\n";
const TWO: &[u8] = b"1\n10\n2\n0 2\n1 2\n1\n1000 1000\n";
const SHUT: &[u8] = b"1\n10\n2\n0 9\n1 9\n1\n1000 1000\n";

#[test]
fn bands_worked_out_by_hand() {
    expect(&[
        (&["measure 0 10"], STREET_A, "60 40 60 60"),
        (&["measure 0"], ONE, "18 1 18 1"),
        (&["measure 18"], ONE, "18 19 18 19"),
        (&["measure 19"], ONE, "18 0 18 0"),
        (&["measure 0 10", "measure 10 0"], TWO, "6 2 6 2"),
        (&["measure 5 15", "measure 15 5"], TWO, "6 7 6 7"),
        (&["measure 0 4"], TWO, "12 6 12 6"),
        (&["measure 0 9", "measure 9 0"], TWO, "7 11 7 11"),
        (&["measure 0 2", "measure 0 10"], SHUT, "0 0 0 0"),
        (&["measure 0 0"], SHUT, "2 9 2 9"),
        (&["measure 19 0", "measure 0 19"], SHUT, "1 9 1 9"),
    ]);
}

#[test]
fn the_list_of_offsets_has_one_for_each_signal() {
    let long = [31, 32, 33, 64, 65, 3_000].map(|count| format!("measure{}", " 0".repeat(count)));
    let long: Vec<&str> = long.iter().map(String::as_str).collect();
    expect(&[
        (&["measure", "measure 0", "measure 0 10 0", "measure 4294967295"], STREET_A, "refused 2 0"),
        (&long, STREET_A, "refused 2 0"),
        (&["measure", "measure 0 0"], ONE, "refused 2 0"),
    ]);
}

#[test]
fn faults_are_named_in_the_order_of_the_codes() {
    let all = ["measure", "measure 0", "measure 99 99"];
    let last = &all[2..];
    expect(&[
        (&all, b"1\n9\n2\n0 9\n0 9\n1\n0 0", "refused 1 0"),
        (&all, b"1\n9\n33\n", "refused 2 0"),
        (&all, b"1\n9\n2\n0 9\n0 9\n2\n", "refused 2 0"),
        (&all[..2], b"1\n9\n2\n0 9\n0 9\n1\n0 0\n", "refused 2 0"),
        (last, b"1\n9\n2\n0 9\n0 9\n1\n0 0\n", "refused 4 0"),
        (last, b"1\n10\n2\n0 9\n0 10\n1\n0 0\n", "refused 5 2"),
        (last, b"1\n10\n2\n0 9\n0 9\n1\n0 0\n", "refused 6 2"),
        (last, b"1\n10\n2\n0 9\n1 9\n1\n1000 999\n", "refused 7 1"),
        (last, SHUT, "refused 10 1"),
        (&["measure 20 0", "measure 21 4294967295", "measure 4294967295 20"], SHUT, "refused 10 1"),
        (&["measure 19 20", "measure 0 40", "measure 0 4294967295"], SHUT, "refused 10 2"),
    ]);
}

#[test]
fn a_measure_of_another_form_is_bad() {
    let bad: [&[&str]; 5] = [
        &["measure ", " measure", "measure  0 10", "measure 0  10", "measure 0 10 ", "measure 0 10\r"],
        &["Measure 0 10", "measures 0 10", "measure0 10", "measur 0 10", "equal 0 10", "measure equal"],
        &["measure 0 10 room 5", "measure room 5", "measure room", "measure 0 room", "room 2 measure 0 10"],
        &["measure x", "measure 0 x", "measure 0 1x", "measure -1 0", "measure 0 +1", "measure 0 1.5"],
        &["measure 4294967296 0", "measure 0 4294967306", "measure 18446744073709551616 10", "measure 0,10"],
    ];
    expect(&bad.map(|requests| (requests, STREET_A, "bad request")));
}

/// The equal plans that `cases` gives the streets.
fn equal_plans(streets: &[Street]) -> Vec<Plan> {
    plans(&streets.iter().map(|street| Case::about(street, "equal")).collect::<Vec<Case>>())
}

#[test]
fn an_equal_plan_has_the_widths_that_it_reports() {
    let streets: Vec<Street> = (0..400).map(|k| streets::street(&mut Random::new(SEED + 1, k))).collect();
    let plans = equal_plans(&streets);
    for ((measured, plan), street) in widths(&streets, &plans).into_iter().zip(&plans).zip(&streets) {
        assert_eq!(measured, (plan.outbound, plan.inbound), "{street:?}");
    }
}

#[test]
fn no_offsets_have_a_greater_smaller_width() {
    let street = |k: u64| {
        let random = &mut Random::new(SEED + 2, k);
        let (n, cycle) = random.pick(&[(1, 40), (2, 10), (2, 21), (2, 30), (3, 10), (3, 11), (3, 12)]);
        streets::sized(random, n, cycle)
    };
    let streets: Vec<Street> = (0..70).map(street).collect();
    let planned: Vec<(&Street, Plan)> = streets.iter().zip(equal_plans(&streets)).collect();
    let found =
        in_parallel(&planned, |(street, plan)| beaten(street, &[Ask::Equal], std::slice::from_ref(plan)));
    assert!(found.is_empty(), "{found:?}");
}

#[test]
fn every_pair_of_offsets_of_small_streets() {
    let cases = |seed: u64| {
        let street = streets::sized(&mut Random::new(SEED + 3, seed), 2, 10);
        every(&street).map(|offsets| Case::about(&street, asking(&offsets))).collect::<Vec<Case>>()
    };
    let differences = compare_all(&(0..12).flat_map(cases).collect::<Vec<Case>>());
    differences.iter().take(3).for_each(Difference::print);
    assert!(differences.is_empty(), "{} runs differ from the model", differences.len());
}
