//! Requested widths and platoons through `cases`, and what the moved plans promise, tried by brute force.
//!
//! `COMPARE_SEED` sets the seed of the random cases, and `COMPARE_CASE` replays one of them by its number.

use compare::asked::cover;
use compare::asks::{ask, room};
use compare::brute::beaten;
use compare::hold::{expect, hold, plans_asked, promised};
use compare::moved::{every_width, papers_width, plan, platoon_rule, Ask};
use compare::random::Random;
use compare::sheet::STREET_A;
use compare::street::Street;
use compare::streets;
use compare::trial::{in_parallel, Case};

const SEED: u64 = 2_118;
const CASES: u64 = 5_000;

fn random_case(seed: u64, number: u64) -> Case {
    let random = &mut Random::new(seed, number);
    let street = streets::street(random);
    let request = ask(random, &street).to_string() + &room(random, &street);
    Case::asking(random, number, request, &street)
}

#[test]
fn cases_moves_width_as_the_model_does() {
    if let Some(cases) = hold("moved", SEED, CASES, random_case) {
        cover(&cases);
    }
}

/// The rules' fifth example, with a negative B.
const ROW_5: &[u8] = b"1\n600\n2\n0 500\n15000 500\n1\n1000 1000\n";

/// The school street, with B 100 and g 400.
const SCHOOL: &[u8] = b"1\n600\n2\n0 400\n15000 400\n1\n1000 1000\n";

#[test]
fn the_rules_examples_come_out() {
    expect(&[
        (&["outbound 80", "outbound 80 room 2"], STREET_A, "1 60 80 40 0\n180\n10"),
        (&["inbound 80", "inbound 80 room 64"], STREET_A, "1 60 40 80 0\n0\n190"),
        (&["outbound 200"], ROW_5, "1 -100 200 0 0\n900\n0"),
        (&["outbound 59", "outbound 101", "inbound 59", "inbound 101"], STREET_A, "refused 9 0"),
        (&["outbound 60", "inbound 60", "platoons 7 7", "platoons 0 0"], STREET_A, "1 60 60 60 0\n0\n10"),
        (&["outbound 100", "platoons 100 50"], STREET_A, "1 60 100 20 0\n160\n10"),
        (&["inbound 100", "platoons 50 100", "platoons 0 1"], STREET_A, "1 60 20 100 0\n0\n170"),
        (&["outbound 90", "platoons 30 10", "platoons 90 30"], STREET_A, "1 60 90 30 0\n170\n10"),
        (&["platoons 50 10", "platoons 1 0", "platoons 100000 0"], ROW_5, "1 -100 200 0 0\n900\n0"),
        (&["platoons 50 0", "platoons 1 0", "platoons 200 0"], SCHOOL, "1 100 400 0 0\n900\n0"),
        (&["platoons 0 50", "platoons 0 200", "platoons 1 200"], SCHOOL, "1 100 0 400 0\n0\n900"),
        (&["outbound 199", "platoons 199 1", "platoons 199 2"], SCHOOL, "1 100 199 1 0\n1101\n0"),
    ]);
}

#[test]
fn one_platoon_alone_gets_more_than_the_paper_has_where_2b_is_below_g() {
    let (mut tried, mut wider) = (0, 0);
    for (best, g) in (-3..=9).flat_map(|best| (best.max(1)..=24).map(move |g| (best, g))) {
        for (out, back) in (0..900).map(|k| (k / 30, k % 30)).filter(|(out, back)| out != back) {
            let (larger, sum) = (out.max(back), out + back);
            let papers = papers_width(larger, sum, best, g);
            let width = match platoon_rule(out, back, best, g) {
                Ask::Outbound(width) if out > back => width,
                Ask::Inbound(width) if out < back => width,
                other => panic!("{out} and {back} ask for {other}"),
            };
            let alone = larger == sum && sum <= 2 * best && 2 * best < g;
            let expected = if alone { (2 * best, g) } else { (width, width) };
            assert_eq!((papers, width), expected, "{out} and {back} with B {best} and g {g}");
            assert!(width < 2 * best || width == g, "{out} and {back} with B {best} and g {g}");
            tried += 1;
            wider += usize::from(alone);
        }
    }
    assert!(wider > 1_000 && tried > 100 * wider, "{wider} of {tried}");
}

#[test]
fn a_request_must_lie_in_its_range() {
    let never = ["outbound 0", "inbound 0", "outbound 201", "inbound 201", "outbound 4294967295"];
    expect(&[
        (&never, ROW_5, "refused 9 0"),
        (&["outbound 1 room 2"], ROW_5, "1 -100 1 0 0\n1099\n0"),
        (&["inbound 1 room 32"], ROW_5, "1 -100 0 1 0\n0\n1099"),
        (&["platoons 100001 100001", "platoons 100001 0", "platoons 4294967295 0"], ROW_5, "refused 8 1"),
        (&["platoons 100000 100001", "platoons 0 4294967295"], ROW_5, "refused 8 2"),
    ]);
}

#[test]
fn faults_are_named_in_the_order_of_the_codes() {
    let all = ["outbound 0", "inbound 99", "platoons 100001 0"];
    let short = ["outbound 0 room 1", "inbound 99 room 0", "platoons 100001 0 room 1"];
    expect(&[
        (&short, b"1\n9\n2\n0 9\n0 9\n1\n0 0", "refused 1 0"),
        (&short, b"1\n9\n33\n", "refused 2 0"),
        (&short, b"1\n9\n2\n0 9\n0 9\n2\n", "refused 2 0"),
        (&short, b"1\n9\n2\n0 9\n0 9\n1\n0 0\n", "refused 3 0"),
        (&all, b"1\n9\n2\n0 9\n0 9\n1\n0 0\n", "refused 4 0"),
        (&all, b"1\n10\n2\n0 9\n0 10\n1\n0 0\n", "refused 5 2"),
        (&all, b"1\n10\n2\n0 9\n0 9\n1\n0 0\n", "refused 6 2"),
        (&all, b"1\n10\n2\n0 9\n1 9\n1\n1000 999\n", "refused 7 1"),
        (&all[..2], b"1\n10\n2\n0 9\n1 9\n1\n1000 1000\n", "refused 9 0"),
    ]);
}

#[test]
fn a_request_of_another_form_is_bad() {
    let bad: [&[&str]; 7] = [
        &[
            "outbound",
            "outbound ",
            "outbound 80 ",
            "outbound  80",
            " outbound 80",
            "outbound 80\r",
            "outbound80",
        ],
        &["inbound", "inbound ", "inbound 80 90", "inbound x", "inbound 8x", "inbound -1", "Inbound 80"],
        &["outbound room 5", "outbound 80 room", "outbound 80 room 65", "outbound 80 room x", "outbounds 80"],
        &["inbound 80 room 5 6", "inbound room", "inbound 80  room 5", "room 5 inbound 80", "inbounds 80"],
        &[
            "platoons",
            "platoons 1",
            "platoons 1 ",
            "platoons 1 2 3",
            "platoons 1  2",
            "platoons 1 2 ",
            "platoon 1 2",
        ],
        &[
            "platoons 1 room 5",
            "platoons 1 2 room",
            "platoons 1 2 room 65",
            "platoons -1 2",
            "platoons 1 2.5",
        ],
        &[
            "outbound 4294967296",
            "inbound 4294967376",
            "platoons 1 4294967296",
            "platoons 18446744073709551617 2",
        ],
    ];
    expect(&bad.map(|requests| (requests, STREET_A, "bad request")));
}

#[test]
fn a_moved_plan_has_the_bands_that_it_names() {
    let asked = |k: u64| {
        let random = &mut Random::new(SEED + 1, k);
        let street = streets::street(random);
        let ask = ask(random, &street);
        plan(&street, ask, 32).is_ok().then_some((street, vec![ask]))
    };
    let asked: Vec<(Street, Vec<Ask>)> = (0..600).filter_map(asked).collect();
    let plans = promised(&asked);
    let one_sided = plans.iter().filter(|plan| plan.outbound.min(plan.inbound) == 0).count();
    let resting = asked.iter().filter(|(street, _)| street.reds.contains(&0)).count();
    assert!(one_sided > 50, "{one_sided} plans leave a direction 0: this run shows too little");
    assert!(resting > 50, "{resting} streets have a red of 0: this run shows too little");
}

/// A small street with every width that can be asked of it, both ways.
fn asked_everything(k: u64) -> (Street, Vec<Ask>) {
    let random = &mut Random::new(SEED + 2, k);
    let (n, cycle) = random.pick(&[(1, 20), (2, 10), (2, 15), (2, 24), (3, 10), (3, 11)]);
    let street = streets::sized(random, n, cycle);
    let asks = every_width(&street);
    (street, asks)
}

#[test]
fn no_offsets_give_the_other_side_more() {
    let asked: Vec<(Street, Vec<Ask>)> = (0..40).map(asked_everything).collect();
    let served: Vec<_> = asked.iter().zip(plans_asked(&asked)).collect();
    let found = in_parallel(&served, |((street, asks), plans)| beaten(street, asks, plans));
    assert!(found.is_empty(), "{found:?}");
}
