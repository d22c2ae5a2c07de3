//! Volumes through `cases`: random ones at every limit, the largest that fit each plan, the order of the faults, and on
//! small streets that two volumes get the plan of their platoons.
//!
//! `COMPARE_SEED` sets the seed of the random cases, and `COMPARE_CASE` replays one of them by its number.

use compare::asked_volumes::cover;
use compare::asks::{room, volumes};
use compare::hold::{expect, hold, replies};
use compare::moved::{plan, Ask};
use compare::page::sheet;
use compare::printed::plan_in;
use compare::random::Random;
use compare::run::Program;
use compare::sheet::{read, STREET_A};
use compare::street::{refusal, Street, CYCLE};
use compare::streets;
use compare::tally::Tally;
use compare::trial::Case;
use compare::volumes::{fitting, largest, platoon, HEADWAY, MAX_VOLUME, PER_HALF};

const SEED: u64 = 4_118;
const CASES: u64 = 8_000;

/// A street of any kind, or with a cycle at which platoons can be too long or V*C*h be one off a multiple of 18,000.
fn street(random: &mut Random) -> Street {
    if !random.one_in(3) {
        return streets::street(random);
    }
    let (n, cycle) = (random.within(1, 32), random.pick(&[CYCLE.1, CYCLE.1, CYCLE.1 - 1, 1_001, 77]));
    streets::sized(random, n as usize, cycle)
}

fn random_case(seed: u64, number: u64) -> Case {
    let random = &mut Random::new(seed, number);
    let street = street(random);
    let request = volumes(random, &street).to_string() + &room(random, &street);
    Case::asking(random, number, request, &street)
}

#[test]
fn cases_serves_volumes_as_the_model_does() {
    if let Some(cases) = hold("volumes", SEED, CASES, random_case) {
        cover(&cases);
    }
}

#[test]
fn volumes_worked_out_by_hand() {
    let sheets = ["row-5-negative-b.txt", "row-school-one-platoon.txt", "row-long-cycle.txt"];
    let [row_5, school, long] = sheets.map(sheet);
    let formed = ["volumes 800 300 20", "volumes 800 300 20 room 2", "volumes 0800 300 020 room 064"];
    expect(&[
        (&formed, STREET_A, "1 60 89 31 0\n171\n10\n801 279"),
        (&["volumes 270 90 20", "volumes 269 82 20"], STREET_A, "1 60 90 30 0\n170\n10\n810 270"),
        (&["volumes 265 270 20", "volumes 0 0 20"], STREET_A, "1 60 60 60 0\n0\n10\n540 540"),
        (&["volumes 0 0 1", "volumes 180 1 1"], STREET_A, "1 60 60 60 0\n0\n10\n10000 10000"),
        (&["volumes 75 0 20", "volumes 1 0 20"], &school, "1 100 400 0 0\n900\n0\n600 0"),
        (&["volumes 0 75 20", "volumes 1 300 20"], &school, "1 100 0 400 0\n0\n900\n0 600"),
        (&["volumes 1 0 1", "volumes 10000 9990 1"], &row_5, "1 -100 200 0 0\n900\n0\n6000 0"),
        (&["volumes 3000 2999 100", "volumes 3000 3000 100"], &long, "1 6000 6000 6000 0\n0\n180 180"),
        (&["volumes 10000 10000 30"], &long, "1 6000 6000 6000 0\n0\n600 600"),
    ]);
}

#[test]
fn the_largest_volume_at_the_ends_of_its_range() {
    expect(&[
        // A vehicle takes 33 1/3 halves: none fits 32, one fits 34.
        (&["volumes 0 0 100"], b"1\n6000\n1\n0 5984\n0\n", "1 32 32 32 0\n0\n0 0"),
        (&["volumes 0 0 100"], b"1\n6000\n1\n0 5983\n0\n", "1 34 34 34 0\n0\n1 1"),
        // 10,000 vehicles fill 10 halves; at a cycle of 2,009 they need 1,117, and 9,999 of them 1,116.
        (&["volumes 0 0 1", "volumes 10000 0 1"], b"1\n18\n1\n0 13\n0\n", "1 10 10 10 0\n0\n10000 10000"),
        (&["volumes 0 0 1"], b"1\n18\n1\n0 14\n0\n", "1 8 8 8 0\n0\n8000 8000"),
        (&["volumes 0 0 1"], b"1\n2009\n1\n0 1451\n0\n", "1 1116 1116 1116 0\n0\n9999 9999"),
        (&["volumes 0 0 1"], b"1\n2009\n1\n0 1450\n0\n", "1 1118 1118 1118 0\n0\n10000 10000"),
        (&["volumes 10000 10000 100"], b"1\n10\n1\n0 9\n0\n", "1 2 2 2 0\n0\n36 36"),
    ]);
}

#[test]
fn volumes_and_headways_must_lie_in_their_ranges() {
    let (long, outbound) =
        (sheet("row-long-cycle.txt"), ["volumes 10001 10001 0", "volumes 4294967295 0 20"]);
    expect(&[
        (&outbound, STREET_A, "refused 11 1"),
        (&["volumes 0 10001 0", "volumes 10000 4294967295 4294967295"], STREET_A, "refused 11 2"),
        (&["volumes 0 0 0", "volumes 0 0 101", "volumes 10000 10000 4294967295"], STREET_A, "refused 11 3"),
        (&["volumes 3001 0 100", "volumes 3001 10000 100", "volumes 10000 0 31"], &long, "refused 8 1"),
        (&["volumes 3000 3001 100", "volumes 0 10000 31"], &long, "refused 8 2"),
    ]);
}

#[test]
fn faults_are_named_in_the_order_of_the_codes() {
    let asked = ["volumes 10001 10001 0 room 1", "volumes 4294967295 10001 101 room 0"];
    let roomy = ["volumes 10001 10001 0", "volumes 10001 4294967295 101 room 2"];
    let good: &[u8] = b"1\n6000\n2\n0 3000\n1 3000\n1\n1000 1000\n";
    expect(&[
        (&asked, b"1\n6001\n2\n0 6000\n0 6001\n1\n0 0", "refused 1 0"),
        (&asked, b"1\n6001\n33\n", "refused 2 0"),
        (&asked, b"1\n6001\n2\n0 6000\n0 6001\n2\n", "refused 2 0"),
        (&asked, b"1\n6001\n2\n0 6000\n0 6001\n1\n0 0\n", "refused 3 0"),
        (&roomy, b"1\n6001\n2\n0 6000\n0 6001\n1\n0 0\n", "refused 4 0"),
        (&roomy, b"1\n6000\n2\n0 3000\n0 6000\n1\n0 0\n", "refused 5 2"),
        (&roomy, b"1\n6000\n2\n0 3000\n0 3000\n1\n0 0\n", "refused 6 2"),
        (&roomy, b"1\n6000\n2\n0 3000\n1 3000\n1\n1000 999\n", "refused 7 1"),
        (&asked, good, "refused 3 0"),
        (&roomy, good, "refused 11 1"),
        (&["volumes 10000 10001 0", "volumes 10000 10001 101"], good, "refused 11 2"),
        (&["volumes 10000 10000 0", "volumes 10000 10000 101"], good, "refused 11 3"),
        (&["volumes 10000 10000 100"], good, "refused 8 1"),
        (&["volumes 3000 10000 100"], good, "refused 8 2"),
        (&["volumes 3000 3000 100"], good, "1 6000 6000 6000 1\n0\n0\n180 180"),
    ]);
}

/// No sheet has lists that do not belong together, so these go to the model alone.
#[test]
fn lists_that_make_no_street_are_refused_before_volumes() {
    let street = read(STREET_A).expect("street A");
    let shorter = Street { inbound: vec![], ..street.clone() };
    for (out, back, headway) in [(800, 300, 20), (10_001, 0, 20), (0, 0, 0)] {
        assert_eq!(plan(&shorter, Ask::Volumes(out, back, headway), 0), Err(refusal(2, 0)));
        assert_eq!(plan(&street, Ask::Volumes(out, back, headway), 1), Err(refusal(3, 0)));
    }
}

#[test]
fn a_request_of_another_form_is_bad() {
    let bad: [&[&str]; 11] = [
        &["volumes", "volumes ", "volumes 800", "volumes 800 ", "volumes 800 300", "volumes 800 300 "],
        &["volumes 800 300 20 ", " volumes 800 300 20", "volumes  800 300 20", "volumes 800  300 20"],
        &["volumes 800 300  20", "volumes 800 300 20 5", "volumes 800\t300 20", "volumes 800 300 20\r"],
        &["volumes 800 300 -20", "volumes 800 +300 20", "volumes 800.0 300 20", "volumes 8x 300 20"],
        &["volumes x 300 20", "volumes 800 x 20", "volumes 800 300 x", "volumes 800, 300, 20"],
        &["volume 800 300 20", "volumes800 300 20", "Volumes 800 300 20", "volumess 800 300 20"],
        &["volumes room 5", "volumes 800 room 5", "volumes 800 300 room 5", "room 5 volumes 800 300 20"],
        &["volumes 800 300 20 room", "volumes 800 300 20 room ", "volumes 800 300 20 room 65"],
        &["volumes 800 300 20  room 5", "volumes 800 300 20 room 5 6", "volumes 800 300 20 room x"],
        &["volumes 4294967296 300 20", "volumes 800 4294967296 20", "volumes 800 300 4294967296"],
        &["volumes 18446744073709552416 300 20", "volumes 800 300 18446744073709551636"],
    ];
    expect(&bad.map(|requests| (requests, STREET_A, "bad request")));
}

/// The cycles and headways over which the model is held to itself.
fn cycles_and_headways() -> impl Iterator<Item = (i64, i64)> {
    let cycles = [10, 11, 59, 90, 179, 180, 181, 600, 1_001, 1_799, 1_800, 2_009, 5_999, 6_000];
    cycles.into_iter().flat_map(|cycle| (HEADWAY.0..=HEADWAY.1).map(move |headway| (cycle, headway)))
}

#[test]
fn a_platoon_is_the_shortest_that_holds_its_volume() {
    let mut tally = Tally::of(&[("exact", 100_000), ("rounded up", 1_000_000)]);
    for (cycle, headway) in cycles_and_headways() {
        assert_eq!(platoon(0, cycle, headway), 0);
        for volume in (1..=MAX_VOLUME).step_by(3) {
            let (product, halves) = (volume * cycle * headway, platoon(volume, cycle, headway));
            let held = PER_HALF * (halves - 1) < product && product <= PER_HALF * halves;
            assert!(held, "{volume} vehicles an hour with {cycle} and {headway} ticks");
            tally.note("exact", product == PER_HALF * halves);
            tally.note("rounded up", product < PER_HALF * halves);
        }
    }
    tally.close();
}

#[test]
fn the_largest_volume_is_what_a_division_gives() {
    let mut tally = Tally::of(&[("10,000", 1_000), ("between", 1_000), ("0", 1_000)]);
    for (k, (cycle, headway)) in cycles_and_headways().enumerate() {
        let random = &mut Random::new(SEED + 1, k as u64);
        let [one, all] = [1, MAX_VOLUME].map(|volume| platoon(volume, cycle, headway));
        for width in [0, 1, one - 1, one, all - 1, all, 2 * cycle - 2, random.within(0, 2 * cycle)] {
            let (volume, product) = (largest(width, cycle, headway), cycle * headway);
            assert_eq!(
                volume,
                MAX_VOLUME.min(PER_HALF * width / product),
                "{width} by {cycle} and {headway}"
            );
            tally.note("10,000", volume == MAX_VOLUME);
            tally.note("between", 0 < volume && volume < MAX_VOLUME);
            tally.note("0", volume == 0);
        }
    }
    tally.close();
}

/// A small street, and for every two platoons up to a little more than its cycle a request for two such volumes and one
/// for the platoons themselves. Of the volumes that come to a platoon, outbound has the largest and inbound the least.
fn asked_twice(k: u64) -> (Street, Vec<(Ask, Ask)>) {
    let random = &mut Random::new(SEED + 2, k);
    let (n, cycle) = random.pick(&[(1, 20), (2, 10), (2, 15), (2, 24), (3, 10), (3, 11)]);
    let (street, headway) = (streets::sized(random, n, cycle), HEADWAY.1);
    let of = |halves: i64, volume: i64| platoon(volume, cycle, headway) == halves;
    let ask = |out: i64, back: i64| {
        let most = (0..=MAX_VOLUME).rev().find(|&volume| of(out, volume)).expect("a volume");
        let least = (0..=MAX_VOLUME).find(|&volume| of(back, volume)).expect("a volume");
        (Ask::Volumes(most, least, headway), Ask::Platoons(out, back))
    };
    let platoons = 0..=2 * cycle + 4;
    (street, platoons.clone().flat_map(|out| platoons.clone().map(move |back| ask(out, back))).collect())
}

#[test]
fn volumes_get_the_plan_of_their_platoons() {
    let (program, mut tried) = (Program::cases(), 0);
    for (street, asks) in (0..8).map(asked_twice) {
        let about = |(volumes, platoons)| (Case::about(&street, volumes), Case::about(&street, platoons));
        let (volumes, platoons): (Vec<Case>, Vec<Case>) = asks.into_iter().map(about).unzip();
        let plans = replies(&program, &platoons);
        for ((answer, text), case) in replies(&program, &volumes).iter().zip(plans).zip(&volumes) {
            let plan = plan_in(&text).unwrap_or_else(|| panic!("`{text}` is no plan"));
            let [out, back] = fitting(&plan, street.cycle, HEADWAY.1);
            assert_eq!(*answer, format!("{text}\n{out} {back}"), "{case:?}");
            tried += 1;
        }
    }
    assert!(tried > 5_000, "{tried} requests for volumes");
}
