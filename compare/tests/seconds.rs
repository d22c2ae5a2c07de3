//! Whole seconds for cabinets through `cases`: random requests of every kind, streets worked out by hand, the order of the
//! faults, and what the cabinets keep of the named bands, at rounded times and at exact ones.
//!
//! `COMPARE_SEED` sets the seed of the random cases, and `COMPARE_CASE` replays one of them by its number.

use compare::asked_seconds::cover;
use compare::asks::{any, ask, room};
use compare::bands::clear;
use compare::cases::LARGEST_ROOM;
use compare::equal::Plan;
use compare::exact::Fine;
use compare::hold::{expect, hold, planned, plans_asked, replies, widths};
use compare::moved::{plan, Ask};
use compare::named::{named, Named};
use compare::page::sheet;
use compare::random::Random;
use compare::resting::{holds, rest, Resting, RESTING};
use compare::run::Program;
use compare::seconds::{cabinets, kept, moved_by, nearest, SECOND, TICKS};
use compare::sheet::{read, write, STREET_A};
use compare::street::{refusal, Street, CYCLE, MAX_SIGNALS};
use compare::streets;
use compare::tally::Tally;
use compare::trial::Case;

const SEED: u64 = 7_118;
const CASES: u64 = 8_000;

/// A street of any kind, mostly with a cycle of whole seconds.
fn street(random: &mut Random) -> Street {
    if random.one_in(3) {
        streets::street(random)
    } else {
        streets::in_seconds(random)
    }
}

fn random_case(seed: u64, number: u64) -> Case {
    let random = &mut Random::new(seed, number);
    let street = street(random);
    let request = format!("seconds {}{}", any(random, &street), room(random, &street));
    Case::asking(random, number, request, &street)
}

#[test]
fn cases_serves_seconds_as_the_model_does() {
    if let Some(cases) = hold("seconds", SEED, CASES, random_case) {
        cover(&cases);
    }
}

#[test]
fn street_a_worked_out_by_hand() {
    let equal = ["seconds equal", "seconds equal room 2", "seconds equal room 64", "seconds platoons 7 7"];
    expect(&[
        // Green starts at 0 + 40 and at 10 + 50.
        (&equal, STREET_A, "1 60 60 60 0\n2\n3"),
        // The offsets are 180 and 10, so green starts at 220 less 200 and at 60.
        (&["seconds outbound 80", "seconds outbound 080 room 2"], STREET_A, "1 60 80 40 0\n1\n3"),
        (&["seconds inbound 80"], STREET_A, "1 60 40 80 0\n2\n2"),
        // 170 + 40 is 10 past the cycle, half-way between two seconds; 171 + 40 is 11 past it.
        (&["seconds platoons 30 10", "seconds outbound 90"], STREET_A, "1 60 90 30 0\n1\n3"),
        (&["seconds volumes 800 300 20", "seconds outbound 89"], STREET_A, "1 60 89 31 0\n1\n3"),
        (&["seconds outbound 91"], STREET_A, "1 60 91 29 0\n0\n3"),
        // 199, 190 and 189 become starts at 39, 30 and 29.
        (&["seconds outbound 61"], STREET_A, "1 60 61 59 0\n2\n3"),
        (&["seconds outbound 70"], STREET_A, "1 60 70 50 0\n2\n3"),
        (&["seconds outbound 71"], STREET_A, "1 60 71 49 0\n1\n3"),
        (&["seconds outbound 59", "seconds inbound 101"], STREET_A, "refused 9 0"),
        (&["seconds equal room 1", "seconds outbound 59 room 0"], STREET_A, "refused 3 0"),
        (&["seconds platoons 100001 100001"], STREET_A, "refused 8 1"),
        (&["seconds volumes 0 10001 0"], STREET_A, "refused 11 2"),
    ]);
}

#[test]
fn streets_worked_out_by_hand() {
    let [crossing, all, one, row_5] = [
        "row-resting-crossing.txt",
        "row-resting-all.txt",
        "row-resting-one-red.txt",
        "row-5-negative-b.txt",
    ]
    .map(sheet);
    expect(&[
        // 990 + 240 is half-way between two seconds, and the signal that rests has 45, its offset.
        (&["seconds equal"], &crossing, "3 1250 1250 1250 0\n62\n2\n11"),
        (&["seconds outbound 1320", "seconds platoons 2 1"], &crossing, "3 1250 1320 1180 0\n62\n2\n8"),
        (&["seconds inbound 1320", "seconds volumes 0 300 20"], &crossing, "3 1250 1180 1320 0\n58\n2\n11"),
        (&["seconds equal", "seconds outbound 1200"], &all, "1 1200 1200 1200 0\n0\n59"),
        (&["seconds equal", "seconds inbound 18"], &one, "1 18 18 18 0\n0\n0"),
        (&["seconds equal"], &row_5, "1 -100 0 0 0\n25\n25"),
        (&["seconds outbound 200", "seconds platoons 1 0"], &row_5, "1 -100 200 0 0\n10\n25"),
        (&["seconds equal"], b"1\n6000\n1\n0 5999\n0\n", "1 2 2 2 0\n300"),
        (&["seconds equal"], b"1\n10\n1\n0 9\n0\n", "1 2 2 2 0\n0"),
    ]);
}

/// A street of two signals with the same red and a link of half a cycle each way: its offsets are 0 and C, where the red is
/// not 0.
fn half_a_cycle(cycle: i64, red: i64) -> Street {
    Street {
        cycle,
        reds: vec![red; 2],
        distances: vec![0, 50 * cycle],
        outbound: vec![1_000],
        inbound: vec![1_000],
    }
}

/// Greens that start at each instant of a cycle, but for the two at which a red of no length would end.
#[test]
fn each_start_goes_to_its_nearest_second_round_the_cycle() {
    let (mut tried, mut rows) = (0, vec![]);
    for (cycle, red) in
        [10, 20, 30, 100, 130].into_iter().flat_map(|cycle| (1..cycle).map(move |red| (cycle, red)))
    {
        let (width, last) = (2 * (cycle - red), cycle / TICKS);
        let [first, second] = [red, cycle + red].map(|start| (start + 10) / SECOND % last);
        let text = format!("1 {width} {width} {width} 0\n{first}\n{second}");
        rows.push((write(&half_a_cycle(cycle, red)), text));
        tried += 2;
    }
    let rows: Vec<_> =
        rows.iter().map(|(sheet, text)| (&["seconds equal"][..], &sheet[..], &text[..])).collect();
    expect(&rows);
    assert_eq!(tried, 2 * (10 + 20 + 30 + 100 + 130) - 2 * 5);
    let ends = [(89, "4\n9"), (90, "5\n0"), (91, "5\n0"), (99, "5\n0")];
    for (red, seconds) in ends {
        let width = 200 - 2 * red;
        let text = format!("1 {width} {width} {width} 0\n{seconds}");
        expect(&[(&["seconds equal"], &write(&half_a_cycle(100, red)), &text)]);
    }
}

/// 32 signals in one place but for some millimetres, with reds from 0 to 31: each green starts as long after 0 as its red is.
#[test]
fn a_street_with_a_start_at_each_place_between_two_seconds() {
    let n = MAX_SIGNALS as i64;
    let links = vec![1_000; MAX_SIGNALS - 1];
    let street = Street {
        cycle: 600,
        reds: (0..n).collect(),
        distances: (0..n).collect(),
        outbound: links.clone(),
        inbound: links,
    };
    let seconds: String = (0..n).map(|red| format!("\n{}", [0, 1, 2][(red as usize + 10) / 20])).collect();
    let text = format!("32 1138 1138 1138 31{seconds}");
    expect(&[(&["seconds equal", "seconds equal room 32", "seconds outbound 1138"], &write(&street), &text)]);
}

#[test]
fn a_cycle_is_to_be_a_whole_number_of_seconds() {
    let sheet = |cycle: i64| format!("1\n{cycle}\n1\n0 0\n0\n").into_bytes();
    let case = |cycle: i64| Case { number: 0, request: "seconds equal".to_string(), sheet: sheet(cycle) };
    let cycles: Vec<i64> = (0..=CYCLE.1 + 20).chain([99_999_990, 99_999_999]).collect();
    let cases: Vec<Case> = cycles.iter().map(|&cycle| case(cycle)).collect();
    for (cycle, text) in cycles.iter().zip(replies(&Program::cases(), &cases)) {
        let expected = match cycle {
            cycle if !(10..=6_000).contains(cycle) => "refused 4 0".to_string(),
            cycle if cycle % 10 > 0 => "refused 13 0".to_string(),
            cycle => format!("1 {0} {0} {0} 0\n0", 2 * cycle),
        };
        assert_eq!(text, expected, "a cycle of {cycle}");
    }
}

#[test]
fn faults_are_named_in_the_order_of_the_checks() {
    let short = [
        "seconds outbound 0 room 1",
        "seconds platoons 100001 0 room 0",
        "seconds volumes 10001 0 20 room 1",
        "seconds equal room 1",
    ];
    let asked =
        ["seconds outbound 0", "seconds platoons 100001 0", "seconds volumes 10001 0 20", "seconds equal"];
    let good: &[u8] = b"1\n100\n2\n0 50\n1 50\n1\n1000 1000\n";
    expect(&[
        (&short, b"1\n105\n2\n0 105\n0 106\n1\n0 0", "refused 1 0"),
        (&short, b"1\n105\n33\n", "refused 2 0"),
        (&short, b"1\n105\n2\n0 105\n0 106\n2\n", "refused 2 0"),
        (&short, b"1\n9\n2\n0 105\n0 106\n1\n0 0\n", "refused 3 0"),
        (&short, b"1\n105\n2\n0 105\n0 106\n1\n0 0\n", "refused 3 0"),
        (&short, b"1\n105\n2\n0 50\n1 50\n1\n1000 1000\n", "refused 3 0"),
        (&asked, b"1\n9\n2\n0 105\n0 106\n1\n0 0\n", "refused 4 0"),
        (&asked, b"1\n6001\n2\n0 6001\n0 6001\n1\n0 0\n", "refused 4 0"),
        (&asked, b"1\n6010\n2\n0 6010\n0 6010\n1\n0 0\n", "refused 4 0"),
        (&asked, b"1\n105\n2\n0 105\n0 106\n1\n0 0\n", "refused 13 0"),
        (&asked, b"1\n101\n2\n0 50\n0 50\n1\n0 0\n", "refused 13 0"),
        (&asked, b"1\n109\n2\n0 50\n1 50\n1\n1000 999\n", "refused 13 0"),
        (&asked, b"1\n5999\n2\n0 50\n1 50\n1\n1000 1000\n", "refused 13 0"),
        (&asked, b"1\n11\n2\n0 5\n1 5\n1\n1000 1000\n", "refused 13 0"),
        (&asked, b"1\n100\n2\n0 50\n0 100\n1\n0 0\n", "refused 5 2"),
        (&asked, b"1\n100\n2\n0 50\n0 50\n1\n0 0\n", "refused 6 2"),
        (&asked, b"1\n100\n2\n0 50\n1 50\n1\n1000 999\n", "refused 7 1"),
        (&asked[..1], good, "refused 9 0"),
        (&asked[1..2], good, "refused 8 1"),
        (&asked[2..3], good, "refused 11 1"),
        (&asked[3..], good, "1 100 100 100 1\n3\n3"),
    ]);
}

#[test]
fn no_other_request_asks_for_whole_seconds() {
    let street = Street { cycle: 105, ..read(STREET_A).expect("street A") };
    let others = [
        "equal",
        "outbound 90",
        "inbound 90",
        "platoons 30 10",
        "volumes 800 300 20",
        "measure 0 10",
        "write",
    ];
    let ask = |request: &str| Case::about(&street, request);
    let answers = replies(&Program::cases(), &others.map(ask));
    for (text, request) in answers.iter().zip(others) {
        assert!(!text.starts_with("refused") && !text.starts_with("bad"), "{request} gets {text}");
    }
    let seconds: Vec<Case> = others[..5].iter().map(|other| ask(&format!("seconds {other}"))).collect();
    assert_eq!(replies(&Program::cases(), &seconds), vec!["refused 13 0"; 5]);
}

#[test]
fn the_lent_list_has_the_length_that_is_asked_for() {
    for n in [1, 2, 20, 32] {
        let street = streets::sized(&mut Random::new(SEED + 1, n as u64), n, 600);
        let cases: Vec<Case> = (0..=LARGEST_ROOM)
            .map(|room| Case::about(&street, format!("seconds equal room {room}")))
            .collect();
        let texts = replies(&Program::cases(), &cases);
        assert!(texts[..n].iter().all(|text| text == "refused 3 0"), "{n} signals: {texts:?}");
        assert!(
            texts[n..].iter().all(|text| *text == texts[n] && text.lines().count() == n + 1),
            "{n} signals: {texts:?}"
        );
    }
}

/// No sheet has lists that do not belong together, so these go to the model alone.
#[test]
fn lists_that_make_no_street_are_refused_before_the_cycle() {
    let street = Street { cycle: 105, ..read(STREET_A).expect("street A") };
    let shorter = Street { inbound: vec![], ..street.clone() };
    let bad_red = Street { reds: vec![105, 0], ..street.clone() };
    for ask in [Ask::Equal, Ask::Outbound(0), Ask::Platoons(100_001, 0), Ask::Volumes(10_001, 0, 20)] {
        assert_eq!(cabinets(&shorter, ask, 0), Err(refusal(2, 0)));
        assert_eq!(cabinets(&street, ask, 1), Err(refusal(3, 0)));
        assert_eq!(cabinets(&Street { cycle: 9, ..street.clone() }, ask, 2), Err(refusal(4, 0)));
        assert_eq!(cabinets(&bad_red, ask, 2), Err(refusal(13, 0)));
        assert_eq!(cabinets(&Street { cycle: 100, ..bad_red.clone() }, ask, 2), Err(refusal(5, 1)));
    }
}

#[test]
fn a_request_of_another_form_is_bad() {
    let bad: [&[&str]; 12] = [
        &[
            "seconds",
            "seconds ",
            "seconds\r",
            " seconds equal",
            "seconds  equal",
            "seconds equal ",
            "seconds equal\r",
        ],
        &[
            "second equal",
            "Seconds equal",
            "secondsequal",
            "seconds\tequal",
            "seconds,equal",
            "equal seconds",
        ],
        &[
            "seconds measure 0 10",
            "seconds measure",
            "seconds write",
            "seconds write room 36",
            "seconds survey 100",
        ],
        &["seconds seconds", "seconds seconds equal", "seconds room 5", "seconds room 5 equal", "seconds 5"],
        &["seconds equals", "seconds Equal", "seconds equal 5", "seconds 5 equal", "seconds outbounds 80"],
        &[
            "seconds outbound",
            "seconds outbound ",
            "seconds outbound 80 ",
            "seconds outbound  80",
            "seconds outbound80",
        ],
        &[
            "seconds inbound",
            "seconds inbound 80 90",
            "seconds inbound -1",
            "seconds inbound x",
            "seconds inbound 8.0",
        ],
        &["seconds platoons", "seconds platoons 30", "seconds platoons 30 10 5", "seconds platoons 30  10"],
        &[
            "seconds volumes 800 300",
            "seconds volumes 800 300 20 5",
            "seconds volumes",
            "seconds volume 800 300 20",
        ],
        &[
            "seconds equal room",
            "seconds equal room ",
            "seconds equal room 65",
            "seconds equal room x",
            "room 5 seconds equal",
        ],
        &[
            "seconds equal room 4096",
            "seconds equal  room 5",
            "seconds equal room 5 6",
            "seconds volumes 800 300 20 room 65",
        ],
        &[
            "seconds outbound 4294967296",
            "seconds inbound 18446744073709551696",
            "seconds equal room 4294967328",
        ],
    ];
    expect(&bad.map(|requests| (requests, STREET_A, "bad request")));
}

#[test]
fn a_second_is_the_nearest_round_the_cycle_and_no_start_moves_far() {
    let mut tally =
        Tally::of(&(-9..=10).map(|by| (format!("moved by {by}"), 500)).collect::<Vec<(String, usize)>>());
    for halves in [20, 40, 60, 80, 200, 1_300, 12_000] {
        for start in 0..halves {
            let second = nearest(start, halves);
            let by = moved_by(start, second, halves);
            assert_eq!(second, (start + 10) / SECOND % (halves / SECOND), "{start} of {halves}");
            assert!(
                (0..halves / SECOND).all(|other| moved_by(start, other, halves).abs() >= by.abs()),
                "{start} of {halves}"
            );
            tally.note(&format!("moved by {by}"), true);
        }
    }
    tally.close();
}

/// A plan of a street, the offsets that cabinets keep by the seconds that `cases` itself gives for it, and the widths that it
/// measures under these.
struct Served {
    street: Street,
    plan: Plan,
    kept: Vec<i64>,
    widths: [i64; 2],
}

fn served(asked: &[(Street, Vec<Ask>)]) -> Vec<Served> {
    let in_seconds = |(street, asks): &(Street, Vec<Ask>)| {
        (street.clone(), asks.iter().map(|ask| format!("seconds {ask}")).collect())
    };
    let in_seconds: Vec<(Street, Vec<String>)> = asked.iter().map(in_seconds).collect();
    let ((streets, plans), told) = (planned(asked), plans_asked(&in_seconds).concat());
    for (told, plan) in told.iter().zip(&plans) {
        assert_eq!(
            &Plan { offsets: plan.offsets.clone(), ..told.clone() },
            plan,
            "the numbers are the plan's"
        );
    }
    let keeping = |(street, told): (&Street, Plan)| Plan { offsets: kept(street, &told.offsets), ..told };
    let keeping: Vec<Plan> = streets.iter().zip(told).map(keeping).collect();
    let measured = widths(&streets, &keeping);
    let one = |(k, (street, plan)): (usize, (Street, Plan))| {
        let (kept, (out, back)) = (keeping[k].offsets.clone(), measured[k]);
        Served { street, plan, kept, widths: [out, back] }
    };
    streets.into_iter().zip(plans).enumerate().map(one).collect()
}

/// The most halves that a band can lose, by starts that go 10 halves up at one signal and 9 down at another.
const LOST: i64 = 19;

const SIDES: [&str; 2] = ["outbound", "inbound"];

/// Holds the bands that are kept at rounded times to what is promised of them: each departure at least 10 halves after a
/// named band's start and more than 9 before its end, and the width.
fn hold_rounded(tally: &mut Tally, served: &Served) {
    let Served { street, plan, kept, widths } = served;
    for ((band, &width), side) in named(street, plan).iter().zip(widths).zip(SIDES) {
        let meets_none = |at: i64| clear(street, kept, &band.lags, at);
        let (first, end) = (band.start + 10, band.start + band.width - 9);
        assert!((first..end).all(meets_none), "{plan:?} {kept:?} on {street:?}");
        assert!(width >= band.width - LOST, "{width} {side}: {plan:?} {kept:?} on {street:?}");
        let some = band.width > LOST;
        let lost = some && width == band.width - LOST;
        tally.note(&format!("{side} bands that lose 19 halves"), lost);
        tally.note(
            &format!("{side} bands that lose 19 halves in a moved plan"),
            lost && plan.outbound != plan.inbound,
        );
        tally.note(
            &format!("{side} bands that lose 19 halves beside a red of 0"),
            lost && street.reds.contains(&0),
        );
        tally.note("bands that lose all", band.width > 0 && width == 0);
        tally.note("bands that are wider", width > band.width);
        tally.note(
            "departures kept up to a red at both ends",
            some && !meets_none(first - 1) && !meets_none(end),
        );
    }
}

/// The departures that are promised at exact times: first and count, in units of which a half has so many.
fn kept_at_exact(band: &Named, unit: i128, m: i64) -> (i128, i128) {
    (unit * i128::from(band.start + m + 10), unit * i128::from(band.width - 2 * m - LOST).max(0))
}

/// The same at exact times, where m links have a rounded one: m halves more are lost at either end of a named band, and m more
/// of the width.
fn hold_exact(tally: &mut Tally, served: &Served, fine: &Fine) {
    let Served { street, plan, kept, .. } = served;
    let (offsets, m) = (fine.in_units(kept), plan.not_whole);
    let (bands, lags) = (named(street, plan), fine.lags(plan.reference as usize - 1));
    for (((band, lags), width), side) in bands.iter().zip(&lags).zip(fine.widths(&offsets)).zip(SIDES) {
        let (first, count) = kept_at_exact(band, fine.unit, m);
        let all = count == 0 || fine.stretch(&offsets, lags, first) >= count;
        let each = count > 2_000 || (first..first + count).all(|at| fine.clear(&offsets, lags, at));
        assert!(all && each, "{side}: {plan:?} {kept:?} on {street:?}");
        let least = fine.unit * i128::from(band.width - m - LOST);
        assert!(width >= least, "{width} {side}, the unit is {}: {plan:?} {kept:?} on {street:?}", fine.unit);
        let rounded = m > 0 && least > 0;
        tally.note("bands at exact times with a rounded one", rounded);
        tally.note("bands with departures kept at exact times", rounded && count > 0);
        tally
            .note(&format!("{side} bands that lose m + 19 halves at exact times"), rounded && width == least);
        tally.note(
            "bands that lose more than 20 halves at exact times",
            rounded && width < fine.unit * i128::from(band.width - 20),
        );
    }
}

/// A short street of two or three signals, many of whose reds end just before or half-way between two seconds, and whose links
/// have whole and half ticks: the bands of such streets lose most.
fn small(k: u64) -> Street {
    let random = &mut Random::new(SEED + 2, k);
    let (n, cycle, step) = (random.pick(&[2, 3]), 10 * random.within(2, 6), random.pick(&[50, 100]));
    let mut street = Street { cycle, reds: vec![], distances: vec![], outbound: vec![], inbound: vec![] };
    let mut along = 0;
    for _ in 0..n {
        let some = random.within(1, 12);
        street.reds.push(random.pick(&[9, 10, 9, 10, some, 0]));
        street.distances.push(along);
        along += step * random.within(1, 40);
    }
    let [outbound, inbound] = [(); 2].map(|_| (1..n).map(|_| random.pick(&[1_000, 2_000])).collect());
    Street { outbound, inbound, ..street }
}

/// Two signals whose reds end half-way between two seconds and just before that, with a link of a whole number of ticks and a
/// half: rounding costs most where its time and both starts go the wrong way.
fn half_ticks(k: usize) -> Street {
    let (cycle, reds) = ([40, 60][k % 2], [[9, 10], [10, 9]][k / 2 % 2].to_vec());
    let distances = vec![0, 50 + 100 * (k as i64 / 4)];
    Street { cycle, reds, distances, outbound: vec![1_000], inbound: vec![1_000] }
}

/// A street of any kind, or one where signals rest, whose cycle is a whole number of seconds.
fn large(k: u64) -> Street {
    let random = &mut Random::new(SEED + 3, k);
    let mut street = streets::in_seconds(random);
    if k % 3 == 0 {
        let which = random.pick(&RESTING);
        rest(random, &mut street.reds, which);
    }
    street
}

/// The street with its equal plan, and those of some requests that get one.
fn asked(k: usize, street: Street) -> (Street, Vec<Ask>) {
    let random = &mut Random::new(SEED + 4, k as u64);
    let some: Vec<Ask> = (0..4).map(|_| ask(random, &street)).collect();
    let served = some.into_iter().filter(|&ask| plan(&street, ask, MAX_SIGNALS).is_ok());
    let asks = [Ask::Equal].into_iter().chain(served).collect();
    (street, asks)
}

const KEPT: [(&str, usize); 21] = [
    ("plans", 8_000),
    ("plans with a width moved", 3_000),
    ("plans with 20 signals or more", 300),
    ("plans with a red of 0", 2_000),
    ("plans with every red 0", 50),
    ("plans with a rounded time", 2_000),
    ("outbound bands that lose 19 halves", 80),
    ("inbound bands that lose 19 halves", 80),
    ("outbound bands that lose 19 halves in a moved plan", 20),
    ("inbound bands that lose 19 halves in a moved plan", 20),
    ("outbound bands that lose 19 halves beside a red of 0", 10),
    ("inbound bands that lose 19 halves beside a red of 0", 10),
    ("bands that lose all", 100),
    ("bands that are wider", 1_000),
    ("departures kept up to a red at both ends", 50),
    ("plans at exact times", 7_000),
    ("bands at exact times with a rounded one", 3_000),
    ("bands with departures kept at exact times", 2_000),
    ("outbound bands that lose m + 19 halves at exact times", 10),
    ("inbound bands that lose m + 19 halves at exact times", 10),
    ("bands that lose more than 20 halves at exact times", 10),
];

#[test]
fn cabinets_keep_each_band_but_19_halves() {
    let streets = (0..2_000).map(small).chain((0..160).map(half_ticks)).chain((0..400).map(large));
    let asked: Vec<(Street, Vec<Ask>)> = streets.enumerate().map(|(k, street)| asked(k, street)).collect();
    let mut tally = Tally::of(&KEPT);
    for served in served(&asked) {
        let Served { street, plan, .. } = &served;
        tally.note("plans", true);
        tally.note("plans with a width moved", plan.outbound != plan.inbound);
        tally.note("plans with 20 signals or more", street.signals() >= 20);
        tally.note("plans with a red of 0", street.reds.contains(&0));
        tally.note("plans with every red 0", holds(street, Resting::All));
        tally.note("plans with a rounded time", plan.not_whole > 0);
        hold_rounded(&mut tally, &served);
        if let Some(fine) = Fine::of(street) {
            tally.note("plans at exact times", true);
            hold_exact(&mut tally, &served, &fine);
        }
    }
    tally.close();
}

/// A street's sheet, its reported equal width, its seconds, and the widths that are left at rounded and at exact times,
/// outbound and inbound.
type Worked = (&'static [u8], i64, [i64; 2], [i64; 2], [i128; 2]);

#[test]
fn the_bounds_are_met_by_streets_worked_out_by_hand() {
    let streets: [Worked; 4] = [
        (b"1\n30\n2\n0 10\n100 9\n1\n1000 1000\n", 39, [1, 0], [20, 24], [20, 24]),
        (b"1\n30\n2\n0 9\n100 10\n1\n1000 1000\n", 39, [0, 1], [24, 20], [24, 20]),
        // One link of 17 1/2 ticks each way, rounded to 18.
        (b"1\n40\n2\n0 9\n1750 10\n1\n1000 1000\n", 57, [2, 1], [38, 46], [37, 47]),
        (b"1\n40\n2\n0 10\n1750 9\n1\n1000 1000\n", 57, [3, 0], [46, 38], [47, 37]),
    ];
    let asked = streets.map(|(sheet, ..)| (read(sheet).expect("a street"), vec![Ask::Equal]));
    for (served, (_, best, seconds, rounded, exact)) in served(&asked).iter().zip(streets) {
        let (street, plan) = (&served.street, &served.plan);
        let fine = Fine::of(street).expect("a coarse unit");
        assert_eq!(
            (plan.best, &served.kept, served.widths),
            (best, &kept(street, &seconds), rounded),
            "{street:?}"
        );
        assert_eq!((fine.unit, fine.widths(&fine.in_units(&served.kept))), (1, exact), "{street:?}");
        assert_eq!(rounded.into_iter().min(), Some(best - LOST), "{street:?}");
        assert_eq!(exact.into_iter().min(), Some(i128::from(best - plan.not_whole - LOST)), "{street:?}");
    }
}
