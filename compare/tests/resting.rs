//! Streets with signals that rest in green: random ones through `cases` with every request, those worked out by hand,
//! small ones under every set of offsets, and each beside the street without its resting signals.
//!
//! `COMPARE_SEED` sets the seed of the random cases, and `COMPARE_CASE` replays one of them by its number.

use compare::asks::{any, ask, volumes};
use compare::brute::beaten;
use compare::equal::{Pairs, Plan};
use compare::hold::{expect, hold, planned, plans, plans_asked, promised, replies, widths};
use compare::moved::{every_width, plan, shortest_green, Ask};
use compare::offsets::{offsets, request};
use compare::page::sheet;
use compare::random::Random;
use compare::resting::{cover, holds, rest, taken_out, whole_street, Resting, RESTING};
use compare::rows;
use compare::run::Program;
use compare::sheet::{read, write};
use compare::street::{Street, Times, MAX_SIGNALS};
use compare::streets;
use compare::survey::lines;
use compare::tally::Tally;
use compare::trial::{in_parallel, Case};
use compare::volumes::largest;

const SEED: u64 = 6_118;
const CASES: u64 = 8_000;

/// A street with signals at rest, each kind in turn.
fn rested(random: &mut Random, mut street: Street, number: u64) -> Street {
    rest(random, &mut street.reds, RESTING[number as usize % RESTING.len()]);
    street
}

/// A request about such a street, each request in turn; now and then a red is as long as the cycle, or longer.
fn random_case(seed: u64, number: u64) -> Case {
    let (random, word) = (&mut Random::new(seed, number), number / RESTING.len() as u64 % 9);
    let street = match word {
        7 => rows::street(random),
        8 => streets::in_seconds(random),
        _ => streets::street(random),
    };
    let mut street = rested(random, street, number);
    let request = match word {
        0 => "equal".to_string(),
        1..=3 => ask(random, &street).to_string(),
        4 => volumes(random, &street).to_string(),
        5 => request(&offsets(random, &street)),
        6 => "write".to_string(),
        7 => format!("survey {}", street.cycle),
        _ => format!("seconds {}", any(random, &street)),
    };
    if random.one_in(12) {
        let k = random.below(street.signals());
        street.reds[k] = street.cycle + random.pick(&[0, 0, 1, street.cycle]);
    }
    let sheet = if word == 7 { lines(&rows::rows(random, &street)) } else { write(&street) };
    Case { number, request, sheet }
}

#[test]
fn cases_serves_streets_that_rest_as_the_model_does() {
    if let Some(cases) = hold("resting", SEED, CASES, random_case) {
        cover(&cases);
    }
}

/// A street of three signals whose second rests: B is 14 and g 18, and the formulas of a moved plan come to 1 for it.
const BETWEEN: &[u8] = b"1\n10\n3\n0 1\n100 0\n200 1\n2\n1000 1000\n1000 1000\n";

/// A street of the same cycle whose second signal rests where it is passed at the same instant as the first.
const BESIDE: &[u8] = b"1\n10\n2\n0 1\n1 0\n1\n1000 1000\n";

#[test]
fn streets_worked_out_by_hand() {
    let [crossing, one, all] =
        ["crossing", "one-red", "all"].map(|name| sheet(&format!("row-resting-{name}.txt")));
    expect(&[
        (&["equal", "platoons 5 5"], &crossing, "3 1250 1250 1250 0\n990\n45\n0"),
        (&["outbound 1320", "platoons 2 1"], &crossing, "3 1250 1320 1180 0\n990\n45\n1730"),
        (&["inbound 1320", "platoons 1 2"], &crossing, "3 1250 1180 1320 0\n920\n45\n0"),
        (&["outbound 1249", "inbound 1249", "outbound 1321", "inbound 1321"], &crossing, "refused 9 0"),
        (&["measure 990 45 0", "measure 990 0 0", "measure 990 1799 0"], &crossing, "1250 1300 1250 330"),
        (&["equal", "outbound 18", "inbound 18", "platoons 0 1"], &one, "1 18 18 18 0\n0\n1"),
        (&["measure 0 1", "measure 0 19"], &one, "18 1 18 17"),
        (&["equal", "outbound 1200", "inbound 1200"], &all, "1 1200 1200 1200 0\n0\n1170"),
        (&["measure 0 0", "measure 1 1", "measure 1199 600"], &all, "1200 0 1200 0"),
        (&["equal"], BETWEEN, "1 14 14 14 0\n0\n0\n0"),
        (&["outbound 18"], BETWEEN, "1 14 18 10 0\n16\n0\n0"),
        (&["inbound 18"], BETWEEN, "1 14 10 18 0\n0\n0\n16"),
        (&["volumes 1 0 100"], BETWEEN, "1 14 18 10 0\n16\n0\n0\n324 180"),
    ]);
    let any: Vec<String> = (0..20).map(|offset| format!("measure 5 {offset}")).collect();
    expect(&[(&any.iter().map(String::as_str).collect::<Vec<&str>>(), BESIDE, "18 6 18 6")]);
}

/// A reference, counted from 0, and its B.
type Found = (usize, i64);

#[test]
fn the_papers_formula_would_cut_the_band() {
    let streets: [(&[u8], Found, Found); 5] = [
        (&sheet("row-resting-crossing.txt"), (2, 1_085), (2, 1_250)),
        (&sheet("row-resting-one-red.txt"), (0, 14), (0, 18)),
        (&sheet("row-resting-all.txt"), (0, 930), (0, 1_200)),
        (b"1\n10\n2\n0 0\n300 1\n1\n1000 1500\n", (0, 14), (1, 18)),
        (b"1\n100\n2\n0 0\n30000 50\n1\n10000 15000\n", (0, 100), (1, 100)),
    ];
    for (sheet, papers, ours) in streets {
        let street = read(sheet).expect("a street");
        let pairs = Pairs::of(&street);
        assert_eq!((pairs.papers_reference(), pairs.reference()), (papers, ours), "{street:?}");
        let plan = &plans(&[Case::about(&street, "equal")])[0];
        assert_eq!((plan.reference as usize - 1, plan.best), ours, "{street:?}");
    }
}

/// A request of each kind, such as a street of three signals gets an answer to.
fn requests(street: &Street) -> Vec<String> {
    let g = shortest_green(street);
    let asked = ["equal", "platoons 3 1", "volumes 300 100 20", "measure 0 7 19", "write"].map(String::from);
    asked.into_iter().chain([format!("outbound {g}"), format!("inbound {g}")]).collect()
}

#[test]
fn a_red_of_no_length_passes_and_one_of_the_cycle_is_refused() {
    let street = |reds: [i64; 3]| Street { reds: reds.to_vec(), ..read(BETWEEN).expect("a street") };
    let (mut cases, mut refused) = (vec![], vec![]);
    for reds in (0..27).map(|k| [k / 9, k / 3 % 3, k % 3].map(|k| [0, 9, 10][k as usize])) {
        let (street, fault) = (street(reds), reds.iter().position(|&red| red == 10));
        for asked in requests(&street) {
            cases.push(Case::about(&street, asked));
            refused.push(fault.map(|k| format!("refused 5 {}", k + 1)));
        }
    }
    for ((text, fault), case) in replies(&Program::cases(), &cases).iter().zip(refused).zip(&cases) {
        match fault {
            Some(fault) => assert_eq!(*text, fault, "{case:?}"),
            None => assert!(!text.starts_with("refused"), "{text}, on {case:?}"),
        }
    }
    assert_eq!(cases.len(), 27 * 7);
}

/// A street of so many signals that all rest.
fn all_at_rest(n: usize, cycle: i64) -> Street {
    let street = streets::sized(&mut Random::new(SEED + 1, n as u64), n, cycle);
    Street { reds: vec![0; n], ..street }
}

#[test]
fn where_every_signal_rests_both_bands_are_the_whole_cycle() {
    for (n, cycle) in [(1, 10), (2, 10), (3, 11), (7, 650), (32, 6_000)] {
        let (street, random) = (all_at_rest(n, cycle), &mut Random::new(SEED + 2, n as u64));
        let (h, times, sheet) = (street.halves(), Times::of(&street), write(&street));
        let offset = |j: usize| format!("\n{}", (times.t(0, j) + times.back(0, j)).rem_euclid(h));
        let plan = format!("1 {h} {h} {h} {}{}", times.not_whole, (0..n).map(offset).collect::<String>());
        let volumes = format!("{plan}\n{0} {0}", largest(h, cycle, 100));
        let moved = |widths: &[i64]| -> Vec<String> {
            widths
                .iter()
                .flat_map(|width| ["outbound", "inbound"].map(|side| format!("{side} {width}")))
                .collect()
        };
        let measured: Vec<String> = (0..20).map(|_| request(&offsets(random, &street))).collect();
        let each = |requests: &[String], text: &str| {
            expect(&[(&requests.iter().map(String::as_str).collect::<Vec<&str>>(), &sheet, text)])
        };
        each(&moved(&[h]), &plan);
        each(&moved(&[0, 1, h / 2, h - 1, h + 1, 2 * h, (1 << 32) - 1]), "refused 9 0");
        each(&measured, &format!("{h} 0 {h} 0"));
        expect(&[
            (&["equal", "platoons 0 0", "platoons 0 1", "platoons 100000 99999"], &sheet, &plan),
            (&["volumes 0 0 100", "volumes 2 1 100"], &sheet, &volumes),
            (&["platoons 100001 0"], &sheet, "refused 8 1"),
        ]);
    }
}

/// A small street of each kind in turn, with the equal plan and every width that can be asked of it.
fn asked_everything(k: u64) -> (Street, Vec<Ask>) {
    let random = &mut Random::new(SEED + 3, k);
    let (n, cycle) = random.pick(&[(1, 10), (2, 10), (2, 17), (3, 10), (3, 11), (4, 10)]);
    let street = streets::sized(random, n, cycle);
    let street = rested(random, street, k);
    let asks = [Ask::Equal].into_iter().chain(every_width(&street)).collect();
    (street, asks)
}

#[test]
fn no_offsets_do_better() {
    let asked: Vec<(Street, Vec<Ask>)> = (0..90).map(asked_everything).collect();
    let served: Vec<_> = asked.iter().zip(plans_asked(&asked)).collect();
    let found = in_parallel(&served, |((street, asks), plans)| beaten(street, asks, plans));
    assert!(found.is_empty(), "{found:?}");
    let mut tally = Tally::of(&RESTING.map(|which| (which, 8)));
    for (which, (street, _)) in RESTING.iter().flat_map(|which| asked.iter().map(move |asked| (which, asked)))
    {
        tally.note(&which.to_string(), holds(street, *which));
    }
    tally.close();
    let plans = served.iter().flat_map(|(_, plans)| plans);
    let (wide, none): (Vec<&Plan>, Vec<&Plan>) = plans.partition(|plan| plan.best > 0);
    println!("{} plans with a B above 0, {} with none", wide.len(), none.len());
    assert!(wide.len() > 250 && none.len() > 15, "this run shows too little");
}

/// The equal plan of a street, and those of some requests that get one.
fn served(random: &mut Random, street: &Street, count: usize) -> Vec<Ask> {
    let some = (0..count).map(|_| ask(random, street)).filter(|&ask| plan(street, ask, MAX_SIGNALS).is_ok());
    [Ask::Equal].into_iter().chain(some).collect()
}

#[test]
fn every_plan_has_the_bands_that_it_names() {
    let asked = |k: u64| {
        let random = &mut Random::new(SEED + 4, k);
        let street = streets::street(random);
        let street = rested(random, street, k);
        let asks = served(random, &street, 4);
        (street, asks)
    };
    let plans = promised(&(0..300).map(asked).collect::<Vec<(Street, Vec<Ask>)>>());
    let moved = plans.iter().filter(|plan| plan.outbound != plan.inbound).count();
    println!("{} plans, {moved} of them with a width moved", plans.len());
    assert!(plans.len() > 800 && moved > 200, "this run shows too little");
}

/// The offsets of the signals that have a red.
fn stopping_offsets(street: &Street, plan: &Plan) -> Vec<i64> {
    street.stopping().into_iter().map(|j| plan.offsets[j]).collect()
}

/// A plan of a street in whole ticks beside that of the street without its resting signals: all that is the same.
fn expect_same(street: &Street, plan: &Plan, other: &Plan) {
    let (stay, times) = (street.stopping(), Times::of(street));
    let c = plan.reference as usize - 1;
    assert_eq!(c, stay[other.reference as usize - 1], "{street:?}");
    assert_eq!(
        (plan.best, plan.outbound, plan.inbound),
        (other.best, other.outbound, other.inbound),
        "{street:?}"
    );
    assert_eq!((stopping_offsets(street, plan), plan.not_whole), (other.offsets.clone(), 0), "{street:?}");
    for j in (0..street.signals()).filter(|&j| street.rests(j)) {
        let unmoved = (times.t(c, j) + times.back(c, j)).rem_euclid(street.halves());
        assert_eq!(plan.offsets[j], unmoved, "signal {} of {street:?}", j + 1);
    }
}

#[test]
fn the_street_without_its_resting_signals_has_the_same_plans() {
    let asked = |k: u64| {
        let random = &mut Random::new(SEED + 5, k);
        let (n, cycle) = (random.within(2, 32) as usize, random.within(10, 900));
        let street = whole_street(random, n, cycle);
        let street = rested(random, street, k);
        let asks = served(random, &street, 4);
        (!street.stopping().is_empty()).then_some((street, asks))
    };
    let with: Vec<(Street, Vec<Ask>)> = (0..360).filter_map(asked).collect();
    let without: Vec<(Street, Vec<Ask>)> =
        with.iter().map(|(street, asks)| (taken_out(street), asks.clone())).collect();
    let ((streets, plans), (rest, others)) = (planned(&with), planned(&without));
    let mut tally = Tally::of(&[("plans", 800), ("with links joined", 400), ("with a width moved", 200)]);
    for (((street, plan), rest), other) in streets.iter().zip(&plans).zip(&rest).zip(&others) {
        expect_same(street, plan, other);
        assert_eq!(shortest_green(street), shortest_green(rest), "g of {street:?}");
        tally.note("plans", true);
        tally.note("with links joined", holds(street, Resting::Between));
        tally.note("with a width moved", plan.outbound != plan.inbound);
    }
    tally.close();
    assert_eq!(widths(&streets, &plans), widths(&rest, &others), "measured");
}
