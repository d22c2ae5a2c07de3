//! Signals that rest in green, whose red has no length: which ones of a street do, the street without them, and a count of
//! what a run compared on such streets.

use crate::cases::{reply, request, Request};
use crate::equal::{Pairs, Plan};
use crate::moved::{plan, Ask};
use crate::random::Random;
use crate::sheet::read;
use crate::street::{Street, Times, MAX_SIGNALS};
use crate::survey::{self, rows};
use crate::tally::Tally;
use crate::trial::Case;
use std::fmt::{Display, Formatter};

/// Which signals of a street rest.
#[derive(Clone, Copy, Debug, PartialEq)]
pub enum Resting {
    First,
    Last,
    Between,
    EveryOther,
    AllButOne,
    All,
}

pub const RESTING: [Resting; 6] =
    [Resting::First, Resting::Last, Resting::Between, Resting::EveryOther, Resting::AllButOne, Resting::All];

impl Display for Resting {
    fn fmt(&self, text: &mut Formatter) -> std::fmt::Result {
        let words = match self {
            Resting::First => "the first rests",
            Resting::Last => "the last rests",
            Resting::Between => "some between rest",
            Resting::EveryOther => "every other one rests",
            Resting::AllButOne => "all but one rest",
            Resting::All => "all rest",
        };
        write!(text, "{words}")
    }
}

/// Lets signals rest. A single signal, and the second of two, may be no such one, and keeps its red.
pub fn rest(random: &mut Random, reds: &mut [i64], which: Resting) {
    let (n, odd) = (reds.len(), random.below(2));
    let (any, inner) = (random.below(n), 1 + random.below(n.max(3) - 2));
    for (j, red) in reds.iter_mut().enumerate() {
        let within = 0 < j && j + 1 < n;
        let rests = match which {
            Resting::First => j == 0,
            Resting::Last => j + 1 == n,
            Resting::Between => within && (j == inner || random.one_in(2)),
            Resting::EveryOther => j % 2 == odd,
            Resting::AllButOne => j != any,
            Resting::All => true,
        };
        if rests {
            *red = 0;
        }
    }
}

/// Whether these signals of a street rest; all but one of them, or every other one, where it has three or more.
pub fn holds(street: &Street, which: Resting) -> bool {
    let (n, stopping) = (street.signals(), street.stopping());
    let (first, last) = match (stopping.first(), stopping.last()) {
        (Some(&first), Some(&last)) => (first, last),
        _ => return which == Resting::All,
    };
    match which {
        Resting::First => street.rests(0),
        Resting::Last => street.rests(n - 1),
        Resting::Between => (first..last).any(|j| street.rests(j)),
        Resting::EveryOther => n > 2 && (1..n).all(|j| street.rests(j) != street.rests(j - 1)),
        Resting::AllButOne => n > 2 && first == last,
        Resting::All => false,
    }
}

/// A street of one speed each way, whose links take whole ticks: so does a link that joins two of them, and as many.
pub fn whole_street(random: &mut Random, n: usize, cycle: i64) -> Street {
    let speeds = [1_000, 2_000, 4_000, 5_000, 8_000, 10_000, 20_000, 40_000];
    let [out, back] = [(); 2].map(|_| vec![random.pick(&speeds); n - 1]);
    let mut along = random.within(0, 1_000);
    let mut place = || {
        along += 4_000 * random.within(1, 100);
        along
    };
    let distances = (0..n).map(|_| place()).collect();
    let reds = (0..n).map(|_| random.within(1, cycle - 1)).collect();
    Street { cycle, reds, distances, outbound: out, inbound: back }
}

/// Such a street with its resting signals taken out, and the links between those that stay joined.
pub fn taken_out(street: &Street) -> Street {
    let stay = street.stopping();
    let of = |list: &[i64]| stay.iter().map(|&j| list[j]).collect::<Vec<i64>>();
    let joined = |speeds: &[i64]| speeds[..stay.len().saturating_sub(1)].to_vec();
    Street {
        cycle: street.cycle,
        reds: of(&street.reds),
        distances: of(&street.distances),
        outbound: joined(&street.outbound),
        inbound: joined(&street.inbound),
    }
}

/// What is asked of streets that rest.
const WORDS: [&str; 9] =
    ["equal", "outbound", "inbound", "platoons", "volumes", "measure", "write", "survey", "seconds"];

/// How often each of them must have been answered on a street of each kind.
const EACH: usize = 15;

const WANTED: [(&str, usize); 14] = [
    ("requests", 8_000),
    ("refused by code 5 beside a signal that rests", 200),
    ("refused by code 9", 100),
    ("refused by code 9 where all rest", 40),
    ("planned with 20 signals or more", 1_000),
    ("planned from a reference after signal 1", 1_000),
    ("planned with a B below 0", 100),
    ("planned with a B that is less by the paper's formula", 1_000),
    ("planned from another signal than the paper's formula has", 500),
    ("planned with a signal that would be half a cycle off by the formula", 1_000),
    ("planned with a signal that would be lowered by the formula, outbound", 100),
    ("planned with a signal that would be lowered by the formula, inbound", 100),
    ("measured with a band over the instant of a red of no length", 200),
    ("measured where all rest, with no offset of 0", 50),
];

/// Counts the cases, and fails where a kind of them was tried too seldom.
pub fn cover(cases: &[Case]) {
    let each = WORDS.iter().flat_map(|word| RESTING.map(|which| (format!("{word} where {which}"), EACH)));
    let mut kinds = Tally::of(&each.collect::<Vec<(String, usize)>>());
    let mut tally = Tally::of(&WANTED);
    cases.iter().for_each(|case| note(&mut kinds, &mut tally, case));
    kinds.close();
    tally.close();
}

fn note(kinds: &mut Tally, tally: &mut Tally, case: &Case) {
    let asked = request(case.request.as_bytes()).unwrap_or_else(|| panic!("{case:?}"));
    let street = match asked {
        Request::Survey { cycle, .. } => survey::street(cycle, &rows(&case.sheet).expect("rows")),
        _ => read(&case.sheet),
    };
    let street = street.unwrap_or_else(|refusal| panic!("{refusal:?}: {case:?}"));
    let (text, all) = (reply(&case.bytes()), holds(&street, Resting::All));
    tally.note("requests", true);
    if text.starts_with("refused") {
        let rests = street.reds.contains(&0);
        tally.note("refused by code 5 beside a signal that rests", rests && text.starts_with("refused 5 "));
        tally.note("refused by code 9", text == "refused 9 0\n");
        return tally.note("refused by code 9 where all rest", all && text == "refused 9 0\n");
    }
    let word = case.request.split(' ').next().expect("a request has a word");
    RESTING.iter().for_each(|&which| kinds.note(&format!("{word} where {which}"), holds(&street, which)));
    match asked {
        Request::Plan { ask, .. } | Request::Seconds { ask, .. } => note_plan(tally, &street, ask),
        Request::Survey { .. } => note_plan(tally, &street, Ask::Equal),
        Request::Measure { offsets } => note_measure(tally, &street, &offsets, &text),
        Request::Write { .. } => (),
    }
}

/// Counts a plan by what it would be if a signal that rests were a candidate, a limit, and moved like any other.
fn note_plan(tally: &mut Tally, street: &Street, ask: Ask) {
    let plan = plan(street, ask, MAX_SIGNALS).expect("a plan");
    let (pairs, c) = (Pairs::of(street), plan.reference as usize - 1);
    let (other, less) = pairs.papers_reference();
    let resting: Vec<usize> = (0..street.signals()).filter(|&j| street.rests(j)).collect();
    let moved = |by: fn(&Street, &Plan, i64) -> i64| {
        resting.iter().any(|&j| by(street, &plan, pairs.chosen(c, j)) > 0)
    };
    let outbound = moved(|street, plan, u| u - street.halves() + plan.outbound - plan.best);
    let inbound = moved(|_, plan, u| plan.inbound - u);
    let half = |&j: &usize| pairs.u(c, j, street.cycle) > pairs.u(c, j, 0);
    tally.note("planned with 20 signals or more", street.signals() >= 20);
    tally.note("planned from a reference after signal 1", c > 0);
    tally.note("planned with a B below 0", plan.best < 0);
    tally.note("planned with a B that is less by the paper's formula", less < plan.best);
    tally.note("planned from another signal than the paper's formula has", other != c);
    let off = resting.iter().any(half);
    tally.note("planned with a signal that would be half a cycle off by the formula", off);
    let (out, back) = (plan.outbound > plan.inbound && outbound, plan.inbound > plan.outbound && inbound);
    tally.note("planned with a signal that would be lowered by the formula, outbound", out);
    tally.note("planned with a signal that would be lowered by the formula, inbound", back);
}

/// Counts a measure by where the instants of reds of no length lie, given what it got.
fn note_measure(tally: &mut Tally, street: &Street, offsets: &[i64], text: &str) {
    let numbers: Vec<i64> = text.split_whitespace().filter_map(|word| word.parse().ok()).collect();
    let (times, last, halves) = (Times::of(street), street.signals() - 1, street.halves());
    let inside = |j: usize, lag: i64, width: i64, start: i64| {
        street.rests(j) && (1..width).contains(&(offsets[j] - 2 * lag - start).rem_euclid(halves))
    };
    let over = |j: usize| {
        inside(j, times.t(0, j), numbers[0], numbers[1])
            || inside(j, times.back(last, j), numbers[2], numbers[3])
    };
    tally.note("measured with a band over the instant of a red of no length", (0..=last).any(over));
    let all = holds(street, Resting::All) && !offsets.contains(&0);
    tally.note("measured where all rest, with no offset of 0", all);
}
