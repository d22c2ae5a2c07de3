//! A count of the volumes that a run compared, by every limit and every branch that the rules tell apart.

use crate::asked::branch;
use crate::cases::{request, Request};
use crate::equal::Plan;
use crate::moved::{papers_width, plan, shortest_green, Ask, MAX_PLATOON};
use crate::offsets::LARGEST;
use crate::resting::{holds, Resting};
use crate::sheet::read;
use crate::street::{outside, Refusal, Street};
use crate::tally::Tally;
use crate::trial::Case;
use crate::volumes::{fitting, platoon, HEADWAY, MAX_VOLUME, PER_HALF};

/// Code 9 has no row, so a run in which volumes got it would fail.
const WANTED: [(&str, usize); 70] = [
    ("requests", 8_000),
    ("planned", 3_000),
    ("planned with 20 signals or more", 1_000),
    ("planned with a red of 0", 500),
    ("planned with every red 0", 40),
    ("outbound wider", 500),
    ("inbound wider", 500),
    ("refused by code 1", 300),
    ("refused by code 2", 100),
    ("refused by code 3", 100),
    ("refused by code 4", 50),
    ("refused by code 5", 100),
    ("refused by code 6", 50),
    ("refused by code 7", 50),
    ("refused by code 11 at 1", 100),
    ("refused by code 11 at 2", 100),
    ("refused by code 11 at 3", 50),
    ("refused by code 8 at 1", 50),
    ("refused by code 8 at 2", 30),
    ("volume of 10,001 refused", 100),
    ("volume of 2^32 - 1 refused", 50),
    ("headway of 0 refused", 15),
    ("headway of 101 refused", 15),
    ("headway of 2^32 - 1 refused", 15),
    ("several numbers past their ranges", 50),
    ("headway refused before a platoon that is too long", 15),
    ("both platoons too long", 20),
    ("one vehicle too many for the longest platoon, outbound", 15),
    ("one vehicle too many for the longest platoon, inbound", 15),
    ("platoon of exactly 100,000, outbound", 15),
    ("platoon of exactly 100,000, inbound", 15),
    ("volume of 0 planned", 200),
    ("volume of 1 planned", 100),
    ("volume of 9999 planned", 50),
    ("volume of 10000 planned", 200),
    ("headway of 1 planned", 80),
    ("headway of 2 planned", 20),
    ("headway of 20 planned", 200),
    ("headway of 99 planned", 20),
    ("headway of 100 planned", 200),
    ("V*C*h at a multiple", 300),
    ("V*C*h one above a multiple", 20),
    ("V*C*h one below a multiple", 20),
    ("platoon rounded up", 1_000),
    ("both volumes 0", 50),
    ("one volume 0", 200),
    ("like volumes", 200),
    ("unlike volumes with like platoons", 50),
    ("platoons apart by one half", 100),
    ("shared, outbound", 50),
    ("shared, inbound", 50),
    ("share of all, outbound", 30),
    ("share of all, inbound", 30),
    ("share cut to g, outbound", 50),
    ("share cut to g, inbound", 50),
    ("larger as it is, outbound", 15),
    ("larger as it is, inbound", 15),
    ("larger cut to g, outbound", 100),
    ("larger cut to g, inbound", 100),
    ("larger alone, outbound", 100),
    ("larger alone, inbound", 100),
    ("wider than the paper has it, outbound", 20),
    ("wider than the paper has it, inbound", 20),
    ("largest volume 10,000", 100),
    ("largest volume between", 1_000),
    ("largest volume between, which fills the width", 300),
    ("largest volume 0 beside no band", 300),
    ("largest volume 0 beside a band", 40),
    ("asked volume is the largest", 100),
    ("asked volume does not fit", 500),
];

/// Counts the cases, and fails where a limit or a branch was tried too seldom.
pub fn cover(cases: &[Case]) {
    let mut tally = Tally::of(&WANTED);
    cases.iter().for_each(|case| note(&mut tally, case));
    tally.close();
}

/// Two volumes, outbound and inbound, their headway, and the cycle of the street that they are asked about.
struct Asked {
    volumes: [i64; 2],
    headway: i64,
    cycle: i64,
}

impl Asked {
    fn platoons(&self) -> [i64; 2] {
        self.volumes.map(|volume| platoon(volume, self.cycle, self.headway))
    }
}

fn note(tally: &mut Tally, case: &Case) {
    let (ask, room) = match request(case.request.as_bytes()) {
        Some(Request::Plan { ask, room }) => (ask, room),
        _ => panic!("{case:?}"),
    };
    let asked = |street: &Street| match ask {
        Ask::Volumes(out, back, headway) => Asked { volumes: [out, back], headway, cycle: street.cycle },
        _ => panic!("`{ask}` has no volumes"),
    };
    tally.note("requests", true);
    let street = match read(&case.sheet) {
        Ok(street) => street,
        Err(Refusal { code, .. }) => return tally.note(&format!("refused by code {code}"), true),
    };
    match plan(&street, ask, room) {
        Ok(plan) => note_plan(tally, &street, &asked(&street), &plan),
        Err(Refusal { code: 11, place }) => note_past_its_range(tally, &asked(&street), place),
        Err(Refusal { code: 8, place }) => note_too_long(tally, &asked(&street), place),
        Err(Refusal { code, .. }) => tally.note(&format!("refused by code {code}"), true),
    }
}

fn note_past_its_range(tally: &mut Tally, asked: &Asked, place: i64) {
    let Asked { volumes: [out, back], headway, .. } = *asked;
    let (named, volume) = ([out, back, headway][place as usize - 1], place < 3);
    let past = [out > MAX_VOLUME, back > MAX_VOLUME, outside(headway, HEADWAY)];
    tally.note(&format!("refused by code 11 at {place}"), true);
    tally.note("volume of 10,001 refused", volume && named == MAX_VOLUME + 1);
    tally.note("volume of 2^32 - 1 refused", volume && named == LARGEST);
    tally.note("headway of 0 refused", !volume && named == 0);
    tally.note("headway of 101 refused", !volume && named == HEADWAY.1 + 1);
    tally.note("headway of 2^32 - 1 refused", !volume && named == LARGEST);
    tally.note("several numbers past their ranges", past.iter().filter(|&&past| past).count() > 1);
    let too_long = !volume && asked.platoons().iter().any(|&platoon| platoon > MAX_PLATOON);
    tally.note("headway refused before a platoon that is too long", too_long);
}

fn note_too_long(tally: &mut Tally, asked: &Asked, place: i64) {
    let (k, [out, back]) = (place as usize - 1, asked.platoons());
    let fewer = platoon(asked.volumes[k] - 1, asked.cycle, asked.headway);
    let one_too_many = format!("one vehicle too many for the longest platoon, {}", SIDES[k]);
    tally.note(&format!("refused by code 8 at {place}"), true);
    tally.note("both platoons too long", out.min(back) > MAX_PLATOON);
    tally.note(&one_too_many, fewer <= MAX_PLATOON);
}

const SIDES: [&str; 2] = ["outbound", "inbound"];

fn note_plan(tally: &mut Tally, street: &Street, asked: &Asked, plan: &Plan) {
    tally.note("planned", true);
    tally.note("planned with 20 signals or more", street.signals() >= 20);
    tally.note("planned with a red of 0", street.reds.contains(&0));
    tally.note("planned with every red 0", holds(street, Resting::All));
    tally.note("outbound wider", plan.outbound > plan.inbound);
    tally.note("inbound wider", plan.inbound > plan.outbound);
    note_numbers(tally, asked);
    note_platoons(tally, asked, plan, shortest_green(street));
    let largest = fitting(plan, asked.cycle, asked.headway);
    for (k, width) in [plan.outbound, plan.inbound].into_iter().enumerate() {
        note_largest(tally, largest[k], width, asked.cycle * asked.headway);
        tally.note("asked volume is the largest", asked.volumes[k] == largest[k] && largest[k] > 0);
        tally.note("asked volume does not fit", asked.volumes[k] > largest[k]);
    }
}

fn note_numbers(tally: &mut Tally, asked: &Asked) {
    let Asked { volumes, headway, cycle } = *asked;
    for end in [0, 1, MAX_VOLUME - 1, MAX_VOLUME] {
        tally.note(&format!("volume of {end} planned"), volumes.contains(&end));
    }
    for end in [1, 2, 20, 99, 100] {
        tally.note(&format!("headway of {end} planned"), headway == end);
    }
    let rests = volumes.into_iter().filter(|&volume| volume > 0).map(|v| v * cycle * headway % PER_HALF);
    let any = |wanted: fn(i64) -> bool| rests.clone().any(wanted);
    tally.note("V*C*h at a multiple", any(|rest| rest == 0));
    tally.note("V*C*h one above a multiple", any(|rest| rest == 1));
    tally.note("V*C*h one below a multiple", any(|rest| rest == PER_HALF - 1));
    tally.note("platoon rounded up", any(|rest| rest > 0));
}

fn note_platoons(tally: &mut Tally, asked: &Asked, plan: &Plan, g: i64) {
    let ([some, other], [out, back]) = (asked.volumes, asked.platoons());
    tally.note("platoon of exactly 100,000, outbound", out == MAX_PLATOON);
    tally.note("platoon of exactly 100,000, inbound", back == MAX_PLATOON);
    tally.note("both volumes 0", some + other == 0);
    tally.note("one volume 0", (some == 0) != (other == 0));
    tally.note("like volumes", some == other && some > 0);
    tally.note("unlike volumes with like platoons", some != other && out == back);
    tally.note("platoons apart by one half", (out - back).abs() == 1);
    if out == back {
        return assert_eq!(plan.outbound, plan.inbound, "like platoons get the equal plan");
    }
    let (larger, sum, best) = (out.max(back), out + back, plan.best);
    let (given, side) = if out > back { (plan.outbound, SIDES[0]) } else { (plan.inbound, SIDES[1]) };
    let papers = papers_width(larger, sum, best, g);
    tally.note(&format!("{}, {side}", branch(larger, sum, best, g)), true);
    tally.note(&format!("wider than the paper has it, {side}"), given > papers);
}

/// Counts a largest volume, and holds it to its meaning by the product of cycle and headway: it fits the width, and the
/// next one does not, where there is one.
fn note_largest(tally: &mut Tally, volume: i64, width: i64, product: i64) {
    let (whole, between) = (PER_HALF * width, 0 < volume && volume < MAX_VOLUME);
    assert!(volume * product <= whole, "{volume} in {width}");
    assert!(volume == MAX_VOLUME || (volume + 1) * product > whole, "{volume} in {width}");
    tally.note("largest volume 10,000", volume == MAX_VOLUME);
    tally.note("largest volume between", between);
    tally.note("largest volume between, which fills the width", between && volume * product == whole);
    tally.note("largest volume 0 beside no band", volume == 0 && width == 0);
    tally.note("largest volume 0 beside a band", volume == 0 && width > 0);
}
