//! A count of the moved plans and platoons that a run compared, by every branch that the rules tell apart.

use crate::cases::{request, Request};
use crate::equal::Plan;
use crate::moved::{papers_width, plan, shortest_green, Ask, MAX_PLATOON};
use crate::offsets::LARGEST;
use crate::resting::{holds, Resting};
use crate::sheet::read;
use crate::street::{Refusal, Street, MAX_SIGNALS};
use crate::tally::Tally;
use crate::trial::Case;

const WANTED: [(&str, usize); 50] = [
    ("requests", 5_000),
    ("planned", 2_000),
    ("planned with 20 signals or more", 500),
    ("planned with a red of 0", 300),
    ("planned with every red 0", 20),
    ("outbound wider", 400),
    ("inbound wider", 400),
    ("with an offset lowered past 0", 200),
    ("other side open", 200),
    ("other side exactly 0", 20),
    ("other side below 0", 200),
    ("width asked at its least", 50),
    ("width asked at its most", 50),
    ("refused by code 1", 100),
    ("refused by code 2", 50),
    ("refused by code 3", 20),
    ("refused by code 4", 20),
    ("refused by code 5", 20),
    ("refused by code 6", 20),
    ("refused by code 7", 20),
    ("refused by code 8 at 1", 20),
    ("refused by code 8 at 2", 20),
    ("refused by code 9", 200),
    ("width 0 refused", 50),
    ("width of one below B refused", 10),
    ("width of one above g refused", 10),
    ("width of 2^32 - 1 refused", 5),
    ("platoons alike", 50),
    ("platoons alike and 0", 10),
    ("platoons at their longest", 20),
    ("platoons with nothing on one side", 50),
    ("platoons with B 0 or less", 100),
    ("platoons that add up to 2B", 50),
    ("platoons that add up to 2B + 1", 50),
    ("shares rounded down", 20),
    ("shared, outbound", 20),
    ("shared, inbound", 20),
    ("share of all, outbound", 15),
    ("share of all, inbound", 15),
    ("wider than the paper has it, outbound", 15),
    ("wider than the paper has it, inbound", 15),
    ("one half left beside less than g", 10),
    ("share cut to g, outbound", 20),
    ("share cut to g, inbound", 20),
    ("larger as it is, outbound", 10),
    ("larger as it is, inbound", 10),
    ("larger cut to g, outbound", 20),
    ("larger cut to g, inbound", 20),
    ("larger alone, outbound", 20),
    ("larger alone, inbound", 20),
];

/// Counts the cases, and fails where a branch was tried too seldom.
pub fn cover(cases: &[Case]) {
    let mut tally = Tally::of(&WANTED);
    cases.iter().for_each(|case| note(&mut tally, case));
    tally.close();
}

fn note(tally: &mut Tally, case: &Case) {
    let (ask, room) = match request(case.request.as_bytes()) {
        Some(Request::Plan { ask, room }) => (ask, room),
        _ => panic!("{case:?}"),
    };
    tally.note("requests", true);
    let street = read(&case.sheet);
    match street.clone().and_then(|street| plan(&street, ask, room)) {
        Ok(plan) => note_plan(tally, &street.expect("a planned street reads"), ask, &plan),
        Err(Refusal { code: 8, place }) => tally.note(&format!("refused by code 8 at {place}"), true),
        Err(Refusal { code, .. }) => {
            tally.note(&format!("refused by code {code}"), true);
            if code == 9 {
                note_refused(tally, &street.expect("a judged street reads"), ask);
            }
        }
    }
}

fn equal(street: &Street) -> Plan {
    plan(street, Ask::Equal, MAX_SIGNALS).expect("a street that no check refuses has an equal plan")
}

fn note_refused(tally: &mut Tally, street: &Street, ask: Ask) {
    let width = match ask {
        Ask::Outbound(width) | Ask::Inbound(width) => width,
        _ => panic!("`{ask}` asks for no width"),
    };
    tally.note("width 0 refused", width == 0);
    tally.note("width of one below B refused", width == equal(street).best - 1);
    tally.note("width of one above g refused", width == shortest_green(street) + 1);
    tally.note("width of 2^32 - 1 refused", width == LARGEST);
}

fn note_plan(tally: &mut Tally, street: &Street, ask: Ask, plan: &Plan) {
    let (g, before) = (shortest_green(street), equal(street).offsets);
    let other = 2 * plan.best - plan.outbound.max(plan.inbound);
    let apart = plan.outbound != plan.inbound;
    tally.note("planned", true);
    tally.note("planned with 20 signals or more", street.signals() >= 20);
    tally.note("planned with a red of 0", street.reds.contains(&0));
    tally.note("planned with every red 0", holds(street, Resting::All));
    tally.note("outbound wider", plan.outbound > plan.inbound);
    tally.note("inbound wider", plan.inbound > plan.outbound);
    tally.note("with an offset lowered past 0", plan.offsets.iter().zip(&before).any(|(new, old)| new > old));
    tally.note("other side open", apart && other > 0);
    tally.note("other side exactly 0", apart && other == 0);
    tally.note("other side below 0", apart && other < 0);
    match ask {
        Ask::Outbound(width) | Ask::Inbound(width) => {
            tally.note("width asked at its least", width == plan.best.max(1));
            tally.note("width asked at its most", width == g);
        }
        Ask::Platoons(out, back) => note_platoons(tally, (out, back), plan, g),
        Ask::Equal | Ask::Volumes(..) => panic!("nothing asks for `{ask}` here"),
    }
}

fn note_platoons(tally: &mut Tally, (out, back): (i64, i64), plan: &Plan, g: i64) {
    let (larger, sum, best) = (out.max(back), out + back, plan.best);
    tally.note("platoons alike", out == back);
    tally.note("platoons alike and 0", sum == 0);
    tally.note("platoons at their longest", larger == MAX_PLATOON);
    if out == back {
        return;
    }
    let (given, side) = if out > back { (plan.outbound, "outbound") } else { (plan.inbound, "inbound") };
    let (branch, papers) = (branch(larger, sum, best, g), papers_width(larger, sum, best, g));
    tally.note(&format!("{branch}, {side}"), true);
    tally.note(&format!("wider than the paper has it, {side}"), given > papers);
    tally.note("one half left beside less than g", 2 * best - given == 1 && given < g);
    tally.note("shares rounded down", branch == "shared" && 2 * best * larger % sum > 0);
    tally.note("platoons with nothing on one side", larger == sum);
    tally.note("platoons with B 0 or less", best <= 0);
    tally.note("platoons that add up to 2B", sum == 2 * best);
    tally.note("platoons that add up to 2B + 1", sum == 2 * best + 1);
}

/// The branch of the platoon rule that two unlike platoons take.
pub fn branch(larger: i64, sum: i64, best: i64, g: i64) -> &'static str {
    if sum <= 2 * best && 2 * best * larger / sum > g {
        "share cut to g"
    } else if sum <= 2 * best && larger == sum {
        "share of all"
    } else if sum <= 2 * best {
        "shared"
    } else if larger.min(g) >= 2 * best {
        "larger alone"
    } else if larger > g {
        "larger cut to g"
    } else {
        "larger as it is"
    }
}
