//! Every plan that can be asked for: the equal one, one with a requested width, and one from two platoon lengths or two
//! volumes.

use crate::equal::{equal, Pairs, Plan};
use crate::street::{refusal, Refusal, Street};
use crate::volumes::platoons;
use std::fmt::{Display, Formatter};

pub const MAX_PLATOON: i64 = 100_000;

/// What a plan is asked for: widths and platoons in halves, volumes in vehicles an hour with their headway in ticks.
#[derive(Clone, Copy, Debug, PartialEq)]
pub enum Ask {
    Equal,
    Outbound(i64),
    Inbound(i64),
    Platoons(i64, i64),
    Volumes(i64, i64, i64),
}

impl Display for Ask {
    fn fmt(&self, text: &mut Formatter) -> std::fmt::Result {
        match self {
            Ask::Equal => write!(text, "equal"),
            Ask::Outbound(width) => write!(text, "outbound {width}"),
            Ask::Inbound(width) => write!(text, "inbound {width}"),
            Ask::Platoons(out, back) => write!(text, "platoons {out} {back}"),
            Ask::Volumes(out, back, headway) => write!(text, "volumes {out} {back} {headway}"),
        }
    }
}

/// g: the shortest green of the street, which no band is wider than; that of a signal that rests is the whole cycle.
pub fn shortest_green(street: &Street) -> i64 {
    street.reds.iter().map(|red| street.halves() - 2 * red).min().expect("a street has a signal")
}

/// Every width that can be asked of a street that no check refuses, both ways.
pub fn every_width(street: &Street) -> Vec<Ask> {
    let (_, best) = Pairs::of(street).reference();
    let range = best.max(1)..=shortest_green(street);
    range.flat_map(|width| [Ask::Outbound(width), Ask::Inbound(width)]).collect()
}

/// The width that the paper prints for the larger of two platoons, by the sum of both.
pub fn papers_width(larger: i64, sum: i64, best: i64, g: i64) -> i64 {
    if sum <= 2 * best {
        (2 * best * larger / sum).min(g)
    } else if 2 * best - larger.min(g) <= 0 {
        g
    } else {
        larger.min(g)
    }
}

/// The width that two platoons ask for, and the side that gets it: the paper's, but g wherever that leaves the other
/// side nothing.
pub fn platoon_rule(out: i64, back: i64, best: i64, g: i64) -> Ask {
    if out == back {
        return Ask::Equal;
    }
    let papers = papers_width(out.max(back), out + back, best, g);
    let width = if 2 * best - papers <= 0 { g } else { papers };
    if out > back {
        Ask::Outbound(width)
    } else {
        Ask::Inbound(width)
    }
}

/// What is asked for, with volumes turned into their platoons; or the first fault of volumes and headway.
fn counted(ask: Ask, cycle: i64) -> Result<Ask, Refusal> {
    match ask {
        Ask::Volumes(out, back, headway) => {
            platoons(out, back, headway, cycle).map(|(out, back)| Ask::Platoons(out, back))
        }
        _ => Ok(ask),
    }
}

fn platoon_fault(ask: Ask) -> Option<Refusal> {
    match ask {
        Ask::Platoons(out, _) if out > MAX_PLATOON => Some(refusal(8, 1)),
        Ask::Platoons(_, back) if back > MAX_PLATOON => Some(refusal(8, 2)),
        _ => None,
    }
}

/// The plan of a street for what is asked, with a lent list of `room` entries, or the first fault.
pub fn plan(street: &Street, ask: Ask, room: usize) -> Result<Plan, Refusal> {
    let plan = equal(street, room)?;
    let ask = counted(ask, street.cycle)?;
    if let Some(refusal) = platoon_fault(ask) {
        return Err(refusal);
    }
    let ask = match ask {
        Ask::Platoons(out, back) => platoon_rule(out, back, plan.best, shortest_green(street)),
        _ => ask,
    };
    match ask {
        Ask::Outbound(width) | Ask::Inbound(width) => moved(street, plan, ask, width),
        _ => Ok(plan),
    }
}

/// The equal plan with its width moved to the side that asks for it.
fn moved(street: &Street, plan: Plan, ask: Ask, width: i64) -> Result<Plan, Refusal> {
    let (best, halves) = (plan.best, street.halves());
    if width < best.max(1) || width > shortest_green(street) {
        return Err(refusal(9, 0));
    }
    let pairs = Pairs::of(street);
    let (c, _) = pairs.reference();
    let outwards = ask == Ask::Outbound(width);
    let lowering = |j: usize| {
        if street.rests(j) {
            return 0;
        }
        let u = pairs.chosen(c, j);
        let by = if outwards { u - halves + width - best } else { width + 2 * street.reds[j] - u };
        by.max(0)
    };
    let other = (2 * best - width).max(0);
    let (outbound, inbound) = if outwards { (width, other) } else { (other, width) };
    let offsets = (0..street.signals()).map(|j| (plan.offsets[j] - lowering(j)).rem_euclid(halves)).collect();
    Ok(Plan { outbound, inbound, offsets, ..plan })
}
