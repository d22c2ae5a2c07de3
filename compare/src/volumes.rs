//! Volumes instead of platoon lengths: the platoons of two volumes, and the largest volumes whose platoons fit a plan.

use crate::equal::Plan;
use crate::street::{first, outside, refusal, Refusal};

/// The greatest volume, in vehicles an hour.
pub const MAX_VOLUME: i64 = 10_000;

/// The least and the greatest headway, in ticks.
pub const HEADWAY: (i64, i64) = (1, 100);

/// What V*C*h comes to for a half of platoon: an hour has 36,000 ticks, and a tick has two halves.
pub const PER_HALF: i64 = 18_000;

/// The platoon of a volume in halves: V*C*h/18,000, rounded up.
pub fn platoon(volume: i64, cycle: i64, headway: i64) -> i64 {
    let product = volume * cycle * headway;
    product / PER_HALF + i64::from(product % PER_HALF > 0)
}

/// The platoons of two volumes at one headway, or the first of the three numbers that is out of its range.
pub fn platoons(out: i64, back: i64, headway: i64, cycle: i64) -> Result<(i64, i64), Refusal> {
    let at_fault = [out > MAX_VOLUME, back > MAX_VOLUME, outside(headway, HEADWAY)];
    match first(at_fault.len(), |k| at_fault[k]) {
        Some(place) => Err(refusal(11, place)),
        None => Ok((platoon(out, cycle, headway), platoon(back, cycle, headway))),
    }
}

/// The largest volume whose platoon fits a width, found by trying them from the greatest down.
pub fn largest(width: i64, cycle: i64, headway: i64) -> i64 {
    let fits = |&volume: &i64| platoon(volume, cycle, headway) <= width;
    (0..=MAX_VOLUME).rev().find(fits).expect("a volume of 0 fits every width")
}

/// The largest volumes that fit the outbound and the inbound width of a plan.
pub fn fitting(plan: &Plan, cycle: i64, headway: i64) -> [i64; 2] {
    [plan.outbound, plan.inbound].map(|width| largest(width, cycle, headway))
}
