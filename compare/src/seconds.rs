//! Whole seconds for a cabinet: the start of each signal's green, rounded, and the offsets that the cabinets then keep.

use crate::equal::Plan;
use crate::moved::{plan, Ask};
use crate::street::{refusal, Refusal, Street};

/// The ticks and the halves of a second.
pub const TICKS: i64 = 10;
pub const SECOND: i64 = 20;

/// A plan, and beside it the seconds that the call writes in place of its offsets.
#[derive(Clone, Debug, PartialEq)]
pub struct Cabinets {
    pub plan: Plan,
    pub seconds: Vec<i64>,
}

/// The instant at which each signal's green starts, at the end of its red; at one that rests, its offset.
pub fn green_starts(street: &Street, offsets: &[i64]) -> Vec<i64> {
    offsets.iter().zip(&street.reds).map(|(offset, red)| (offset + red).rem_euclid(street.halves())).collect()
}

/// The whole second nearest to an instant of the cycle, the later one of two that are equally near, by a look at all of
/// them; the one at the end of the cycle is second 0 of the next.
pub fn nearest(start: i64, halves: i64) -> i64 {
    let last = halves / SECOND;
    let away = |&second: &i64| (SECOND * second - start).abs();
    let later_first = (0..=last).rev();
    later_first.min_by_key(away).expect("a cycle has a second") % last
}

/// The offsets that cabinets keep whose greens start at these seconds.
pub fn kept(street: &Street, seconds: &[i64]) -> Vec<i64> {
    let offset = |(second, red): (&i64, &i64)| (SECOND * second - red).rem_euclid(street.halves());
    seconds.iter().zip(&street.reds).map(offset).collect()
}

/// How far the start of a green was moved, to the later side where that is above 0: the way round the cycle that is at most
/// half of it.
pub fn moved_by(start: i64, second: i64, halves: i64) -> i64 {
    let later = (SECOND * second - start).rem_euclid(halves);
    if 2 * later <= halves {
        later
    } else {
        later - halves
    }
}

/// The plan of a street for what is asked and its seconds, with a lent list of `room` entries, or the first fault. A cycle
/// that is no whole number of seconds is judged directly after its range.
pub fn cabinets(street: &Street, ask: Ask, room: usize) -> Result<Cabinets, Refusal> {
    let broken = || (street.cycle % TICKS != 0).then(|| refusal(13, 0));
    if let Some(refusal) = street.opening_fault(room).or_else(broken) {
        return Err(refusal);
    }
    let plan = plan(street, ask, room)?;
    let starts = green_starts(street, &plan.offsets);
    let seconds = starts.into_iter().map(|start| nearest(start, street.halves())).collect();
    Ok(Cabinets { plan, seconds })
}
