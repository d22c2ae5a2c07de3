//! The bands that a plan names, counted at its reference: the departures that it promises meet no red.

use crate::bands::clear;
use crate::equal::Plan;
use crate::street::{Street, Times};

/// The instants at the reference from `start` up to but not including `start + width`, in halves, and the signals' lags
/// behind the reference in ticks.
pub struct Named {
    pub start: i64,
    pub width: i64,
    pub lags: Vec<i64>,
}

/// The named outbound band starts as the reference's red ends; the inbound one ends as that red starts. A reference that
/// rests in green has its offset for both instants.
pub fn named(street: &Street, plan: &Plan) -> [Named; 2] {
    let times = Times::of(street);
    let c = plan.reference as usize - 1;
    let (red_start, red_end) = (plan.offsets[c] - street.reds[c], plan.offsets[c] + street.reds[c]);
    let all = 0..street.signals();
    let out = all.clone().map(|j| times.t(c, j)).collect();
    let back = all.map(|j| times.back(c, j)).collect();
    [
        Named { start: red_end, width: plan.outbound, lags: out },
        Named { start: red_start - plan.inbound, width: plan.inbound, lags: back },
    ]
}

/// Whether the named bands of a plan meet no red, and the measured widths are the reported ones.
pub fn as_promised(street: &Street, plan: &Plan, (out, back): (i64, i64)) -> bool {
    let open = |band: &Named| {
        (band.start..band.start + band.width).all(|at| clear(street, &plan.offsets, &band.lags, at))
    };
    named(street, plan).iter().all(open) && (out, back) == (plan.outbound, plan.inbound)
}
