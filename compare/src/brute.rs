//! Plans of small streets held to every set of offsets that there is.

use crate::bands::measure;
use crate::equal::Plan;
use crate::moved::Ask;
use crate::offsets::every;
use crate::street::Street;

/// The outbound and the inbound width under some offsets.
type Widths = (i64, i64);

/// The most that the narrower direction has under any offsets, and what a plan that was asked for reports of it; where
/// one side asks for a width, the most that the other side has beside it, and what it is reported to have.
fn most(ask: Ask, plan: &Plan, measured: &[Widths]) -> (Option<i64>, i64) {
    let beside = |w: i64, pair: fn(&Widths) -> Widths| {
        measured.iter().map(pair).filter(|&(asked, _)| asked >= w).map(|(_, other)| other).max()
    };
    match ask {
        Ask::Equal => (measured.iter().map(|&(out, back)| out.min(back)).max(), plan.best.max(0)),
        Ask::Outbound(w) => (beside(w, |&(out, back)| (out, back)), plan.inbound),
        Ask::Inbound(w) => (beside(w, |&(out, back)| (back, out)), plan.outbound),
        _ => panic!("`{ask}` asks for no width"),
    }
}

/// What is wrong with the plans of a street, by every set of offsets: one that is beaten, or that no offsets come up to;
/// or two bands that are together more than 2B.
pub fn beaten(street: &Street, asks: &[Ask], plans: &[Plan]) -> Option<String> {
    let widths = |offsets: Vec<i64>| {
        let (out, back) = measure(street, &offsets);
        (out.width, back.width)
    };
    let measured: Vec<Widths> = every(street).map(widths).collect();
    let twice = 2 * plans.first()?.best;
    if let Some(both) = measured.iter().find(|&&(out, back)| out > 0 && back > 0 && out + back > twice) {
        return Some(format!("{both:?} are more than {twice} on {street:?}"));
    }
    let told = |(&ask, plan): (&Ask, &Plan)| {
        let (most, reported) = most(ask, plan, &measured);
        (most != Some(reported)).then(|| format!("{most:?} where {ask} gets {plan:?} on {street:?}"))
    };
    asks.iter().zip(plans).find_map(told)
}
