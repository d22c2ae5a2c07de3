//! The measure, by trying every departure of the cycle at every signal.

use super::street::{check, Street};
use crate::calls::{Measure, Refusal};

/// Whether a departure finds every signal green, given each signal's lag in ticks.
fn clear(s: &Street, offsets: &[u32], lag: &impl Fn(usize) -> i32, departure: i32) -> bool {
    (0..s.signals).all(|j| {
        let red_start = offsets[j] as i32 - s.reds[j];
        s.man(departure + 2 * lag(j) - red_start) >= 2 * s.reds[j]
    })
}

/// The width of the longest stretch, and its smallest start. The cycle is walked twice, for a stretch over its end; none is
/// longer than the cycle.
fn band(s: &Street, offsets: &[u32], lag: impl Fn(usize) -> i32) -> (u32, u32) {
    let halves = s.halves() as usize;
    let departures: Vec<bool> = (0..s.halves()).map(|departure| clear(s, offsets, &lag, departure)).collect();
    let (mut width, mut start, mut run) = (0, 0, 0);
    for at in 0..2 * halves {
        run = if departures[at % halves] { halves.min(run + 1) } else { 0 };
        let from = at + 1 - run;
        if from < halves && (run > width || run == width && run > 0 && from < start) {
            width = run;
            start = from;
        }
    }
    (width as u32, start as u32)
}

fn measured(s: &Street, offsets: &[u32]) -> Result<Measure, Refusal> {
    for j in 0..offsets.len() {
        if offsets[j] >= s.halves() as u32 {
            return Err((10, j as u32 + 1));
        }
    }
    let last = s.signals - 1;
    let (outbound_width, outbound_start) = band(s, offsets, |j| s.t(0, j));
    let (inbound_width, inbound_start) = band(s, offsets, |j| s.t_back(last, j));
    Ok(Measure { code: 0, place: 0, outbound_width, outbound_start, inbound_width, inbound_start })
}

#[inline(never)]
pub fn measure(cycle: u32, reds: &[u32], distances: &[u32], out: &[u32], back: &[u32], offsets: &[u32]) -> Measure {
    if offsets.len() != reds.len() {
        return Measure::from((2, 0));
    }
    check(cycle, reds, distances, out, back, reds.len())
        .and_then(|()| measured(&Street::of(cycle, reds, distances, out, back), offsets))
        .unwrap_or_else(Measure::from)
}
