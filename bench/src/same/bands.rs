//! The measure: only red ends and instant 0 are tried as starts, each against every signal, by comparisons and differences.

use super::search::remainder;
use super::street::Street;
use crate::calls::{Measure, Refusal, MAX_SIGNALS};

/// Where each red ends, seen from where a direction departs, given each signal's lag in ticks.
fn ends(s: &Street, offsets: &[u32], lag: impl Fn(usize) -> u32) -> [u32; MAX_SIGNALS] {
    let mut all = [0; MAX_SIGNALS];
    for (j, &offset) in offsets[..s.signals].iter().enumerate() {
        all[j] = remainder(2 * s.cycle, offset + s.reds[j], 2 * lag(j));
    }
    all
}

/// The longest stretch from an instant: a signal that rests in green leaves it the whole cycle.
fn longest(s: &Street, ends: &[u32], start: u32) -> u32 {
    let h = 2 * s.cycle;
    let mut least = h;
    for (&end, &red) in ends.iter().zip(&s.reds) {
        let since = if end <= start { start - end } else { start + h - end };
        // A product, and no branch: so the compiler takes several signals at a time.
        let gone = u32::from(red > 0) * (2 * red + since);
        least = least.min(h.saturating_sub(gone));
    }
    least
}

/// The width and the start of a direction's band: the whole cycle from 0 where every signal rests in green.
fn band(s: &Street, ends: &[u32]) -> (u32, u32) {
    let mut best = (longest(s, ends, 0), 0);
    for (&start, _) in ends.iter().zip(&s.reds).filter(|&(_, &red)| red > 0) {
        let width = longest(s, ends, start);
        if width > best.0 || width == best.0 && start < best.1 {
            best = (width, start);
        }
    }
    best
}

fn measured(street: Result<Street, Refusal>, offsets: &[u32]) -> Result<Measure, Refusal> {
    let s = &street?;
    if let Some(j) = offsets.iter().position(|&offset| 2 * s.cycle <= offset) {
        return Err((10, j as u32 + 1));
    }
    let n = s.signals;
    let out = band(s, &ends(s, offsets, |j| s.out[j])[..n]);
    let back = band(s, &ends(s, offsets, |j| s.back[n - 1] - s.back[j])[..n]);
    Ok(Measure {
        code: 0,
        place: 0,
        outbound_width: out.0,
        outbound_start: out.1,
        inbound_width: back.0,
        inbound_start: back.1,
    })
}

#[inline(never)]
pub fn measure(cycle: u32, reds: &[u32], distances: &[u32], out: &[u32], back: &[u32], offsets: &[u32]) -> Measure {
    if offsets.len() != reds.len() {
        return Measure::from((2, 0));
    }
    let street = Street::new(cycle, reds, distances, out, back, reds.len());
    measured(street, offsets).unwrap_or_else(Measure::from)
}
