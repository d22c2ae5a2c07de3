//! The search: each signal is reduced to the cycle once, and a pair costs comparisons and differences. Widths are
//! raised by the cycle H, so that none is negative.

use super::street::Street;
use crate::calls::MAX_SIGNALS;

pub type Places = [u32; MAX_SIGNALS];

/// The remainder of a - b by h.
pub fn remainder(h: u32, a: u32, b: u32) -> u32 {
    (a + (h - b % h)) % h
}

/// The same where both lie on the cycle already.
fn back(h: u32, a: u32, b: u32) -> u32 {
    if b <= a {
        a - b
    } else {
        a + h - b
    }
}

/// Each signal's anchor: its red less its two sums, round the cycle.
pub fn reduced(s: &Street) -> Places {
    let mut places = [0; MAX_SIGNALS];
    for k in 0..s.signals {
        places[k] = remainder(2 * s.cycle, s.reds[k], s.out[k] + s.back[k]);
    }
    places
}

/// A pair's two raised widths. A signal that rests in green limits nothing: no width is above H.
pub fn pair(cycle: u32, from: u32, to: u32, red: u32) -> [u32; 2] {
    let h = 2 * cycle;
    let even = back(h, from, to);
    let odd = back(h, even, cycle);
    [even, odd].map(|gone| if red == 0 { 2 * h } else { 2 * h - gone - 2 * red })
}

fn least(pairs: &[[u32; 2]]) -> u32 {
    pairs.iter().map(|pair| pair[0].max(pair[1])).min().unwrap_or(0)
}

/// The index of the reference, and B raised by H. A signal that rests is no candidate; where all do, it is the first one,
/// and B is H.
pub fn reference(s: &Street, places: &Places) -> (usize, u32) {
    let n = s.signals;
    let mut widths = [[[0; 2]; MAX_SIGNALS]; MAX_SIGNALS];
    for (row, &from) in widths[..n].iter_mut().zip(places) {
        for ((entry, &to), &red) in row[..n].iter_mut().zip(places).zip(&s.reds) {
            *entry = pair(s.cycle, from, to, red);
        }
    }
    let mut best = None;
    for (k, row) in widths[..n].iter().enumerate().filter(|&(k, _)| s.reds[k] > 0) {
        let raised = least(&row[..n]);
        if best.map_or(true, |(_, most)| most < raised) {
            best = Some((k, raised));
        }
    }
    best.unwrap_or((0, 4 * s.cycle))
}
