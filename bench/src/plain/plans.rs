//! The equal plan and the plan with a requested outbound width, formula by formula.

use super::street::{check, Street};
use crate::calls::{Plan, Refusal};

/// u(i,j,e).
fn u(s: &Street, i: usize, j: usize, e: i32) -> i32 {
    s.halves() - s.man(s.reds[i] - s.reds[j] + s.t(i, j) - s.t_back(i, j) - e)
}

fn width(s: &Street, i: usize, j: usize, e: i32) -> i32 {
    u(s, i, j, e) - 2 * s.reds[j]
}

/// The signals that have a red.
fn stopping(s: &Street) -> impl Iterator<Item = usize> + '_ {
    (0..s.signals).filter(move |&j| s.stops(j))
}

/// b(i), where i has a red.
fn b(s: &Street, i: usize) -> i32 {
    stopping(s).map(|j| width(s, i, j, 0).max(width(s, i, j, s.cycle))).min().unwrap()
}

/// The reference's index and B; where every signal rests, the first and H.
fn reference(s: &Street) -> (usize, i32) {
    let mut best = None;
    for i in stopping(s) {
        let b = b(s, i);
        if best.map_or(true, |(_, most)| b > most) {
            best = Some((i, b));
        }
    }
    best.unwrap_or((0, s.halves()))
}

fn g(s: &Street) -> i32 {
    (0..s.signals).map(|j| s.halves() - 2 * s.reds[j]).min().unwrap()
}

pub fn range(s: &Street) -> (i32, i32) {
    (reference(s).1.max(1), g(s))
}

fn phase(s: &Street, c: usize, j: usize) -> i32 {
    if s.stops(j) && width(s, c, j, s.cycle) > width(s, c, j, 0) {
        s.cycle
    } else {
        0
    }
}

/// Signal j's offset, lowered where an outbound width is asked for and it has a red.
fn offset(s: &Street, c: usize, best: i32, asked: Option<i32>, j: usize) -> i32 {
    let e = phase(s, c, j);
    let equal = s.man(s.t(c, j) + s.t_back(c, j) + e);
    match asked {
        Some(w) if s.stops(j) => s.man(equal - (u(s, c, j, e) - s.halves() + w - best).max(0)),
        _ => equal,
    }
}

fn planned(s: &Street, asked: Option<u32>, offsets: &mut [u32]) -> Result<Plan, Refusal> {
    let (c, best) = reference(s);
    if let Some(w) = asked {
        if w < 1 || i64::from(w) < i64::from(best) || i64::from(w) > i64::from(g(s)) {
            return Err((9, 0));
        }
    }
    let asked = asked.map(|w| w as i32);
    for j in 0..s.signals {
        offsets[j] = offset(s, c, best, asked, j) as u32;
    }
    let f = offsets[c] as i32;
    let (outbound, inbound) = match asked {
        None => (best.max(0), best.max(0)),
        Some(w) => (w, (2 * best - w).max(0)),
    };
    Ok(Plan {
        code: 0,
        place: 0,
        reference: c as u32 + 1,
        b: best,
        outbound: outbound as u32,
        inbound: inbound as u32,
        rounded: s.rounded,
        starts: s.man(f + s.reds[c]) as u32,
        ends: s.man(f - s.reds[c]) as u32,
    })
}

#[inline(never)]
pub fn equal(cycle: u32, reds: &[u32], distances: &[u32], out: &[u32], back: &[u32], offsets: &mut [u32]) -> Plan {
    check(cycle, reds, distances, out, back, offsets.len())
        .and_then(|()| planned(&Street::of(cycle, reds, distances, out, back), None, offsets))
        .unwrap_or_else(Plan::from)
}

#[inline(never)]
pub fn outbound(
    cycle: u32,
    reds: &[u32],
    distances: &[u32],
    out: &[u32],
    back: &[u32],
    width: u32,
    offsets: &mut [u32],
) -> Plan {
    check(cycle, reds, distances, out, back, offsets.len())
        .and_then(|()| planned(&Street::of(cycle, reds, distances, out, back), Some(width), offsets))
        .unwrap_or_else(Plan::from)
}
