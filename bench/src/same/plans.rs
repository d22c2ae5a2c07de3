//! The plans: the equal one, and the one with a requested outbound width.

use super::search::{pair, reduced, reference, remainder, Places};
use super::street::Street;
use crate::calls::{Plan, Refusal};

/// What the search found, and the outbound width that is asked for, if any.
struct Found<'a> {
    street: &'a Street,
    places: &'a Places,
    c: usize,
    raised: u32,
    width: Option<u32>,
}

impl Found<'_> {
    fn offset(&self, j: usize) -> u32 {
        let (s, h) = (self.street, 2 * self.street.cycle);
        let [even, odd] = pair(s.cycle, self.places[self.c], self.places[j], s.reds[j]);
        let (phase, raised) = if odd <= even { (0, even) } else { (s.cycle, odd) };
        let u = raised + 2 * s.reds[j] - h;
        let down = match self.width {
            Some(width) if s.reds[j] > 0 => (u + width).saturating_sub(self.raised),
            _ => 0,
        };
        let ahead = s.out[j] + s.back[self.c] + phase;
        let behind = s.out[self.c] + s.back[j] + down;
        remainder(h, ahead, behind)
    }

    fn plan(&self) -> Plan {
        let (s, h) = (self.street, 2 * self.street.cycle);
        let f = self.offset(self.c);
        let (outbound, inbound) = match self.width {
            None => (self.raised.saturating_sub(h), self.raised.saturating_sub(h)),
            Some(width) => (width, (2 * self.raised).saturating_sub(2 * h + width)),
        };
        Plan {
            code: 0,
            place: 0,
            reference: self.c as u32 + 1,
            b: self.raised as i32 - h as i32,
            outbound,
            inbound,
            rounded: s.rounded,
            starts: remainder(h, f + s.reds[self.c], 0),
            ends: remainder(h, f, s.reds[self.c]),
        }
    }
}

fn in_range(s: &Street, raised: u32, width: u32) -> bool {
    let h = 2 * s.cycle;
    let most = s.reds[..s.signals].iter().map(|red| h - 2 * red).min().unwrap_or(0);
    width <= most && 1 <= width && raised <= width + h
}

fn planned(street: Result<Street, Refusal>, width: Option<u32>, offsets: &mut [u32]) -> Result<Plan, Refusal> {
    let street = &street?;
    let places = &reduced(street);
    let (c, raised) = reference(street, places);
    if !width.map_or(true, |width| in_range(street, raised, width)) {
        return Err((9, 0));
    }
    let found = Found { street, places, c, raised, width };
    for (j, entry) in offsets[..street.signals].iter_mut().enumerate() {
        *entry = found.offset(j);
    }
    Ok(found.plan())
}

#[inline(never)]
pub fn equal(cycle: u32, reds: &[u32], distances: &[u32], out: &[u32], back: &[u32], offsets: &mut [u32]) -> Plan {
    let street = Street::new(cycle, reds, distances, out, back, offsets.len());
    planned(street, None, offsets).unwrap_or_else(Plan::from)
}

#[inline(never)]
pub fn outbound(
    cycle: u32,
    reds: &[u32],
    distances: &[u32],
    out: &[u32],
    back: &[u32],
    width: u32,
    offsets: &mut [u32],
) -> Plan {
    let street = Street::new(cycle, reds, distances, out, back, offsets.len());
    planned(street, Some(width), offsets).unwrap_or_else(Plan::from)
}
