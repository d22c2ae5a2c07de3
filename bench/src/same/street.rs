//! The checks of a street and its times, in the library's order.

use crate::calls::{Refusal, MAX_SIGNALS};

/// A street that passed the checks. `out` and `back` are each signal's ticks from and to signal 1.
pub struct Street {
    pub signals: usize,
    pub cycle: u32,
    pub reds: [u32; MAX_SIGNALS],
    pub out: [u32; MAX_SIGNALS],
    pub back: [u32; MAX_SIGNALS],
    pub rounded: u32,
}

fn place(index: usize) -> u32 {
    index as u32 + 1
}

/// The first fault of a street and of the room for its offsets.
pub fn judge(
    cycle: u32,
    reds: &[u32],
    distances: &[u32],
    out: &[u32],
    back: &[u32],
    lent: usize,
) -> Result<(), Refusal> {
    let n = reds.len();
    if !(1..=MAX_SIGNALS).contains(&n) || distances.len() != n || out.len() != n - 1 || back.len() != n - 1 {
        return Err((2, 0));
    }
    if lent < n {
        return Err((3, 0));
    }
    if !(10..=6_000).contains(&cycle) {
        return Err((4, 0));
    }
    if let Some(i) = reds.iter().position(|&red| red >= cycle) {
        return Err((5, place(i)));
    }
    if let Some(i) = (0..n).find(|&i| distances[i] > 20_000_000 || i > 0 && distances[i] <= distances[i - 1]) {
        return Err((6, place(i)));
    }
    let off = |speed: &u32| !(1_000..=40_000).contains(speed);
    match out.iter().zip(back).position(|(out, back)| off(out) || off(back)) {
        Some(i) => Err((7, place(i))),
        None => Ok(()),
    }
}

/// A link's ticks in one direction, and whether the exact time was whole: both from the remainder of one division.
fn link_time(length: u32, speed: u32) -> (u32, bool) {
    let tenths = 10 * length;
    let quotient = tenths / speed;
    let rest = tenths - quotient * speed;
    (quotient + u32::from(2 * rest >= speed), rest == 0)
}

impl Street {
    pub fn new(
        cycle: u32,
        reds: &[u32],
        distances: &[u32],
        out: &[u32],
        back: &[u32],
        lent: usize,
    ) -> Result<Street, Refusal> {
        judge(cycle, reds, distances, out, back, lent)?;
        let signals = reds.len();
        let all = [0; MAX_SIGNALS];
        let mut street = Street { signals, cycle, reds: all, out: all, back: all, rounded: 0 };
        street.reds[..signals].copy_from_slice(reds);
        street.fill(distances, out, back);
        Ok(street)
    }

    /// The ticks to each signal and m. Each link's two times are worked out once.
    fn fill(&mut self, distances: &[u32], out: &[u32], back: &[u32]) {
        let (mut there, mut home) = (0, 0);
        let links = distances.windows(2).zip(out).zip(back);
        let entries = self.out[1..].iter_mut().zip(&mut self.back[1..]);
        for (((ends, &out), &back), (to, from)) in links.zip(entries) {
            let length = ends[1] - ends[0];
            let (out_ticks, out_whole) = link_time(length, out);
            let (back_ticks, back_whole) = link_time(length, back);
            there += out_ticks;
            home += back_ticks;
            self.rounded += u32::from(!out_whole || !back_whole);
            *to = there;
            *from = home;
        }
    }
}
