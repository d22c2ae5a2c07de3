//! The equal plan: u, the widths of the pairs, b(i), B, the reference, the phases and the offsets.

use crate::street::{Refusal, Street, Times};

/// A plan's reply and the offsets that it writes; the reference counts from 1.
#[derive(Clone, Debug, PartialEq)]
pub struct Plan {
    pub reference: i64,
    pub best: i64,
    pub outbound: i64,
    pub inbound: i64,
    pub not_whole: i64,
    pub offsets: Vec<i64>,
}

/// A street that no check refuses, with its times, as the formulas read it.
pub struct Pairs<'a> {
    street: &'a Street,
    times: Times,
}

impl<'a> Pairs<'a> {
    pub fn of(street: &'a Street) -> Pairs<'a> {
        Pairs { street, times: Times::of(street) }
    }

    fn phases(&self) -> [i64; 2] {
        [0, self.street.cycle]
    }

    pub fn u(&self, i: usize, j: usize, phase: i64) -> i64 {
        let reds = &self.street.reds;
        let lag = reds[i] - reds[j] + self.times.t(i, j) - self.times.back(i, j) - phase;
        self.street.halves() - lag.rem_euclid(self.street.halves())
    }

    fn width(&self, i: usize, j: usize, phase: i64) -> i64 {
        self.u(i, j, phase) - 2 * self.street.reds[j]
    }

    /// b(i) for each of some signals, with the same signals as limits.
    fn leasts_among(&self, signals: &[usize]) -> Vec<i64> {
        let better = |i, j| self.phases().map(|e| self.width(i, j, e)).into_iter().max().unwrap();
        signals.iter().map(|&i| signals.iter().map(|&j| better(i, j)).min().unwrap()).collect()
    }

    /// b(i), for every i that has a red.
    pub fn leasts(&self) -> Vec<i64> {
        self.leasts_among(&self.street.stopping())
    }

    /// Whether some trajectory between two reds touches, so that its u is the whole cycle.
    pub fn touches(&self) -> bool {
        let stopping = self.street.stopping();
        let touch = |i, j| self.phases().into_iter().any(|e| self.u(i, j, e) == self.street.halves());
        stopping.iter().any(|&i| stopping.iter().any(|&j| i != j && touch(i, j)))
    }

    /// The first of some signals whose b among them is the greatest, and that b; nothing where there is no signal.
    fn best_among(&self, signals: &[usize]) -> Option<(usize, i64)> {
        let leasts = self.leasts_among(signals);
        let best = *leasts.iter().max()?;
        let at = leasts.iter().position(|&least| least == best)?;
        Some((signals[at], best))
    }

    /// The reference, counted from 0, and B. A signal that rests in green is no candidate and no limit; where all do,
    /// the first signal is the reference, and B is the whole cycle.
    pub fn reference(&self) -> (usize, i64) {
        self.best_among(&self.street.stopping()).unwrap_or((0, self.street.halves()))
    }

    /// The same by the formula as the paper prints it, with every signal as candidate and limit: a red of no length cuts
    /// the band there.
    pub fn papers_reference(&self) -> (usize, i64) {
        let all: Vec<usize> = (0..self.street.signals()).collect();
        self.best_among(&all).expect("a street has a signal")
    }

    /// The better phase, 0 on a tie and at a signal that rests in green.
    fn phase(&self, i: usize, j: usize) -> i64 {
        let [none, half] = self.phases();
        if !self.street.rests(j) && self.width(i, j, half) > self.width(i, j, none) {
            half
        } else {
            none
        }
    }

    /// u(j): the u of signal j's phase.
    pub fn chosen(&self, c: usize, j: usize) -> i64 {
        self.u(c, j, self.phase(c, j))
    }

    fn offset(&self, c: usize, j: usize) -> i64 {
        (self.times.t(c, j) + self.times.back(c, j) + self.phase(c, j)).rem_euclid(self.street.halves())
    }
}

/// The equal plan of a street with a lent list of `room` entries, or the first fault.
pub fn equal(street: &Street, room: usize) -> Result<Plan, Refusal> {
    if let Some(refusal) = street.fault(room) {
        return Err(refusal);
    }
    let pairs = Pairs::of(street);
    let (c, best) = pairs.reference();
    Ok(Plan {
        reference: c as i64 + 1,
        best,
        outbound: best.max(0),
        inbound: best.max(0),
        not_whole: pairs.times.not_whole,
        offsets: (0..street.signals()).map(|j| pairs.offset(c, j)).collect(),
    })
}
