//! Bands at exact times, counted in a unit so fine that each half and each exact travel time is whole.

use crate::street::Street;

/// A street in the fine unit; each direction's times are sums from signal 1.
pub struct Fine {
    /// How many units make a half.
    pub unit: i128,
    cycle: i128,
    reds: Vec<i128>,
    outbound: Vec<i128>,
    inbound: Vec<i128>,
}

/// No street is counted in more units to the half than this, so that no sum of times leaves its type.
const FINEST: i128 = 1 << 96;

fn common_divisor(a: i128, b: i128) -> i128 {
    if b == 0 {
        a
    } else {
        common_divisor(b, a % b)
    }
}

/// The sums of exact times from signal 1: a link of d mm at v mm/s takes 20d/v halves.
fn sums(gaps: &[i128], speeds: &[i64], unit: i128) -> Vec<i128> {
    let mut sums = vec![0];
    for (gap, &speed) in gaps.iter().zip(speeds) {
        let time = 20 * gap * unit;
        assert_eq!(time % i128::from(speed), 0, "the unit makes every time whole");
        sums.push(sums[sums.len() - 1] + time / i128::from(speed));
    }
    sums
}

impl Fine {
    /// The street in the least such unit, or nothing where that one is too fine to count in.
    pub fn of(street: &Street) -> Option<Fine> {
        let gaps: Vec<i128> = street.distances.windows(2).map(|pair| i128::from(pair[1] - pair[0])).collect();
        let mut unit = 1;
        for (gap, (&out, &back)) in gaps.iter().zip(street.outbound.iter().zip(&street.inbound)) {
            for speed in [i128::from(out), i128::from(back)] {
                let part = speed / common_divisor(speed, 20 * gap);
                unit *= part / common_divisor(part, unit);
            }
            if unit > FINEST {
                return None;
            }
        }
        Some(Fine {
            unit,
            cycle: unit * i128::from(street.halves()),
            reds: street.reds.iter().map(|&red| unit * i128::from(red)).collect(),
            outbound: sums(&gaps, &street.outbound, unit),
            inbound: sums(&gaps, &street.inbound, unit),
        })
    }

    pub fn cycle(&self) -> i128 {
        self.cycle
    }

    pub fn in_units(&self, offsets: &[i64]) -> Vec<i128> {
        offsets.iter().map(|&offset| self.unit * i128::from(offset)).collect()
    }

    /// Each signal's lag behind signal i, outbound and inbound.
    pub fn lags(&self, i: usize) -> [Vec<i128>; 2] {
        let out = self.outbound.iter().map(|time| time - self.outbound[i]).collect();
        let back = self.inbound.iter().map(|time| self.inbound[i] - time).collect();
        [out, back]
    }

    pub fn clear(&self, offsets: &[i128], lags: &[i128], departure: i128) -> bool {
        let since_red_start = |j: usize| departure + lags[j] - (offsets[j] - self.reds[j]);
        (0..lags.len()).all(|j| since_red_start(j).rem_euclid(self.cycle) >= 2 * self.reds[j])
    }

    /// The signals that have a red.
    fn stopping(&self) -> impl Iterator<Item = usize> + '_ {
        (0..self.reds.len()).filter(move |&j| self.reds[j] > 0)
    }

    /// How many departures from one on meet no red, up to the first that does; a whole cycle of them where none does.
    pub fn stretch(&self, offsets: &[i128], lags: &[i128], departure: i128) -> i128 {
        if !self.clear(offsets, lags, departure) {
            return 0;
        }
        let to_red_start =
            |j: usize| (offsets[j] - self.reds[j] - departure - lags[j]).rem_euclid(self.cycle);
        self.stopping().map(to_red_start).min().unwrap_or(self.cycle)
    }

    /// The width of one direction's band: a longest stretch starts where some red ends, and with no red it is the whole
    /// cycle.
    pub fn width(&self, offsets: &[i128], lags: &[i128]) -> i128 {
        let red_end = |j: usize| offsets[j] + self.reds[j] - lags[j];
        self.stopping().map(|j| self.stretch(offsets, lags, red_end(j))).max().unwrap_or(self.cycle)
    }

    /// Both directions' widths, outbound first.
    pub fn widths(&self, offsets: &[i128]) -> [i128; 2] {
        self.lags(0).map(|lags| self.width(offsets, &lags))
    }
}
