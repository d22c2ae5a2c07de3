//! The street: its limits, the checks in the order of their codes, and its travel times.

pub const MAX_SIGNALS: usize = 32;
pub const CYCLE: (i64, i64) = (10, 6_000);
pub const MAX_DISTANCE: i64 = 20_000_000;
pub const SPEED: (i64, i64) = (1_000, 40_000);

/// The numbers of a street in the sheet's units: ticks, millimetres and millimetres a second.
#[derive(Clone, Debug, PartialEq)]
pub struct Street {
    pub cycle: i64,
    pub reds: Vec<i64>,
    pub distances: Vec<i64>,
    pub outbound: Vec<i64>,
    pub inbound: Vec<i64>,
}

/// A code and the place of the first fault, 0 where the code has none.
#[derive(Clone, Copy, Debug, PartialEq)]
pub struct Refusal {
    pub code: i64,
    pub place: i64,
}

pub fn refusal(code: i64, place: i64) -> Refusal {
    Refusal { code, place }
}

pub fn outside(value: i64, range: (i64, i64)) -> bool {
    value < range.0 || value > range.1
}

/// The place, from 1, of the first index that is at fault.
pub fn first(count: usize, at_fault: impl Fn(usize) -> bool) -> Option<i64> {
    (0..count).find(|&k| at_fault(k)).map(|k| k as i64 + 1)
}

impl Street {
    pub fn signals(&self) -> usize {
        self.reds.len()
    }

    /// The cycle in halves.
    pub fn halves(&self) -> i64 {
        2 * self.cycle
    }

    /// Whether a signal, counted from 0, rests in green: its red has no length.
    pub fn rests(&self, j: usize) -> bool {
        self.reds[j] == 0
    }

    /// The signals that have a red, counted from 0.
    pub fn stopping(&self) -> Vec<usize> {
        (0..self.signals()).filter(|&j| !self.rests(j)).collect()
    }

    /// The first fault of a plan's input in the order of the codes, with a lent list of `room` entries.
    pub fn fault(&self, room: usize) -> Option<Refusal> {
        self.opening_fault(room).or_else(|| self.number_fault())
    }

    /// The first of these faults that lies in a count, in the lent list's length or in the cycle.
    pub fn opening_fault(&self, room: usize) -> Option<Refusal> {
        self.count_fault()
            .or_else(|| (room < self.signals()).then(|| refusal(3, 0)))
            .or_else(|| self.cycle_fault())
    }

    /// The first number outside its range, where the lists have the lengths of a street.
    pub fn range_fault(&self) -> Option<Refusal> {
        self.cycle_fault().or_else(|| self.number_fault())
    }

    /// The first such number but the cycle.
    fn number_fault(&self) -> Option<Refusal> {
        self.red_fault().or_else(|| self.distance_fault()).or_else(|| self.speed_fault())
    }

    fn cycle_fault(&self) -> Option<Refusal> {
        outside(self.cycle, CYCLE).then(|| refusal(4, 0))
    }

    pub fn count_fault(&self) -> Option<Refusal> {
        let n = self.signals();
        let bad = !(1..=MAX_SIGNALS).contains(&n)
            || self.distances.len() != n
            || self.outbound.len() != n - 1
            || self.inbound.len() != n - 1;
        bad.then(|| refusal(2, 0))
    }

    fn red_fault(&self) -> Option<Refusal> {
        first(self.signals(), |k| outside(self.reds[k], (0, self.cycle - 1))).map(|place| refusal(5, place))
    }

    fn distance_fault(&self) -> Option<Refusal> {
        let at_fault = |k: usize| {
            let too_far = outside(self.distances[k], (0, MAX_DISTANCE));
            too_far || (k > 0 && self.distances[k] <= self.distances[k - 1])
        };
        first(self.signals(), at_fault).map(|place| refusal(6, place))
    }

    fn speed_fault(&self) -> Option<Refusal> {
        let at_fault = |k: usize| outside(self.outbound[k], SPEED) || outside(self.inbound[k], SPEED);
        first(self.outbound.len(), at_fault).map(|place| refusal(7, place))
    }
}

/// The time of one link in ticks, one half going up, and whether it was whole.
pub fn link_time(gap: i64, speed: i64) -> (i64, bool) {
    ((20 * gap + speed).div_euclid(2 * speed), (10 * gap) % speed == 0)
}

/// The rounded times of the links, and how many links had a time that was not whole.
pub struct Times {
    outbound: Vec<i64>,
    inbound: Vec<i64>,
    pub not_whole: i64,
}

impl Times {
    pub fn of(street: &Street) -> Times {
        let mut times = Times { outbound: vec![], inbound: vec![], not_whole: 0 };
        for k in 1..street.signals() {
            let gap = street.distances[k] - street.distances[k - 1];
            let (out, out_whole) = link_time(gap, street.outbound[k - 1]);
            let (back, back_whole) = link_time(gap, street.inbound[k - 1]);
            times.outbound.push(out);
            times.inbound.push(back);
            times.not_whole += i64::from(!(out_whole && back_whole));
        }
        times
    }

    /// t(i,j): negative when j is before i. Signals count from 0 here.
    pub fn t(&self, i: usize, j: usize) -> i64 {
        if i <= j {
            self.outbound[i..j].iter().sum()
        } else {
            -self.outbound[j..i].iter().sum::<i64>()
        }
    }

    /// t'(i,j): negative when j is after i.
    pub fn back(&self, i: usize, j: usize) -> i64 {
        if i <= j {
            -self.inbound[i..j].iter().sum::<i64>()
        } else {
            self.inbound[j..i].iter().sum()
        }
    }
}
