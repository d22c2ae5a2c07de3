//! The streets that are timed: pseudo-random, the same in every run, and none that a check refuses.

use crate::calls::{Calls, LARGEST_SHEET, MAX_SIGNALS};
use crate::plain::{range, Plain};

pub const SIGNALS: [usize; 4] = [1, 2, 10, 32];
pub const CYCLES: [u32; 3] = [10, 650, 6_000];
/// The cycle of the tables that have but one.
pub const CYCLE: u32 = 650;
pub const REDS: [Reds; 2] = [Reds::Tight, Reds::Wide];
/// How many streets there are of every kind.
pub const STREETS: usize = 8;

/// Tight reds are 80 to 95 % of the cycle, wide ones 5 to 20 %.
#[derive(Clone, Copy, Debug, PartialEq)]
pub enum Reds {
    Tight,
    Wide,
}

impl Reds {
    pub fn name(self) -> &'static str {
        match self {
            Reds::Tight => "tight",
            Reds::Wide => "wide",
        }
    }

    /// The least and the greatest red, rounded to whole ticks inward, but never to none.
    fn range(self, cycle: u32) -> (u32, u32) {
        let (low, high) = match self {
            Reds::Tight => (80, 95),
            Reds::Wide => (5, 20),
        };
        ((cycle * low + 99) / 100, cycle * high / 100)
    }
}

/// A street as lists and as a sheet, the width that a moved plan asks for, the offsets to measure, and the lent lists,
/// one of offsets and one of bytes.
#[derive(Clone, Debug)]
pub struct Case {
    pub cycle: u32,
    pub reds: Vec<u32>,
    pub distances: Vec<u32>,
    pub out: Vec<u32>,
    pub back: Vec<u32>,
    pub sheet: Vec<u8>,
    pub width: u32,
    pub measured: Vec<u32>,
    pub lent: Vec<u32>,
    pub bytes: Vec<u8>,
}

/// The generator SplitMix64.
pub struct Random(pub u64);

impl Random {
    fn next(&mut self) -> u64 {
        self.0 = self.0.wrapping_add(0x9e37_79b9_7f4a_7c15);
        let x = (self.0 ^ self.0 >> 30).wrapping_mul(0xbf58_476d_1ce4_e5b9);
        let y = (x ^ x >> 27).wrapping_mul(0x94d0_49bb_1331_11eb);
        y ^ y >> 31
    }

    /// A number from `low` to `high`.
    pub fn within(&mut self, low: u32, high: u32) -> u32 {
        low + (self.next() % u64::from(high - low + 1)) as u32
    }

    fn list(&mut self, count: usize, low: u32, high: u32) -> Vec<u32> {
        (0..count).map(|_| self.within(low, high)).collect()
    }
}

impl Case {
    fn new(random: &mut Random, signals: usize, cycle: u32, reds: Reds) -> Case {
        let (low, high) = reds.range(cycle);
        let mut at = random.within(0, 100_000);
        let mut distances = vec![at];
        for _ in 1..signals {
            at += random.within(50_000, 600_000);
            distances.push(at);
        }
        let mut case = Case {
            cycle,
            reds: random.list(signals, low, high),
            distances,
            out: random.list(signals - 1, 8_000, 20_000),
            back: random.list(signals - 1, 8_000, 20_000),
            sheet: Vec::new(),
            width: 0,
            measured: Vec::new(),
            lent: vec![0; MAX_SIGNALS],
            // No sheet has a byte 7, so one that a call leaves alone shows.
            bytes: vec![7; LARGEST_SHEET],
        };
        case.complete();
        case
    }

    /// Works out what the calls need besides the lists: the sheet, the middle of the range of widths, equal offsets.
    pub fn complete(&mut self) {
        let mut sheet = vec![0; LARGEST_SHEET];
        let writing = Plain::write(self.cycle, &self.reds, &self.distances, &self.out, &self.back, &mut sheet);
        sheet.truncate(writing.count);
        self.sheet = sheet;
        let (least, most) = range(self);
        self.width = ((least + most) / 2) as u32;
        let mut offsets = vec![0; self.reds.len()];
        Plain::equal(self.cycle, &self.reds, &self.distances, &self.out, &self.back, &mut offsets);
        self.measured = offsets;
    }
}

/// The streets of one kind.
pub fn streets(signals: usize, cycle: u32, reds: Reds) -> Vec<Case> {
    let mut random = Random(signals as u64 * 1_000_000 + u64::from(cycle) * 10 + reds as u64);
    (0..STREETS).map(|_| Case::new(&mut random, signals, cycle, reds)).collect()
}
