//! The measure of given offsets, by trying every departure, with its checks in the order of the codes.

use crate::street::{first, refusal, Refusal, Street, Times};

/// The width of a direction's band and the smallest start that attains it.
#[derive(Clone, Copy, Debug, PartialEq)]
pub struct Band {
    pub width: i64,
    pub start: i64,
}

fn red(instant: i64, offset: i64, red: i64, halves: i64) -> bool {
    (instant - (offset - red)).rem_euclid(halves) < 2 * red
}

/// The length of the unbroken stretch of clear departures from each start, round the cycle and at most once.
pub fn stretches(clear: &[bool]) -> Vec<i64> {
    let halves = clear.len();
    let (mut lengths, mut length) = (vec![0; halves], 0);
    // The second time round, a stretch over the end of the cycle is known as a whole.
    for start in (0..halves).rev().chain((0..halves).rev()) {
        length = if clear[start] { (length + 1).min(halves as i64) } else { 0 };
        lengths[start] = length;
    }
    lengths
}

/// Whether a departure meets no red, given each signal's lag in ticks behind the place where it is counted.
pub fn clear(street: &Street, offsets: &[i64], lags: &[i64], departure: i64) -> bool {
    let at = |j: usize| departure + 2 * lags[j];
    (0..lags.len()).all(|j| !red(at(j), offsets[j], street.reds[j], street.halves()))
}

/// The stretches of one direction, given each signal's lag behind the signal where cars enter.
fn direction(street: &Street, offsets: &[i64], lags: &[i64]) -> Vec<i64> {
    let clear: Vec<bool> =
        (0..street.halves()).map(|departure| clear(street, offsets, lags, departure)).collect();
    stretches(&clear)
}

/// The stretches from each start: outbound ones at signal 1, inbound ones at signal n.
pub fn directions(street: &Street, offsets: &[i64]) -> [Vec<i64>; 2] {
    let times = Times::of(street);
    let last = street.signals() - 1;
    let out: Vec<i64> = (0..=last).map(|j| times.t(0, j)).collect();
    let back: Vec<i64> = (0..=last).map(|j| times.back(last, j)).collect();
    [direction(street, offsets, &out), direction(street, offsets, &back)]
}

/// The longest of one direction's stretches and the smallest start that attains it.
pub fn longest(lengths: &[i64]) -> Band {
    let width = *lengths.iter().max().expect("a cycle has an instant");
    let start = lengths.iter().position(|&length| length == width).expect("a longest stretch starts");
    Band { width, start: start as i64 }
}

/// The outbound band, from signal 1, and the inbound band, from signal n.
pub fn measure(street: &Street, offsets: &[i64]) -> (Band, Band) {
    let [out, back] = directions(street, offsets);
    (longest(&out), longest(&back))
}

/// The first fault of what is to be measured, in the order of the codes.
pub fn measure_fault(street: &Street, offsets: &[i64]) -> Option<Refusal> {
    let outside = |k: usize| !(0..street.halves()).contains(&offsets[k]);
    street
        .count_fault()
        .or_else(|| (offsets.len() != street.signals()).then(|| refusal(2, 0)))
        .or_else(|| street.range_fault())
        .or_else(|| first(offsets.len(), outside).map(|place| refusal(10, place)))
}

/// The bands of a street under any list of offsets, or the first fault.
pub fn measured(street: &Street, offsets: &[i64]) -> Result<(Band, Band), Refusal> {
    match measure_fault(street, offsets) {
        Some(refusal) => Err(refusal),
        None => Ok(measure(street, offsets)),
    }
}
