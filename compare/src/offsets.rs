//! Offsets to be measured, of every kind that the rules tell apart, and lists of them that are refused.

use crate::equal::equal;
use crate::random::Random;
use crate::street::{Street, Times, MAX_SIGNALS};

/// The greatest number on a request line.
pub const LARGEST: i64 = (1 << 32) - 1;

/// Offsets of a street that no check refuses: any, a plan's own, a plan turned and shaken, or a wave.
pub fn offsets(random: &mut Random, street: &Street) -> Vec<i64> {
    match random.below(8) {
        0 => street.reds.iter().map(|_| random.within(0, street.halves() - 1)).collect(),
        1 => planned(street),
        2 => shaken(random, street, planned(street)),
        _ => wave(random, street),
    }
}

fn planned(street: &Street) -> Vec<i64> {
    equal(street, MAX_SIGNALS).expect("the street has a plan").offsets
}

/// The offsets turned round the cycle together, and each moved a little.
fn shaken(random: &mut Random, street: &Street, offsets: Vec<i64>) -> Vec<i64> {
    let halves = street.halves();
    let (turn, spread) = (random.within(0, halves - 1), random.pick(&[0, 0, 0, 1, halves / 40]));
    offsets.iter().map(|offset| (offset + turn + random.within(-spread, spread)).rem_euclid(halves)).collect()
}

/// Reds that follow the cars of one direction, some of them a part of the cycle later, so that stretches tie.
fn wave(random: &mut Random, street: &Street) -> Vec<i64> {
    let times = Times::of(street);
    let (outwards, parts) = (random.one_in(2), random.pick(&[1, 1, 2, 2, 3, 4]));
    let later = |j: usize, random: &mut Random| {
        let lag = if outwards { times.t(0, j) } else { times.back(street.signals() - 1, j) };
        2 * lag + street.halves() * random.within(0, parts - 1) / parts
    };
    let offsets = (0..street.signals()).map(|j| later(j, random)).collect();
    shaken(random, street, offsets)
}

/// Now and then a list that is refused: of another length, or with offsets of a whole cycle and above.
pub fn list(random: &mut Random, street: &Street) -> Vec<i64> {
    let mut offsets = offsets(random, street);
    match random.below(10) {
        0 => {
            let n = offsets.len();
            let any = random.below(65);
            offsets.resize(random.pick(&[0, n - 1, n + 1, 32, 33, any]), 0);
        }
        1 => {
            for _ in 0..random.within(1, 3) {
                let k = random.below(offsets.len());
                let halves = street.halves();
                offsets[k] = random.pick(&[halves - 1, halves, halves + 1, 2 * halves, LARGEST]);
            }
        }
        _ => {}
    }
    offsets
}

/// The request that asks to measure offsets.
pub fn request(offsets: &[i64]) -> String {
    offsets.iter().fold("measure".to_string(), |line, offset| format!("{line} {offset}"))
}

/// Every list of as many offsets as the street has signals.
pub fn every(street: &Street) -> impl Iterator<Item = Vec<i64>> {
    let (halves, n) = (street.halves(), street.signals() as u32);
    (0..halves.pow(n)).map(move |code| (0..n).map(|j| code / halves.pow(j) % halves).collect())
}
