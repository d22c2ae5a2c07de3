//! Random streets that no check refuses, of every kind that the rules tell apart.

use crate::random::Random;
use crate::resting::{rest, RESTING};
use crate::seconds::TICKS;
use crate::street::{Street, CYCLE, MAX_DISTANCE, MAX_SIGNALS, SPEED};

pub fn street(random: &mut Random) -> Street {
    any(random, |cycle| cycle)
}

/// Such a street with a cycle of whole seconds, made the longer one where it was drawn between two.
pub fn in_seconds(random: &mut Random) -> Street {
    any(random, |cycle| (cycle + TICKS - 1) / TICKS * TICKS)
}

/// A street whose cycle, once drawn, is fitted to what is wanted of it.
fn any(random: &mut Random, fit: fn(i64) -> i64) -> Street {
    match random.below(6) {
        0 => even(random, fit),
        1 => touching(random, fit),
        _ => mixed(random, fit),
    }
}

/// A street of the given size, of any kind.
pub fn sized(random: &mut Random, n: usize, cycle: i64) -> Street {
    let (outbound, inbound) = speeds(random, n - 1);
    Street { cycle, reds: reds(random, n, cycle), distances: distances(random, n), outbound, inbound }
}

/// The street with every number at the greatest that the limits allow, whose sheet is the longest.
pub fn greatest() -> Street {
    let (n, links) = (MAX_SIGNALS as i64, MAX_SIGNALS - 1);
    Street {
        cycle: CYCLE.1,
        reds: vec![CYCLE.1 - 1; MAX_SIGNALS],
        distances: (MAX_DISTANCE - n + 1..=MAX_DISTANCE).collect(),
        outbound: vec![SPEED.1; links],
        inbound: vec![SPEED.1; links],
    }
}

/// A street whose numbers have as many digits as the greatest have.
pub fn most_digits(random: &mut Random, n: usize) -> Street {
    let (cycle, step) = (random.within(1_001, CYCLE.1), (MAX_DISTANCE - 10_000_000) / n as i64);
    let mut speeds = || (1..n).map(|_| random.within(10_000, SPEED.1)).collect::<Vec<i64>>();
    let (outbound, inbound) = (speeds(), speeds());
    let reds = (0..n).map(|_| random.within(1_000, cycle - 1)).collect();
    let along = |k: i64| 10_000_000 + k * step - random.within(0, step - 1);
    Street { cycle, reds, distances: (1..=n as i64).map(along).collect(), outbound, inbound }
}

/// A street of at most ten signals whose numbers have as few digits as the least have.
pub fn fewest_digits(random: &mut Random, n: usize) -> Street {
    let mut speeds = || (1..n).map(|_| random.within(SPEED.0, 9_999)).collect::<Vec<i64>>();
    let (outbound, inbound) = (speeds(), speeds());
    let reds = (0..n).map(|_| random.within(0, 9)).collect();
    Street { cycle: random.within(CYCLE.0, 99), reds, distances: (0..n as i64).collect(), outbound, inbound }
}

fn signals(random: &mut Random) -> usize {
    match random.below(10) {
        0 => 1,
        1 => 2,
        2 => 32,
        3 | 4 => random.within(20, 32) as usize,
        _ => random.within(1, 32) as usize,
    }
}

fn cycle(random: &mut Random) -> i64 {
    match random.below(6) {
        0 => 10,
        1 => 6_000,
        2 => random.within(11, 30),
        3 => 100 * random.within(5, 15),
        4 => random.within(50, 300),
        _ => random.within(10, 6_000),
    }
}

/// The reds, now and then of a street where signals rest in green.
fn some_at_rest(random: &mut Random, mut reds: Vec<i64>) -> Vec<i64> {
    if random.one_in(5) {
        let which = random.pick(&RESTING);
        rest(random, &mut reds, which);
    }
    reds
}

/// One red each, by one style for the whole street: equal, wide, short, about half, at the ends, or any.
fn reds(random: &mut Random, n: usize, cycle: i64) -> Vec<i64> {
    let (style, same) = (random.below(6), random.within(1, cycle - 1));
    let one = |_| match style {
        0 => same,
        1 => cycle - random.within(1, cycle / 8),
        2 => random.within(1, cycle / 8),
        3 => cycle / 2 + random.within(-cycle / 8, cycle / 8),
        4 => random.pick(&[0, 1, cycle - 1]),
        _ => random.within(1, cycle - 1),
    };
    let reds = (0..n).map(one).collect();
    some_at_rest(random, reds)
}

/// Distances from gaps of one style: a few millimetres, a block, one length, whole multiples, or the longest street.
fn distances(random: &mut Random, n: usize) -> Vec<i64> {
    if random.one_in(6) {
        return longest(random, n);
    }
    let (style, same) = (random.below(4), random.within(1, 600_000));
    let mut along = vec![0];
    for k in 1..n {
        let gap = match style {
            0 => random.within(1, 120),
            1 => random.within(50_000, 600_000),
            2 => same,
            _ => 4_000 * random.within(1, 150),
        };
        along.push(along[k - 1] + gap);
    }
    let spare = MAX_DISTANCE - along[n - 1];
    let start = random.pick(&[0, 1, spare]).min(spare);
    along.into_iter().map(|distance| start + distance).collect()
}

/// A street that ends at the greatest distance, its signals anywhere before.
fn longest(random: &mut Random, n: usize) -> Vec<i64> {
    let step = MAX_DISTANCE / n as i64;
    let spread = |k: i64, random: &mut Random| k * step + random.within(0, step - 1);
    let mut along: Vec<i64> = (0..n as i64).map(|k| spread(k, random)).collect();
    along[n - 1] = MAX_DISTANCE;
    along
}

/// Speeds of both directions by one style: one speed, one for each direction, the ends, whole times, or any.
fn speeds(random: &mut Random, links: usize) -> (Vec<i64>, Vec<i64>) {
    let any = |random: &mut Random| random.within(SPEED.0, SPEED.1);
    let (style, one, other) = (random.below(5), any(random), any(random));
    let mut speed = |fixed: i64| match style {
        0 => one,
        1 => fixed,
        2 => random.pick(&[SPEED.0, SPEED.1]),
        3 => random.pick(&[1_000, 2_000, 4_000, 5_000, 8_000, 10_000, 20_000, 40_000]),
        _ => any(random),
    };
    ((0..links).map(|_| speed(one)).collect(), (0..links).map(|_| speed(other)).collect())
}

fn mixed(random: &mut Random, fit: fn(i64) -> i64) -> Street {
    let n = signals(random);
    let cycle = fit(cycle(random));
    sized(random, n, cycle)
}

/// The same red and the same link everywhere, so that candidates tie.
fn even(random: &mut Random, fit: fn(i64) -> i64) -> Street {
    let n = signals(random);
    let cycle = fit(cycle(random));
    let red = random.within(1, cycle - 1);
    let gap = 100 * random.within(1, 6_000);
    let speed = random.pick(&[1_000, 10_000, 12_500, 40_000]);
    Street {
        cycle,
        reds: some_at_rest(random, vec![red; n]),
        distances: (0..n as i64).map(|k| k * gap).collect(),
        outbound: vec![speed; n - 1],
        inbound: vec![speed; n - 1],
    }
}

/// Whole times chosen so that neighbours touch: the remainder in u is 0 under one of the phases.
fn touching(random: &mut Random, fit: fn(i64) -> i64) -> Street {
    let n = signals(random);
    let cycle = fit(random.within(10, 200));
    let reds = reds(random, n, cycle);
    let mut street = Street { cycle, reds, distances: vec![0], outbound: vec![], inbound: vec![] };
    for k in 1..n {
        let phase = random.pick(&[0, cycle]);
        let there_and_back = (street.reds[k] - street.reds[k - 1] + phase).rem_euclid(2 * cycle);
        let near = random.pick(&[0, 0, 0, 1, -1]);
        add_link(random, &mut street, there_and_back + 2 * cycle + near);
    }
    street
}

/// Adds a link whose two times are whole and add up to the given ticks.
fn add_link(random: &mut Random, street: &mut Street, there_and_back: i64) {
    let out = random.within(there_and_back / 4 + 1, 3 * there_and_back / 4);
    let back = there_and_back - out;
    // A length of out * back * scale at 10 * back * scale takes exactly out, and the other way exactly back.
    let scale = 100 / out.min(back) + 1;
    street.distances.push(street.distances[street.distances.len() - 1] + out * back * scale);
    street.outbound.push(10 * back * scale);
    street.inbound.push(10 * out * scale);
}
