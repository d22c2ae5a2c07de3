//! What plans are asked for at random: widths in their range, at its ends and past them, platoons of every branch, and
//! volumes that come to such platoons or stand at an end of their own.

use crate::cases::LARGEST_ROOM;
use crate::equal::Pairs;
use crate::moved::{shortest_green, Ask, MAX_PLATOON};
use crate::offsets::LARGEST;
use crate::random::Random;
use crate::street::Street;
use crate::volumes::{largest, HEADWAY, MAX_VOLUME, PER_HALF};

/// A request about a street that no check refuses.
pub fn ask(random: &mut Random, street: &Street) -> Ask {
    let (_, best) = Pairs::of(street).reference();
    let g = shortest_green(street);
    match random.below(5) {
        0 => Ask::Outbound(width(random, best, g)),
        1 => Ask::Inbound(width(random, best, g)),
        _ => {
            let (out, back) = platoons(random, best, g);
            Ask::Platoons(out, back)
        }
    }
}

/// A request for volumes, about a street that no check refuses.
pub fn volumes(random: &mut Random, street: &Street) -> Ask {
    let (out, back, headway) = match random.below(8) {
        0 => at_the_ends(random),
        1 => at_multiples(random, street.cycle),
        2 => about_the_longest(random, street.cycle),
        _ => for_platoons(random, street),
    };
    Ask::Volumes(out, back, headway)
}

/// A request of any kind, about a street that no check refuses.
pub fn any(random: &mut Random, street: &Street) -> Ask {
    match random.below(6) {
        0 => Ask::Equal,
        1 => volumes(random, street),
        _ => ask(random, street),
    }
}

/// Now and then the words that name the length of the list that is lent for a plan.
pub fn room(random: &mut Random, street: &Street) -> String {
    if !random.one_in(8) {
        return String::new();
    }
    let (n, any) = (street.signals(), random.below(LARGEST_ROOM + 1));
    format!(" room {}", random.pick(&[0, n - 1, n, LARGEST_ROOM, any]))
}

fn width(random: &mut Random, best: i64, g: i64) -> i64 {
    if random.one_in(3) {
        return random.within(best.max(1), g);
    }
    let past = random.pick(&[g + 1, g + 2, 2 * g, LARGEST - 1, LARGEST]);
    random
        .pick(&[0, 1, best - 1, best, best + 1, 2 * best - 1, 2 * best, 2 * best + 1, g - 1, g, past])
        .max(0)
}

fn platoons(random: &mut Random, best: i64, g: i64) -> (i64, i64) {
    let twice = 2 * best.max(0);
    let (out, back) = match random.below(9) {
        _ if 0 < twice && twice < g && random.one_in(2) => beside_little(random, twice),
        0 => {
            let any = random.within(0, twice + g);
            [(0, 0), (any, any), (MAX_PLATOON, MAX_PLATOON)][random.below(3)]
        }
        1 => split(random, twice),
        2 => split(random, twice + 1),
        3 => {
            let sum = random.within(1, twice);
            split(random, sum)
        }
        4 | 5 => (edge(random, best, g), edge(random, best, g)),
        6 => (random.within(0, MAX_PLATOON), random.within(0, MAX_PLATOON)),
        _ => (random.within(0, 2 * g), random.within(0, 2 * g)),
    };
    if random.one_in(2) {
        (out, back)
    } else {
        (back, out)
    }
}

/// Two platoons of the given sum, some with nothing on one side, some nearly alike.
fn split(random: &mut Random, sum: i64) -> (i64, i64) {
    let (any, near) = (random.within(0, sum), random.within(3 * sum / 8, sum / 2));
    let one = random.pick(&[0, any, any, near, near, sum / 2, (sum / 2 - 1).max(0)]);
    (one, sum - one)
}

/// A platoon of at most 2B or just above it, beside none or one of a single half.
fn beside_little(random: &mut Random, twice: i64) -> (i64, i64) {
    let any = random.within(1, twice);
    (random.pick(&[any, twice - 1, twice - 1, twice, twice + 1]), random.pick(&[0, 0, 1]))
}

fn edge(random: &mut Random, best: i64, g: i64) -> i64 {
    let far = random.pick(&[MAX_PLATOON - 1, MAX_PLATOON, MAX_PLATOON + 1, LARGEST]);
    random
        .pick(&[0, 1, best - 1, best, best + 1, 2 * best - 1, 2 * best, g - 1, g, g + 1, far, far, far])
        .max(0)
}

/// Volumes and a headway at the ends of their ranges and past them.
fn at_the_ends(random: &mut Random) -> (i64, i64, i64) {
    let volume = |random: &mut Random| {
        random.pick(&[0, 1, MAX_VOLUME - 1, MAX_VOLUME, MAX_VOLUME, MAX_VOLUME + 1, LARGEST])
    };
    let headway = random.pick(&[0, 1, 2, 20, 99, 100, 101, LARGEST]);
    (volume(random), volume(random), headway)
}

/// Volumes for which V*C*h is a multiple of 18,000 or one off, where some are; else any.
fn at_multiples(random: &mut Random, cycle: i64) -> (i64, i64, i64) {
    let any = random.within(HEADWAY.0, HEADWAY.1);
    let headway = random.pick(&[1, 7, 20, 77, 91, any]);
    let one_off_at_most = |volume: &i64| (volume * cycle * headway + 1) % PER_HALF <= 2;
    let found: Vec<i64> = (1..=MAX_VOLUME).filter(one_off_at_most).collect();
    let mut volume = || if found.is_empty() { random.within(0, MAX_VOLUME) } else { random.pick(&found) };
    (volume(), volume(), headway)
}

/// Volumes whose platoons are about as long as any may be, where the cycle is long enough for such.
fn about_the_longest(random: &mut Random, cycle: i64) -> (i64, i64, i64) {
    let any = random.within(HEADWAY.0, HEADWAY.1);
    let headway = random.pick(&[HEADWAY.1, HEADWAY.1, 75, 50, any]);
    let most = largest(MAX_PLATOON, cycle, headway);
    let mut volume = || random.pick(&[0, most - 1, most, most, most + 1]);
    (volume(), volume(), headway)
}

/// Volumes that come to platoons of every branch, or close to them. Where C*h is at most 18,000, each platoon that
/// 10,000 vehicles do not exceed is that of some volume.
fn for_platoons(random: &mut Random, street: &Street) -> (i64, i64, i64) {
    let (_, best) = Pairs::of(street).reference();
    let (out, back) = platoons(random, best, shortest_green(street));
    let (any, fine) = (random.within(HEADWAY.0, HEADWAY.1), (PER_HALF / street.cycle).min(HEADWAY.1));
    let headway = random.pick(&[fine, fine, fine, 20, any]);
    let mut volume = |platoon: i64| {
        let most = largest(platoon, street.cycle, headway);
        let shorter = if platoon > 0 { largest(platoon - 1, street.cycle, headway) } else { -1 };
        random.within((shorter + 1).min(most), most)
    };
    (volume(out), volume(back), headway)
}
