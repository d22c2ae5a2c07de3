//! Streets with numbers set to the ends of their ranges and just past them, alone and several together.

use crate::random::Random;
use crate::sheet::{write, write_counts};
use crate::street::{Street, MAX_DISTANCE, SPEED};

const LARGEST: i64 = 99_999_999;

/// A sheet of the street with one to three numbers moved to the ends of their ranges or past them.
pub fn sheet(random: &mut Random, mut street: Street) -> Vec<u8> {
    if random.one_in(6) {
        return counts(random, &mut street);
    }
    for _ in 0..random.within(1, 3) {
        match random.below(7) {
            0 => street.cycle = random.pick(&[0, 1, 9, 10, 11, 5_999, 6_000, 6_001, LARGEST]),
            1 | 2 => red(random, &mut street),
            3 | 4 => distance(random, &mut street),
            _ => speed(random, &mut street),
        }
    }
    write(&street)
}

/// A signal or link: the first, the last or any.
fn place(random: &mut Random, count: usize) -> usize {
    let any = random.below(count);
    random.pick(&[0, count - 1, any])
}

fn red(random: &mut Random, street: &mut Street) {
    let k = place(random, street.signals());
    let cycle = street.cycle;
    street.reds[k] = random.pick(&[0, 1, (cycle - 1).max(0), cycle, cycle + 1, LARGEST]).min(LARGEST);
}

fn distance(random: &mut Random, street: &mut Street) {
    let k = place(random, street.signals());
    let before = if k > 0 { street.distances[k - 1] } else { 0 };
    let near = [before, before + 1, (before - 1).max(0)];
    let far = [MAX_DISTANCE - 1, MAX_DISTANCE, MAX_DISTANCE + 1, LARGEST, 0, 1];
    street.distances[k] = if random.one_in(2) { random.pick(&near) } else { random.pick(&far) };
}

fn speed(random: &mut Random, street: &mut Street) {
    if street.outbound.is_empty() {
        return;
    }
    let k = place(random, street.outbound.len());
    let value =
        random.pick(&[0, 1, SPEED.0 - 1, SPEED.0, SPEED.0 + 1, SPEED.1 - 1, SPEED.1, SPEED.1 + 1, LARGEST]);
    let column = if random.one_in(2) { &mut street.outbound } else { &mut street.inbound };
    column[k] = value;
}

/// A sheet whose counts are not those of a street: none, too many, or not those of its lists.
fn counts(random: &mut Random, street: &mut Street) -> Vec<u8> {
    let (n, links) = (street.signals(), street.outbound.len());
    match random.below(6) {
        0 => write_counts(street, 0, links),
        1 => write_counts(street, n, random.pick(&[n, n + 1, LARGEST as usize])),
        2 => write_counts(street, n, if links > 0 { random.pick(&[0, links - 1]) } else { 1 }),
        3 => write_counts(street, random.pick(&[n - 1, n + 1]), links),
        4 => write_counts(street, random.pick(&[33, 34, 64, 256, LARGEST as usize]), links),
        _ => {
            lengthen(street, random.within(33, 40) as usize);
            write(street)
        }
    }
}

/// Makes the street one of `n` signals, more than a street may have, with lists to match.
fn lengthen(street: &mut Street, n: usize) {
    while street.signals() < n {
        let last = street.signals() - 1;
        street.reds.push(street.reds[last]);
        street.distances.push(street.distances[last] + 1);
        street.outbound.push(SPEED.0);
        street.inbound.push(SPEED.1);
    }
}
