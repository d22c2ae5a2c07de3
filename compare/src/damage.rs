//! Sheets damaged in their bytes, lines and counts, some in ways that leave a sheet of another street.

use crate::random::Random;
use crate::sheet::{write, LARGEST_SHEET};
use crate::street::Street;

/// A damaged sheet of the street. About one in a hundred holds a byte 0.
pub fn sheet(random: &mut Random, street: &Street) -> Vec<u8> {
    let mut bytes = write(street);
    if random.one_in(100) {
        let at = random.below(bytes.len() + 1);
        put(random, &mut bytes, at, 0);
        return bytes;
    }
    for _ in 0..random.pick(&[1, 1, 1, 2]) {
        damage(random, &mut bytes);
    }
    bytes
}

fn damage(random: &mut Random, bytes: &mut Vec<u8>) {
    match random.below(12) {
        0 | 1 => one_byte(random, bytes),
        2 => line_ends(random, bytes),
        3 | 4 => a_number(random, bytes),
        5 => spaces(random, bytes),
        6 => lines(random, bytes),
        7 | 8 => a_count(random, bytes),
        9 => bytes.truncate(random.below(bytes.len() + 1)),
        10 => lengthen(random, bytes),
        _ => start(random, bytes),
    }
}

/// Sets or inserts a byte.
fn put(random: &mut Random, bytes: &mut Vec<u8>, at: usize, byte: u8) {
    if at < bytes.len() && random.one_in(2) {
        bytes[at] = byte;
    } else {
        bytes.insert(at, byte);
    }
}

/// A byte of each class: digit, space, line end, sign or other print, control, or above 127. Never 0.
fn any_byte(random: &mut Random) -> u8 {
    match random.below(6) {
        0 => b'0' + random.below(10) as u8,
        1 => b' ',
        2 => 10,
        3 => random.pick(b"+-.,/:xO\"'"),
        4 => random.within(1, 31) as u8,
        _ => random.within(127, 255) as u8,
    }
}

fn one_byte(random: &mut Random, bytes: &mut Vec<u8>) {
    let at = random.below(bytes.len() + 1);
    if random.one_in(3) && at < bytes.len() {
        bytes.remove(at);
    } else {
        let byte = any_byte(random);
        put(random, bytes, at, byte);
    }
}

/// The places of a byte, the end of the bytes standing in where there is none.
fn places(bytes: &[u8], byte: u8) -> Vec<usize> {
    let found: Vec<usize> = (0..bytes.len()).filter(|&k| bytes[k] == byte).collect();
    if found.is_empty() {
        vec![bytes.len()]
    } else {
        found
    }
}

fn replace(bytes: &mut Vec<u8>, at: usize, count: usize, with: &[u8]) {
    let end = (at + count).min(bytes.len());
    bytes.splice(at..end, with.iter().copied());
}

/// Line ends missing, doubled, or with a carriage return.
fn line_ends(random: &mut Random, bytes: &mut Vec<u8>) {
    let at = random.pick(&places(bytes, 10));
    match random.below(7) {
        0 => replace(bytes, at, 1, b""),
        1 => replace(bytes, at, 1, b"\r\n"),
        2 => replace(bytes, at, 1, b"\n\n"),
        3 => replace(bytes, at, 1, b"\r"),
        4 => {
            bytes.pop();
        }
        5 => bytes.push(10),
        _ => {
            *bytes =
                bytes.iter().flat_map(|&byte| if byte == 10 { vec![13, 10] } else { vec![byte] }).collect()
        }
    }
}

/// The start and length of some run of digits.
fn digits(random: &mut Random, bytes: &[u8]) -> (usize, usize) {
    let starts: Vec<usize> = (0..bytes.len())
        .filter(|&k| bytes[k].is_ascii_digit() && (k == 0 || !bytes[k - 1].is_ascii_digit()))
        .collect();
    let at = if starts.is_empty() { 0 } else { random.pick(&starts) };
    (at, bytes[at..].iter().take_while(|byte| byte.is_ascii_digit()).count())
}

/// What is put before a number, or in its place: leading zeros, signs, too many digits, no digits, or the greatest number
/// that the form allows.
const NUMBERS: [(bool, &[u8]); 10] = [
    (false, b"0"),
    (false, b"00"),
    (false, b"-"),
    (false, b"+"),
    (true, b"123456789"),
    (true, b"4294967297"),
    (true, b"100000000"),
    (true, b""),
    (true, b"00000000"),
    (true, b"99999999"),
];

fn a_number(random: &mut Random, bytes: &mut Vec<u8>) {
    let (at, count) = digits(random, bytes);
    let (instead, with) = random.pick(&NUMBERS);
    replace(bytes, at, if instead { count } else { 0 }, with);
}

/// What is put in the place of a space, or of a line end: a space doubled, lost, at a line's start or end, or of another
/// kind.
const SPACES: [(u8, &[u8]); 6] =
    [(b' ', b"  "), (b' ', b""), (b' ', b"\t"), (10, b" \n"), (10, b"\n "), (b' ', &[0xc2, 0xa0])];

fn spaces(random: &mut Random, bytes: &mut Vec<u8>) {
    let (of, with) = random.pick(&SPACES);
    let at = random.pick(&places(bytes, of));
    replace(bytes, at, 1, with);
}

/// A line lost, doubled, with one number more, or two lines changed about.
fn lines(random: &mut Random, bytes: &mut Vec<u8>) {
    let mut lines: Vec<Vec<u8>> = bytes.split_inclusive(|&byte| byte == 10).map(<[u8]>::to_vec).collect();
    if lines.is_empty() {
        return;
    }
    let (one, other) = (random.below(lines.len()), random.below(lines.len()));
    match random.below(4) {
        0 => drop(lines.remove(one)),
        1 => lines.insert(one, lines[one].clone()),
        2 => lines[one].splice(0..0, *b"7 ").for_each(drop),
        _ => lines.swap(one, other),
    }
    *bytes = lines.concat();
}

/// The signal count judged by its whole line: out of range, then a fault after it, in it, or no more bytes.
fn a_count(random: &mut Random, bytes: &mut Vec<u8>) {
    let ends = places(bytes, 10);
    if ends.len() < 2 {
        return;
    }
    if random.one_in(3) {
        return link_count(random, bytes);
    }
    let count = random.pick(&[
        "0",
        "33",
        "033",
        "33 ",
        " 33",
        "00",
        "100",
        "99999999",
        "100000000",
        "33\r",
        "3x",
        "-1",
    ]);
    let after = random.pick(&["", "\n", "\n", "\nx", "\n0 40", "\n\n", " \n", "\n0 40\n"]);
    let start = ends[1] + 1;
    let kept = if random.one_in(2) { bytes.split_off(start) } else { vec![] };
    bytes.truncate(start);
    bytes.extend_from_slice(count.as_bytes());
    bytes.extend_from_slice(after.as_bytes());
    bytes.extend(kept);
}

/// A link count that is not n - 1, and faults after it.
fn link_count(random: &mut Random, bytes: &mut Vec<u8>) {
    let spaced: Vec<bool> = bytes.split(|&byte| byte == 10).map(|line| line.contains(&b' ')).collect();
    let ends = places(bytes, 10);
    // The link count is the first line without a space after one with a space.
    if let Some(line) = (1..spaced.len()).find(|&k| spaced[k - 1] && !spaced[k]) {
        let start = ends[line - 1] + 1;
        let count = random.pick(&["0", "32", "33", "99999999", "032", "32 ", "", "32\r"]);
        let after = random.pick(&["", "\n", "\nx\n", "\n10000 15000\n", "\n\n"]);
        bytes.truncate(start);
        bytes.extend_from_slice(count.as_bytes());
        bytes.extend_from_slice(after.as_bytes());
    }
}

/// More bytes after the sheet, up to the greatest length that is read and one past it, some after a count fault.
fn lengthen(random: &mut Random, bytes: &mut Vec<u8>) {
    if random.one_in(4) {
        let more = random.within(1, 40) as usize;
        return bytes.resize(bytes.len() + more, random.pick(b"\n 0x"));
    }
    if random.one_in(2) {
        let end = random.pick(&["33\n", "0\n"]);
        *bytes = format!("1\n100\n{end}").into_bytes();
    }
    let length = LARGEST_SHEET + random.below(3) - 1;
    bytes.resize(length, random.pick(b"\n 0x"));
}

/// The first count wrong, or nothing at all.
fn start(random: &mut Random, bytes: &mut Vec<u8>) {
    let first = random.pick(&["0\n", "2\n", "01\n", "11\n", "1 \n", " 1\n", "1", "\n", "1 1\n", "1\r\n", ""]);
    if random.one_in(8) {
        return bytes.clear();
    }
    let end = places(bytes, 10)[0];
    replace(bytes, 0, end + 1, first.as_bytes());
}
