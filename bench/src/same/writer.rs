//! The sheet writer: the sheet is made in a buffer of its own, each number from its last digit on, and handed over by
//! one copy once every check has passed.

use super::street::judge;
use crate::calls::{Refusal, Writing};

/// How many bytes the sheet of a street that passes the checks has at most.
const MAX_BYTES: usize = 833;

/// How many digits a number has.
fn size(x: u32) -> usize {
    let (mut places, mut rest) = (1, x);
    while rest >= 10 {
        rest /= 10;
        places += 1;
    }
    places
}

/// Writes a number and the byte that ends it from a place on, and gives the place past both.
fn number(bytes: &mut [u8], at: usize, x: u32, end: u8) -> usize {
    let next = at + size(x);
    let (mut last, mut rest) = (next - 1, x);
    while rest >= 10 {
        bytes[last] = b'0' + (rest % 10) as u8;
        last -= 1;
        rest /= 10;
    }
    bytes[last] = b'0' + rest as u8;
    bytes[next] = end;
    next + 1
}

/// A section: its count and as many lines of two numbers. Gives the place past the section.
fn section(bytes: &mut [u8], at: usize, left: &[u32], right: &[u32]) -> usize {
    let mut at = number(bytes, at, left.len() as u32, b'\n');
    for (&x, &y) in left.iter().zip(right) {
        let second = number(bytes, at, x, b' ');
        at = number(bytes, second, y, b'\n');
    }
    at
}

fn written(
    cycle: u32,
    reds: &[u32],
    distances: &[u32],
    out: &[u32],
    back: &[u32],
    bytes: &mut [u8],
) -> Result<Writing, Refusal> {
    judge(cycle, reds, distances, out, back, reds.len())?;
    let mut sheet = [0; MAX_BYTES];
    let at = number(&mut sheet, 0, 1, b'\n');
    let at = number(&mut sheet, at, cycle, b'\n');
    let at = section(&mut sheet, at, distances, reds);
    let count = section(&mut sheet, at, out, back);
    bytes.get_mut(..count).ok_or((3, 0))?.copy_from_slice(&sheet[..count]);
    Ok(Writing { code: 0, place: 0, count })
}

#[inline(never)]
pub fn write(cycle: u32, reds: &[u32], distances: &[u32], out: &[u32], back: &[u32], bytes: &mut [u8]) -> Writing {
    written(cycle, reds, distances, out, back, bytes).unwrap_or_else(Writing::from)
}
