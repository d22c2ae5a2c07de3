//! The sheet reader: one pass with a cursor, a number at a time up to the byte that ends it.

use crate::calls::{Refusal, Sheet, LARGEST_SHEET, MAX_SIGNALS};

const BAD: Refusal = (1, 0);

/// The number at a cursor if it ends with the given byte, and the cursor past that byte.
fn number(bytes: &[u8], at: usize, end: u8) -> Result<(u32, usize), Refusal> {
    let mut value = match bytes.get(at) {
        Some(&byte) if byte.is_ascii_digit() => u32::from(byte - b'0'),
        _ => return Err(BAD),
    };
    let mut at = at + 1;
    while let Some(&byte) = bytes.get(at) {
        at += 1;
        if byte == end {
            return Ok((value, at));
        }
        if !byte.is_ascii_digit() || value == 0 || value > 9_999_999 {
            return Err(BAD);
        }
        value = 10 * value + u32::from(byte - b'0');
    }
    Err(BAD)
}

/// A section: its count and as many lines of two numbers. Gives the count and the cursor past the section.
fn section(
    bytes: &[u8],
    at: usize,
    (least, most): (usize, usize),
    left: &mut [u32; MAX_SIGNALS],
    right: &mut [u32; MAX_SIGNALS],
) -> Result<(usize, usize), Refusal> {
    let (count, mut at) = number(bytes, at, b'\n')?;
    let lines = count as usize;
    if lines < least || lines > most {
        return Err((2, 0));
    }
    for (x, y) in left.iter_mut().zip(right).take(lines) {
        let (first, next) = number(bytes, at, b' ')?;
        let (second, end) = number(bytes, next, b'\n')?;
        *x = first;
        *y = second;
        at = end;
    }
    Ok((lines, at))
}

fn fill(s: &mut Sheet, bytes: &[u8]) -> Result<(), Refusal> {
    if bytes.len() > LARGEST_SHEET {
        return Err(BAD);
    }
    let (count, at) = number(bytes, 0, b'\n')?;
    if count != 1 {
        return Err(BAD);
    }
    let (cycle, at) = number(bytes, at, b'\n')?;
    let (signals, at) = section(bytes, at, (1, MAX_SIGNALS), &mut s.distances, &mut s.reds)?;
    let (_, at) = section(bytes, at, (signals - 1, signals - 1), &mut s.outbound, &mut s.inbound)?;
    if at < bytes.len() {
        return Err(BAD);
    }
    s.cycle = cycle;
    s.signals = signals;
    Ok(())
}

#[inline(never)]
pub fn read(bytes: &[u8]) -> Sheet {
    let mut sheet = Sheet::default();
    match fill(&mut sheet, bytes) {
        Ok(()) => sheet,
        Err(refusal) => Sheet::from(refusal),
    }
}
