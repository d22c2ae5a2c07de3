//! The sheet writer, with the standard library's formatting.

use super::street::check;
use crate::calls::{Refusal, Writing};
use std::fmt::{Error, Write};

/// The text of a street's sheet.
fn text(cycle: u32, reds: &[u32], distances: &[u32], out: &[u32], back: &[u32]) -> Result<String, Error> {
    let mut text = String::new();
    write!(text, "1\n{}\n{}\n", cycle, reds.len())?;
    for (distance, red) in distances.iter().zip(reds) {
        writeln!(text, "{} {}", distance, red)?;
    }
    writeln!(text, "{}", out.len())?;
    for (out, back) in out.iter().zip(back) {
        writeln!(text, "{} {}", out, back)?;
    }
    Ok(text)
}

fn written(
    cycle: u32,
    reds: &[u32],
    distances: &[u32],
    out: &[u32],
    back: &[u32],
    bytes: &mut [u8],
) -> Result<Writing, Refusal> {
    check(cycle, reds, distances, out, back, reds.len())?;
    let text = text(cycle, reds, distances, out, back).unwrap();
    let count = text.len();
    if bytes.len() < count {
        return Err((3, 0));
    }
    bytes[..count].copy_from_slice(text.as_bytes());
    Ok(Writing { code: 0, place: 0, count })
}

#[inline(never)]
pub fn write(cycle: u32, reds: &[u32], distances: &[u32], out: &[u32], back: &[u32], bytes: &mut [u8]) -> Writing {
    written(cycle, reds, distances, out, back, bytes).unwrap_or_else(Writing::from)
}
