//! The sheet reader, with the standard library's lines, words and numbers.

use crate::calls::{Refusal, Sheet, LARGEST_SHEET, MAX_SIGNALS};

const BAD: Refusal = (1, 0);

fn number(word: &str) -> Result<u32, Refusal> {
    let digits = word.bytes().all(|byte| byte.is_ascii_digit());
    if !digits || word.len() > 8 || word.len() > 1 && word.starts_with('0') {
        return Err(BAD);
    }
    word.parse().map_err(|_| BAD)
}

/// The text of the next line, which has its line end.
fn line<'a>(lines: &mut impl Iterator<Item = &'a str>) -> Result<&'a str, Refusal> {
    lines.next().and_then(|line| line.strip_suffix('\n')).ok_or(BAD)
}

fn pair<'a>(lines: &mut impl Iterator<Item = &'a str>) -> Result<(u32, u32), Refusal> {
    let (left, right) = line(lines)?.split_once(' ').ok_or(BAD)?;
    Ok((number(left)?, number(right)?))
}

fn sheet(bytes: &[u8]) -> Result<Sheet, Refusal> {
    if bytes.len() > LARGEST_SHEET {
        return Err(BAD);
    }
    // What is no ASCII is no digit either, and stands for itself as a fault.
    let text = String::from_utf8_lossy(bytes);
    let lines = &mut text.split_inclusive('\n');
    if number(line(lines)?)? != 1 {
        return Err(BAD);
    }
    let mut sheet = Sheet { cycle: number(line(lines)?)?, ..Sheet::default() };
    let n = number(line(lines)?)? as usize;
    if n < 1 || n > MAX_SIGNALS {
        return Err((2, 0));
    }
    sheet.signals = n;
    for j in 0..n {
        let (distance, red) = pair(lines)?;
        sheet.distances[j] = distance;
        sheet.reds[j] = red;
    }
    if number(line(lines)?)? as usize != n - 1 {
        return Err((2, 0));
    }
    for k in 0..n - 1 {
        let (out, back) = pair(lines)?;
        sheet.outbound[k] = out;
        sheet.inbound[k] = back;
    }
    match lines.next() {
        None => Ok(sheet),
        Some(_) => Err(BAD),
    }
}

#[inline(never)]
pub fn read(bytes: &[u8]) -> Sheet {
    sheet(bytes).unwrap_or_else(Sheet::from)
}
