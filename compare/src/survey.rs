//! Survey instrument rows: which 64-bit floats are accepted, by whole numbers on their bits alone, and the street that the
//! rows come to.

use crate::cases::number;
use crate::street::{refusal, Refusal, Street, MAX_SIGNALS};
use std::fmt::{Display, Formatter};

/// An eighth of a metre in millimetres, and of a metre a second in millimetres a second.
pub const EIGHTH: i64 = 125;

/// The greatest length or speed, and the greatest running distance: 20,000 in eighths.
pub const MOST: i64 = 160_000;

/// The kinds of a position, by the numbers that C has for them.
pub const CHAINAGE: i64 = 0;
pub const GAP: i64 = 1;

/// The bits of the NaN that the word `nan` stands for.
pub const NAN: u64 = 0x7ff8_0000_0000_0000;

/// One row: the kind of its position, the bits of its position, outbound and inbound speed, and its red in ticks.
#[derive(Clone, Copy, Debug, PartialEq)]
pub struct Row {
    pub kind: i64,
    pub floats: [u64; 3],
    pub red: i64,
}

/// The row as a line for `cases`, which knows two kinds and has a word for one NaN.
impl Display for Row {
    fn fmt(&self, text: &mut Formatter) -> std::fmt::Result {
        let word = |bits| if bits == NAN { "nan".to_string() } else { format!("{bits:016x}") };
        let (kind, [position, outbound, inbound]) = (self.kind == CHAINAGE, self.floats.map(word));
        let kind = if kind { "chainage" } else { "gap" };
        write!(text, "{kind} {position} {outbound} {inbound} {}", self.red)
    }
}

/// The bits of a float taken apart: whether it is negative, its exponent's field, and the 52 digits after the point.
fn parts(bits: u64) -> (bool, i64, u64) {
    (bits >> 63 == 1, (bits >> 52 & 0x7ff) as i64, bits & ((1 << 52) - 1))
}

/// How many eighths a float is, where it is finite, not negative, at most 20,000 and a whole multiple of one eighth.
pub fn eighths(bits: u64) -> Option<i64> {
    let (negative, field, digits) = parts(bits);
    if field == 0 && digits == 0 {
        return Some(0);
    }
    if negative || field == 0x7ff {
        return None;
    }
    // The value is significand * 2^power, and so eight times the value is significand / 2^below.
    let (significand, power) = if field == 0 { (digits, -1_074) } else { (digits | 1 << 52, field - 1_075) };
    let below = -(power + 3);
    // With nothing below the point it is 2^52 or more; with 53 digits or more there it is less than one.
    if !(1..53).contains(&below) || significand % (1 << below) != 0 {
        return None;
    }
    Some((significand >> below) as i64).filter(|&whole| whole <= MOST)
}

/// The running distance and the two speeds of a row in eighths, given the running distance before it; nothing where the
/// row is bad.
fn judged(before: i64, row: &Row, is_first: bool) -> Option<[i64; 3]> {
    let [position, outbound, inbound] = row.floats.map(eighths);
    let distance = match row.kind {
        CHAINAGE => position?,
        GAP => before + position?,
        _ => return None,
    };
    let (outbound, inbound) = (outbound?, inbound?);
    let moving = is_first && (outbound, inbound) != (0, 0);
    (distance <= MOST && !moving).then_some([distance, outbound, inbound])
}

/// The street of the rows as it would be typed by hand, or code 2 or 12.
pub fn street(cycle: i64, rows: &[Row]) -> Result<Street, Refusal> {
    if !(1..=MAX_SIGNALS).contains(&rows.len()) {
        return Err(refusal(2, 0));
    }
    let mut street = Street { cycle, reds: vec![], distances: vec![], outbound: vec![], inbound: vec![] };
    let mut before = 0;
    for (k, row) in rows.iter().enumerate() {
        let [distance, outbound, inbound] =
            judged(before, row, k == 0).ok_or_else(|| refusal(12, k as i64 + 1))?;
        street.reds.push(row.red);
        street.distances.push(EIGHTH * distance);
        if k > 0 {
            street.outbound.push(EIGHTH * outbound);
            street.inbound.push(EIGHTH * inbound);
        }
        before = distance;
    }
    Ok(street)
}

/// The rows as lines for `cases`.
pub fn lines(rows: &[Row]) -> Vec<u8> {
    rows.iter().map(|row| format!("{row}\n")).collect::<String>().into_bytes()
}

/// The bits that a word of a line stands for: 16 hexadecimal digits with small letters, or a NaN's name.
fn bits(word: &str) -> Option<u64> {
    let digit = |byte: u8| byte.is_ascii_digit() || (b'a'..=b'f').contains(&byte);
    match word {
        "nan" => Some(NAN),
        _ if word.len() == 16 && word.bytes().all(digit) => u64::from_str_radix(word, 16).ok(),
        _ => None,
    }
}

/// The row on a line, given what the word for its kind stands for.
fn row(line: &str, kind: fn(&str) -> Option<i64>) -> Option<Row> {
    match line.split(' ').collect::<Vec<&str>>()[..] {
        [word, position, outbound, inbound, red] => Some(Row {
            kind: kind(word)?,
            floats: [bits(position)?, bits(outbound)?, bits(inbound)?],
            red: number(red)?,
        }),
        _ => None,
    }
}

/// The rows on whole lines, or nothing where one of them is no row or has no line end.
fn read(text: &[u8], kind: fn(&str) -> Option<i64>) -> Option<Vec<Row>> {
    let text = std::str::from_utf8(text).ok()?;
    let line = |line: &str| row(line.strip_suffix('\n')?, kind);
    text.split_inclusive('\n').map(line).collect()
}

/// The rows of a case.
pub fn rows(text: &[u8]) -> Option<Vec<Row>> {
    read(text, |word| match word {
        "chainage" => Some(CHAINAGE),
        "gap" => Some(GAP),
        _ => None,
    })
}

/// The rows of a file for the C client, which has the kinds as numbers.
pub fn numbered_rows(text: &[u8]) -> Option<Vec<Row>> {
    read(text, number)
}

/// The rows as lines for the C client.
pub fn numbered_lines(rows: &[Row]) -> Vec<u8> {
    let line = |row: &Row| {
        let [position, outbound, inbound] = row.floats;
        format!("{} {position:016x} {outbound:016x} {inbound:016x} {}\n", row.kind, row.red)
    };
    rows.iter().map(line).collect::<String>().into_bytes()
}
