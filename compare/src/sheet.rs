//! The street sheet: reading one line by line, and writing one.

use crate::street::{refusal, Refusal, Street, MAX_SIGNALS};

pub const LARGEST_SHEET: usize = 2_048;

/// The sheet that the rules work out by hand.
pub const STREET_A: &[u8] = b"1\n100\n2\n0 40\n30000 50\n1\n10000 15000\n";

const SHEET: Refusal = Refusal { code: 1, place: 0 };

/// The text that is still to be read, and the number of the line at which reading stands.
struct Lines<'a> {
    text: &'a [u8],
    line: usize,
}

impl<'a> Lines<'a> {
    fn of(text: &'a [u8]) -> Lines<'a> {
        Lines { text, line: 0 }
    }

    /// Takes the next whole line, without its line end, off the text. Bytes with no line end are no line.
    fn next(&mut self) -> Result<&'a [u8], Refusal> {
        self.line += 1;
        let end = self.text.iter().position(|&byte| byte == 10).ok_or(SHEET)?;
        let (line, rest) = (&self.text[..end], &self.text[end + 1..]);
        self.text = rest;
        Ok(line)
    }

    /// Nothing follows the last line.
    fn end(&mut self) -> Result<(), Refusal> {
        self.line += 1;
        if self.text.is_empty() {
            Ok(())
        } else {
            Err(SHEET)
        }
    }
}

/// The value of 1 to 8 digits, with no zero in front of another.
pub fn number(digits: &[u8]) -> Result<i64, Refusal> {
    let formed = (1..=8).contains(&digits.len()) && digits.iter().all(u8::is_ascii_digit);
    if !formed || (digits[0] == b'0' && digits.len() > 1) {
        return Err(SHEET);
    }
    Ok(digits.iter().fold(0, |value, &digit| 10 * value + i64::from(digit - b'0')))
}

/// The numbers of the next line, which has exactly as many as there are columns.
fn columns<const COLUMNS: usize>(lines: &mut Lines) -> Result<[i64; COLUMNS], Refusal> {
    let fields: Vec<&[u8]> = lines.next()?.split(|&byte| byte == b' ').collect();
    let numbers = fields.into_iter().map(number).collect::<Result<Vec<i64>, Refusal>>()?;
    numbers.try_into().map_err(|_| SHEET)
}

/// The street on a sheet, or code 1 or 2.
pub fn read(bytes: &[u8]) -> Result<Street, Refusal> {
    if bytes.len() > LARGEST_SHEET {
        return Err(SHEET);
    }
    read_lines(&mut Lines::of(bytes))
}

/// The line on which the first fault of a sheet stands, however long the sheet is.
pub fn fault_line(bytes: &[u8]) -> Option<usize> {
    let mut lines = Lines::of(bytes);
    read_lines(&mut lines).err().map(|_| lines.line)
}

fn read_lines(lines: &mut Lines) -> Result<Street, Refusal> {
    if columns(lines)? != [1] {
        return Err(SHEET);
    }
    let [cycle] = columns(lines)?;
    let mut street = Street { cycle, reds: vec![], distances: vec![], outbound: vec![], inbound: vec![] };
    let [signals] = columns(lines)?;
    if signals < 1 || signals > MAX_SIGNALS as i64 {
        return Err(refusal(2, 0));
    }
    for _ in 0..signals {
        let [distance, red] = columns(lines)?;
        street.distances.push(distance);
        street.reds.push(red);
    }
    let [links] = columns(lines)?;
    if links != signals - 1 {
        return Err(refusal(2, 0));
    }
    for _ in 0..links {
        let [outbound, inbound] = columns(lines)?;
        street.outbound.push(outbound);
        street.inbound.push(inbound);
    }
    lines.end()?;
    Ok(street)
}

/// A sheet of the street's lists with the counts as given, which need not be those of the lists.
pub fn write_counts(street: &Street, signals: usize, links: usize) -> Vec<u8> {
    let mut text = format!("1\n{}\n{signals}\n", street.cycle);
    for (distance, red) in street.distances.iter().zip(&street.reds) {
        text.push_str(&format!("{distance} {red}\n"));
    }
    text.push_str(&format!("{links}\n"));
    for (outbound, inbound) in street.outbound.iter().zip(&street.inbound) {
        text.push_str(&format!("{outbound} {inbound}\n"));
    }
    text.into_bytes()
}

pub fn write(street: &Street) -> Vec<u8> {
    write_counts(street, street.signals(), street.outbound.len())
}

/// The sheet that is written into a lent list of `room` bytes, or the first fault: of the counts, of the numbers in the
/// order of their codes, and last of all a list that is shorter than the sheet.
pub fn written(street: &Street, room: usize) -> Result<Vec<u8>, Refusal> {
    if let Some(refusal) = street.count_fault().or_else(|| street.range_fault()) {
        return Err(refusal);
    }
    let sheet = write(street);
    if room < sheet.len() {
        Err(refusal(3, 0))
    } else {
        Ok(sheet)
    }
}
