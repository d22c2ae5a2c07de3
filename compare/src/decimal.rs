//! Numbers as a page shows them: fractions to some decimals, and back.

/// A fraction to so many decimals, of two that are equally near the greater.
pub fn decimal(over: i128, under: i128, digits: u32) -> String {
    let scale = 10i128.pow(digits);
    let units = (2 * over * scale + under).div_euclid(2 * under);
    let sign = if units < 0 { "-" } else { "" };
    let (whole, rest) = (units.abs() / scale, units.abs() % scale);
    format!("{sign}{whole}.{rest:0width$}", width = digits as usize)
}

/// The same with a plus sign before what is above 0.
pub fn gain(over: i128, under: i128) -> String {
    let text = decimal(over, under, 3);
    if over > 0 && text != "0.000" {
        format!("+{text}")
    } else {
        text
    }
}

pub fn nearest(over: i128, under: i128) -> i128 {
    (2 * over + under).div_euclid(2 * under)
}

/// A number of four to six digits with a comma after the thousands.
pub fn grouped(number: impl Into<i128>) -> String {
    let number = number.into();
    format!("{},{:03}", number / 1_000, number % 1_000)
}

pub fn seconds(halves: i64) -> String {
    decimal(halves.into(), 20, 2)
}

pub fn number(cell: &str) -> i128 {
    cell.parse().unwrap_or_else(|_| panic!("`{cell}` is no whole number"))
}

/// A decimal number as a whole number of its last digit's unit.
pub fn digits(cell: &str) -> i128 {
    number(&cell.replace('.', ""))
}
