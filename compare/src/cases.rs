//! The program `cases` as a model: many requests in one input, each with its sheet or its rows, and a reply to each.

use crate::moved::Ask;
use crate::printed::{asked_prints, measure_prints, seconds_prints, survey_prints, write_prints};
use crate::street::MAX_SIGNALS;
use crate::survey::rows;

pub const LARGEST_INPUT: usize = 65_536;
pub const LARGEST_ROOM: usize = 64;

/// The longest list of bytes that is lent for a sheet, and the one that is lent where the line names none.
pub const SHEET_ROOM: usize = 4_096;

#[derive(Clone, Debug, PartialEq)]
pub enum Request {
    Plan { ask: Ask, room: usize },
    Seconds { ask: Ask, room: usize },
    Measure { offsets: Vec<i64> },
    Write { room: usize },
    Survey { cycle: i64, room: usize },
}

/// A number of a request line, or a row's red: digits alone, and below 2^32.
pub fn number(word: &str) -> Option<i64> {
    let digits = word.bytes().all(|byte| byte.is_ascii_digit());
    word.parse().ok().filter(|&value: &i64| digits && value < 1 << 32)
}

/// The length of the lent list by the words at a request's end: `room K`, or the usual one where there are none.
fn room(words: &[&str], usual: usize, largest: usize) -> Option<usize> {
    match words {
        [] => Some(usual),
        ["room", length] => number(length).map(|length| length as usize).filter(|&length| length <= largest),
        _ => None,
    }
}

/// What a plan's request asks for, and the words after it.
pub fn ask<'a>(words: &'a [&'a str]) -> Option<(Ask, &'a [&'a str])> {
    match words {
        ["equal", rest @ ..] => Some((Ask::Equal, rest)),
        ["outbound", width, rest @ ..] => Some((Ask::Outbound(number(width)?), rest)),
        ["inbound", width, rest @ ..] => Some((Ask::Inbound(number(width)?), rest)),
        ["platoons", out, back, rest @ ..] => Some((Ask::Platoons(number(out)?, number(back)?), rest)),
        ["volumes", out, back, headway, rest @ ..] => {
            Some((Ask::Volumes(number(out)?, number(back)?, number(headway)?), rest))
        }
        _ => None,
    }
}

/// The same, and how long a list is lent for it.
fn lent_ask(words: &[&str]) -> Option<(Ask, usize)> {
    let (ask, rest) = ask(words)?;
    room(rest, MAX_SIGNALS, LARGEST_ROOM).map(|room| (ask, room))
}

pub fn request(line: &[u8]) -> Option<Request> {
    let words: Vec<&str> = std::str::from_utf8(line).ok()?.split(' ').collect();
    match &words[..] {
        ["measure", rest @ ..] => {
            let offsets = rest.iter().map(|word| number(word)).collect::<Option<Vec<i64>>>()?;
            Some(Request::Measure { offsets })
        }
        ["write", rest @ ..] => room(rest, SHEET_ROOM, SHEET_ROOM).map(|room| Request::Write { room }),
        ["survey", cycle, rest @ ..] => {
            let (cycle, room) = (number(cycle)?, room(rest, MAX_SIGNALS, LARGEST_ROOM)?);
            Some(Request::Survey { cycle, room })
        }
        ["seconds", plan @ ..] => lent_ask(plan).map(|(ask, room)| Request::Seconds { ask, room }),
        plan => lent_ask(plan).map(|(ask, room)| Request::Plan { ask, room }),
    }
}

fn bad() -> String {
    "bad request\n".to_string()
}

/// The reply to one case, without the empty line that follows it.
pub fn reply(case: &[u8]) -> String {
    let end = case.iter().position(|&byte| byte == 10);
    let served = end.and_then(|end| Some((request(&case[..end])?, &case[end + 1..])));
    match served {
        Some((Request::Plan { ask, room }, sheet)) => asked_prints(sheet, ask, room),
        Some((Request::Seconds { ask, room }, sheet)) => seconds_prints(sheet, ask, room),
        Some((Request::Measure { offsets }, sheet)) => measure_prints(sheet, &offsets),
        Some((Request::Write { room }, sheet)) => write_prints(sheet, room),
        Some((Request::Survey { cycle, room }, lines)) => {
            rows(lines).map_or_else(bad, |rows| survey_prints(cycle, &rows, room))
        }
        None => bad(),
    }
}

/// The bytes that ask for each of the cases.
pub fn input<T: AsRef<[u8]>>(cases: &[T]) -> Vec<u8> {
    let parts: Vec<&[u8]> = cases.iter().map(|case| case.as_ref()).collect();
    parts.join(&0)
}

/// All that the program prints for an input.
pub fn output(input: &[u8]) -> String {
    if input.len() > LARGEST_INPUT {
        return "too long\n".to_string();
    }
    if input.is_empty() {
        return String::new();
    }
    let whole = input.strip_suffix(&[0]).unwrap_or(input);
    whole.split(|&byte| byte == 0).map(|case| reply(case) + "\n").collect()
}
