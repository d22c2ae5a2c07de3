//! The text that a program prints for a plan, measured bands, a written sheet or a refusal, and a plan read back from it.

use crate::bands::{measured, Band};
use crate::equal::{equal, Plan};
use crate::moved::{plan, Ask};
use crate::seconds::{cabinets, Cabinets};
use crate::sheet::{read, written};
use crate::street::{Refusal, MAX_SIGNALS};
use crate::survey::{self, Row};
use crate::volumes::fitting;

pub fn printed(reply: &Result<Plan, Refusal>) -> String {
    match reply {
        Ok(plan) => with_entries(plan, &plan.offsets),
        Err(refusal) => refused(refusal),
    }
}

/// A plan's numbers on one line, and each entry that was written on a line of its own.
fn with_entries(plan: &Plan, entries: &[i64]) -> String {
    let Plan { reference, best, outbound, inbound, not_whole, .. } = plan;
    let mut text = format!("{reference} {best} {outbound} {inbound} {not_whole}\n");
    for entry in entries {
        text.push_str(&format!("{entry}\n"));
    }
    text
}

fn refused(Refusal { code, place }: &Refusal) -> String {
    format!("refused {code} {place}\n")
}

/// The plan in a program's reply, or nothing where it is no plan.
pub fn plan_in(text: &str) -> Option<Plan> {
    let numbers: Vec<i64> =
        text.split_whitespace().map(|word| word.parse().ok()).collect::<Option<Vec<i64>>>()?;
    match numbers[..] {
        [reference, best, outbound, inbound, not_whole, ref offsets @ ..] => {
            Some(Plan { reference, best, outbound, inbound, not_whole, offsets: offsets.to_vec() })
        }
        _ => None,
    }
}

/// What a sheet gets for what is asked, with a lent list of `room` entries: a plan, and for volumes one line more, with
/// the largest that fit it.
pub fn asked_prints(sheet: &[u8], ask: Ask, room: usize) -> String {
    let street = read(sheet);
    let reply = street.clone().and_then(|street| plan(&street, ask, room));
    let mut text = printed(&reply);
    if let (Ok(street), Ok(plan), Ask::Volumes(_, _, headway)) = (&street, &reply, ask) {
        let [out, back] = fitting(plan, street.cycle, headway);
        text.push_str(&format!("{out} {back}\n"));
    }
    text
}

/// What a sheet gets for what is asked in whole seconds: the plan's numbers, and each signal's second for its offset.
pub fn seconds_prints(sheet: &[u8], ask: Ask, room: usize) -> String {
    match read(sheet).and_then(|street| cabinets(&street, ask, room)) {
        Ok(Cabinets { plan, seconds }) => with_entries(&plan, &seconds),
        Err(refusal) => refused(&refusal),
    }
}

/// What a sheet gets for offsets to be measured: outbound width and start, inbound width and start.
pub fn measure_prints(sheet: &[u8], offsets: &[i64]) -> String {
    match read(sheet).and_then(|street| measured(&street, offsets)) {
        Ok((Band { width, start }, back)) => format!("{width} {start} {} {}\n", back.width, back.start),
        Err(refusal) => refused(&refusal),
    }
}

/// What a sheet gets where it is to be written again, into a lent list of `room` bytes: its street's sheet.
pub fn write_prints(sheet: &[u8], room: usize) -> String {
    match read(sheet).and_then(|street| written(&street, room)) {
        Ok(sheet) => String::from_utf8(sheet).expect("a written sheet is digits, spaces and line ends"),
        Err(refusal) => refused(&refusal),
    }
}

/// What the rows of a survey get at a cycle, with a lent list of `room` entries: the equal plan of their street.
pub fn survey_prints(cycle: i64, rows: &[Row], room: usize) -> String {
    printed(&survey::street(cycle, rows).and_then(|street| equal(&street, room)))
}

/// What a sheet gets as its equal plan, with a lent list of `room` entries.
pub fn planned(sheet: &[u8], room: usize) -> Result<Plan, Refusal> {
    read(sheet).and_then(|street| equal(&street, room))
}

/// What the program `plan` prints for a sheet.
pub fn plan_prints(sheet: &[u8]) -> String {
    printed(&planned(sheet, MAX_SIGNALS))
}
