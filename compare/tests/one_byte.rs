//! Every sheet that is one byte away from a sample: each byte changed to each other, each byte put in anywhere, each
//! byte left out, and each beginning. The bytes 0 among them go through `plan`, the rest through `cases`.

use compare::cases::reply;
use compare::run::Program;
use compare::sheet::STREET_A;
use compare::trial::{compare_plan, compare_run, in_parallel, runs, Case, Difference};

const ONE_SIGNAL: &[u8] = b"1\n600\n1\n0 240\n0\n";

fn changed(sheet: &[u8], at: usize, byte: u8) -> Vec<u8> {
    let mut bytes = sheet.to_vec();
    bytes[at] = byte;
    bytes
}

fn inserted(sheet: &[u8], at: usize, byte: u8) -> Vec<u8> {
    [&sheet[..at], &[byte], &sheet[at..]].concat()
}

fn left_out(sheet: &[u8], at: usize) -> Vec<u8> {
    [&sheet[..at], &sheet[at + 1..]].concat()
}

fn neighbours(sheet: &[u8], byte: u8) -> impl Iterator<Item = Vec<u8>> + '_ {
    let changes = (0..sheet.len()).map(move |at| changed(sheet, at, byte));
    changes.chain((0..=sheet.len()).map(move |at| inserted(sheet, at, byte)))
}

fn numbered(sheets: impl Iterator<Item = Vec<u8>>) -> Vec<Case> {
    sheets.enumerate().map(|(number, sheet)| Case::equal(number as u64, sheet)).collect()
}

fn expect_none(differences: Vec<Difference>) {
    differences.iter().take(3).for_each(Difference::print);
    assert!(differences.is_empty(), "{} runs differ from the model", differences.len());
}

#[test]
fn every_byte_but_0() {
    let program = Program::cases();
    for sheet in [STREET_A, ONE_SIGNAL] {
        let shorter = (0..sheet.len()).flat_map(|at| [left_out(sheet, at), sheet[..at].to_vec()]);
        let cases = numbered((1..=255).flat_map(|byte| neighbours(sheet, byte)).chain(shorter));
        println!("{} sheets one byte from {}", cases.len(), sheet.escape_ascii());
        expect_none(in_parallel(&runs(&cases), |run| compare_run(&program, run)));
    }
}

#[test]
fn what_is_one_byte_away_is_written_as_it_stands_or_refused() {
    let shorter = (0..STREET_A.len()).map(|at| left_out(STREET_A, at));
    let sheets = b"0123456789 \n".iter().flat_map(|&byte| neighbours(STREET_A, byte)).chain(shorter);
    let asked = |case: Case| Case { request: "write".to_string(), ..case };
    let cases: Vec<Case> = numbered(sheets).into_iter().map(asked).collect();
    let replies: Vec<String> = cases.iter().map(|case| reply(&case.bytes())).collect();
    let refused = replies.iter().filter(|text| text.starts_with("refused")).count();
    let written = cases.iter().zip(&replies).filter(|(case, text)| case.sheet == text.as_bytes()).count();
    println!("{written} sheets written as they stand, {refused} refused");
    assert!(written + refused == cases.len() && written > 100 && refused > 300);
    let program = Program::cases();
    expect_none(in_parallel(&runs(&cases), |run| compare_run(&program, run)));
}

#[test]
fn byte_0_anywhere() {
    let program = Program::plan();
    let cases = numbered(neighbours(ONE_SIGNAL, 0).chain([
        vec![0],
        [STREET_A, &[0]].concat(),
        [&[0], STREET_A].concat(),
    ]));
    println!("{} sheets with a byte 0", cases.len());
    expect_none(in_parallel(&cases, |case| compare_plan(&program, case)));
}
