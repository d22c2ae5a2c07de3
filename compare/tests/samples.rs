//! The sample sheets through `plan`: each gets what sheets/README.md says, and the README has a row for each.

use compare::page::{listed, sheet};
use compare::printed::plan_prints;
use compare::run::{repository, text, Program};
use std::fs;

fn samples() -> Vec<String> {
    let folder = fs::read_dir(repository().join("sheets")).expect("sheets/ is there");
    let names = folder
        .map(|entry| entry.expect("a file of sheets/").file_name().into_string().expect("a plain name"));
    let mut names: Vec<String> = names.filter(|name| name.ends_with(".txt")).collect();
    names.sort();
    names
}

#[test]
fn the_readme_lists_the_samples() {
    let names: Vec<String> = listed().into_keys().collect();
    assert_eq!(names, samples());
    assert!(names.len() >= 14, "samples are missing: {names:?}");
}

#[test]
fn the_model_answers_as_the_readme_says() {
    for (name, text) in listed() {
        assert_eq!(plan_prints(&sheet(&name)), text, "{name}");
    }
}

#[test]
fn plan_answers_as_the_readme_says() {
    let program = Program::plan();
    for (name, text) in listed() {
        let answer = program.answer(&sheet(&name)).unwrap_or_else(|fault| panic!("{name}: {fault}"));
        assert_eq!(String::from_utf8_lossy(&answer), text, "{name}");
    }
}

#[test]
fn the_crates_own_sheet_gets_what_stands_beside_it() {
    let (sheet, prints) = (text("crates/plan/stdin"), text("crates/plan/stdout"));
    assert_eq!(plan_prints(sheet.as_bytes()), prints, "the model");
    let answer = Program::plan().answer(sheet.as_bytes()).unwrap_or_else(|fault| panic!("{fault}"));
    assert_eq!(String::from_utf8_lossy(&answer), prints, "plan");
}

#[test]
fn plan_sees_that_a_sheet_is_too_long() {
    let program = Program::plan();
    let count_fault = b"1\n100\n33\n";
    for (length, text) in
        [(9, "refused 2 0\n"), (2_048, "refused 2 0\n"), (2_049, "refused 1 0\n"), (70_000, "refused 1 0\n")]
    {
        let mut bytes = count_fault.to_vec();
        bytes.resize(length, b'x');
        let answer = program.answer(&bytes).unwrap_or_else(|fault| panic!("{length} bytes: {fault}"));
        assert_eq!(String::from_utf8_lossy(&answer), text, "{length} bytes");
    }
}
