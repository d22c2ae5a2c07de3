//! docs/WORKING.md held to the repository: what it names is there, and what it has to name is named.

use compare::page::{coded, Page};
use compare::run::{repository, text, text_at};
use compare::specs::files_below;
use std::collections::BTreeSet;

/// Every file of the comparison, one after the other.
fn compared() -> String {
    let folders = ["compare/src", "compare/tests"].map(|folder| repository().join(folder));
    let files = folders.iter().flat_map(|folder| files_below(folder, ".rs"));
    files.map(|file| text_at(&file)).collect()
}

#[test]
fn every_file_and_test_that_the_page_names_is_there() {
    let (page, sources) = (Page::open("WORKING.md"), compared());
    let words: String = page.text.lines().filter(|line| !line.starts_with("    ")).map(coded).collect();
    let in_capitals = |part: &str| part.bytes().all(|byte| byte.is_ascii_uppercase());
    let is_file = |word: &&str| {
        let named = word.contains('/') || [".md", ".txt"].iter().any(|end| word.ends_with(end));
        named && !word.contains(' ') && !word.split('/').any(in_capitals)
    };
    let files: Vec<&str> = words.lines().filter(is_file).collect();
    let missing: Vec<&&str> = files.iter().filter(|file| !repository().join(file).exists()).collect();
    assert!(files.len() > 60 && missing.is_empty(), "{} files, missing: {missing:?}", files.len());
    for test in words.lines().filter(|word| word.matches('_').count() > 2) {
        assert!(sources.contains(&format!("fn {test}(")), "there is no test {test}");
    }
}

#[test]
fn every_crate_part_and_variable_is_on_the_page() {
    let page = Page::open("WORKING.md").text;
    let (crates, gate) = (text("crates.txt"), text("test"));
    let lines = crates.lines().filter(|line| !line.starts_with('#'));
    for name in lines.filter_map(|line| line.split(&[' ', ':'][..]).next()) {
        let quoted = format!("`{name}` ");
        let timed = page.split(&quoted).skip(1).any(|rest| rest.starts_with(char::is_numeric));
        assert!(timed, "the page has no seconds for the crate {name}");
    }
    let parts = gate.lines().filter_map(|line| line.strip_prefix("part '")?.split('\'').next());
    let parts: Vec<&str> = parts.collect();
    assert!(parts.len() > 4 && parts.iter().all(|part| page.contains(&format!("\n| {part} |"))), "{parts:?}");
    let variables = |text: &str| -> BTreeSet<String> {
        let name = |rest: &str| rest.chars().take_while(char::is_ascii_uppercase).collect::<String>();
        text.split("COMPARE_").skip(1).map(name).filter(|word| !word.is_empty()).collect()
    };
    assert_eq!(variables(&page), variables(&compared()));
}
