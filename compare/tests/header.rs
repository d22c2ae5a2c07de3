//! The C header beside what it stands for: the functions of the archive, the codes and limits of the rules, and no others.

use compare::client::LARGEST_BYTES;
use compare::page::Page;
use compare::run::text;
use compare::street::MAX_SIGNALS;
use compare::survey::{CHAINAGE, GAP};
use std::collections::BTreeSet;

/// The names in a source that begin with `corbatan_` and are followed by a bracket.
fn calls(source: &str) -> BTreeSet<&str> {
    let word = |part: &str| {
        part.find(|letter: char| !letter.is_ascii_lowercase() && letter != '_').unwrap_or(part.len())
    };
    let starts = source.match_indices("corbatan_").map(|(at, _)| &source[at..]);
    starts.filter(|rest| rest[word(rest)..].starts_with('(')).map(|rest| &rest[..word(rest)]).collect()
}

/// The number that the header defines under a name.
fn defined(header: &str, name: &str) -> Option<usize> {
    let line = header.lines().find(|line| line.split_whitespace().take(2).eq(["#define", name]))?;
    line.split_whitespace().nth(2)?.parse().ok()
}

#[test]
fn every_function_of_the_archive_is_declared_and_called() {
    let source = text("crates/exports/src/lib.rt");
    let exported = calls(&source);
    assert!(exported.len() >= 9 && source.matches("extern \"C\" fn").count() == exported.len());
    for name in ["include/corbatan.h", "client/client.c", "client/stack.c"] {
        assert_eq!(calls(&text(name)), exported, "{name}");
    }
    let claims = text("docs/CLAIMS.md");
    for name in exported {
        assert!(claims.contains(&format!("`{name}`")), "docs/CLAIMS.md has no row for {name}");
    }
}

/// The declaration of a call in the header, in one line: what it answers, and what it takes.
fn declared(header: &str, name: &str) -> String {
    let at = header.find(&format!(" {name}(")).unwrap_or_else(|| panic!("{name} is not declared"));
    let start = header[..at].rfind('\n').map_or(0, |end| end + 1);
    let end = at + header[at..].find(';').expect("an end");
    header[start..end].split_whitespace().collect::<Vec<&str>>().join(" ")
}

#[test]
fn each_plan_has_a_call_in_seconds_that_takes_the_same() {
    let header = text("include/corbatan.h");
    for plan in ["equal", "outbound", "inbound", "platoons", "volumes"] {
        let name = format!("corbatan_{plan}");
        let takes = declared(&header, &name).replace("offsets", "seconds");
        let answers = takes.replace("CorbatanVolumes ", "CorbatanPlan ");
        let expected = answers.replace(&format!(" {name}("), &format!(" {name}_seconds("));
        assert_eq!(declared(&header, &format!("{name}_seconds")), expected);
    }
}

#[test]
fn every_code_of_the_rules_is_in_the_header() {
    let header = text("include/corbatan.h");
    let codes = Page::open("RULES.md").table("| Code | Name | Fault | Place |");
    assert!(codes.len() >= 11);
    for (row, expected) in codes.iter().zip(1..) {
        let name = format!("CORBATAN_{}", row[1]);
        assert_eq!((row[0].parse(), defined(&header, &name)), (Ok(expected), Some(expected)), "{name}");
    }
    let others = [("MAX_SIGNALS", MAX_SIGNALS as i64), ("CHAINAGE", CHAINAGE), ("GAP", GAP)];
    for (name, number) in others {
        assert_eq!(defined(&header, &format!("CORBATAN_{name}")), Some(number as usize), "{name}");
    }
}

#[test]
fn the_longest_sheet_is_as_the_pages_say() {
    let longest = defined(&text("include/corbatan.h"), "CORBATAN_MAX_SHEET").expect("a number of bytes");
    Page::open("SHEETS.md").says(&format!("a street within the limits never needs more than {longest}."));
    Page::open("CALLING.md").says(&format!("`CORBATAN_MAX_SHEET` bytes, {longest}, are enough"));
    assert_eq!(longest + 2, LARGEST_BYTES);
}

#[test]
fn the_callers_page_says_what_the_header_says() {
    let (header, page) = (text("include/corbatan.h"), Page::open("CALLING.md"));
    let stack = defined(&header, "CORBATAN_STACK").expect("a number of bytes");
    page.says(&format!("`CORBATAN_STACK` bytes, {},{:03},", stack / 1_000, stack % 1_000));
    let rows =
        page.table("| Struct | Bytes | Where its fields start; 4 bytes each where nothing else is said |");
    assert_eq!(rows.len(), header.matches("typedef struct ").count());
    for row in rows {
        let before = header.split(&format!("typedef struct {} ", row[0])).next().expect("text before it");
        let comment = before.rsplit("/*").next().expect("a comment above it").replace("\n *", "");
        let flowing = comment.split_whitespace().collect::<Vec<&str>>().join(" ");
        assert!(flowing.contains(&format!("has {} bytes", row[1])), "{}: {flowing}", row[0]);
    }
}
