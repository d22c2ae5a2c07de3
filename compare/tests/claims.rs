//! docs/CLAIMS.md held to the repository: each file that it names is there, each must-fail edit has its row and its twin,
//! and as many lines are cited as it says.

use compare::cited::{is_steps, total, House, Part, DEMANDS, ROUND_TRIPS};
use compare::page::{coded, Page};
use compare::run::{repository, text};
use std::fs;
use std::path::{Path, PathBuf};

/// What stands between backquotes on the page.
fn words() -> Vec<String> {
    Page::open("CLAIMS.md")
        .text
        .lines()
        .map(coded)
        .flat_map(|words| words.lines().map(String::from).collect::<Vec<_>>())
        .collect()
}

#[test]
fn every_file_that_the_claims_name_is_there() {
    let sources = [".antt", ".rt", ".rs", ".h", ".c"];
    let words = words();
    let named = |word: &&String| {
        word.contains('/') && sources.iter().any(|end| word.ends_with(end)) && !word.contains('{')
    };
    let files: Vec<&String> = words.iter().filter(named).collect();
    let is_there =
        |file: &str| ["crates", "."].iter().any(|below| repository().join(below).join(file).is_file());
    let missing: Vec<&&String> = files.iter().filter(|file| !is_there(file)).collect();
    assert!(files.len() > 40 && missing.is_empty(), "{} files, missing: {missing:?}", files.len());
}

/// The names in a folder, one after the other; none where there is no such folder.
fn names_in(folder: &Path) -> Vec<String> {
    let entries = fs::read_dir(folder).into_iter().flatten();
    let mut names: Vec<String> =
        entries.map(|entry| entry.expect("an entry").file_name().into_string().expect("a name")).collect();
    names.sort();
    names
}

/// Every crate with the files of a folder of edits of its own.
fn edits(of: impl Fn(&str) -> PathBuf) -> Vec<(String, String)> {
    let with = |name: String| names_in(&of(&name)).into_iter().map(move |edit| (name.clone(), edit));
    names_in(&repository().join("crates")).into_iter().flat_map(with).collect()
}

#[test]
fn every_edit_has_its_row() {
    let words = words();
    let edits = edits(|name| repository().join(format!("crates/{name}/must-fail")));
    for (name, file) in &edits {
        let label = file.trim_end_matches(".edit");
        let full = format!("{name}/must-fail/{label}");
        let row = [full.as_str(), label, &format!("{name}/must-fail/*")]
            .iter()
            .any(|text| words.iter().any(|word| word == text));
        assert!(row, "docs/CLAIMS.md has no row for {full}");
    }
    let edits = edits.len();
    let gone = |word: &&String| {
        word.contains("/must-fail/")
            && !word.ends_with('*')
            && !repository().join(format!("crates/{word}.edit")).is_file()
    };
    let gone: Vec<&String> = words.iter().filter(gone).collect();
    assert!(edits > 50 && gone.is_empty(), "{edits} edits; without a file: {gone:?}");
}

/// The lines of an edit that say where it changes what.
fn places(path: &str) -> Vec<String> {
    let at_place = |line: &&str| line.starts_with("file:") || line.starts_with("old:");
    text(path).lines().filter(at_place).map(String::from).collect()
}

#[test]
fn every_edit_has_a_twin_at_its_places() {
    let crates = edits(|name| repository().join(format!("crates/{name}/must-fail")));
    let twins = edits(|name| repository().join(format!("twins/{name}")));
    assert_eq!(crates, twins, "an edit without a twin, or a twin without an edit");
    for (name, file) in &crates {
        let (edit, twin) = (format!("crates/{name}/must-fail/{file}"), format!("twins/{name}/{file}"));
        assert_eq!(places(&edit), places(&twin), "{twin} rewrites other places");
    }
}

/// What the public contracts cite of each file of specs/, what the demands cite, and what the round trips do.
fn cited() -> [Vec<Part>; 3] {
    let house = House::read(repository());
    let (called, missing) = house.contracts(repository());
    assert!(missing.is_empty(), "there is no {missing:?}");
    [called, house.all_of(&[DEMANDS]), house.all_of(&[ROUND_TRIPS])]
        .map(|roots| house.parts(&house.closure(&roots)))
}

#[test]
fn no_contract_and_no_promise_cites_a_step() {
    let cited = cited();
    let steps = cited.iter().flatten().filter(|part| is_steps(part));
    let (unseen, seen): (Vec<&Part>, Vec<&Part>) = steps.partition(|part| part.cited == 0);
    assert!(unseen.len() > 12 && seen.is_empty(), "{} are cited by nobody, and {seen:?}", unseen.len());
}

#[test]
fn as_many_lines_are_cited_as_the_page_says() {
    let opening = "`cargo run -q -p compare --bin cited` prints ";
    let page = Page::open("CLAIMS.md").text.split_whitespace().collect::<Vec<&str>>().join(" ");
    let told = page.split(opening).nth(1).and_then(|rest| rest.split(" lines").next());
    let told = told.unwrap_or_else(|| panic!("the page does not say: {opening}N and M lines"));
    let [contracts, demands, _] = cited().map(|parts| total(&parts));
    assert_eq!(told.replace(',', ""), format!("{contracts} and {demands}"));
}
