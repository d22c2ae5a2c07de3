//! Prints how many lines of specs/ a reader has to believe, and of which files: for the contracts of the public calls,
//! and for the demands. Words: the folder of another copy of the house, and other files that state its demands.

use compare::cited::{is_steps, total, House, Part, DEMANDS};
use compare::run::repository;
use std::path::PathBuf;

/// One root's lines in all, and of each file.
fn show(what: &str, parts: &[Part]) {
    println!("{what}: {} lines", total(parts));
    for Part { path, cited, lines } in parts.iter().filter(|part| part.cited > 0) {
        println!("{cited:6} of {lines:3}  {path}");
    }
}

/// What is cited of a file that only functions and proofs should cite.
fn show_steps(part: &Part, other: &Part) {
    let cited = match (part.cited, other.cited) {
        (0, 0) => "nothing is".to_string(),
        (a, b) => format!("{a} and {b} are"),
    };
    println!("of the {} lines of {} {cited} cited", part.lines, part.path);
}

fn main() {
    let mut words = std::env::args().skip(1);
    let root = words.next().map_or_else(|| repository().to_path_buf(), PathBuf::from);
    let files: Vec<String> = words.map(|word| word.trim_start_matches("crates/").to_string()).collect();
    let files: Vec<&str> =
        if files.is_empty() { vec![DEMANDS] } else { files.iter().map(String::as_str).collect() };
    let house = House::read(&root);
    let (called, missing) = house.contracts(&root);
    let contracts = house.parts(&house.closure(&called));
    let demands = house.parts(&house.closure(&house.all_of(&files)));
    show("public contracts", &contracts);
    show("demands", &demands);
    for (part, other) in contracts.iter().zip(&demands).filter(|(part, _)| is_steps(part)) {
        show_steps(part, other);
    }
    for call in missing {
        println!("there is no {call}");
    }
}
