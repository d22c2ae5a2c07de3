//! One word, one thing: no name is defined in two files of specs/, and none that the code gives a struct or an enum, but where the struct's
//! model says that the definition is what it is seen as.

use compare::run::{repository, text_at};
use compare::specs::{crates, files_below, specs};
use std::collections::{BTreeMap, BTreeSet};

/// Each name and the places that define it.
type Places = BTreeMap<String, BTreeSet<String>>;

/// Every top-level name of specs/, a data's constructors included.
fn defined() -> Places {
    let mut places = Places::new();
    for file in specs(repository()) {
        for name in file.definitions.iter().flat_map(|definition| &definition.names) {
            places.entry(name.clone()).or_default().insert(file.path.clone());
        }
    }
    places
}

/// The name of the struct or the enum that a line of code opens.
fn declares(line: &str) -> Option<String> {
    let words: Vec<&str> = line.split_whitespace().filter(|&word| word != "pub").collect();
    let name = |rest: &str| rest.chars().take_while(|letter| letter.is_alphanumeric()).collect();
    match words[..] {
        ["struct" | "enum", rest, ..] => Some(name(rest)),
        _ => None,
    }
}

/// Every struct and enum of the code, but those that are seen as the definition of their own name.
fn declared() -> Places {
    let mut places = Places::new();
    for room in crates(repository()) {
        for file in files_below(&repository().join("crates").join(&room).join("src"), ".rt") {
            let code = text_at(&file);
            let seen_as_itself = |name: &String| code.contains(&format!("ghost Value = {{ {name} }};"));
            for name in code.lines().filter_map(declares).filter(|name| !seen_as_itself(name)) {
                places.entry(name).or_default().insert(format!("the code of {room}"));
            }
        }
    }
    places
}

/// One line for each name, with all its places.
fn listed(places: &Places) -> String {
    let line = |(name, at): (&String, &BTreeSet<String>)| {
        format!("    {name}: {}\n", at.iter().map(String::as_str).collect::<Vec<_>>().join(", "))
    };
    places.iter().map(line).collect()
}

#[test]
fn no_name_is_defined_in_two_files() {
    let mut places = defined();
    assert!(places.len() > 250, "only {} names were found", places.len());
    places.retain(|_, files| files.len() > 1);
    assert!(places.is_empty(), "{} names have two meanings:\n{}", places.len(), listed(&places));
}

#[test]
fn no_struct_has_the_name_of_a_definition() {
    let (mut places, declared) = (defined(), declared());
    assert!(declared.len() > 30, "only {} structs and enums were found", declared.len());
    places.retain(|name, _| declared.contains_key(name));
    for (name, files) in &mut places {
        files.extend(declared[name].iter().cloned());
    }
    assert!(places.is_empty(), "{} names are a struct's too:\n{}", places.len(), listed(&places));
}
