//! How many lines of specs/ a reader has to believe: what the public contracts cite, or given definitions, and what
//! that cites in turn.

use crate::run::text_at;
use crate::specs::{crates, files_below, specs, Definition, File};
use crate::terms::{bound, names, words};
use std::collections::{BTreeMap, BTreeSet};
use std::path::Path;

/// The functions that a user calls, by their crate; those for C are found by their mark.
const CALLS: [(&str, &[&str]); 8] = [
    ("plans", &["plan_for", "volumes"]),
    ("survey", &["read", "read_lists", "plan_for"]),
    ("cabinets", &["plan_for"]),
    ("bands", &["measure"]),
    ("sheet", &["read"]),
    ("writer", &["write"]),
    ("printed", &["equal_text"]),
    ("plan", &["send"]),
];

/// Where an operator's name has an operand.
const HOLE: char = '◌';

const FOR_C: &str = "extern \"C\" fn ";

/// The file that states what is demanded of the replies.
pub const DEMANDS: &str = "promises/specs/Replies.antt";

/// The file that states what a written sheet is worth.
pub const ROUND_TRIPS: &str = "writer/specs/RoundTrips.antt";

/// A definition by its file and its place there.
pub type Id = (usize, usize);

/// Definitions and all that they cite.
pub type Cited = BTreeSet<Id>;

/// Some lines of a file, and how many it has.
#[derive(Debug, PartialEq)]
pub struct Part {
    pub path: String,
    pub cited: usize,
    pub lines: usize,
}

/// The names that one text sees: definitions, and whole files under another name.
#[derive(Default)]
struct Scope {
    names: BTreeMap<String, Id>,
    files: BTreeMap<String, usize>,
}

/// All of specs/, and what each of its files sees.
pub struct House {
    crates: Vec<String>,
    files: Vec<File>,
    scopes: Vec<Scope>,
}

/// The contract of a function, the names of its parameters, and what its file sees.
struct Contract {
    text: String,
    parameters: BTreeSet<String>,
    scope: Scope,
}

/// What a `use` line names: the module, then either its own new name or names with their new ones.
fn used(line: &str) -> (&str, Option<&str>, Vec<(&str, &str)>) {
    let line = line.trim_end_matches(';');
    let (_, what) = line.split_once("use ").unwrap_or_else(|| panic!("`{line}` brings nothing in"));
    if let Some((module, list)) = what.split_once(".{") {
        let items = list.trim_end_matches('}').split(',').map(str::trim);
        return (module, None, items.map(|item| item.split_once(" as ").unwrap_or((item, item))).collect());
    }
    let whole = what.split_once(" as ").unwrap_or_else(|| panic!("`{line}` is of an unknown form"));
    (whole.0, Some(whole.1), vec![])
}

impl Scope {
    /// Adds a name; an operator is cited by its parts.
    fn add(&mut self, name: &str, id: Id) {
        self.names.insert(name.to_string(), id);
        for part in name.split(HOLE).filter(|part| name.contains(HOLE) && !part.is_empty()) {
            self.names.insert(part.to_string(), id);
        }
    }
}

/// Whether a line of a definition starts one of its statements.
fn starts(line: &str) -> bool {
    !line.starts_with(' ')
}

/// The statements of a definition: its signature and each equation; a record or a data is one.
fn statements(definition: &Definition) -> Vec<Vec<String>> {
    let mut texts: Vec<String> = vec![];
    for line in &definition.lines {
        if starts(line) {
            texts.push(String::new());
        }
        let last = texts.last_mut().expect("a definition starts with its signature");
        *last += line;
        *last += "\n";
    }
    texts.iter().map(|text| words(text)).filter(|words| !words[0].starts_with("infix")).collect()
}

/// The words before the `=` of an equation; a signature has none.
fn patterns(words: &[String]) -> &[String] {
    let end = words.iter().position(|word| word == ":" || word == "=");
    end.filter(|&end| words[end] == "=").map_or(&[], |end| &words[..end])
}

impl House {
    pub fn read(root: &Path) -> House {
        let mut house = House { crates: crates(root), files: specs(root), scopes: vec![] };
        house.scopes = (0..house.files.len()).map(|file| house.scope_of(file)).collect();
        house
    }

    /// The file of a module of specs/; none for a library and for what the code declares.
    fn file_of(&self, module: &str) -> Option<usize> {
        let (room, rest) = module.strip_prefix("Rattle.")?.split_once('.')?;
        let inside = rest.strip_prefix("specs.")?;
        if !self.crates.iter().any(|name| name == room) || inside.starts_with("declared.") {
            return None;
        }
        let path = format!("{room}/{}.antt", rest.replace('.', "/"));
        let at = self.files.iter().position(|file| file.path == path);
        Some(at.unwrap_or_else(|| panic!("{module} is named, and there is no {path}")))
    }

    /// The definition of a name that a file has, or hands on from another.
    fn export(&self, file: usize, name: &str) -> Option<Id> {
        let has = |definition: &Definition| definition.names.iter().any(|own| own == name);
        if let Some(at) = self.files[file].definitions.iter().position(has) {
            return Some((file, at));
        }
        let mut handed = self.files[file].uses.iter().filter(|line| line.starts_with("pub "));
        handed.find_map(|line| {
            let (module, _, items) = used(line);
            let (from, _) = items.into_iter().find(|&(_, new)| new == name)?;
            self.export(self.file_of(module)?, from)
        })
    }

    /// What some `use` lines bring in.
    fn brought<'a>(&self, uses: impl Iterator<Item = &'a str>) -> Scope {
        let mut scope = Scope::default();
        for (module, alias, items) in uses.map(used) {
            if let Some(file) = self.file_of(module) {
                scope.files.extend(alias.map(|alias| (alias.to_string(), file)));
                for (name, new) in items {
                    let id = self.export(file, name).unwrap_or_else(|| panic!("{module} has no {name}"));
                    scope.add(new, id);
                }
            }
        }
        scope
    }

    /// What a file sees: what it brings in, and its own.
    fn scope_of(&self, file: usize) -> Scope {
        let mut scope = self.brought(self.files[file].uses.iter().map(String::as_str));
        for (at, definition) in self.files[file].definitions.iter().enumerate() {
            definition.names.iter().for_each(|name| scope.add(name, (file, at)));
        }
        scope
    }

    /// The definition that a word stands for, if it stands for one; before a point stands a file's other name, or what has a
    /// field.
    fn stands_for(&self, scope: &Scope, word: &str) -> Option<Id> {
        let of_file = || {
            let (first, rest) = word.split_once('.')?;
            match scope.files.get(first) {
                Some(&file) => self.export(file, rest),
                None => scope.names.get(first).copied(),
            }
        };
        scope.names.get(word).copied().or_else(of_file)
    }

    /// Whether a word of a pattern stands for a constructor, and not for whatever is met there.
    fn is_constructor(&self, scope: &Scope, word: &str) -> bool {
        let definition = |(file, at): Id| &self.files[file].definitions[at];
        self.stands_for(scope, word).map_or(false, |id| {
            let name = word.rsplit('.').next().unwrap_or(word);
            definition(id).names.iter().skip(1).any(|own| own == name)
        })
    }

    /// What a term's words cite.
    fn cited_by(&self, scope: &Scope, words: &[String], taken: &BTreeSet<String>) -> Cited {
        let first = |name: &String| name.split('.').next().unwrap_or("").to_string();
        let free = names(words).into_iter().filter(|name| !taken.contains(&first(name)));
        free.filter_map(|name| self.stands_for(scope, &name)).collect()
    }

    /// What a definition cites.
    fn cites(&self, (file, at): Id) -> Cited {
        let scope = &self.scopes[file];
        let statement = |words: &Vec<String>| {
            let met = names(patterns(words)).into_iter().filter(|word| !self.is_constructor(scope, word));
            let taken: BTreeSet<String> = bound(words).into_iter().chain(met).collect();
            self.cited_by(scope, words, &taken)
        };
        statements(&self.files[file].definitions[at]).iter().flat_map(statement).collect()
    }

    /// Some definitions with all that they cite, and that cites in turn.
    pub fn closure(&self, roots: &Cited) -> Cited {
        let (mut all, mut next) = (Cited::new(), roots.clone());
        while !next.is_empty() {
            all.extend(&next);
            next = next.iter().flat_map(|&id| self.cites(id)).filter(|id| !all.contains(id)).collect();
        }
        all
    }

    /// Every definition of some files.
    pub fn all_of(&self, paths: &[&str]) -> Cited {
        let ids = |path: &&str| {
            let file = self.files.iter().position(|file| file.path == *path);
            let file = file.unwrap_or_else(|| panic!("there is no file {path} of specs/"));
            (0..self.files[file].definitions.len()).map(move |at| (file, at))
        };
        paths.iter().flat_map(ids).collect()
    }

    /// What the contracts of the public calls cite, and those calls that are not there.
    pub fn contracts(&self, root: &Path) -> (Cited, Vec<String>) {
        let (mut cited, mut missing) = (Cited::new(), vec![]);
        for (room, function, contract) in contracts(self, root) {
            match contract {
                Some(Contract { text, parameters, scope }) => {
                    let words = words(&text);
                    let taken: BTreeSet<String> = bound(&words).into_iter().chain(parameters).collect();
                    cited.extend(self.cited_by(&scope, &words, &taken));
                }
                None => missing.push(format!("{room}::{function}")),
            }
        }
        (cited, missing)
    }

    /// How many lines of each file some definitions are, for the files that have one of them.
    pub fn parts(&self, cited: &Cited) -> Vec<Part> {
        let part = |(file, content): (usize, &File)| {
            let lines = |at: usize| content.definitions[at].lines.len();
            let count = content.definitions.len();
            Part {
                path: content.path.clone(),
                cited: (0..count).filter(|&at| cited.contains(&(file, at))).map(lines).sum(),
                lines: (0..count).map(lines).sum(),
            }
        };
        self.files.iter().enumerate().map(part).filter(|part| part.lines > 0).collect()
    }
}

/// How many lines some parts have in all.
pub fn total(parts: &[Part]) -> usize {
    parts.iter().map(|part| part.cited).sum()
}

/// Whether a file holds what functions say to each other only.
pub fn is_steps(part: &Part) -> bool {
    part.path.ends_with("/specs/Steps.antt") || part.path.contains("/specs/Steps/")
}

/// The contract of every public call, by its crate and its name.
fn contracts(house: &House, root: &Path) -> Vec<(String, String, Option<Contract>)> {
    let mut found = vec![];
    for (room, functions) in CALLS {
        let texts = sources(root, room);
        for function in functions {
            let contract = texts.iter().find_map(|text| contract(house, text, function));
            found.push((room.to_string(), function.to_string(), contract));
        }
    }
    for text in sources(root, "exports") {
        for rest in text.split(FOR_C).skip(1) {
            let function = rest.split('(').next().unwrap_or("").to_string();
            let contract = contract(house, &text, &function);
            found.push(("exports".to_string(), function, contract));
        }
    }
    found
}

/// The sources of a crate.
fn sources(root: &Path, room: &str) -> Vec<String> {
    let folder = root.join("crates").join(room).join("src");
    files_below(&folder, ".rt").iter().map(|file| text_at(file)).collect()
}

/// The text in the bracket that a text starts with, up to its end.
fn bracketed(text: &str) -> &str {
    let mut depth = 0;
    let end = text.char_indices().find(|&(_, letter)| {
        depth += i32::from(letter == '{') - i32::from(letter == '}');
        depth == 0
    });
    end.map_or(text, |(end, _)| &text[..=end])
}

/// The contract of a function in the source of its file: each bracket between its head and its body.
fn contract(house: &House, source: &str, function: &str) -> Option<Contract> {
    let mut rest = source.split_once(&format!("fn {function}("))?.1;
    let (mut text, mut parameters) = (String::new(), BTreeSet::new());
    while let Some(at) = rest.find('{') {
        let before = rest[..at].trim_end();
        parameters
            .extend(before.split_whitespace().filter_map(|word| word.strip_suffix(':')).map(String::from));
        // A clause may have a name.
        let mut last = before.rsplit(char::is_whitespace).take(2);
        if !last.any(|word| word == "requires" || word == "ensures") {
            break;
        }
        let inside = bracketed(&rest[at..]);
        text += inside;
        rest = &rest[at + inside.len()..];
    }
    let uses = source.lines().filter(|line| line.starts_with("ghost use "));
    Some(Contract { text, parameters, scope: house.brought(uses) })
}
