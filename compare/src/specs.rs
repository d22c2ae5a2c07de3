//! What stands in specs/: each file's top-level names with the lines that define them, and the names it brings in.

use crate::run::text_at;
use std::fs;
use std::path::{Path, PathBuf};

/// A definition, record or data.
#[derive(Debug)]
pub struct Definition {
    /// Its name, and after it those of a data's constructors.
    pub names: Vec<String>,
    /// Its signature, equations, fields or constructors, line by line, without comments and blank lines.
    pub lines: Vec<String>,
}

/// A file of specs/.
#[derive(Debug)]
pub struct File {
    /// Its place below crates/.
    pub path: String,
    /// Its `use` lines, as they stand.
    pub uses: Vec<String>,
    pub definitions: Vec<Definition>,
}

/// The files below a folder whose names have this end, in order.
pub fn files_below(folder: &Path, end: &str) -> Vec<PathBuf> {
    let mut entries: Vec<PathBuf> =
        fs::read_dir(folder).into_iter().flatten().map(|entry| entry.expect("an entry").path()).collect();
    entries.sort();
    let below = |entry: PathBuf| if entry.is_dir() { files_below(&entry, end) } else { vec![entry] };
    let wanted = |file: &PathBuf| file.to_string_lossy().ends_with(end);
    entries.into_iter().flat_map(below).filter(wanted).collect()
}

/// The crates of a house, in the order of its list.
pub fn crates(root: &Path) -> Vec<String> {
    let list = text_at(&root.join("crates.txt"));
    let rows = list.lines().filter(|line| !line.starts_with('#'));
    rows.filter_map(|line| line.split(&[' ', ':'][..]).next()).map(String::from).collect()
}

/// Every file of specs/, crate by crate.
pub fn specs(root: &Path) -> Vec<File> {
    let folder = root.join("crates");
    let of_crate = |name: String| files_below(&folder.join(name).join("specs"), ".antt");
    let path = |file: &Path| file.strip_prefix(&folder).expect("below crates/").display().to_string();
    crates(root).into_iter().flat_map(of_crate).map(|file| read(path(&file), &text_at(&file))).collect()
}

/// Reads one file's text.
pub fn read(path: String, text: &str) -> File {
    let mut file = File { path, uses: vec![], definitions: vec![] };
    let said = |line: &&str| !line.trim().is_empty() && !line.trim_start().starts_with("--");
    for line in text.lines().filter(said) {
        let words: Vec<&str> = line.split_whitespace().filter(|&word| word != "pub").collect();
        match words[0] {
            "use" => file.uses.push(line.to_string()),
            "mod" => (),
            _ => file.take(line, &words),
        }
    }
    file
}

/// Whether a line tells the type of a name: it has a colon, and no `=` before that.
fn typed(words: &[&str]) -> bool {
    words.iter().find(|&&word| word == ":" || word == "=") == Some(&":")
}

/// How far a line is set in.
fn indent(line: &str) -> usize {
    line.len() - line.trim_start().len()
}

impl File {
    /// Takes one more line that is no `use` and no `mod`: it opens a definition, or belongs to one.
    fn take(&mut self, line: &str, words: &[&str]) {
        if words[0].starts_with("infix") {
            let operator = words[words.len() - 1];
            let of = self.definitions.iter_mut().find(|definition| definition.names[0] == operator);
            of.unwrap_or_else(|| panic!("{}: {line}", self.path)).lines.push(line.to_string());
        } else if indent(line) == 0 && typed(words) {
            let kinds = ["abbrev", "unfoldable", "record", "data"];
            let name = words.iter().find(|word| !kinds.contains(word)).expect("a name");
            self.definitions
                .push(Definition { names: vec![name.to_string()], lines: vec![line.to_string()] });
        } else {
            let place = || panic!("{}: nothing opens `{line}`", self.path);
            self.definitions.last_mut().unwrap_or_else(place).take(line, words);
        }
    }
}

impl Definition {
    /// Whether it is a data, whose constructors are names too.
    fn is_data(&self) -> bool {
        self.lines[0].split_whitespace().any(|word| word == "data")
    }

    /// Takes a line that belongs to it. A data's constructors are set in as far as the first of them.
    fn take(&mut self, line: &str, words: &[&str]) {
        let first = self.lines.get(1).map_or(indent(line), |line| indent(line));
        if self.is_data() && indent(line) == first && typed(words) {
            let names = words.iter().take_while(|&&word| word != ":").map(|word| word.to_string());
            self.names.extend(names);
        }
        self.lines.push(line.to_string());
    }
}
