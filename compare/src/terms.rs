//! The words of definitions and contracts: which of them can be the name of something defined elsewhere.

use std::collections::BTreeSet;

const MARKS: &str = "(){};,⌜⌝⟦⟧";

/// The words of a text; brackets, commas and semicolons are words by themselves.
pub fn words(text: &str) -> Vec<String> {
    let apart =
        |letter: char| if MARKS.contains(letter) { format!(" {letter} ") } else { letter.to_string() };
    let spread: String = text.chars().map(apart).collect();
    spread.split_whitespace().map(str::to_string).collect()
}

fn is_mark(word: &str) -> bool {
    word.chars().all(|letter| MARKS.contains(letter))
}

/// A word without the point that ends what a λ binds.
fn plain(word: &str) -> String {
    word.strip_suffix('.').unwrap_or(word).to_string()
}

/// What the words from a place on bind: the names after a λ or a `let`, and those in a bracket before its colon.
fn bound_at(words: &[String], at: usize) -> Vec<String> {
    let rest = &words[at + 1..];
    match words[at].as_str() {
        "λ" => {
            let last = rest.iter().position(|word| word.ends_with('.')).unwrap_or(0);
            rest.iter().take(last + 1).map(|word| plain(word)).collect()
        }
        "let" => rest.iter().take(1).cloned().collect(),
        "(" | "{" => {
            let end = rest.iter().position(|word| word == ":" || word == "=" || is_mark(word));
            let names = end.filter(|&end| rest[end] == ":").unwrap_or(0);
            rest[..names].to_vec()
        }
        _ => vec![],
    }
}

/// Every name that a term binds somewhere.
pub fn bound(words: &[String]) -> BTreeSet<String> {
    (0..words.len()).flat_map(|at| bound_at(words, at)).collect()
}

/// The words that may be names: no field that is taken or given, no mark and no number.
pub fn names(words: &[String]) -> Vec<String> {
    let given = |at: usize| {
        let after = words.get(at + 1).map_or(false, |next| next == "=");
        after && at > 0 && (words[at - 1] == "{" || words[at - 1] == ";")
    };
    let numbered = |word: &str| word.chars().all(|letter| letter.is_ascii_digit());
    let name = |&at: &usize| {
        let word = &words[at];
        !word.starts_with('.') && !is_mark(word) && !numbered(word) && !given(at)
    };
    (0..words.len()).filter(name).map(|at| plain(&words[at])).collect()
}
