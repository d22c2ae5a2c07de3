//! The scripts that people start, `plan` and `ask`, and what they say of a sheet.

use crate::run::{output, repository};
use std::fs;
use std::path::PathBuf;
use std::process::Command;
use std::sync::atomic::{AtomicUsize, Ordering};

/// How a script ended: its status, what it printed and what it said beside that.
#[derive(Debug)]
pub struct Ended {
    pub status: Option<i32>,
    pub printed: String,
    pub said: String,
}

/// Starts a script of the repository with words and an input.
pub fn script(name: &str, words: &[&str], input: &[u8]) -> Ended {
    match name {
        "ask" => fresh("cases"),
        "plan" => fresh("plan"),
        _ => (),
    }
    ended(Command::new(repository().join(name)).args(words).current_dir(repository()), input)
}

/// Runs a line of bash in the repository's folder, without input.
pub fn bash(line: &str) -> Ended {
    fresh("plan");
    ended(Command::new("bash").args(["-c", line]).current_dir(repository()), b"")
}

/// Starts a command with an input, and tells how it ended.
pub fn ended(command: &mut Command, input: &[u8]) -> Ended {
    let output = output(command, input).unwrap_or_else(|error| panic!("{command:?}: {error}"));
    let text = |bytes: &[u8]| String::from_utf8_lossy(bytes).into_owned();
    Ended { status: output.status.code(), printed: text(&output.stdout), said: text(&output.stderr) }
}

/// Sees that no script will build its program anew, which in several tests at once would end badly.
fn fresh(program: &str) {
    let stale = ["-c", "name=stale; . scripts/base.sh; stale \"$0\"", program];
    let status = Command::new("bash").args(stale).current_dir(repository()).status();
    let starter = if program == "cases" { "./ask equal" } else { "./plan" };
    let built = status.unwrap_or_else(|error| panic!("bash: {error}")).code() == Some(1);
    assert!(
        built,
        "target/bin/{program} is missing or older than its sources; `{starter} sheets/street-a.txt` builds it"
    );
}

/// What `ask` says last, whatever the answer is.
pub const TESTED: &str =
    "ask: the answer is the proved library's; that it was asked for and printed so is tested, not proved\n";

/// Holds `ask write` on a sheet to how `plan` ended on it, and tells where it ends otherwise. A refusal is printed and
/// explained alike; a sheet that has a plan is printed as it stands, beside the same size.
pub fn written_otherwise(sheet: &[u8], plan: &Ended) -> Option<String> {
    let written = script("ask", &["write"], sheet);
    let under_its_name = |line: &str| line.replacen("plan: ", "ask: ", 1) + "\n";
    let said = plan.said.lines().map(under_its_name).collect::<String>() + TESTED;
    let printed = if plan.status == Some(1) { plan.printed.as_bytes() } else { sheet };
    let same = written.status == plan.status && written.printed.as_bytes() == printed && written.said == said;
    (!same).then(|| format!("{}: {written:?}, where `plan` ended as {plan:?}", sheet.escape_ascii()))
}

/// What the scripts say of a sheet, given what the program answered to a request.
pub fn look(sheet: &[u8], code: i64, place: i64, request: &str) -> String {
    let listed: String = sheet.chunks(16).map(numbers).collect();
    read_by("awk", "sheet", &about(code, place, request), listed.as_bytes())
}

/// What the scripts say of typed rows, given what the program answered to a request.
pub fn look_at_rows(rows: &str, code: i64, place: i64, request: &str) -> String {
    read_by("awk", "rows", &about(code, place, request), rows.as_bytes())
}

/// Typed rows as the scripts put them to the program, by the awk of some words.
pub fn converted(awk: &str, rows: &str) -> String {
    read_by(awk, "rows", &[], rows.as_bytes())
}

/// What a script of awk is told of an answer.
fn about(code: i64, place: i64, request: &str) -> Vec<String> {
    vec![format!("code={code}"), format!("place={place}"), format!("request={request}")]
}

/// Runs a script of awk on an input, by the awk of some words and with variables set.
fn read_by(awk: &str, script: &str, variables: &[String], input: &[u8]) -> String {
    let mut words = awk.split(' ');
    let mut awk = Command::new(words.next().expect("a word"));
    awk.args(words).args(variables.iter().flat_map(|set| ["-v", set]));
    for name in ["words", script] {
        awk.arg("-f").arg(repository().join(format!("scripts/{name}.awk")));
    }
    let Ended { status, printed, said } = ended(awk.env("LC_ALL", "C"), input);
    assert!(status == Some(0) && said.is_empty(), "awk ended with {status:?} and said: {said}{printed}");
    printed
}

/// A line of bytes as `od` lists them.
fn numbers(bytes: &[u8]) -> String {
    bytes.iter().map(|byte| format!(" {byte:3}")).collect::<String>() + "\n"
}

/// A folder of its own for a test, removed with what it holds when the test is done with it.
pub struct Folder(pub PathBuf);

impl Folder {
    pub fn make() -> Folder {
        static COUNT: AtomicUsize = AtomicUsize::new(0);
        let number = COUNT.fetch_add(1, Ordering::Relaxed);
        let path = std::env::temp_dir().join(format!("corbatan-{}-{number}", std::process::id()));
        fs::create_dir(&path).unwrap_or_else(|error| panic!("{}: {error}", path.display()));
        Folder(path)
    }

    /// Where a file of that name stands in the folder, whose own folder is made.
    fn place(&self, name: &str) -> PathBuf {
        let file = self.0.join(name);
        fs::create_dir_all(file.parent().expect("a file stands in a folder")).expect("a folder for a file");
        file
    }

    /// Puts a file into the folder.
    pub fn put(&self, name: &str, bytes: impl AsRef<[u8]>) -> PathBuf {
        let file = self.place(name);
        fs::write(&file, bytes).unwrap_or_else(|error| panic!("{}: {error}", file.display()));
        file
    }

    /// Copies a file of the repository into the folder, at the same place and with its right to be run.
    pub fn copy(&self, name: &str) {
        fs::copy(repository().join(name), self.place(name)).unwrap_or_else(|error| panic!("{name}: {error}"));
    }
}

impl Drop for Folder {
    fn drop(&mut self) {
        drop(fs::remove_dir_all(&self.0));
    }
}
