//! Starting the proved programs and the C client.

use std::env;
use std::fs;
use std::io::Write;
use std::path::{Path, PathBuf};
use std::process::{Command, Output, Stdio};
use std::thread;

/// A program of the repository and the file that it stands in.
pub struct Program {
    pub name: String,
    file: PathBuf,
}

pub fn repository() -> &'static Path {
    Path::new(env!("CARGO_MANIFEST_DIR")).parent().expect("compare/ stands in the repository")
}

/// The text of a file of the repository.
pub fn text(name: &str) -> String {
    text_at(&repository().join(name))
}

/// The text of any file.
pub fn text_at(file: &Path) -> String {
    fs::read_to_string(file).unwrap_or_else(|error| panic!("{}: {error}", file.display()))
}

/// Starts a command with an input, and waits for its end. It may stop reading before the end of the input, so a refused
/// write is no fault; and it writes while it is read from.
pub fn output(command: &mut Command, input: &[u8]) -> std::io::Result<Output> {
    let pipes = command.stdin(Stdio::piped()).stdout(Stdio::piped()).stderr(Stdio::piped());
    let mut child = pipes.spawn()?;
    let mut pipe = child.stdin.take().expect("the input is a pipe");
    let bytes = input.to_vec();
    let writer = thread::spawn(move || drop(pipe.write_all(&bytes)));
    let ended = child.wait_with_output()?;
    writer.join().expect("the writer ends");
    Ok(ended)
}

impl Program {
    /// The program at the path that the environment names, or the one that its maker left in a folder of target/.
    fn find(name: &str, variable: &str, folder: &str, maker: &str) -> Program {
        let built = || repository().join("target").join(folder).join(name);
        let file = env::var_os(variable).map_or_else(built, PathBuf::from);
        assert!(
            file.is_file(),
            "cannot run {name}: there is no file {}; `{maker}` builds it",
            file.display()
        );
        Program { name: name.to_string(), file }
    }

    pub fn plan() -> Program {
        Program::find("plan", "COMPARE_PLAN", "bin", "./test")
    }

    pub fn cases() -> Program {
        Program::find("cases", "COMPARE_CASES", "bin", "./test")
    }

    /// The C client, which takes words; the others take none.
    pub fn client() -> Program {
        Program::find("client", "COMPARE_CLIENT", "client", "client/run")
    }

    /// What the program writes to its standard output for an input, provided that it ends well and says nothing else.
    pub fn answer(&self, input: &[u8]) -> Result<Vec<u8>, String> {
        self.answer_to(&[], input)
    }

    /// The same for a program that is started with words.
    pub fn answer_to(&self, words: &[&str], input: &[u8]) -> Result<Vec<u8>, String> {
        let mut command = Command::new(&self.file);
        command.args(words);
        let ended = output(&mut command, input).map_err(|error| format!("{}: {error}", self.name))?;
        if !ended.status.success() || !ended.stderr.is_empty() {
            let said = String::from_utf8_lossy(&ended.stderr).into_owned();
            return Err(format!("{} ended with {} and said: {said}", self.name, ended.status));
        }
        Ok(ended.stdout)
    }
}
