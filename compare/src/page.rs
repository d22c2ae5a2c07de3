//! A page of `docs/`: its tables by their header row, and its sheets with what `plan` prints for them; and the sample
//! sheets of `sheets/`.

use crate::run::{repository, text};
use crate::sheet::read;
use crate::street::Street;
use std::collections::BTreeMap;
use std::fs;

pub struct Page {
    pub text: String,
}

/// A sheet of a page, what the page says that `plan` prints for it, and the page's line where it stands.
pub struct Sample {
    pub sheet: Vec<u8>,
    pub prints: String,
    pub line: usize,
}

const MARKS: [(&str, &[u8]); 6] = [
    ("<CR>", b"\r"),
    ("<TAB>", b"\t"),
    ("<SPACE>", b" "),
    ("<NBSP>", b"\xc2\xa0"),
    ("<BOM>", b"\xef\xbb\xbf"),
    ("<END>\n", b""),
];

/// The header of a table that types one line of the page's first sheet otherwise.
pub const SLIPS: &str = "| Line | Typed instead | Prints | Mend |";

fn cells(row: &str) -> Vec<String> {
    let inner = row.trim().trim_start_matches('|').trim_end_matches('|');
    inner.split('|').map(|cell| cell.trim().trim_matches('`').to_string()).collect()
}

/// The bytes of a sheet as a page shows it, with its marks.
fn bytes(shown: &str) -> Vec<u8> {
    let mut text = shown.as_bytes().to_vec();
    for (mark, stands_for) in MARKS {
        while let Some(at) = text.windows(mark.len()).position(|part| part == mark.as_bytes()) {
            text.splice(at..at + mark.len(), stands_for.iter().copied());
        }
    }
    text
}

/// The words in code style of a line, each with a line end.
pub fn coded(line: &str) -> String {
    line.split('`').skip(1).step_by(2).map(|word| format!("{word}\n")).collect()
}

/// The sample sheets by the table of sheets/README.md, whose rows give file, meaning, first line and offsets: each file's
/// name, and what `plan` prints for it.
pub fn listed() -> BTreeMap<String, String> {
    let row = |line: &str| {
        let cells = cells(line);
        let lines = [cells[2].as_str()].into_iter().chain(cells[3].split_whitespace());
        (cells[0].clone(), lines.map(|line| format!("{line}\n")).collect::<String>())
    };
    text("sheets/README.md").lines().filter(|line| line.starts_with("| `")).map(row).collect()
}

/// The bytes of a sheet of `sheets/`.
pub fn sheet(name: &str) -> Vec<u8> {
    fs::read(repository().join("sheets").join(name)).unwrap_or_else(|error| panic!("{name}: {error}"))
}

/// The street of such a sheet.
pub fn street(name: &str) -> Street {
    read(&sheet(name)).unwrap_or_else(|refusal| panic!("{name}: {refusal:?}"))
}

impl Page {
    pub fn open(name: &str) -> Page {
        Page { text: text(&format!("docs/{name}")) }
    }

    /// Holds the page to a sentence, wherever its lines break.
    pub fn says(&self, sentence: &str) {
        let flowing = self.text.split_whitespace().collect::<Vec<&str>>().join(" ");
        assert!(flowing.contains(sentence), "the page does not say: {sentence}");
    }

    /// The cells of every table with this header row, row by row, each with the page's line.
    fn rows(&self, header: &str) -> Vec<(usize, Vec<String>)> {
        let lines: Vec<&str> = self.text.lines().collect();
        let mut rows = vec![];
        for head in (0..lines.len()).filter(|&k| lines[k] == header) {
            let below = (head + 2..lines.len()).take_while(|&k| lines[k].starts_with('|'));
            rows.extend(below.map(|k| (k + 1, cells(lines[k]))));
        }
        rows
    }

    /// The lines of every table with this header row, as they stand.
    pub fn lines(&self, header: &str) -> Vec<&str> {
        let lines: Vec<&str> = self.text.lines().collect();
        self.rows(header).into_iter().map(|(line, _)| lines[line - 1]).collect()
    }

    /// The rows of the examples' table of surveys: what is typed, what is asked and what it gets, each with line ends.
    pub fn surveys(&self) -> Vec<[String; 3]> {
        let lines = self.lines("| Row | Rows | Asked | Reply |");
        let row = |line: &str| {
            let cells: Vec<String> = line.split('|').skip(2).take(3).map(coded).collect();
            cells.try_into().expect("rows, a request and a reply")
        };
        lines.into_iter().map(row).collect()
    }

    pub fn table(&self, header: &str) -> Vec<Vec<String>> {
        self.rows(header).into_iter().map(|(_, cells)| cells).collect()
    }

    /// The sheets in blocks: a line `Prints:`, and directly below it the block.
    pub fn blocks(&self) -> Vec<Sample> {
        let lines: Vec<&str> = self.text.lines().collect();
        let opening = (1..lines.len()).filter(|&k| lines[k] == "```sheet");
        opening
            .map(|k| {
                assert!(lines[k - 1].starts_with("Prints: `"), "line {k} does not say what the sheet gets");
                let shown = lines[k + 1..].iter().take_while(|&&line| line != "```");
                let shown: String = shown.map(|line| format!("{line}\n")).collect();
                Sample { sheet: bytes(&shown), prints: coded(lines[k - 1]), line: k + 1 }
            })
            .collect()
    }

    /// The sheets that differ from the page's first one by a line of a table.
    pub fn slips(&self) -> Vec<Sample> {
        let good = String::from_utf8(self.blocks()[0].sheet.clone()).expect("the first sheet is plain");
        let slip = |(at, cells): (usize, Vec<String>)| {
            let number: usize = cells[0].parse().expect("a line of the sheet");
            let mut lines: Vec<&str> = good.lines().collect();
            assert_ne!(lines[number - 1], cells[1], "line {at} of the page is no slip");
            lines[number - 1] = &cells[1];
            let shown: String = lines.iter().map(|line| format!("{line}\n")).collect();
            Sample { sheet: bytes(&shown), prints: format!("{}\n", cells[2]), line: at }
        };
        self.rows(SLIPS).into_iter().map(slip).collect()
    }

    /// All sheets of the page.
    pub fn samples(&self) -> Vec<Sample> {
        self.blocks().into_iter().chain(self.slips()).collect()
    }
}
