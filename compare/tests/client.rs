//! The C client over the compiled archive, which `client/run` builds, held to the model: on every sheet of
//! docs/SHEETS.md, on the sample sheets with requests at the ends of their ranges, on random sheets, and on random rows of
//! surveys with any kinds and any bits.

use compare::asks::{any, ask, volumes};
use compare::client::{empty, prints, LARGEST_BYTES, LARGEST_ROOM};
use compare::equal::Pairs;
use compare::moved::{shortest_green, Ask, MAX_PLATOON};
use compare::page::{Page, Sample};
use compare::random::Random;
use compare::resting::{holds, rest, Resting, RESTING};
use compare::rows::{Survey, LIMITS};
use compare::run::{repository, text, Program};
use compare::sheet::{read, write, written, LARGEST_SHEET, STREET_A};
use compare::street::Street;
use compare::streets;
use compare::survey::{numbered_lines, numbered_rows, CHAINAGE, GAP};
use compare::tally::Tally;
use compare::trial::{in_parallel, indented, Case};
use compare::volumes::{HEADWAY, MAX_VOLUME};
use std::fs;
use std::path::PathBuf;

const SEED: u64 = 1_966;
const RANDOM: u64 = 300;
const SURVEYS: u64 = 400;

/// One start of the client: the file that it opens, that file's bytes, and the words after its name.
struct Run {
    file: String,
    sheet: Vec<u8>,
    words: String,
}

/// A start whose sheet is handed over as the standard input.
fn piped(sheet: &[u8], words: impl Into<String>) -> Run {
    Run { file: "/dev/stdin".to_string(), sheet: sheet.to_vec(), words: words.into() }
}

fn difference(client: &Program, run: &Run) -> Option<String> {
    let words: Vec<&str> = run.words.split_whitespace().collect();
    let model = prints(&words, &run.sheet);
    let all: Vec<&str> = [run.file.as_str()].into_iter().chain(words).collect();
    let answer = match client.answer_to(&all, &run.sheet) {
        Ok(answer) if answer == model.as_bytes() => return None,
        Ok(answer) => String::from_utf8_lossy(&answer).into_owned(),
        Err(fault) => fault,
    };
    let asked = format!("{} {}, with the sheet {}", run.file, run.words, run.sheet.escape_ascii());
    Some(format!("{asked}\nthe model\n{}the client\n{}", indented(&model), indented(&answer)))
}

/// Holds the client to the model, and fails with the first differences.
fn hold(runs: &[Run]) {
    let client = Program::client();
    println!("{} starts of the client", runs.len());
    let found = in_parallel(runs, |run| difference(&client, run));
    found.iter().take(3).for_each(|text| println!("\n{text}"));
    assert!(found.is_empty(), "{} starts of the client differ from the model", found.len());
}

/// What is asked about any sheet that can be read; the first two are enough for one that cannot.
const ALWAYS: [&str; 10] = [
    "",
    "print",
    "numbers",
    "unequal",
    "room 0",
    "write",
    "write 0",
    "volumes 10001 10001 101",
    "seconds",
    "seconds room 0",
];

/// What is asked about a sheet: of a street that has a plan also requests and lists at the ends of their ranges, and some of
/// these in seconds.
fn questions(sheet: &[u8]) -> Vec<String> {
    let street = read(sheet);
    let always = if street.is_ok() { &ALWAYS[..] } else { &ALWAYS[..2] };
    let planned = street.ok().filter(|street| street.range_fault().is_none());
    let more = planned.iter().flat_map(at_the_ends);
    always.iter().map(|words| words.to_string()).chain(more).collect()
}

fn at_the_ends(street: &Street) -> Vec<String> {
    let (best, g, n) = (Pairs::of(street).reference().1, shortest_green(street), street.signals());
    let widths = [best - 1, best, g, g + 1].map(|width| width.max(0));
    let some = best.max(1);
    let platoons = [
        (0, 0),
        (some / 2, some),
        (2 * some, some),
        (0, MAX_PLATOON),
        (MAX_PLATOON + 1, MAX_PLATOON + 1),
        (MAX_PLATOON, MAX_PLATOON + 1),
    ];
    let sides = widths.map(|width| [format!("outbound {width}"), format!("inbound {width}")]);
    let rooms = [n - 1, LARGEST_ROOM].map(|room| format!("room {room}"));
    let platoons = platoons.map(|(out, back)| format!("platoons {out} {back}"));
    let volumes = [
        (0, 0, HEADWAY.0),
        (1, 0, HEADWAY.1),
        (0, MAX_VOLUME, HEADWAY.0),
        (MAX_VOLUME, MAX_VOLUME, HEADWAY.1),
        (MAX_VOLUME, MAX_VOLUME + 1, HEADWAY.1),
        (MAX_VOLUME, 0, 0),
        (0, MAX_VOLUME, HEADWAY.1 + 1),
    ];
    let volumes = volumes.map(|(out, back, headway)| format!("volumes {out} {back} {headway}"));
    let bytes = write(street).len();
    let sheets = [bytes, bytes - 1].map(|room| format!("write {room}"));
    let plans: Vec<String> =
        sides.into_iter().flatten().chain(rooms).chain(platoons).chain(volumes).collect();
    let in_seconds = plans.iter().skip(1).step_by(3).map(|words| format!("seconds {words}"));
    plans.iter().cloned().chain(in_seconds).chain(sheets).collect()
}

#[test]
fn the_client_is_right_on_every_sheet_of_the_typists_page() {
    let samples = Page::open("SHEETS.md").samples();
    assert!(samples.len() >= 36, "{} sheets", samples.len());
    for Sample { sheet, prints: text, line } in &samples {
        assert_eq!(&prints(&["print"], sheet), text, "docs/SHEETS.md, line {line}");
    }
    let asked = |sample: &Sample| {
        questions(&sample.sheet).into_iter().map(|words| piped(&sample.sheet, words)).collect()
    };
    hold(&samples.iter().flat_map::<Vec<Run>, _>(asked).collect::<Vec<Run>>());
}

/// The sheets of sheets/, each with its file.
fn sample_sheets() -> Vec<(String, Vec<u8>)> {
    let folder = fs::read_dir(repository().join("sheets")).expect("sheets/ is there");
    let files = folder.map(|entry| entry.expect("a file of sheets/").path());
    let sheet = |file: PathBuf| {
        let bytes = fs::read(&file).expect("a sample sheet");
        (file.into_os_string().into_string().expect("a plain name"), bytes)
    };
    files.filter(|file| file.extension() == Some("txt".as_ref())).map(sheet).collect()
}

#[test]
fn the_client_is_right_on_the_sample_sheets() {
    let mut runs = vec![];
    for (file, sheet) in sample_sheets() {
        let run = |words: String| Run { file: file.clone(), sheet: sheet.clone(), words };
        runs.extend(questions(&sheet).into_iter().map(run));
    }
    assert!(runs.len() >= 400, "{} starts", runs.len());
    hold(&runs);
}

#[test]
fn the_client_is_right_on_streets_that_rest() {
    let street = |(which, n): (Resting, usize)| {
        let random = &mut Random::new(SEED + 2, n as u64);
        let mut street = streets::sized(random, n, 600);
        rest(random, &mut street.reds, which);
        assert!(holds(&street, which), "{which}: {street:?}");
        write(&street)
    };
    let sheets: Vec<Vec<u8>> = RESTING.into_iter().zip(3..).map(street).collect();
    let asked = |sheet: &Vec<u8>| questions(sheet).into_iter().map(|words| piped(sheet, words)).collect();
    let runs: Vec<Run> = sheets.iter().flat_map::<Vec<Run>, _>(asked).collect();
    assert!(runs.len() >= 150, "{} starts", runs.len());
    hold(&runs);
}

/// A request about a random street, whose sheet may be damaged.
fn random_run(number: u64) -> Run {
    let random = &mut Random::new(SEED, number);
    let street = if random.one_in(3) { streets::in_seconds(random) } else { streets::street(random) };
    let (n, some_room) = (street.signals(), random.below(LARGEST_ROOM + 1));
    let (bytes, some) = (write(&street).len(), random.below(LARGEST_BYTES + 1));
    let words = match random.below(18) {
        0 | 1 => random.pick(&ALWAYS).to_string(),
        2 => format!("room {}", random.pick(&[n - 1, n, n + 1, some_room])),
        3 | 4 => format!("write {}", random.pick(&[bytes - 1, bytes, bytes + 1, some])),
        5..=7 => volumes(random, &street).to_string(),
        8 => format!("seconds room {}", random.pick(&[n - 1, n, n + 1, some_room])),
        9..=12 => match any(random, &street) {
            Ask::Equal => "seconds".to_string(),
            other => format!("seconds {other}"),
        },
        _ => ask(random, &street).to_string(),
    };
    let case = Case::asking(random, number, words, &street);
    piped(&case.sheet, case.request)
}

#[test]
fn the_client_is_right_on_random_sheets() {
    let runs: Vec<Run> = (0..RANDOM).map(random_run).collect();
    let told = |run: &Run| prints(&run.words.split_whitespace().collect::<Vec<&str>>(), &run.sheet);
    let met = |words: &str, start: &str, part: &str| {
        let asked = runs.iter().filter(|run| run.words.starts_with(words));
        asked.map(told).filter(|text| text.starts_with(start) && text.contains(part)).count()
    };
    let wanted = [
        ("", "plan code 0 ", "", 40),
        ("volumes", "plan code 0 ", "\nvolumes outbound ", 15),
        ("volumes", "plan code 11 ", "\nvolumes outbound 0 inbound 0\n", 3),
        ("write", "writing code 0 ", "", 10),
        ("write", "writing code 3 ", "", 5),
        ("seconds", "plan code 0 ", "\nmeasure code 0 ", 15),
        ("seconds", "plan code 13 ", " 77777\n", 5),
        ("seconds room", "plan code 3 ", "", 2),
    ];
    for (words, start, part, wanted) in wanted {
        let met = met(words, start, part);
        assert!(met >= wanted, "{met} replies to `{words}` start with `{start}` and have `{}`", part.trim());
    }
    hold(&runs);
}

/// A random survey, now and then with rows of other kinds, with random bits everywhere, or with a list of another length.
fn random_rows(number: u64) -> Run {
    let random = &mut Random::new(SEED + 1, number);
    let Survey { cycle, mut rows } = Survey::random(random);
    for row in &mut rows {
        if random.one_in(120) {
            row.kind = random.pick(&[2, 3, 255, 256, 257, 65_536, 1 << 31, (1 << 32) - 1]);
        }
    }
    if random.one_in(12) {
        let any = |random: &mut Random| (random.below(1 << 32) << 32 | random.below(1 << 32)) as u64;
        rows.iter_mut().for_each(|row| row.floats = [(); 3].map(|_| any(random)));
    }
    let (n, any) = (rows.len(), random.below(LARGEST_ROOM + 1));
    let room = random.pick(&[n.saturating_sub(1), n, LARGEST_ROOM, 0, any]);
    let words = if random.one_in(4) { format!(" room {room}") } else { String::new() };
    piped(&numbered_lines(&rows), format!("survey {cycle}{words}"))
}

/// Two rows, the second with a float as its gap or as either of its speeds.
fn with_float(bits: u64, f: usize) -> Run {
    let mut floats = ["403e000000000000", "4024000000000000", "402e000000000000"].map(str::to_string);
    floats[f] = format!("{bits:016x}");
    let rows = format!("0 {0} {0} {0} 40\n1 {1} 50\n", "8000000000000000", floats.join(" "));
    piped(rows.as_bytes(), "survey 100")
}

#[test]
fn the_client_is_right_on_random_rows() {
    let random: Vec<Run> = (0..SURVEYS).map(random_rows).collect();
    let mut tally = Tally::of(&[
        ("planned", 80),
        ("planned with a red of 0", 20),
        ("sheet code 2 ", 5),
        ("sheet code 12 ", 120),
        ("a row of another kind refused", 20),
        ("plan code 3 ", 10),
        ("plan code 4 ", 3),
        ("plan code 5 ", 5),
        ("plan code 6 ", 4),
        ("plan code 7 ", 5),
    ]);
    for run in &random {
        let told = prints(&run.words.split_whitespace().collect::<Vec<&str>>(), &run.sheet);
        let rows = numbered_rows(&run.sheet).expect("rows");
        let place = told.split(' ').nth(4).and_then(|place| place.parse::<usize>().ok()).expect("a place");
        let other = place > 0 && ![CHAINAGE, GAP].contains(&rows[place - 1].kind);
        let planned = told.contains("plan code 0 ");
        tally.note("planned", planned);
        tally.note("planned with a red of 0", planned && rows.iter().any(|row| row.red == 0));
        tally.note("a row of another kind refused", other);
        for code in ["sheet code 2 ", "sheet code 12 ", "plan code 3 ", "plan code 4 ", "plan code 5 "] {
            tally.note(code, told.contains(code));
        }
        for code in ["plan code 6 ", "plan code 7 "] {
            tally.note(code, told.contains(code));
        }
    }
    tally.close();
    let limits = LIMITS.iter().flat_map(|limit| (0..3).map(move |f| with_float(limit.1, f)));
    hold(&random.into_iter().chain(limits).collect::<Vec<Run>>());
}

#[test]
fn a_sheet_that_is_read_and_written_again_is_the_same() {
    let page = Page::open("SHEETS.md").samples().into_iter().map(|sample| sample.sheet);
    let sheets = page.chain(sample_sheets().into_iter().map(|(_, sheet)| sheet));
    let written_again = |sheet: &Vec<u8>| read(sheet).and_then(|street| written(&street, sheet.len()));
    let both: Vec<_> = sheets.filter_map(|sheet| Some((written_again(&sheet).ok()?, sheet))).collect();
    assert!(both.len() >= 15, "{} sheets are written again", both.len());
    both.iter().for_each(|(again, sheet)| assert_eq!(again, sheet));
}

#[test]
fn the_client_sees_that_a_sheet_is_too_long() {
    let of_length = |length: usize| {
        let mut sheet = b"1\n100\n33\n".to_vec();
        sheet.resize(length, b'0');
        sheet
    };
    let lengths = [0, 9, LARGEST_SHEET, LARGEST_SHEET + 1, 2 * LARGEST_SHEET, 70_000];
    let sheets = lengths.map(of_length);
    assert_eq!(prints(&["print"], &sheets[2]), "refused 2 0\n");
    assert_eq!(prints(&["print"], &sheets[3]), "refused 1 0\n");
    hold(
        &sheets.iter().flat_map(|sheet| ["", "print"].map(|words| piped(sheet, words))).collect::<Vec<Run>>(),
    );
}

#[test]
fn the_client_hands_over_empty_lists() {
    let answer = Program::client().answer_to(&["empty"], b"").unwrap_or_else(|fault| panic!("{fault}"));
    assert_eq!(String::from_utf8_lossy(&answer), empty());
}

#[test]
fn the_client_tells_bad_words_from_a_refusal() {
    let client = Program::client();
    let bad: [&[&str]; 14] = [
        &[],
        &["/dev/stdin", "equal"],
        &["/dev/stdin", "outbound"],
        &["/dev/stdin", "room", "65"],
        &["/dev/stdin", "write", "836"],
        &["/dev/stdin", "volumes", "800", "300"],
        &["/dev/stdin", "seconds", "equal"],
        &["/dev/stdin", "seconds", "write"],
        &["/dev/stdin", "seconds", "room", "65"],
        &["/dev/stdin", "seconds", "volumes", "800", "300"],
        &["/dev/stdin", "survey"],
        &["/dev/stdin", "survey", "100", "room"],
        // A sheet has no rows.
        &["/dev/stdin", "survey", "100"],
        &["no-such-sheet.txt"],
    ];
    for words in bad {
        let fault = client.answer_to(words, STREET_A).expect_err("such words are no good");
        assert!(fault.contains("exit status: 2"), "{words:?}: {fault}");
    }
}

/// The cases of client/expected.txt: after `$ ` the client's words, and the lines that it prints.
fn shown() -> Vec<(String, String)> {
    let text = text("client/expected.txt");
    let case = |part: &str| {
        let (words, lines) = part.split_once('\n').expect("a line of words");
        (words.to_string(), lines.to_string())
    };
    let end = |part: &str| if part.ends_with('\n') { part.to_string() } else { format!("{part}\n") };
    text.split("\n$ ").skip(1).map(|part| case(&end(part))).collect()
}

#[test]
fn the_clients_shown_lines_are_the_models() {
    let cases = shown();
    let street_a = ["", " room 1", " unequal", " write 36", " write 35", " volumes 800 300 20"];
    let wanted = street_a.map(|words| format!("sheets/street-a.txt{words}"));
    let resting = ["crossing.txt", "crossing.txt inbound 1320", "all.txt", "all.txt outbound 1199"]
        .map(|words| format!("sheets/row-resting-{words}"));
    let seconds =
        ["street-a.txt seconds", "street-a.txt seconds outbound 80", "row-seconds-98-5-s.txt seconds"]
            .map(|words| format!("sheets/{words}"));
    let rows = ["street-a.txt survey 100", "bad-kind.txt survey 100", "speed-of-zero.txt survey 100 room 2"]
        .map(|words| format!("client/rows/{words}"));
    for words in
        wanted.iter().chain(&resting).chain(&seconds).chain(&rows).map(String::as_str).chain(["empty"])
    {
        assert!(cases.iter().any(|(shown, _)| shown == words), "client/expected.txt does not show {words}");
    }
    for (line, text) in cases {
        let words: Vec<&str> = line.split(' ').collect();
        let model = match words[..] {
            ["empty"] => empty(),
            [file, ref words @ ..] => {
                let sheet =
                    fs::read(repository().join(file)).unwrap_or_else(|error| panic!("{file}: {error}"));
                prints(words, &sheet)
            }
            [] => panic!("a case has no words"),
        };
        assert_eq!(model, text, "client/expected.txt, {line}");
    }
}
