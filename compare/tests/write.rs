//! Sheets written by `cases` from the streets that it read: random streets and lists of bytes, every length of the list for
//! small streets, the longest sheet, and both round trips.
//!
//! `COMPARE_SEED` sets the seed of the random cases, and `COMPARE_CASE` replays one of them by its number.

use compare::cases::{reply, request, Request, SHEET_ROOM};
use compare::hold::{compare_all, expect, hold, replies, Row};
use compare::page::{listed, sheet, Page};
use compare::random::Random;
use compare::resting::{holds, Resting};
use compare::run::Program;
use compare::sheet::{read, write, written, STREET_A};
use compare::street::{refusal, Refusal, Street, CYCLE, MAX_DISTANCE, MAX_SIGNALS, SPEED};
use compare::streets::{self, fewest_digits, most_digits};
use compare::tally::Tally;
use compare::trial::{Case, Difference};

const SEED: u64 = 3_118;
const CASES: u64 = 5_000;

/// The bytes of the longest and of the shortest sheet that are written.
const LONGEST: usize = 833;
const SHORTEST: usize = 13;

/// A request to write a sheet of so many bytes: with no list named, or one of every kind of length.
fn asking(random: &mut Random, length: usize) -> String {
    if random.one_in(5) {
        return "write".to_string();
    }
    let (near, any) = (random.below(length + 9), random.below(SHEET_ROOM + 1));
    let short = length.saturating_sub(1);
    let room = random.pick(&[length, length, length, short, short, length + 1, near, any, 0, SHEET_ROOM]);
    format!("write room {room}")
}

fn random_case(seed: u64, number: u64) -> Case {
    let random = &mut Random::new(seed, number);
    let street = match random.below(20) {
        0 => most_digits(random, MAX_SIGNALS),
        1 => fewest_digits(random, 1),
        _ => streets::street(random),
    };
    // The list goes by the length of the sheet that is asked about, damaged or not.
    let case = Case::asking(random, number, String::new(), &street);
    Case { request: asking(random, case.sheet.len()), ..case }
}

#[test]
fn cases_writes_as_the_model_does() {
    if let Some(cases) = hold("write", SEED, CASES, random_case) {
        cover(&cases);
    }
}

/// Counts the cases, and fails where a kind of them was tried too seldom.
fn cover(cases: &[Case]) {
    let mut tally = Tally::of(&[
        ("requests", 5_000),
        ("written", 1_500),
        ("written with 1 signal", 150),
        ("written with 20 signals or more", 500),
        ("written with 32 signals", 200),
        ("written with a red of 0", 300),
        ("written with every red 0", 30),
        ("written with no list named", 400),
        ("written into a list of exactly its length", 400),
        ("written into the longest list", 100),
        ("the longest sheet written", 40),
        ("the shortest sheet written", 20),
        ("refused by code 1", 300),
        ("refused by code 2", 100),
        ("refused by code 3", 500),
        ("refused by code 4", 20),
        ("refused by code 5", 50),
        ("refused by code 6", 50),
        ("refused by code 7", 50),
        ("refused by code 3 with one byte too few", 300),
        ("refused by code 3 with no byte lent", 100),
        ("refused by code 5, 6 or 7 after the first place", 50),
        ("refused by code 4, 5, 6 or 7 with too short a list as well", 50),
    ]);
    cases.iter().for_each(|case| note(&mut tally, case));
    tally.close();
}

fn note(tally: &mut Tally, case: &Case) {
    let room = match request(case.request.as_bytes()) {
        Some(Request::Write { room }) => room,
        _ => panic!("{case:?}"),
    };
    tally.note("requests", true);
    let street = read(&case.sheet);
    match street.clone().and_then(|street| written(&street, room)) {
        Ok(sheet) => {
            assert_eq!(sheet, case.sheet, "a sheet that passes is written as it stands");
            note_written(tally, case, &street.expect("a written street was read"), room);
        }
        Err(refusal) => note_refused(tally, refusal, case.sheet.len(), room),
    }
}

fn note_written(tally: &mut Tally, case: &Case, street: &Street, room: usize) {
    let (n, length) = (street.signals(), case.sheet.len());
    assert!((SHORTEST..=LONGEST).contains(&length), "{length} bytes: {case:?}");
    tally.note("written", true);
    tally.note("written with 1 signal", n == 1);
    tally.note("written with 20 signals or more", n >= 20);
    tally.note("written with 32 signals", n == MAX_SIGNALS);
    tally.note("written with a red of 0", street.reds.contains(&0));
    tally.note("written with every red 0", holds(street, Resting::All));
    tally.note("written with no list named", case.request == "write");
    tally.note("written into a list of exactly its length", room == length);
    tally.note("written into the longest list", room == SHEET_ROOM && case.request != "write");
    tally.note("the longest sheet written", length == LONGEST);
    tally.note("the shortest sheet written", length == SHORTEST);
}

fn note_refused(tally: &mut Tally, Refusal { code, place }: Refusal, length: usize, room: usize) {
    tally.note(&format!("refused by code {code}"), true);
    tally.note("refused by code 3 with one byte too few", code == 3 && room + 1 == length);
    tally.note("refused by code 3 with no byte lent", code == 3 && room == 0);
    tally.note("refused by code 5, 6 or 7 after the first place", place > 1);
    tally.note("refused by code 4, 5, 6 or 7 with too short a list as well", code > 3 && room < length);
}

#[test]
fn every_length_of_the_lent_list() {
    let random = &mut Random::new(SEED + 1, 0);
    let mut streets: Vec<Street> =
        [1, 2, 3].into_iter().flat_map(|n| [fewest_digits(random, n), most_digits(random, n)]).collect();
    streets.push(most_digits(random, MAX_SIGNALS));
    let lengths: Vec<usize> = streets.iter().map(|street| write(street).len()).collect();
    println!("sheets of {lengths:?} bytes");
    assert_eq!((lengths[0], lengths[6]), (SHORTEST, LONGEST));
    let mut cases = vec![];
    for (street, length) in streets.iter().zip(lengths) {
        let about = |room: usize| Case::about(street, format!("write room {room}"));
        let rooms: Vec<Case> = (0..=length + 8).map(about).collect();
        let short = rooms.iter().take_while(|case| reply(&case.bytes()) == "refused 3 0\n").count();
        let refused = rooms.iter().filter(|case| reply(&case.bytes()).starts_with("refused")).count();
        assert_eq!((short, refused), (length, length), "the model, on {street:?}");
        cases.extend(rooms);
    }
    let differences = compare_all(&cases);
    differences.iter().take(3).for_each(Difference::print);
    assert!(differences.is_empty(), "{} runs differ from the model", differences.len());
}

/// The bytes of a line of these numbers.
fn line_length(numbers: &[i64]) -> usize {
    numbers.iter().map(|number| number.to_string().len() + 1).sum()
}

#[test]
fn no_sheet_is_longer_than_the_longest() {
    let (signals, links) = (MAX_SIGNALS, MAX_SIGNALS - 1);
    let counts = line_length(&[1]) + line_length(&[signals as i64]) + line_length(&[links as i64]);
    let lines =
        signals * line_length(&[MAX_DISTANCE, CYCLE.1 - 1]) + links * line_length(&[SPEED.1, SPEED.1]);
    assert_eq!(
        counts + line_length(&[CYCLE.1]) + lines,
        LONGEST,
        "each number as long as the greatest of its range"
    );
    for number in 0..20_000 {
        let street = streets::street(&mut Random::new(SEED + 2, number));
        let length = write(&street).len();
        assert!((SHORTEST..=LONGEST).contains(&length), "{length} bytes: {street:?}");
    }
}

#[test]
fn the_longest_sheet_is_written_and_a_byte_less_is_too_little_room() {
    let random = &mut Random::new(SEED + 3, 0);
    for street in [streets::greatest(), most_digits(random, MAX_SIGNALS), most_digits(random, MAX_SIGNALS)] {
        let sheet = write(&street);
        assert_eq!(sheet.len(), LONGEST);
        let text = String::from_utf8(sheet.clone()).expect("a sheet is plain");
        expect(&[
            (&["write", "write room 833", "write room 834", "write room 4096"], &sheet, text.trim_end()),
            (&["write room 832", "write room 831", "write room 0"], &sheet, "refused 3 0"),
        ]);
    }
}

#[test]
fn a_street_is_written_and_read_back() {
    let streets: Vec<Street> = (0..1_000).map(|k| streets::street(&mut Random::new(SEED + 4, k))).collect();
    for street in &streets {
        let sheet = written(street, LONGEST).unwrap_or_else(|refusal| panic!("{refusal:?}: {street:?}"));
        assert_eq!(read(&sheet).as_ref(), Ok(street), "the model");
    }
    let program = Program::cases();
    let cases: Vec<Case> = streets.iter().map(|street| Case::about(street, "write")).collect();
    let first: Vec<Vec<u8>> =
        replies(&program, &cases).iter().map(|text| format!("{text}\n").into()).collect();
    for (sheet, street) in first.iter().zip(&streets) {
        assert_eq!(read(sheet).as_ref(), Ok(street), "what the program wrote");
    }
    let again = |sheet: &Vec<u8>| Case { number: 0, request: "write".to_string(), sheet: sheet.clone() };
    let second = replies(&program, &first.iter().map(again).collect::<Vec<Case>>());
    for (sheet, text) in first.iter().zip(second) {
        assert_eq!(*sheet, format!("{text}\n").into_bytes(), "a sheet that the program wrote, written again");
    }
}

#[test]
fn faults_are_named_in_the_order_of_the_codes() {
    let all = ["write", "write room 0", "write room 1", "write room 4096"];
    let good = b"1\n10\n2\n0 9\n1 9\n1\n1000 1000\n";
    expect(&[
        (&all, b"1\n9\n2\n0 9\n0 9\n1\n0 0", "refused 1 0"),
        (&all, b"1\n9\n33\n", "refused 2 0"),
        (&all, b"1\n9\n2\n0 9\n0 9\n2\n", "refused 2 0"),
        (&all, b"1\n9\n2\n0 9\n0 9\n1\n0 0\n", "refused 4 0"),
        (&all, b"1\n10\n2\n0 9\n0 10\n1\n0 0\n", "refused 5 2"),
        (&all, b"1\n10\n2\n0 9\n0 9\n1\n0 0\n", "refused 6 2"),
        (&all, b"1\n10\n2\n0 9\n1 9\n1\n1000 999\n", "refused 7 1"),
        (&all[1..3], good, "refused 3 0"),
        (&["write room 26"], good, "refused 3 0"),
        (&["write", "write room 27", "write room 4096"], good, "1\n10\n2\n0 9\n1 9\n1\n1000 1000"),
    ]);
}

/// No sheet has lists that do not belong together, so these go to the model alone.
#[test]
fn lists_that_make_no_street_are_refused_before_anything_else() {
    let street = read(STREET_A).expect("street A");
    let spoilt = Street { cycle: 9, reds: vec![9, 9], ..street.clone() };
    let none = Street { cycle: 9, reds: vec![], distances: vec![], outbound: vec![], inbound: vec![] };
    let shorter = Street { distances: vec![0], ..spoilt.clone() };
    let out = Street { outbound: vec![], ..spoilt.clone() };
    let back = Street { inbound: vec![0, 0], ..spoilt };
    for street in [none, shorter, out, back] {
        for room in [0, SHEET_ROOM] {
            assert_eq!(written(&street, room), Err(refusal(2, 0)), "{street:?}");
        }
    }
    let length = STREET_A.len();
    assert_eq!(written(&street, length), Ok(STREET_A.to_vec()));
    assert_eq!(written(&street, length - 1), Err(refusal(3, 0)));
}

/// What `write` replies to a sheet, without its last line end, by what `plan` prints for it: the same refusal, or the
/// sheet itself.
fn written_as(sheet: &[u8], prints: &str) -> String {
    let text = if prints.starts_with("refused") { prints.as_bytes() } else { sheet };
    String::from_utf8_lossy(text).trim_end().to_string()
}

#[test]
fn the_pages_sheets_are_written_as_they_stand_or_refused_as_their_plans_are() {
    let typed = Page::open("SHEETS.md").samples().into_iter().map(|sample| (sample.sheet, sample.prints));
    let sent = listed().into_iter().map(|(name, prints)| (sheet(&name), prints));
    let replied = |(sheet, prints): (Vec<u8>, String)| (written_as(&sheet, &prints), sheet);
    let sheets: Vec<(String, Vec<u8>)> = typed.chain(sent).map(replied).collect();
    let rows: Vec<Row> = sheets.iter().map(|(text, sheet)| (&["write"][..], &sheet[..], &text[..])).collect();
    expect(&rows);
    let mut tally = Tally::of(&[
        ("written", 15),
        ("refused 1", 25),
        ("refused 2", 4),
        ("refused 4", 2),
        ("refused 5", 2),
        ("refused 6", 2),
        ("refused 7", 2),
    ]);
    for (text, _) in &sheets {
        tally.note(if text.starts_with("refused") { &text[..9] } else { "written" }, true);
    }
    tally.close();
}
