//! What `cases` makes of its input as a whole: where cases begin and end, the lent list's length, and the greatest input.

use compare::cases::{input, output, LARGEST_INPUT, LARGEST_ROOM};
use compare::run::{text, Program};
use compare::sheet::{write, STREET_A};
use compare::street::Street;

const PLAN_A: &str = "1 60 60 60 0\n0\n10\n\n";

/// Holds the program to the text, and the model with it.
fn expect(program: &Program, bytes: &[u8], text: &str) {
    let shown: String = bytes.iter().take(200).flat_map(|byte| byte.escape_ascii()).map(char::from).collect();
    let answer = program.answer(bytes).unwrap_or_else(|fault| panic!("{shown}: {fault}"));
    assert_eq!(output(bytes), text, "the model, on {shown}");
    assert_eq!(String::from_utf8_lossy(&answer), text, "the program, on {shown}");
}

fn case(request: &str, sheet: &[u8]) -> Vec<u8> {
    [request.as_bytes(), b"\n", sheet].concat()
}

#[test]
fn the_crates_own_cases_get_what_stands_beside_them() {
    let (asked, replies) = (text("crates/cases/stdin"), text("crates/cases/stdout"));
    expect(&Program::cases(), asked.as_bytes(), &replies);
    for word in
        ["equal", "outbound", "inbound", "platoons", "volumes", "measure", "write", "survey", "seconds"]
    {
        assert!(asked.split('\0').any(|case| case.starts_with(word)), "no case asks for {word}");
    }
}

#[test]
fn a_byte_0_stands_between_cases() {
    let program = Program::cases();
    let a = case("equal", STREET_A);
    expect(&program, b"", "");
    expect(&program, &a, PLAN_A);
    expect(&program, &[&a[..], &[0]].concat(), PLAN_A);
    expect(&program, &input(&[&a[..], b"equal\n", &a]), &format!("{PLAN_A}refused 1 0\n\n{PLAN_A}"));
    expect(&program, &input(&[&a[..], b"", &a]), &format!("{PLAN_A}bad request\n\n{PLAN_A}"));
    expect(&program, &[0], "bad request\n\n");
}

/// Puts the requests to the program in one run, and expects that it serves none of them.
fn expect_bad(requests: &[&str]) {
    let cases: Vec<Vec<u8>> = requests.iter().map(|request| case(request, STREET_A)).collect();
    expect(&Program::cases(), &input(&cases), &"bad request\n\n".repeat(requests.len()));
}

#[test]
fn a_request_of_another_form_is_bad() {
    expect_bad(&[
        "", " ", "nonsense", "Equal", "equa", "equals", "equal ", " equal", "equal\r", "equal 5", "room 5",
    ]);
    expect_bad(&[
        "equal room",
        "equal room ",
        "equal room x",
        "equal room -1",
        "equal room 5x",
        "equalroom 5",
    ]);
    expect_bad(&["equal  room 5", "equal room  5", "equal room 5 ", "equal room 5 6", "equal room 5 room 5"]);
    expect_bad(&["equal room 65", "equal room 640", "equal room 4294967296", "equal room 4294967301"]);
    expect_bad(&["equal room 18446744073709551617", "equal room 99999999999999999999999"]);
}

#[test]
fn a_sheet_is_written_by_its_word_and_room_alone() {
    let serve = |requests: &[&str], text: &str| {
        let cases: Vec<Vec<u8>> = requests.iter().map(|request| case(request, STREET_A)).collect();
        expect(&Program::cases(), &input(&cases), &format!("{text}\n").repeat(requests.len()));
    };
    let sheet = String::from_utf8_lossy(STREET_A);
    serve(&["write", "write room 36", "write room 0036", "write room 37", "write room 4096"], &sheet);
    serve(&["write room 0", "write room 1", "write room 35", "write room 035"], "refused 3 0\n");
    expect_bad(&["Write", "writ", "writes", "write ", " write", "write\r", "written", "write write"]);
    expect_bad(&["write 5", "write 0", "write 36", "write 4096", "write 5 room 40", "write equal"]);
    expect_bad(&["write room", "write room ", "write room x", "write room -1", "write room 5x"]);
    expect_bad(&["write  room 40", "write room  40", "write room 40 ", "writeroom 40", "room 40 write"]);
    expect_bad(&["write room 40 6", "write room 40 room 40", "write room 40\r", "write 40 room"]);
    expect_bad(&["write room 4097", "write room 40960", "write room 4294967296", "write room 4294967332"]);
    expect_bad(&["write room 18446744073709551652", "write room 99999999999999999999999"]);
}

#[test]
fn the_room_of_a_sheet_is_too_much_for_a_plan() {
    expect_bad(&["equal room 65", "equal room 4096", "outbound 80 room 4096", "inbound 80 room 4096"]);
    expect_bad(&["platoons 30 10 room 4096", "volumes 800 300 20 room 4096", "measure 0 10 room 4096"]);
    expect_bad(&["measure room 4096", "seconds equal room 4096", "seconds volumes 800 300 20 room 4096"]);
}

fn street(signals: i64) -> Street {
    Street {
        cycle: 600,
        reds: vec![300; signals as usize],
        distances: (0..signals).map(|k| 1_000 * k).collect(),
        outbound: vec![10_000; signals as usize - 1],
        inbound: vec![10_000; signals as usize - 1],
    }
}

#[test]
fn the_lent_list_has_the_length_that_is_asked_for() {
    let program = Program::cases();
    for signals in [1, 2, 20, 32] {
        let sheet = write(&street(signals));
        let cases: Vec<Vec<u8>> =
            (0..=LARGEST_ROOM).map(|room| case(&format!("equal room {room}"), &sheet)).collect();
        let bytes = input(&cases);
        let text = output(&bytes);
        assert_eq!(text.matches("refused 3 0\n").count(), signals as usize);
        expect(&program, &bytes, &text);
    }
}

#[test]
fn the_lent_list_is_judged_after_the_sheet_and_before_the_cycle() {
    let program = Program::cases();
    let faults: [(&[u8], &str); 4] = [
        (b"1\n9\n1\n0 40\n0", "refused 1 0\n\n"),
        (b"1\n9\n33\n", "refused 2 0\n\n"),
        (b"1\n9\n1\n0 40\n1\n", "refused 2 0\n\n"),
        (b"1\n9\n1\n0 40\n0\n", "refused 3 0\n\n"),
    ];
    for (sheet, text) in faults {
        expect(&program, &case("equal room 0", sheet), text);
    }
    expect(&program, &case("equal room 1", faults[3].0), "refused 4 0\n\n");
}

#[test]
fn the_greatest_input_is_served_and_one_byte_more_is_not() {
    let program = Program::cases();
    let a = case("equal", STREET_A);
    let mut cases = vec![a.clone(); LARGEST_INPUT / (a.len() + 1)];
    let spare = LARGEST_INPUT - input(&cases).len();
    cases[0].resize(a.len() + spare, b'x');
    let bytes = input(&cases);
    assert_eq!(bytes.len(), LARGEST_INPUT);
    let text = "refused 1 0\n\n".to_string() + &PLAN_A.repeat(cases.len() - 1);
    expect(&program, &bytes, &text);
    expect(&program, &[&bytes[..], b"\n"].concat(), "too long\n");
    expect(&program, &[&bytes[..], &[0]].concat(), "too long\n");
    expect(&program, &vec![b'x'; 3 * LARGEST_INPUT], "too long\n");
}
