//! The scripts at the door, started as people start them: what is printed and said, how they end, what they do with an
//! answer that cannot be written, and that they end what they have started.

use compare::page::{coded, listed, sheet, Page};
use compare::paper::{reply, REPLIES};
use compare::run::{repository, text};
use compare::scripts::{bash, ended, script, written_otherwise, Ended, Folder, TESTED};
use compare::sheet::STREET_A;
use compare::trial::in_parallel;
use std::fs;
use std::os::unix::fs::PermissionsExt;
use std::process::{Command, Stdio};
use std::thread::sleep;
use std::time::{Duration, Instant};

const PLAN_A: &str = "1 60 60 60 0\n0\n10\n";
const SIZE_A: &str = "plan: a cycle of 10 s, reds of 4 to 5 s, 30 m from signal 1 to signal 2\n";

/// Holds an end to its status, to what was printed, and to a part of what was said; where nothing is expected, to silence.
fn expect(what: &str, ended: &Ended, status: i32, printed: &str, said: &str) {
    let told = if said.is_empty() { ended.said.is_empty() } else { ended.said.contains(said) };
    let good = ended.status == Some(status) && ended.printed == printed && told;
    assert!(good, "{what}: {ended:?}, where {status}, {printed:?} and {said:?} are expected");
}

#[test]
fn a_plan_goes_out_with_the_size_of_its_street() {
    expect("a file", &script("plan", &["sheets/street-a.txt"], b""), 0, PLAN_A, SIZE_A);
    expect("an input", &script("plan", &[], STREET_A), 0, PLAN_A, SIZE_A);
    expect("an input by name", &script("plan", &["-"], STREET_A), 0, PLAN_A, SIZE_A);
    expect("-q", &script("plan", &["-q", "sheets/street-a.txt"], b""), 0, PLAN_A, "");
    expect("--", &script("plan", &["-q", "--", "sheets/street-a.txt"], b""), 0, PLAN_A, "");
    let metres = b"1\n90\n2\n0 40\n420 35\n1\n13889 12500\n";
    let wrong_units = "a cycle of 9 s, reds of 3.5 to 4 s, 0.42 m from signal 1 to signal 2";
    let planned = script("plan", &[], metres);
    assert!(planned.said.contains(wrong_units), "{planned:?}");
    let refused = script("plan", &["-q", "sheets/refused-4-cycle-too-long.txt"], b"");
    expect("a refusal", &refused, 1, "refused 4 0\n", "plan: refused, code 4: line 2 has \"6001\"");
}

#[test]
fn a_file_is_found_from_the_callers_folder_whatever_its_name() {
    let folder = Folder::make();
    for name in ["sheet", "-q", "12", "with a space"] {
        folder.put(name, STREET_A);
        for (script, words) in [("plan", vec!["-q"]), ("ask", vec!["-q", "measure", "0", "10"])] {
            let mut command = Command::new(repository().join(script));
            command.args(words).args(["--", name]).current_dir(&folder.0);
            let printed = if script == "plan" { PLAN_A } else { "60 40 60 60\n" };
            expect(name, &ended(&mut command, b""), 0, printed, "");
        }
    }
}

/// Holds a script to its answer to words that cannot be taken: why, and how they go.
fn expect_misused(name: &str, words: &[&str], why: &str) {
    let ended = script(name, words, STREET_A);
    expect(&format!("{name} {words:?}"), &ended, 2, "", why);
    assert!(ended.said.contains(&format!("\nusage: ./{name} [")), "{ended:?}");
}

#[test]
fn words_that_cannot_be_taken_are_answered_with_why() {
    let usages = [
        ("plan", vec!["-x"], "plan: there is no option -x; a file of that name is typed after --\n"),
        ("plan", vec!["a", "b"], "plan: one street sheet is read, and here are 2: a b\n"),
        ("install", vec![], "install: the folder to install into is missing\n"),
        ("install", vec!["a", "b"], "install: one folder is asked for, and 2 words were given\n"),
        ("install", vec!["-x"], "install: there is no option -x; a folder of that name is typed after --\n"),
        ("ask", vec![], "ask: no request is typed\n"),
        (
            "ask",
            vec!["equals"],
            "ask: there is no request equals; there are equal, outbound, inbound, platoons, volumes, seconds, measure, write and survey\n",
        ),
        ("ask", vec!["writes"], "ask: there is no request writes; there are equal, outbound"),
        ("ask", vec!["write", "5", "a"], "ask: one street sheet is read, and here are 2: 5 a\n"),
        ("ask", vec!["write", "room", "40", "a"], "ask: one street sheet is read, and here are 3: room 40 a\n"),
        ("ask", vec!["outbound"], "ask: outbound lacks a number\n"),
        ("ask", vec!["outbound", "-80"], "ask: outbound lacks a number, since -80 is none"),
        ("ask", vec!["platoons", "30", "x"], "ask: platoons 30 lacks a number, since x is none"),
        (
            "ask",
            vec!["outbound", "4294967296"],
            "ask: in 'outbound 4294967296' a number is 4,294,967,296 or more\n",
        ),
    ];
    for (name, words, why) in usages {
        expect_misused(name, &words, why);
    }
    for name in ["plan", "ask", "install"] {
        let help = script(name, &["--help"], b"");
        let usage = help.printed.starts_with(&format!("usage: ./{name} ")) && help.printed.contains("--");
        assert!(help.status == Some(0) && usage && help.said.is_empty(), "{help:?}");
    }
}

#[test]
fn volumes_take_three_numbers() {
    let large = "ask: in 'volumes 800 300 4294967296' a number is 4,294,967,296 or more\n";
    let usages: [(&[&str], &str); 5] = [
        (&["volume", "800", "300", "20"], "ask: there is no request volume; there are equal, outbound"),
        (&["volumes", "800", "300"], "ask: volumes 800 300 lacks a number\n"),
        (&["volumes", "800", "300", "2.0"], "ask: volumes 800 300 lacks a number, since 2.0 is none"),
        (&["volumes", "800", "300", "20", "5", "a"], "ask: one street sheet is read, and here are 2: 5 a\n"),
        (&["volumes", "800", "300", "4294967296"], large),
    ];
    for (words, why) in usages {
        expect_misused("ask", words, why);
    }
}

#[test]
fn seconds_take_a_plan_with_its_numbers() {
    let large = "ask: in 'seconds outbound 4294967296' a number is 4,294,967,296 or more\n";
    let after = "ask: after seconds comes equal, outbound, inbound, platoons or volumes";
    let usages: [(&[&str], &str); 12] = [
        (&["second", "equal"], "ask: there is no request second; there are equal, outbound"),
        (&["seconds"], &format!("{after}\n")),
        (&["seconds", "80"], &format!("{after}, and not 80\n")),
        (&["seconds", "sheets/street-a.txt"], &format!("{after}, and not sheets/street-a.txt\n")),
        (&["seconds", "seconds", "equal"], &format!("{after}, and not seconds\n")),
        (&["seconds", "measure", "0", "10"], &format!("{after}, and not measure\n")),
        (&["seconds", "survey", "100"], &format!("{after}, and not survey\n")),
        (&["seconds", "outbound"], "ask: seconds outbound lacks a number\n"),
        (&["seconds", "platoons", "30", "x"], "ask: seconds platoons 30 lacks a number, since x is none"),
        (&["seconds", "equal", "5", "a"], "ask: one street sheet is read, and here are 2: 5 a\n"),
        (
            &["seconds", "volumes", "800", "300", "20", "room", "2"],
            "ask: one street sheet is read, and here are 2: room 2\n",
        ),
        (&["seconds", "outbound", "4294967296"], large),
    ];
    for (words, why) in usages {
        expect_misused("ask", words, why);
    }
}

#[test]
fn a_survey_takes_its_cycle() {
    let usages: [(&[&str], &str); 6] = [
        (&["surveys", "100"], "ask: there is no request surveys; there are equal, outbound"),
        (&["survey"], "ask: survey lacks a number\n"),
        (&["survey", "10.0"], "ask: survey lacks a number, since 10.0 is none"),
        (&["survey", "-100"], "ask: survey lacks a number, since -100 is none"),
        (&["survey", "100", "a", "b"], "ask: one list of rows is read, and here are 2: a b\n"),
        (&["survey", "100", "room", "2"], "ask: one list of rows is read, and here are 2: room 2\n"),
    ];
    for (words, why) in usages {
        expect_misused("ask", words, why);
    }
    let large = script("ask", &["survey", "4294967296"], b"chainage 0 0 0 40\n");
    expect("a cycle", &large, 2, "", "ask: in 'survey 4294967296' a number is 4,294,967,296 or more\n");
}

#[test]
fn what_cannot_be_read_or_made_is_said_to_be_that() {
    let inputs = [
        ("./ask survey 100 <&-", "standard input is closed"),
        ("./ask survey 100 docs", "docs is a folder, not a list of rows"),
        ("./ask survey 100 200", "there is no file 200"),
        ("./ask survey 100 <docs", "the list of rows cannot be read: Is a directory"),
        ("./plan <&-", "standard input is closed"),
        ("./ask equal <&-", "standard input is closed"),
        ("./ask write <&-", "standard input is closed"),
        ("./ask write docs", "docs is a folder, not a street sheet"),
        ("./ask seconds equal docs", "docs is a folder, not a street sheet"),
        ("./ask seconds equal 5", "there is no file 5"),
        ("./ask write 5", "there is no file 5"),
        ("./plan <docs", "the street sheet cannot be read: Is a directory"),
        ("./plan docs", "docs is a folder, not a street sheet"),
        ("./plan no-such-sheet", "there is no file no-such-sheet"),
        ("./install README.md/below", "README.md/below/include cannot be made"),
    ];
    for (line, said) in inputs {
        expect(line, &bash(line), 2, "", said);
    }
}

#[test]
fn a_plan_that_is_lost_is_no_success() {
    let lost = "the answer cannot be written: No space left on device\n";
    expect("plan", &bash("./plan -q sheets/street-a.txt >/dev/full"), 2, "", &format!("plan: {lost}"));
    expect("a refusal", &bash("./plan sheets/refused-4-cycle-too-long.txt >/dev/full"), 2, "", lost);
    expect("ask", &bash("./ask outbound 80 sheets/street-a.txt >/dev/full"), 2, "", &format!("ask: {lost}"));
    expect("a sheet", &bash("./ask write sheets/street-a.txt >/dev/full"), 2, "", &format!("ask: {lost}"));
    let closed = "the answer cannot be written: Bad file descriptor\n";
    expect("no output", &bash("./plan sheets/street-a.txt >&-"), 2, "", closed);
    // The programs themselves have no exit status; they say it, and the scripts take that for a loss.
    let programs = [("plan", "plan: the answer could not"), ("cases", "cases: a reply could not")];
    for (program, said) in programs {
        let line = format!("(echo equal; cat sheets/street-a.txt) | target/bin/{program} >/dev/full");
        expect(program, &bash(&line), 0, "", said);
    }
}

#[test]
fn a_reader_that_went_away_is_no_news() {
    for start in ["exec ./plan sheets/street-a.txt", "trap '' PIPE; exec ./plan sheets/street-a.txt"] {
        let mut command = Command::new("bash");
        command.args(["-c", start]).current_dir(repository());
        let mut child = command.stdout(Stdio::piped()).stderr(Stdio::piped()).spawn().expect("bash");
        drop(child.stdout.take());
        let output = child.wait_with_output().expect("an end");
        let said = String::from_utf8_lossy(&output.stderr);
        assert!(output.status.code() == Some(2) && said.is_empty(), "{start}: {:?} {said}", output.status);
    }
}

/// Asks for a row of a page, and holds the answer to the lines of its reply.
fn ask_row(sheet: &str, request: &str, reply: &str) {
    let file = format!("sheets/{sheet}");
    let words: Vec<&str> = ["-q"].into_iter().chain(request.split(' ')).chain([file.as_str()]).collect();
    let Ended { status, printed, .. } = script("ask", &words, b"");
    let expected = i32::from(reply.starts_with("refused"));
    assert_eq!((status, printed.as_str()), (Some(expected), reply), "./ask {words:?}");
}

#[test]
fn the_pages_tables_can_be_asked_as_they_stand() {
    let examples = Page::open("EXAMPLES.md");
    let lines = examples.lines("| Row | Sheet | Asked | Reply |");
    for line in &lines {
        let words = coded(line);
        let mut words = words.splitn(3, '\n');
        let mut next = || words.next().expect("a row has a sheet, a request and a reply");
        ask_row(next(), next(), next());
    }
    let paper = Page::open("PAPER.md").table(REPLIES);
    for row in &paper {
        ask_row(&row[0], &row[1], &reply(row));
    }
    let surveys = examples.surveys();
    for [rows, request, reply] in &surveys {
        let words: Vec<&str> = ["-q"].into_iter().chain(request.trim_end().split(' ')).collect();
        let Ended { status, printed, .. } = script("ask", &words, rows.as_bytes());
        let expected = i32::from(reply.starts_with("refused"));
        assert_eq!((status, &printed), (Some(expected), reply), "./ask {words:?}, on {rows}");
    }
    let shown = examples.text.lines().find(|line| line.starts_with("    printf ")).expect("a command");
    expect(shown, &bash(shown.trim()), 0, &surveys[0][2], TESTED);
    assert_eq!((lines.len(), paper.len(), surveys.len()), (51, 19, 13));
}

#[test]
fn the_commands_of_the_first_page_work() {
    let page = text("README.md");
    let command = |line: &str| line.split('#').next().unwrap_or("").trim().to_string();
    let starts = |line: &&str| line.starts_with("    ./plan ") || line.starts_with("    ./ask ");
    let commands: Vec<String> = page.lines().filter(starts).map(command).collect();
    let words: Vec<&str> = commands.iter().filter_map(|line| line.split(' ').nth(1)).collect();
    assert_eq!(
        words,
        ["sheets/street-a.txt", "outbound", "platoons", "volumes", "seconds", "measure", "write"]
    );
    let sheet = text("sheets/street-a.txt");
    let printed = [
        "1 60 60 60 0\n0\n10\n",
        "1 60 80 40 0\n180\n10\n",
        "1 60 90 30 0\n170\n10\n",
        "1 60 89 31 0\n171\n10\n801 279\n",
        "1 60 80 40 0\n1\n3\n",
        "60 40 60 60\n",
        &sheet,
    ];
    for (command, printed) in commands.iter().zip(printed) {
        expect(command, &bash(command), 0, printed, "a cycle of 10 s");
    }
    let shown: String = printed[0].lines().map(|line| format!("    {line}\n")).collect();
    assert!(page.contains(&shown), "README.md does not show what ./plan prints");
}

#[test]
fn what_is_asked_is_said_to_be_tested_and_refusals_are_explained() {
    let a = "sheets/street-a.txt";
    expect("ask", &script("ask", &["outbound", "80", a], b""), 0, "1 60 80 40 0\n180\n10\n", TESTED);
    let refusals = [
        (
            vec!["outbound", "101", a],
            "refused 9 0\n",
            "the width 101 is not from the greater of 1 and B, the second number of the equal plan, up to 100 halves, the shortest green.\n",
        ),
        (vec!["platoons", "100001", "5", a], "refused 8 1\n", "the outbound platoon, 100001, is above"),
        (vec!["measure", "201", "0", a], "refused 10 1\n", "the offset of signal 1, 201, is not below the cycle of 200"),
        (vec!["platoons", "5", "100001", a], "refused 8 2\n", "the inbound platoon, 100001, is above"),
        (
            vec!["measure", "0", "200", a],
            "refused 10 2\n",
            "the offset of signal 2, 200, is not below the cycle of 200",
        ),
        (
            vec!["measure", "0", a],
            "refused 2 0\n",
            "measure takes an offset for each signal, 2 here, and was given 1",
        ),
        (vec!["equal", "sheets/refused-2-33-signals.txt"], "refused 2 0\n", "line 3 has \"33\""),
        (vec!["write", "sheets/refused-2-33-signals.txt"], "refused 2 0\n", "line 3 has \"33\""),
    ];
    for (words, printed, said) in refusals {
        expect(&format!("{words:?}"), &script("ask", &words, b""), 1, printed, said);
    }
    let zero = script("ask", &["equal"], b"1\n600\n1\n0 240\0\n0\n");
    expect(
        "a byte 0",
        &zero,
        1,
        "refused 1 0\n",
        "line 4 should have the distance and the red of signal 1 of 1, and has \"0 240<0>\"",
    );
}

#[test]
fn refused_volumes_are_explained() {
    let (a, long) = ("sheets/street-a.txt", "sheets/row-long-cycle.txt");
    let refusals = [
        (
            ["10001", "300", "20", a],
            "11 1",
            "the outbound volume, 10001, is above 10,000 vehicles an hour.\n",
        ),
        (["800", "10001", "20", a], "11 2", "the inbound volume, 10001, is above 10,000 vehicles an hour.\n"),
        (["800", "300", "0", a], "11 3", "the headway, 0, is not from 1 to 100 ticks, tenths of a second.\n"),
        (["3001", "0", "100", long], "8 1", "the outbound volume, 3001, comes to a platoon of 100034 halves"),
        (
            ["3000", "3001", "100", long],
            "8 2",
            "the inbound volume, 3001, comes to a platoon of 100034 halves",
        ),
    ];
    for ([out, back, headway, file], refused, said) in refusals {
        let ended = script("ask", &["volumes", out, back, headway, file], b"");
        expect(said, &ended, 1, &format!("refused {refused}\n"), said);
        assert!(ended.said.contains("ask: docs/RULES.md says what a request may ask"), "{ended:?}");
    }
}

#[test]
fn what_is_asked_in_seconds_is_answered_or_explained() {
    let (a, size) = ("sheets/street-a.txt", format!("{}{TESTED}", SIZE_A.replace("plan: ", "ask: ")));
    let answers: [(&[&str], &str); 5] = [
        (&["equal"], "1 60 60 60 0\n2\n3\n"),
        (&["outbound", "80"], "1 60 80 40 0\n1\n3\n"),
        (&["inbound", "80"], "1 60 40 80 0\n2\n2\n"),
        (&["platoons", "30", "10"], "1 60 90 30 0\n1\n3\n"),
        (&["volumes", "800", "300", "20"], "1 60 89 31 0\n1\n3\n"),
    ];
    let asked = |words: &[&str], file: &str| {
        let words: Vec<&str> = ["seconds"].iter().chain(words).copied().chain([file]).collect();
        script("ask", &words, STREET_A)
    };
    for (words, printed) in answers {
        for file in [a, "-"] {
            expect(&format!("{words:?}"), &asked(words, file), 0, printed, &size);
        }
    }
    // The sentences are those of the plan that is asked for.
    let refusals: [(&[&str], &str, &str); 6] = [
        (&["outbound", "101"], "9 0", "the width 101 is not from the greater of 1 and B"),
        (&["platoons", "100001", "5"], "8 1", "the outbound platoon, 100001, is above"),
        (&["platoons", "5", "100001"], "8 2", "the inbound platoon, 100001, is above"),
        (
            &["volumes", "10001", "300", "20"],
            "11 1",
            "the outbound volume, 10001, is above 10,000 vehicles an hour.\n",
        ),
        (
            &["volumes", "800", "10001", "20"],
            "11 2",
            "the inbound volume, 10001, is above 10,000 vehicles an hour.\n",
        ),
        (
            &["volumes", "800", "300", "0"],
            "11 3",
            "the headway, 0, is not from 1 to 100 ticks, tenths of a second.\n",
        ),
    ];
    for (words, refused, said) in refusals {
        let ended = asked(words, a);
        expect(said, &ended, 1, &format!("refused {refused}\n"), said);
        assert!(ended.said.contains("ask: docs/RULES.md says what a request may ask"), "{ended:?}");
    }
}

#[test]
fn a_cycle_that_no_cabinet_keeps_is_named_with_those_beside_it() {
    let refusals = [
        ("985", "line 2 has \"985\", and a cycle of 98.5 s is no whole number of seconds, as a cabinet needs; type 980 for 98 s, or 990 for 99 s.\n"),
        ("11", "and a cycle of 1.1 s is no whole number of seconds, as a cabinet needs; type 10 for 1 s, or 20 for 2 s.\n"),
        ("5999", "and a cycle of 599.9 s is no whole number of seconds, as a cabinet needs; type 5990 for 599 s, or 6000 for 600 s.\n"),
    ];
    for (cycle, said) in refusals {
        // The red is too long as well for the shortest of them.
        let sheet = format!("1\n{cycle}\n1\n0 240\n0\n");
        let ended = script("ask", &["seconds", "equal"], sheet.as_bytes());
        expect(cycle, &ended, 1, "refused 13 0\n", said);
        assert!(
            ended.said.contains("ask: docs/SHEETS.md shows what gets each code and how to mend it"),
            "{ended:?}"
        );
    }
    let sheets = [
        ("9", "4 0", "line 2 has \"9\", and the cycle is not from 10"),
        ("240", "5 1", "line 4 has \"0 240\""),
    ];
    for (cycle, refused, said) in sheets {
        let sheet = format!("1\n{cycle}\n1\n0 240\n0\n");
        let ended = script("ask", &["seconds", "equal"], sheet.as_bytes());
        expect(cycle, &ended, 1, &format!("refused {refused}\n"), said);
    }
}

/// Street A in rows as a person types them.
const ROWS_A: &str = "chainage 0 0 0 40\ngap 30 10 15 50\n";

#[test]
fn rows_are_typed_as_the_instrument_shows_them() {
    let size = format!("{}{TESTED}", SIZE_A.replace("plan: ", "ask: "));
    let ways = [
        ROWS_A,
        "chainage 0 0 0 40\ngap 30 10 15 50",
        "chainage -0 -0.000 +0 40\nchainage 3e1 1.0E+1 15.000 050\n",
        "  gap\t0 0e9 .0 40  \r\ngap 0030.0 10. 150e-1 50\r\n",
    ];
    for rows in ways {
        expect(rows, &script("ask", &["survey", "100"], rows.as_bytes()), 0, PLAN_A, &size);
        expect("-q", &script("ask", &["-q", "survey", "100", "-"], rows.as_bytes()), 0, PLAN_A, "");
    }
    let folder = Folder::make();
    let file = folder.put("rows", ROWS_A).into_os_string().into_string().expect("a plain name");
    expect("a file", &script("ask", &["survey", "100", &file], b""), 0, PLAN_A, &size);
    let one = script("ask", &["survey", "600"], b"gap 0.125 0 0 240\n");
    expect("one row", &one, 0, "1 720 720 720 0\n0\n", "a cycle of 60 s, reds of 24 s, one signal\n");
}

#[test]
fn a_line_that_is_no_row_is_named() {
    let five = "and a row has five words: chainage or gap, the position, two speeds and the red\n";
    let lines = [
        ("", "line 2 is empty; delete it\n"),
        ("gap 30 10 15", five),
        ("gap 30 10 15 50 60", five),
        ("30 10 15 50", "line 2 has \"30 10 15 50\", and a row starts with chainage or gap\n"),
        ("Gap 30 10 15 50", "and a row starts with chainage or gap\n"),
        ("gap 30,125 10 15 50", "and \"30,125\" is no number as an instrument shows it, such as 30.125\n"),
        ("gap 30 0x1p3 15 50", "and \"0x1p3\" is no number"),
        ("gap 30 10 15m/s 50", "and \"15m/s\" is no number"),
        ("gap 30 10 . 50", "and \".\" is no number"),
        ("gap 30 10 1e 50", "and \"1e\" is no number"),
        ("gap 30 10 --15 50", "and \"--15\" is no number"),
        ("gap 30 10 15 50.0", "and the red, \"50.0\", is no whole number of ticks\n"),
        ("gap 30 10 15 -50", "and the red, \"-50\", is no whole number of ticks\n"),
        ("gap 30 10 15 4294967296", "and the red is 4,294,967,296 or more\n"),
        ("gap 30 10 15 99999999999", "and the red is 4,294,967,296 or more\n"),
        ("gap 30 10 15 50\0", "line 2 has \"gap 30 10 15 50?\", and the red, \"50?\", is no whole number"),
    ];
    for (line, said) in lines {
        let rows = format!("chainage 0 0 0 40\n{line}\ngap 1 1 1 50\n");
        let ended = script("ask", &["survey", "100"], rows.as_bytes());
        expect(line, &ended, 2, "", said);
        assert!(ended.said.starts_with("ask: line 2 ") && ended.said.lines().count() == 1, "{ended:?}");
    }
    let long = script("ask", &["survey", "100"], "gap 1 1 1 50\n".repeat(700).as_bytes());
    expect(
        "too long",
        &long,
        2,
        "",
        "ask: the list of rows has more than 8,192 bytes, too many for 32 rows\n",
    );
}

#[test]
fn refused_rows_are_explained() {
    let refusals = [
        ("", "2 0", "no row came, and a street has 1 to 32 signals"),
        ("gap 30.1 10 15 50", "12 2", "row 2 has \"gap 30.1 10 15 50\", and its gap, 30.1, is no whole multiple of 0.125"),
        ("gap 30 0.1 15 50", "12 2", "and its outbound speed, 0.1, is no whole multiple of 0.125"),
        ("gap 30 10 inf 50", "12 2", "and its inbound speed, inf, is not finite"),
        ("gap 30 10 1e999 50", "12 2", "and its inbound speed, 1e999, is not finite"),
        ("gap NaN 10 15 50", "12 2", "and its gap, NaN, is no number"),
        ("chainage -0.125 10 15 50", "12 2", "and its chainage, -0.125, is below 0"),
        ("chainage 20000.125 10 15 50", "12 2", "and its chainage, 20000.125, is above 20,000"),
        ("gap 20000 10 15 50\ngap 0.125 1 1 1", "12 3", "row 3 has \"gap 0.125 1 1 1\", and its signal, at 20000.125 m, is more than 20,000 m from the origin"),
        ("gap 30 10 15 100", "5 2", "and its red, the last number, is not from 0 to 99 ticks; the cycle is 100 ticks, 10 s"),
        ("gap 0 10 15 50", "6 2", "and its signal, at 0 m from the origin, is not beyond that of row 1, at 0 m"),
        ("gap 30.5 10 15 50\nchainage 20.125 10 15 50", "6 3", "and its signal, at 20.125 m from the origin, is not beyond that of row 2, at 30.5 m"),
        ("gap 30 0.875 15 50", "7 1", "row 2 has \"gap 30 0.875 15 50\", and its outbound speed, 0.875, is not from 1 to 40 m/s"),
        ("gap 30 10 -0 50", "7 1", "row 2 has \"gap 30 10 -0 50\", and its inbound speed, -0, is not from 1 to 40 m/s"),
    ];
    for (more, refused, said) in refusals {
        let first = if more.is_empty() { "" } else { "chainage 0 0 0 40\n" };
        let ended = script("ask", &["survey", "100"], format!("{first}{more}\n").trim_start().as_bytes());
        expect(more, &ended, 1, &format!("refused {refused}\n"), &format!("{said}.\n"));
        assert!(
            ended.said.contains("ask: docs/RULES.md says what the rows of a survey may have"),
            "{ended:?}"
        );
    }
    let moving = script("ask", &["survey", "100"], b"chainage 0 0 1 40\n");
    let said = "row 1 has \"chainage 0 0 1 40\", and the speeds of the first row must be 0, since no link ends there.\n";
    expect("speeds", &moving, 1, "refused 12 1\n", said);
    let cycle = script("ask", &["survey", "4294967295"], ROWS_A.as_bytes());
    let said = "the cycle, 4294967295, is not from 10 to 6,000 ticks, tenths of a second.\n";
    expect("a cycle", &cycle, 1, "refused 4 0\n", said);
    let many = script("ask", &["survey", "100"], "gap 1 1 1 50\n".repeat(33).as_bytes());
    expect("many", &many, 1, "refused 2 0\n", "33 rows came, and a street has 1 to 32 signals.\n");
}

#[test]
fn a_sheet_is_written_as_it_stands_or_refused_as_its_plan_is() {
    let street_a = String::from_utf8_lossy(STREET_A);
    let size = format!("{}{TESTED}", SIZE_A.replace("plan: ", "ask: "));
    expect("a file", &script("ask", &["write", "sheets/street-a.txt"], b""), 0, &street_a, &size);
    expect("-q", &script("ask", &["-q", "write"], STREET_A), 0, &street_a, "");
    let samples: Vec<(String, String)> = listed().into_iter().collect();
    let faults = in_parallel(&samples, |(name, prints)| {
        let plan = script("plan", &[&format!("sheets/{name}")], b"");
        assert_eq!(&plan.printed, prints, "{name}");
        written_otherwise(&sheet(name), &plan)
    });
    assert!(faults.is_empty(), "{}", faults.join("\n"));
    let zero = script("ask", &["write"], b"1\n600\n1\n0 240\0\n0\n");
    expect("a byte 0", &zero, 1, "refused 1 0\n", "has \"0 240<0>\"");
}

#[test]
fn the_typists_page_tells_how_to_check_a_sheet_that_came_back() {
    let page = Page::open("SHEETS.md").text;
    let command = page.lines().find_map(|line| line.strip_prefix("    ./ask -q write ")).expect("a command");
    let folder = Folder::make();
    let at = |name: &str| format!("'{}'", folder.0.join(name).display());
    let line = ["BACK", "SENT", "WRITTEN"]
        .iter()
        .fold(format!("./ask -q write {command}"), |line, name| line.replace(name, &at(name)));
    folder.put("SENT", STREET_A);
    let came_back = |back: &str, status: i32, printed: &str, said: &str| {
        folder.put("BACK", back);
        expect(back, &bash(&line), status, printed, said);
    };
    let sent = String::from_utf8_lossy(STREET_A);
    came_back(&sent, 0, "", "");
    came_back(&sent.replace("30000 50", "30000 60"), 1, "5c5\n< 30000 50\n---\n> 30000 60\n", "");
    came_back(&sent.replace("30000 50", "30000\t60"), 1, "", "line 5 should have the distance and the red");
}

/// A folder with the scripts and two empty crates, and with a kit of its own, whose `rt` runs a line of sh.
fn house(rt: &str) -> Folder {
    let folder = Folder::make();
    for file in ["plan", "ask", "crates.txt", "scripts/base.sh", "scripts/answer.sh"] {
        folder.copy(file);
    }
    for file in ["scripts/words.awk", "scripts/sheet.awk", "scripts/rows.awk"] {
        folder.copy(file);
    }
    for program in ["plan", "cases"] {
        fs::create_dir_all(folder.0.join("crates").join(program)).expect("a folder for a crate");
    }
    runs(&folder, "kit/bin/rt", rt);
    folder
}

/// Puts a program of sh into such a folder.
fn runs(house: &Folder, name: &str, line: &str) {
    let file = house.put(name, format!("#!/bin/sh\n{line}\n"));
    fs::set_permissions(file, fs::Permissions::from_mode(0o755)).expect("a program that runs");
}

/// A script of such a folder, with the `rt` of its kit.
fn start(house: &Folder, name: &str, words: &[&str]) -> Command {
    let path = format!("{}/kit/bin:{}", house.0.display(), std::env::var("PATH").unwrap_or_default());
    let mut command = Command::new(house.0.join(name));
    command.args(words).env("PATH", path).env("LC_ALL", "C.UTF-8").stdin(Stdio::null());
    command
}

#[test]
fn an_answer_that_the_program_could_not_write_is_no_answer() {
    let house = house("exit 0");
    let ends = [
        (
            "echo 'plan: half of it is lost' >&2",
            "status 0 and without its whole answer: half of it is lost\n",
        ),
        ("exit 3", "status 3 and without its whole answer"),
        ("kill -SEGV $$", "status 139 and without its whole answer"),
    ];
    for (end, said) in ends {
        runs(&house, "target/bin/plan", &format!("echo 1 60 60 60 0; {end}"));
        expect(end, &ended(&mut start(&house, "plan", &[]), STREET_A), 2, "", said);
    }
    runs(&house, "target/bin/plan", "cat >/dev/null");
    expect(
        "nothing",
        &ended(&mut start(&house, "plan", &[]), STREET_A),
        2,
        "",
        "the program printed nothing",
    );
    runs(&house, "target/bin/cases", "printf '1 60 60 60 0\\n0\\n'");
    expect(
        "a part",
        &ended(&mut start(&house, "ask", &["equal"]), STREET_A),
        2,
        "",
        "the program's answer is not whole",
    );
}

/// Whether this run is deaf to a signal, by its number: what it starts is so too, and a shell then cannot hear it.
fn deaf(signal: u32) -> bool {
    let status = fs::read_to_string("/proc/self/status").expect("what the system tells of this run");
    let ignored = status.lines().find_map(|line| line.strip_prefix("SigIgn:")).expect("the ignored signals");
    let mask = u64::from_str_radix(ignored.trim(), 16).expect("a mask");
    mask >> (signal - 1) & 1 == 1
}

#[test]
fn a_signal_ends_the_provers_too() {
    let signals =
        [("TERM", 15), ("INT", 2), ("HUP", 1)].into_iter().filter(|&(name, k)| name == "TERM" || !deaf(k));
    let scripts = [("plan", vec![], "crates/plan/prover"), ("ask", vec!["equal"], "crates/cases/prover")];
    for ((signal, _), (name, words, prover)) in
        signals.flat_map(|signal| scripts.clone().map(|script| (signal, script)))
    {
        // As rt does, it starts a prover in the background, where a shell makes it deaf to Ctrl-C.
        let house = house("sleep 60 & echo $! >prover; echo \"rt: under way\"; wait");
        let mut command = start(&house, name, &words);
        let mut child = command.stdout(Stdio::null()).stderr(Stdio::null()).spawn().expect("a script");
        let began = Instant::now();
        let prover = loop {
            let text = fs::read_to_string(house.0.join(prover)).unwrap_or_default();
            if text.ends_with('\n') {
                break text.trim().to_string();
            }
            assert!(began.elapsed() < Duration::from_secs(20), "no prover was started");
            sleep(Duration::from_millis(20));
        };
        let kill =
            |words: &[&str]| Command::new("kill").args(words).stderr(Stdio::null()).status().expect("kill");
        assert!(kill(&["-s", signal, &child.id().to_string()]).success());
        let status = child.wait().expect("an end");
        assert!(status.code().is_none(), "{name} ended with {status:?} after SIG{signal}");
        // One that has ended may still be listed until its parent, whoever that is now, looks at it.
        let runs = || {
            let state = fs::read_to_string(format!("/proc/{prover}/stat")).unwrap_or_default();
            state.rsplit(") ").next().map_or(false, |rest| !rest.is_empty() && !rest.starts_with('Z'))
        };
        while runs() {
            assert!(
                began.elapsed() < Duration::from_secs(30),
                "SIG{signal} left the prover of {name} running"
            );
            sleep(Duration::from_millis(20));
        }
    }
}

#[test]
fn what_cannot_be_built_is_said_and_rt_runs_under_one_locale() {
    let broken = house("echo \"rt: street proved (18 s)\"; echo \"rt: in $LC_ALL, $1 is broken\"; exit 1");
    let failed = ended(&mut start(&broken, "plan", &["-q"]), STREET_A);
    expect("a failed proof", &failed, 2, "", "plan:   street proved (18 s)\nplan:   in C, run is broken\n");
    assert!(
        failed.said.contains("the program is not built, because rt run failed in crates/plan"),
        "{failed:?}"
    );
    for name in ["plan", "ask"] {
        let house = house("exit 0");
        house.put("target", "a file where the folder should be");
        let words: &[&str] = if name == "ask" { &["equal"] } else { &[] };
        let unbuilt = ended(&mut start(&house, name, words), STREET_A);
        let said = format!("{name}: the folder {}/target cannot be written", house.0.display());
        expect("no target", &unbuilt, 2, "", &said);
        assert_eq!(unbuilt.said.lines().count(), 1, "{unbuilt:?}");
    }
}
