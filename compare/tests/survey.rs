//! Survey rows through `cases`: random ones at every limit, each digit of floats of each size, the rules' numbers one by
//! one, the order of the faults, lines of another form, and that rows get the plan of the street typed by hand.
//!
//! `COMPARE_SEED` sets the seed of the random cases, and `COMPARE_CASE` replays one of them by its number.

use compare::asked_survey::cover;
use compare::hold::{compare_all, expect, hold, replies, Row};
use compare::random::Random;
use compare::rows::{self, float, typed, LIMITS, NEGATIVE};
use compare::run::Program;
use compare::sheet::STREET_A;
use compare::street::{Street, MAX_SIGNALS};
use compare::survey::{eighths, lines, rows as rows_in, CHAINAGE, GAP, MOST, NAN};
use compare::tally::Tally;
use compare::trial::{Case, Difference};

const SEED: u64 = 5_118;
const CASES: u64 = 8_000;

fn random_case(seed: u64, number: u64) -> Case {
    rows::case(&mut Random::new(seed, number), number)
}

#[test]
fn cases_serves_surveys_as_the_model_does() {
    if let Some(cases) = hold("survey", SEED, CASES, random_case) {
        cover(&cases);
    }
}

/// Requests about rows as a person types them, one row after a comma, and the text that each of them gets.
type Typed<'a> = (&'a [&'a str], &'a str, &'a str);

/// A request about such rows.
fn asking(request: &str, rows: &str) -> Case {
    Case { number: 0, request: request.to_string(), sheet: typed(&rows.replace(", ", "\n")) }
}

/// Holds the program to the model on cases that were made without a number.
fn expect_all(cases: &[Case]) {
    let differences = compare_all(cases);
    differences.iter().take(3).for_each(Difference::print);
    assert!(differences.is_empty(), "{} runs differ from the model", differences.len());
}

/// Holds the program and the model to the texts that typed rows get.
fn expect_typed(table: &[Typed]) {
    let lines: Vec<Vec<u8>> = table.iter().map(|row| typed(&row.1.replace(", ", "\n"))).collect();
    let rows: Vec<Row> = table.iter().zip(&lines).map(|(row, lines)| (row.0, &lines[..], row.2)).collect();
    expect(&rows);
}

const PLAN_A: &str = "1 60 60 60 0\n0\n10";

#[test]
fn rows_worked_out_by_hand() {
    let formed = ["survey 100", "survey 0100", "survey 100 room 2", "survey 100 room 064"];
    let one = "1 720 720 720 0\n0";
    expect_typed(&[
        // Street A by gap and by chainage; a negative zero counts as zero.
        (&formed, "chainage 0 0 0 40, gap 30 10 15 50", PLAN_A),
        (&formed, "gap -0 -0 -0 40, chainage 30 10 15 50", PLAN_A),
        // A gap in the first row counts from the origin, and so does a chainage after it.
        (&["survey 100"], "gap 50 0 0 40, chainage 80 10 15 50", PLAN_A),
        (&["survey 100"], "gap 50 0 0 40, gap 30 10 15 50", PLAN_A),
        (&["survey 100"], "chainage 50 0 0 40, gap 30 10 15 50", PLAN_A),
        (&["survey 600"], "chainage 0 0 0 240", one),
        (&["survey 600"], "chainage 0.125 -0 0 240", one),
        (&["survey 600"], "chainage 20000 0 -0 240", one),
        (&["survey 600"], "gap 20000 0 0 240", one),
        // Rows 2, 3 and 5 of the rules: links of 300, 150 and 150 ticks.
        (&["survey 600"], "chainage 5 0 0 300, gap 300 10 10 300", "1 600 600 600 0\n0\n600"),
        (&["survey 600"], "chainage 5 0 0 300, gap 187.5 12.5 12.5 300", "1 300 300 300 0\n0\n0"),
        (&["survey 600"], "chainage 5 0 0 500, gap 150 10 10 500", "1 -100 0 0 0\n0\n0"),
    ]);
}

#[test]
fn an_eighth_is_125_of_the_sheets_units() {
    let near = "1 8 8 8 1\n0\n0";
    expect_typed(&[
        // 125 mm at 1,000 mm/s take 1.25 ticks, which is 1; 250 mm take 2.5, which is 3.
        (&["survey 10"], "chainage 0 0 0 5, gap 0.125 1 1 5", near),
        (&["survey 10"], "chainage 0 0 0 5, gap 0.25 1 1 5", "2 6 6 6 1\n10\n0"),
        (&["survey 10"], "chainage 19999.875 0 0 5, chainage 20000 1 1 5", near),
        (&["survey 10"], "gap 19999.875 0 0 5, gap 0.125 1 1 5", near),
        // 1,375 mm take 12.2 ticks at 1,125 mm/s and 0.34 at 40,000 mm/s: 12 and 0.
        (&["survey 24"], "chainage 0 0 0 12, gap 1.375 1.125 40 12", "1 12 12 12 1\n0\n12"),
        (&["survey 24"], "chainage 0 0 0 12, gap 1.375 40 1.125 12", "1 12 12 12 1\n0\n36"),
    ]);
}

/// Floats on either side of what is accepted.
const REFUSED: &str =
    "nan inf -inf -0.125 -1e-320 5e-324 0.0625 0.1 0.12499999999999999 0.12500000000000003 0.1875 \
                       19999.9375 19999.999999999996 20000.000000000004 20000.125 536870912 1e308";
const ACCEPTED: &str = "0 -0 0.125 0.375 1 19999.875 20000";

/// Surveys that have a float in one of their places, and the row that has it; their other numbers are street A's. In the
/// last three a later row is bad whatever the float is.
fn with_word(float: &str) -> [(String, usize); 8] {
    let second = |row: &str| (format!("chainage 0 0 0 40, {row} 50"), 2);
    let later = |row: &str| (format!("chainage 0 0 0 40, {row} 50, gap inf nan nan 50"), 2);
    [
        (format!("chainage {float} 0 0 50"), 1),
        (format!("gap {float} 0 0 50"), 1),
        second(&format!("chainage {float} 10 15")),
        second(&format!("gap 30 {float} 15")),
        second(&format!("gap 30 10 {float}")),
        later(&format!("gap {float} 10 15")),
        later(&format!("chainage 30 {float} 15")),
        later(&format!("chainage 30 10 {float}")),
    ]
}

#[test]
fn a_float_outside_the_rules_refuses_its_row() {
    let bad = REFUSED.split_whitespace().flat_map(with_word);
    let bad: Vec<(String, String)> = bad.map(|(rows, place)| (rows, format!("refused 12 {place}"))).collect();
    assert_eq!(bad.len(), 17 * 8);
    let asked = ["survey 100", "survey 9 room 0"];
    expect_typed(&bad.iter().map(|(rows, text)| (&asked[..], &rows[..], &text[..])).collect::<Vec<Typed>>());
}

#[test]
fn a_float_within_the_rules_is_no_fault_of_its_row() {
    let good = ACCEPTED.split_whitespace().flat_map(|float| with_word(float).into_iter().take(5));
    let cases: Vec<Case> = good.map(|(rows, _)| asking("survey 100", &rows)).collect();
    for (case, text) in cases.iter().zip(replies(&Program::cases(), &cases)) {
        assert!(!text.starts_with("refused 12"), "{text}, on {case:?}");
    }
    expect_all(&cases);
}

#[test]
fn the_first_rows_speeds_are_zero_and_later_ones_are_not() {
    let refused = "refused 12 1";
    expect_typed(&[
        (&["survey 100"], "chainage 0 10 0 40, gap 30 10 15 50", refused),
        (&["survey 100"], "chainage 0 0 15 40, gap 30 10 15 50", refused),
        (&["survey 100"], "chainage 0 0.125 0 40, gap 30 10 15 50", refused),
        (&["survey 100"], "chainage 0 0 0.125 40, gap 30 10 15 50", refused),
        (&["survey 100"], "gap 0 10 15 40", refused),
        (&["survey 100"], "chainage 0 0 0 40, gap 30 0 15 50", "refused 7 1"),
        (&["survey 100"], "chainage 0 0 0 40, gap 30 10 -0 50", "refused 7 1"),
        (&["survey 100"], "chainage 0 0 0 40, gap 30 0.875 15 50", "refused 7 1"),
        (&["survey 100"], "chainage 0 0 0 40, gap 30 10 41 50", "refused 7 1"),
        (&["survey 100"], "chainage 0 0 0 40, gap 30 10 40.125 50", "refused 7 1"),
        (&["survey 100"], "chainage 0 0 0 40, gap 30 10 20000 50", "refused 7 1"),
        (&["survey 100"], "chainage 0 0 0 40, gap 30 1 40 50, gap 30 10 0 50", "refused 7 2"),
    ]);
}

#[test]
fn the_running_distance_ends_at_20_kilometres() {
    // 32 gaps of 625 m are 20,000 m. At 10 m/s each takes a whole cycle of 625 ticks.
    let gaps = |longer: usize, by: &str| {
        let gap = |k: usize| {
            let (gap, speed) = (if k == longer { by } else { "625" }, if k > 1 { 10 } else { 0 });
            format!("gap {gap} {speed} {speed} 300")
        };
        (1..=32).map(gap).collect::<Vec<String>>().join(", ")
    };
    let plan = format!("1 650 650 650 0{}", "\n0".repeat(32));
    let [whole, first, last, far] =
        [gaps(0, ""), gaps(1, "625.125"), gaps(32, "625.125"), gaps(2, "19375.125")];
    expect_typed(&[
        (&["survey 625"], &whole, &plan),
        (&["survey 625", "survey 9 room 0"], &first, "refused 12 32"),
        (&["survey 625", "survey 9 room 0"], &last, "refused 12 32"),
        (&["survey 625", "survey 9 room 0"], &far, "refused 12 2"),
        (&["survey 100"], "chainage 0.125 0 0 40, gap 20000 10 15 50", "refused 12 2"),
        (&["survey 100"], "chainage 20000 0 0 40, gap 0.125 10 15 50", "refused 12 2"),
        // A chainage starts anew from the origin, and falls or stays without a fault of its row.
        (&["survey 100"], "chainage 20000 0 0 40, chainage 30 10 15 50", "refused 6 2"),
        (&["survey 100"], "gap 30 0 0 40, chainage 30 10 15 50", "refused 6 2"),
        (&["survey 100"], "gap 30 0 0 40, gap 0 10 15 50", "refused 6 2"),
        (&["survey 100"], "gap 30 0 0 40, gap -0 10 15 50", "refused 6 2"),
        (&["survey 100"], "chainage 20000 0 0 40, chainage 0 10 15 50, gap 20000 10 15 50", "refused 6 2"),
    ]);
}

/// One survey that has every fault there is, mended fault by fault.
#[test]
fn faults_are_named_in_the_order_of_the_codes() {
    let many = vec!["gap nan nan nan 4294967295"; 33].join(", ");
    let (all, roomy) = (["survey 9 room 0", "survey 4294967295 room 2"], ["survey 9", "survey 9 room 3"]);
    let good = ["survey 10", "survey 10 room 3"];
    expect_typed(&[
        (&all, "", "refused 2 0"),
        (&all, &many, "refused 2 0"),
        (&all, "chainage 0.0625 1 0 10, gap nan 0 0 9, chainage 20000.125 0 41 10", "refused 12 1"),
        (&all, "chainage 0.125 1 0 10, gap nan 0 0 9, chainage 20000.125 0 41 10", "refused 12 1"),
        (&all, "chainage 0.125 0 0 10, gap nan 0 0 9, chainage 20000.125 0 41 10", "refused 12 2"),
        (&roomy, "chainage 0.125 0 0 10, gap nan 0 0 9, chainage 20000.125 0 41 10", "refused 12 2"),
        (&good, "chainage 0.125 0 0 10, gap nan 0 0 9, chainage 20000.125 0 41 10", "refused 12 2"),
        (&all, "chainage 0.125 0 0 10, gap 20000 0 0 9, chainage 20000.125 0 41 10", "refused 12 2"),
        (&all, "chainage 0.125 0 0 10, gap 0 0 0 9, chainage 20000.125 0 41 10", "refused 12 3"),
        (&all, "chainage 0.125 0 0 10, gap 0 0 0 9, chainage 0 inf 41 10", "refused 12 3"),
        (&all, "chainage 0.125 0 0 10, gap 0 0 0 9, chainage 0 0 41 10", "refused 3 0"),
        (&roomy, "chainage 0.125 0 0 10, gap 0 0 0 9, chainage 0 0 41 10", "refused 4 0"),
        (&["survey 6001"], "chainage 0.125 0 0 10, gap 0 0 0 9, chainage 0 0 41 10", "refused 4 0"),
        (&good, "chainage 0.125 0 0 10, gap 0 0 0 9, chainage 0 0 41 10", "refused 5 1"),
        (&good, "chainage 0.125 0 0 0, gap 0 0 0 9, chainage 0 0 41 10", "refused 5 3"),
        (&good, "chainage 0.125 0 0 1, gap 0 0 0 9, chainage 0 0 41 4294967295", "refused 5 3"),
        (&good, "chainage 0.125 0 0 1, gap 0 0 0 9, chainage 0 0 41 9", "refused 6 2"),
        (&good, "chainage 0.125 0 0 1, gap 0.125 0 0 9, chainage 0 0 41 9", "refused 6 3"),
        (&good, "chainage 0.125 0 0 1, gap 0.125 0 0 9, chainage 0.25 0 41 9", "refused 6 3"),
        (&good, "chainage 0.125 0 0 1, gap 0.125 0 0 9, chainage 0.375 0 41 9", "refused 7 1"),
        (&good, "chainage 0.125 0 0 1, gap 0.125 1 1 9, chainage 0.375 0 41 9", "refused 7 2"),
        (&good, "chainage 0.125 0 0 1, gap 0.125 1 1 9, chainage 0.375 0.875 40 9", "refused 7 2"),
        (&good, "chainage 0.125 0 0 1, gap 0.125 1 1 9, chainage 0.375 1 40.125 9", "refused 7 2"),
        (&good, "chainage 0.125 0 0 1, gap 0.125 1 1 9, chainage 0.375 1 40 9", "2 1 1 1 2\n0\n0\n1"),
    ]);
}

/// A case of one row at this chainage, and one of two rows whose second has this gap and these speeds.
fn with_float(bits: u64) -> [Case; 3] {
    let red = 50;
    let row = |kind, position, outbound, inbound| compare::survey::Row {
        kind,
        floats: [position, outbound, inbound],
        red,
    };
    let start = row(CHAINAGE, NEGATIVE, 0, NEGATIVE);
    let surveys = [
        vec![row(CHAINAGE, bits, 0, 0)],
        vec![start, row(GAP, bits, float(80), float(120))],
        vec![start, row(GAP, float(240), bits, bits)],
    ];
    surveys.map(|rows| Case { number: 0, request: "survey 100".to_string(), sheet: lines(&rows) })
}

#[test]
fn every_digit_of_every_size_counts() {
    // From half a sixteenth to past 20,000 and at the ends of the exponent's field, with a digit alone and with all up to it.
    let fields = (1_023 - 5..1_023 + 16).chain([0, 1, 2, 2_045, 2_046, 2_047]);
    let floats = fields.flat_map(|field: u64| {
        let digits = (0..=52).map(|digit| 1_u64 << digit);
        digits.flat_map(move |one| [one, one - 1]).map(move |digits| (field << 52) | (digits % (1 << 52)))
    });
    let floats: Vec<u64> = floats.chain(LIMITS.iter().map(|limit| limit.1)).collect();
    let accepted = floats.iter().filter(|&&bits| eighths(bits).is_some()).count();
    println!("{} floats, {accepted} of them accepted", floats.len());
    assert!(floats.len() > 2_000 && accepted > 150);
    expect_all(&floats.iter().flat_map(|&bits| with_float(bits)).collect::<Vec<Case>>());
}

#[test]
fn every_bit_turned_over_is_seen() {
    let bases = [0, 1, 2, 3, 8, 9, 241, 320, 65_536, 131_071, MOST - 1, MOST, MOST + 1].map(float);
    let turned = |bits: u64| (0..64).map(move |bit| bits ^ 1 << bit);
    expect_all(&bases.into_iter().flat_map(turned).flat_map(with_float).collect::<Vec<Case>>());
}

/// What the rules accept, by arithmetic on floats: eight times a float of that size is exact.
fn by_floats(bits: u64) -> Option<i64> {
    let float = f64::from_bits(bits);
    let in_range = (0.0..=20_000.0).contains(&float);
    (in_range && (8.0 * float).fract() == 0.0).then_some((8.0 * float) as i64)
}

#[test]
fn the_model_accepts_what_arithmetic_on_floats_does() {
    let mut tally = Tally::of(&[("accepted", 160_000), ("refused", 500_000)]);
    let mut judge = |bits: u64| {
        assert_eq!(eighths(bits), by_floats(bits), "{bits:016x}");
        tally.note("accepted", eighths(bits).is_some());
        tally.note("refused", eighths(bits).is_none());
    };
    for k in 0..=MOST + 16 {
        let whole = float(k);
        assert_eq!(eighths(whole), Some(k).filter(|&k| k <= MOST));
        [whole, whole + 1, whole.wrapping_sub(1), whole | NEGATIVE].into_iter().for_each(&mut judge);
        judge((k as f64 / 8.0 + 0.0625).to_bits());
    }
    for k in 0..100_000 {
        let random = &mut Random::new(SEED + 1, k);
        let [high, low] = [(); 2].map(|_| random.below(1 << 32) as u64);
        let bits = high << 32 | low;
        judge(bits);
        // The same digits at a size that can be accepted, and of these the first few alone.
        let sized = bits >> 12 | (1_015 + k % 30) << 52;
        judge(sized);
        judge(sized >> 40 << 40);
    }
    LIMITS.iter().for_each(|limit| judge(limit.1));
    tally.close();
    assert_eq!(LIMITS.iter().filter(|limit| eighths(limit.1).is_some()).count(), 8);
}

#[test]
fn rows_get_the_plan_of_the_street_typed_by_hand() {
    let program = Program::cases();
    let mut tally =
        Tally::of(&[("planned", 800), ("20 signals or more", 300), ("a red of 0", 100), ("rounded", 500)]);
    let (mut surveys, mut sheets): (Vec<Case>, Vec<Case>) = (vec![], vec![]);
    for k in 0..1_000 {
        let random = &mut Random::new(SEED + 2, k);
        let street = rows::street(random);
        let Street { cycle, .. } = street;
        let room = random.pick(&["", "", "", " room 16"]);
        let rows = lines(&rows::rows(random, &street));
        surveys.push(Case { number: k, request: format!("survey {cycle}{room}"), sheet: rows });
        sheets.push(Case::about(&street, format!("equal{room}")));
        tally.note("20 signals or more", street.signals() >= 20);
        tally.note("a red of 0", street.reds.contains(&0));
    }
    let typed = replies(&program, &sheets);
    for ((answer, text), case) in replies(&program, &surveys).iter().zip(typed).zip(&surveys) {
        assert_eq!(*answer, text, "{case:?}");
        let first = text.lines().next().expect("a line");
        tally.note("planned", !first.starts_with("refused"));
        tally.note("rounded", !first.ends_with(" 0"));
    }
    tally.close();
}

const Z: &str = "0000000000000000";

/// Words that stand for no float, and words that stand for no kind and for no red.
const NO_FLOATS: &str = "0 000000000000000 00000000000000000 0x00000000000000 +000000000000000 -000000000000000 \
                         7FF0000000000000 7ff000000000000g 7ff000000000000/ 7ff000000000000: 7ff000000000000` NaN NAN \
                         nann -nan +nan nan0 nannan inf 30.125 3.0e1 00000000000000\u{e9}";
const NO_KINDS: &str = "Chainage CHAINAGE chain chainages Gap gaps ga 0 1 gap, nan";
const NO_REDS: &str = "x -1 +40 4.0 40x 0x28 4294967296 18446744073709551656 nan";

/// Lines that are no rows.
fn no_rows() -> Vec<String> {
    let floats = NO_FLOATS.split_whitespace().chain(["", " ", "nan nan", "nan\t", "\t"]);
    let kinds = NO_KINDS.split_whitespace().chain(["", " ", "chainage ", " gap", "gap\t", "\u{feff}gap"]);
    let reds = NO_REDS.split_whitespace().chain(["", " ", "40 ", " 40", "40 50", "40\r", "40\t"]);
    let in_each = |float: &str| {
        [format!("{float} {Z} {Z}"), format!("{Z} {float} {Z}"), format!("{Z} {Z} {float}")]
            .map(|floats| format!("chainage {floats} 40"))
    };
    let mut lines: Vec<String> = floats.flat_map(in_each).collect();
    lines.extend(kinds.map(|kind| format!("{kind} {Z} {Z} {Z} 40")));
    lines.extend(reds.map(|red| format!("gap {Z} {Z} {Z} {red}")));
    let joined = [format!("gap{Z} {Z} {Z} 40"), format!("gap {Z}{Z} {Z} 40"), format!("gap {Z} {Z} {Z}40")];
    let short = [format!("gap {Z} {Z} {Z}"), format!("gap {Z} {Z} 40"), format!("gap\t{Z} {Z} {Z} 40")];
    lines.extend(joined.into_iter().chain(short));
    lines.extend(["", " ", "\r", "chainage", "gap ", "# a remark", "1", "0 40"].map(str::to_string));
    lines
}

#[test]
fn a_line_of_another_form_makes_the_case_bad_wherever_it_stands() {
    let good = format!("gap {Z} {Z} {Z} 40\n");
    let mut sheets: Vec<String> = vec![];
    for line in no_rows() {
        for before in [0, 1, 31, 32, 33, 40] {
            sheets.push(format!("{}{line}\n", good.repeat(before)));
        }
        sheets.push(format!("{line}\n{good}"));
    }
    for count in [0, 1, 31, 32, 40] {
        // The last line has no line end, or not all of its words.
        let lines = good.repeat(count);
        sheets.extend([1, 3, 5, 20, 40].map(|short| format!("{lines}{}", &good[..good.len() - short])));
    }
    println!("{} cases", sheets.len());
    let rows: Vec<Row> =
        sheets.iter().map(|sheet| (&["survey 100"][..], sheet.as_bytes(), "bad request")).collect();
    rows.chunks(20).for_each(expect);
    expect(&[(&["survey 100"], b"\xff\n", "bad request"), (&["survey 100"], STREET_A, "bad request")]);
}

#[test]
fn a_row_may_be_written_in_more_than_one_way() {
    let a = |first: &str, red: &str| {
        format!("chainage {first} {Z} {Z} {red}\ngap 403e000000000000 4024000000000000 402e000000000000 50\n")
    };
    let nans = "nan 7ff8000000000000 7ff0000000000001 fff8000000000000 ffffffffffffffff 7fffffffffffffff";
    let mut rows: Vec<(String, &str)> = nans.split(' ').map(|nan| (a(nan, "40"), "refused 12 1")).collect();
    rows.extend(["40", "040", "0000000000000000000000000000000040"].map(|red| (a(Z, red), PLAN_A)));
    rows.push((a("8000000000000000", "40"), PLAN_A));
    rows.push((a(Z, "4294967295"), "refused 5 1"));
    rows.push((a(Z, "4294967295").replace("403e", "7ff0"), "refused 12 2"));
    let rows: Vec<Row> =
        rows.iter().map(|(sheet, text)| (&["survey 100"][..], sheet.as_bytes(), *text)).collect();
    expect(&rows);
    assert_eq!(rows_in(a("nan", "40").as_bytes()).map(|rows| rows[0].floats[0]), Some(NAN));
}

#[test]
fn a_request_of_another_form_is_bad() {
    let rows = typed("chainage 0 0 0 40\ngap 30 10 15 50");
    let bad: [&[&str]; 7] = [
        &["survey", "survey ", "survey  100", "survey 100 ", " survey 100", "survey 100\r", "survey\t100"],
        &["survey x", "survey -1", "survey +100", "survey 100.0", "survey 1e2", "survey 100x", "survey 0x64"],
        &["surveys 100", "Survey 100", "survey100", "surve 100", "100 survey", "survey 100 100"],
        &["survey 4294967296", "survey 4294967396", "survey 18446744073709551716"],
        &["survey 100 room", "survey 100 room ", "survey 100 room 65", "survey 100 room x", "survey room 5"],
        &["survey 100  room 5", "survey 100 room  5", "survey 100 room 5 ", "survey 100 room 5 6"],
        &["room 5 survey 100", "survey 100room 5", "survey 100 room 4096", "survey 100 room 5 room 5"],
    ];
    expect(&bad.map(|requests| (requests, &rows[..], "bad request")));
    // A line with no line end is no request, and rows are no sheet.
    assert_eq!(compare::cases::reply(b"survey 100"), "bad request\n");
    let answer = Program::cases().answer(b"survey 100").unwrap_or_else(|fault| panic!("{fault}"));
    assert_eq!(String::from_utf8_lossy(&answer), "bad request\n\n");
    expect(&[
        (&["equal", "write", "measure 0 10", "outbound 80"], &rows, "refused 1 0"),
        (&["survey 100 room 0", "survey 100 room 1", "survey 100 room 01"], &rows, "refused 3 0"),
        (&["survey 0", "survey 9", "survey 6001", "survey 4294967295"], &rows, "refused 4 0"),
    ]);
}

#[test]
fn rows_past_the_most_are_counted() {
    let row = |k: usize| format!("gap 1 {speed} {speed} 40", speed = if k > 0 { 10 } else { 0 });
    let rows = |count: usize| (0..count).map(row).collect::<Vec<String>>().join(", ");
    let counts = [1, 31, 32, 33, 34, 40, 64, 256, 288, 1_056];
    let cases = counts.map(|count| asking("survey 100", &rows(count)));
    for (count, text) in counts.into_iter().zip(replies(&Program::cases(), &cases)) {
        assert_eq!(text == "refused 2 0", count > MAX_SIGNALS, "{count} rows: {text}");
    }
    expect_all(&cases);
}
