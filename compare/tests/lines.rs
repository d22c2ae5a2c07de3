//! From a refusal to its line: the slips that people make, typed into copies of the samples, and damaged sheets; and from
//! refused volumes, a cycle that no cabinet keeps and refused rows to the number at fault. The numbers of rows become floats
//! by awk, which is held to the bits of each.

use compare::asks::{any, volumes};
use compare::equal::equal;
use compare::moved::{plan, Ask};
use compare::page::{sheet, street, Page};
use compare::printed::plan_prints;
use compare::random::Random;
use compare::rows::{typed, Survey, LIMITS};
use compare::scripts::{converted, ended, look, look_at_rows, script, written_otherwise, Ended};
use compare::seconds::cabinets;
use compare::sheet::{fault_line, number, read, write, LARGEST_SHEET};
use compare::street::{Refusal, Street, MAX_SIGNALS};
use compare::streets;
use compare::survey::{self, eighths, Row, CHAINAGE, EIGHTH, GAP};
use compare::tally::Tally;
use compare::trial::{in_parallel, Case};
use compare::volumes::platoon;
use std::process::Command;

/// A slip: what it is, the sample with the slip in it, the code and place that it gets, the line that it leads to, and
/// what else the sentence says.
type Slip = (&'static str, Vec<u8>, &'static str, usize, &'static str);

/// A sample as it stands, line by line.
struct Sample(Vec<String>);

impl Sample {
    fn of(name: &str) -> Sample {
        let text = String::from_utf8(sheet(name)).expect("a sample is plain");
        Sample(text.lines().map(str::to_string).collect())
    }

    fn text(&self) -> String {
        self.0.iter().map(|line| format!("{line}\n")).collect()
    }

    /// A line typed otherwise.
    fn typed(&self, line: usize, instead: &str) -> Vec<u8> {
        let mut lines = self.0.clone();
        assert_ne!(lines[line - 1], instead, "no slip");
        lines[line - 1] = instead.to_string();
        Sample(lines).text().into_bytes()
    }

    /// A line left out.
    fn without(&self, line: usize) -> Vec<u8> {
        let mut lines = self.0.clone();
        lines.remove(line - 1);
        Sample(lines).text().into_bytes()
    }

    /// A line too many.
    fn with(&self, line: usize, more: &str) -> Vec<u8> {
        let mut lines = self.0.clone();
        lines.insert(line - 1, more.to_string());
        Sample(lines).text().into_bytes()
    }
}

/// Slips in the bytes of a line. Line 5 of the sample is `167640 260`, signal 2 of 10, and line 15 its first link.
fn in_a_line(ten: &Sample) -> Vec<Slip> {
    let separator = "a number is whole and has no separator";
    let second = |typed: &str| ten.typed(5, typed);
    vec![
        ("a comma for thousands", second("167,640 260"), "1 0", 5, separator),
        ("a point for thousands", second("167.640 260"), "1 0", 5, separator),
        ("an apostrophe for thousands", second("167'640 260"), "1 0", 5, separator),
        ("a space for thousands", second("167 640 260"), "1 0", 5, "more than two numbers"),
        ("a decimal point", second("167640 26.0"), "1 0", 5, separator),
        ("a decimal comma", second("167640 26,0"), "1 0", 5, separator),
        ("a tab", second("167640\t260"), "1 0", 5, "has \"167640<TAB>260\"; it has a tab"),
        ("a leading zero", second("167640 0260"), "1 0", 5, "no zero in front"),
        ("a space at the end", second("167640 260 "), "1 0", 5, "ends with a space"),
        ("a space at the start", second(" 167640 260"), "1 0", 5, "starts with a space"),
        ("two spaces", second("167640  260"), "1 0", 5, "two spaces side by side"),
        (
            "a non-breaking space",
            second("167640\u{a0}260"),
            "1 0",
            5,
            "\"167640<NBSP>260\"; it has a non-breaking space",
        ),
        ("a sign", second("-5 260"), "1 0", 5, "no number has a sign"),
        ("a unit", ten.typed(2, "650 ticks"), "1 0", 2, "no units, words or remarks"),
        ("a red that is missing", second("167640"), "1 0", 5, "one number is missing"),
        ("too many digits", second("167640000 260"), "1 0", 5, "at most 8 digits"),
        ("one speed for both ways", ten.typed(15, "15240"), "1 0", 15, "one number is missing"),
        (
            "a single carriage return",
            second("167640 260\r"),
            "1 0",
            5,
            "has \"167640 260<CR>\"; it has a carriage return",
        ),
        ("another first count", ten.typed(1, "10"), "1 0", 1, "the first line is 1, whatever the street"),
        (
            "a byte order mark",
            ten.typed(1, "\u{feff}1"),
            "1 0",
            1,
            "has \"<BOM>1\"; it starts with a byte order mark",
        ),
    ]
}

/// Slips in the lines as a whole, and in the counts.
fn in_the_lines(ten: &Sample, one: &Sample) -> Vec<Slip> {
    let crlf = ten.text().replace('\n', "\r\n").into_bytes();
    let unended = ten.text().trim_end().as_bytes().to_vec();
    let many = "is one too many, since one of 10 signals has 23 lines";
    vec![
        ("line ends of Windows", crlf, "1 0", 1, "it has a carriage return"),
        ("the last line end missing", unended, "1 0", 23, "with no line end; press Enter"),
        ("an empty line at the end", ten.with(24, ""), "1 0", 24, many),
        ("an empty line between", ten.with(6, ""), "1 0", 6, "and is empty; delete the empty line"),
        ("nothing at all", vec![], "1 0", 1, "the sheet is empty"),
        (
            "a missing link line",
            ten.without(20),
            "1 0",
            23,
            "the sheet ends after line 22, and one of 10 signals has 23 lines",
        ),
        ("an extra link line", ten.with(20, "15240 15240"), "1 0", 24, many),
        ("a signal line missing", ten.without(8), "1 0", 13, "the count of signals on line 3 is too large"),
        ("a count too small", ten.typed(3, "9"), "1 0", 13, "that of signals on line 3 is too small"),
        ("a count too large", ten.typed(3, "11"), "1 0", 14, "the count of signals on line 3 is too large"),
        (
            "the missing 0 of a single signal",
            one.without(5),
            "1 0",
            5,
            "the sheet ends after line 4, and one of 1 signal has 5 lines",
        ),
        ("too many signals", ten.typed(3, "33"), "2 0", 3, "a street has 1 to 32 signals"),
        ("no signal", ten.typed(3, "0"), "2 0", 3, "a street has 1 to 32 signals"),
        ("as many links as signals", ten.typed(14, "10"), "2 0", 14, "10 signals have 9 links"),
    ]
}

/// Slips that leave a sheet, whose numbers are refused.
fn in_the_numbers(ten: &Sample) -> Vec<Slip> {
    vec![
        ("a cycle in thousandths", ten.typed(2, "65000"), "4 0", 2, "not from 10 to 6,000 ticks"),
        ("a cycle in seconds", ten.typed(2, "65"), "5 1", 4, "the cycle on line 2 is 65 ticks, 6.5 s"),
        ("the cycle for a red", ten.typed(5, "167640 650"), "5 2", 5, "not from 0 to 649 ticks"),
        (
            "a way from signal to signal",
            ten.typed(6, "21336 260"),
            "6 3",
            6,
            "distances are from the origin, not from signal to signal",
        ),
        ("a distance past 20 km", ten.typed(13, "20000001 273"), "6 10", 13, "above 20,000,000 mm"),
        ("a speed in km/h", ten.typed(16, "50 50"), "7 2", 16, "in mm/s, not in km/h, and 50 km/h is 13889"),
    ]
}

/// Whether a sentence names a line as the one to look at, and no other.
fn names(sentence: &str, line: usize) -> bool {
    ["should have", "has", "is one too many"]
        .iter()
        .any(|rest| sentence.contains(&format!(" line {line} {rest}")))
}

#[test]
fn each_slip_leads_to_its_line() {
    let (ten, one) = (Sample::of("paper-euclid.txt"), Sample::of("row-1-one-signal.txt"));
    let slips: Vec<Slip> =
        [in_a_line(&ten), in_the_lines(&ten, &one), in_the_numbers(&ten)].into_iter().flatten().collect();
    println!("{} slips", slips.len());
    assert!(slips.len() >= 40);
    let fault = |(what, sheet, refused, line, says): &Slip| {
        let plan = script("plan", &[], sheet);
        let first = plan.said.lines().next().unwrap_or("");
        let good = plan.status == Some(1) && plan.printed == format!("refused {refused}\n");
        let led = names(first, *line) && first.contains(says);
        if good && led {
            written_otherwise(sheet, &plan)
        } else {
            Some(format!("{what}: {}{first}", plan.printed))
        }
    };
    let faults = in_parallel(&slips, fault);
    assert!(faults.is_empty(), "{}", faults.join("\n"));
}

#[test]
fn the_typists_sheets_lead_to_their_lines() {
    let page = Page::open("SHEETS.md");
    let samples = page.samples();
    let tried = |sample: &compare::page::Sample| {
        let Ended { status, printed, said } = script("plan", &[], &sample.sheet);
        let refused = printed.starts_with("refused");
        let led = match fault_line(&sample.sheet) {
            Some(line) => refused && names(&said, line),
            None => refused == said.contains(" line "),
        };
        let good = led && printed == sample.prints && status == Some(i32::from(refused));
        Some((good, format!("docs/SHEETS.md, line {}: {printed}{said}", sample.line)))
    };
    let all = in_parallel(&samples, tried);
    all.iter().for_each(|(good, told)| assert!(good, "{told}"));
    let shown: Vec<&str> = page.text.lines().filter_map(|line| line.strip_prefix("    plan: ")).collect();
    assert_eq!(shown.len(), 2);
    let sizes = ["0.42 m from signal 1 to signal 2", "reds of 0 to 24 s, 450 m from signal 1 to signal 3"];
    for sentence in shown.into_iter().chain(sizes) {
        assert!(
            all.iter().any(|(_, told)| told.contains(&format!("{sentence}\n"))),
            "no one says: {sentence}"
        );
        page.says(&sentence.split_whitespace().collect::<Vec<&str>>().join(" "));
    }
}

/// Whether a line has one or two numbers, as every line of a sheet does.
fn formed(line: &[u8]) -> bool {
    let words: Vec<&[u8]> = line.split(|&byte| byte == b' ').collect();
    words.len() <= 2 && words.into_iter().all(|word| number(word).is_ok())
}

#[test]
fn one_command_finds_the_ill_formed_lines() {
    let page = Page::open("SHEETS.md");
    let samples = page.samples();
    let command =
        page.text.lines().find_map(|line| line.strip_prefix("    LC_ALL=C grep ")).expect("a command");
    let command = format!("LC_ALL=C grep {command}").replace("FILE", "-");
    let mut found = 0;
    for sample in samples {
        let lines = sample.sheet.split_inclusive(|&byte| byte == 10).enumerate();
        let ill = lines.filter(|(_, line)| !formed(line.strip_suffix(b"\n").unwrap_or(line)));
        let expected: Vec<String> = ill.map(|(k, _)| format!("{}", k + 1)).collect();
        let printed = ended(Command::new("bash").args(["-c", &command]), &sample.sheet).printed;
        let numbers: Vec<&str> = printed.lines().map(|line| line.split(':').next().unwrap_or("")).collect();
        assert_eq!(numbers, expected, "docs/SHEETS.md, line {}", sample.line);
        found += numbers.len();
    }
    assert!(found > 20, "{found} lines were found");
}

fn counted(count: i64, thing: &str) -> String {
    format!("{count} {thing}{}", if count == 1 { "" } else { "s" })
}

/// A number in a unit, with the decimals that it needs.
fn in_unit(value: i64, unit: i64) -> String {
    let digits = unit.to_string().len() - 1;
    let text = format!("{}.{:0digits$}", value / unit, value % unit);
    text.trim_end_matches('0').trim_end_matches('.').to_string()
}

/// What is said of a street that is planned.
fn size(street: &Street) -> String {
    let (cycle, n) = (in_unit(street.cycle, 10), street.signals());
    let [least, most] = [street.reds.iter().min(), street.reds.iter().max()].map(|red| *red.expect("a red"));
    let to = if least == most { String::new() } else { format!(" to {}", in_unit(most, 10)) };
    let way = in_unit(street.distances[n - 1] - street.distances[0], 1_000);
    let way = if n == 1 { "one signal".to_string() } else { format!("{way} m from signal 1 to signal {n}") };
    format!("a cycle of {cycle} s, reds of {}{to} s, {way}\n", in_unit(least, 10))
}

/// The lines of a sheet, without their ends.
fn lines(sheet: &[u8]) -> Vec<&[u8]> {
    sheet.split(|&byte| byte == 10).collect()
}

/// A line in quotes, where print can show it whole.
fn quoted(line: &[u8]) -> Option<String> {
    let plain = line.len() <= 60 && line.iter().all(|byte| (32..127).contains(byte));
    Some(format!("\"{}\"", String::from_utf8_lossy(line))).filter(|_| plain)
}

/// What is said of a line that is not formed as it should be, by the count of signals above it.
fn ill_formed(sheet: &[u8], line: usize) -> String {
    let signals = lines(sheet).get(2).and_then(|third| number(third).ok()).unwrap_or(0);
    let (k, links) = (line as i64 - 3, signals - 1);
    let should = match (line, k - signals) {
        (1, _) => "1, the count of the first section".to_string(),
        (2, _) => "the cycle".to_string(),
        (3, _) => "the count of signals".to_string(),
        (_, past) if past <= 0 => format!("the distance and the red of signal {k} of {signals}"),
        (_, 1) => format!("the count of links, {links}"),
        (_, past) if past <= signals => {
            format!("the outbound and the inbound speed of link {} of {links}", past - 1)
        }
        _ => {
            let whole =
                format!("one of {} has {}", counted(signals, "signal"), counted(2 * signals + 3, "line"));
            return format!("line {line} is one too many, since {whole}");
        }
    };
    format!("line {line} should have {should}")
}

/// What is said of a wrong count.
fn miscounted(sheet: &[u8], line: usize) -> String {
    if line == 3 {
        return "a street has 1 to 32 signals.".to_string();
    }
    let signals = number(lines(sheet)[2]).expect("a count of signals");
    let has = if signals == 1 { "has" } else { "have" };
    format!("{} {has} {}.", counted(signals, "signal"), counted(signals - 1, "link"))
}

/// The line that a code from 4 to 7 is about, and what is said of it.
fn out_of_range(street: &Street, code: i64, place: i64) -> (usize, String) {
    let (signal, cycle) = (3 + place as usize, street.cycle);
    match code {
        4 => (2, "the cycle is not from 10 to 6,000 ticks, tenths of a second.".to_string()),
        5 => {
            let range = format!(
                "the red of signal {place}, its second number, is not from 0 to {} ticks; ",
                cycle - 1
            );
            (signal, range + &format!("the cycle on line 2 is {cycle} ticks, {} s.", in_unit(cycle, 10)))
        }
        6 => {
            let far = street.distances[signal - 4] > 20_000_000;
            let not_above = format!("not above that of signal {}; distances are from the origin", place - 1);
            let fault = if far { "above 20,000,000 mm.".to_string() } else { not_above };
            (signal, format!("the distance of signal {place}, its first number, is {fault}"))
        }
        _ => {
            let ends = format!("from signal {place} to signal {}", place + 1);
            let line = 4 + street.signals() + place as usize;
            (line, format!("a speed of link {place}, {ends}, is not from 1,000 to 40,000 mm/s;"))
        }
    }
}

/// The line of a refused sheet's fault, and what is to be said of it, by the model. One that is too long has the fault
/// that it would have if it were not.
fn expected(sheet: &[u8], code: i64, place: i64) -> (usize, String) {
    if let Some(line) = fault_line(sheet) {
        let first = read(&sheet[..sheet.len().min(LARGEST_SHEET)]).err().map(|refusal| refusal.code);
        let told = if first == Some(2) { miscounted(sheet, line) } else { ill_formed(sheet, line) };
        (line, told)
    } else {
        out_of_range(&read(sheet).expect("a sheet"), code, place)
    }
}

/// Holds what is said of a sheet to the model: the size of a street that is planned and no line; else the line of the
/// first fault, what should stand there and what does.
fn misled(case: &Case) -> Option<String> {
    let seen = &case.sheet[..case.sheet.len().min(LARGEST_SHEET + 1)];
    let prints = plan_prints(&case.sheet);
    let numbers: Vec<i64> = prints.split_whitespace().filter_map(|word| word.parse().ok()).collect();
    let fault = |what: &str, said: &str| Some(format!("{what}: {prints}{said}on {case:?}"));
    if !prints.starts_with("refused") {
        let street = read(&case.sheet).expect("a planned sheet");
        let (said, shown) = (look(seen, 1, 0, "equal"), look(seen, 0, 0, "equal"));
        let good = said == "refused, code 1, place 0.\n" && shown == size(&street);
        return if good { None } else { fault("a planned sheet", &(said + &shown)) };
    }
    let said = look(seen, numbers[0], numbers[1], "equal");
    let (line, told) = expected(seen, numbers[0], numbers[1]);
    let text = lines(seen).get(line - 1).copied().unwrap_or(b"");
    let shown = text.is_empty() || quoted(text).map_or(true, |quote| said.contains(&quote));
    // What ends with a number is said to its end, so that signal 1 of 10 is not taken for signal 1 of 1.
    let whole = [",", ".", ""].iter().any(|end| {
        let closed = !end.is_empty() || !told.ends_with(char::is_numeric);
        closed && said.contains(&format!("{told}{end}"))
    });
    let long = case.sheet.len() > LARGEST_SHEET;
    if !names(&said, line) || !whole || !shown || said.contains("more than 2,048 bytes") != long {
        return fault(&format!("not `{told}`"), &said);
    }
    let other = look(seen, 3 - numbers[0].min(2), 0, "equal");
    if names(&other, line) && !long {
        return fault("the other code", &other);
    }
    None
}

#[test]
fn damaged_sheets_lead_to_the_line_of_the_model() {
    let cases: Vec<Case> = (0..2_400).map(|number| Case::random(10, number)).collect();
    let faults = in_parallel(&cases, misled);
    assert!(faults.is_empty(), "{} of {}, such as\n{}", faults.len(), cases.len(), faults[0]);
    let count = |code: &str| cases.iter().filter(|case| plan_prints(&case.sheet).starts_with(code)).count();
    let counts = ["refused 1", "refused 2", "refused 4", "refused 5", "refused 6", "refused 7"].map(count);
    let planned = cases.len() - counts.iter().sum::<usize>();
    println!("{planned} planned, {counts:?} refused with codes 1, 2 and 4 to 7");
    assert!(
        planned > 600 && counts[0] > 300 && counts[1] > 60 && counts[2..].iter().all(|&count| count > 10)
    );
}

/// What is said of volumes that are refused by code 11 or 8.
fn about_volumes(cycle: i64, ask: Ask, Refusal { code, place }: Refusal) -> String {
    let (out, back, headway) = match ask {
        Ask::Volumes(out, back, headway) => (out, back, headway),
        _ => panic!("`{ask}` has no volumes"),
    };
    let (way, volume) = if place == 1 { ("outbound", out) } else { ("inbound", back) };
    let told = match (code, place) {
        (11, 3) => format!("the headway, {headway}, is not from 1 to 100 ticks, tenths of a second"),
        (11, _) => format!("the {way} volume, {volume}, is above 10,000 vehicles an hour"),
        _ => {
            let halves = platoon(volume, cycle, headway);
            format!("the {way} volume, {volume}, comes to a platoon of {halves} halves at this cycle and headway, ")
                + "above 100,000 halves, twentieths of a second"
        }
    };
    format!("refused, code {code}: {told}.\n")
}

#[test]
fn volumes_that_are_refused_are_named_with_what_they_come_to() {
    let (long, bytes) = (street("row-long-cycle.txt"), sheet("row-long-cycle.txt"));
    let asked: Vec<Ask> = (0..600).map(|k| volumes(&mut Random::new(11, k), &long)).collect();
    let told = in_parallel(&asked, |&ask| {
        let refusal = plan(&long, ask, MAX_SIGNALS).err()?;
        let said = look(&bytes, refusal.code, refusal.place, &ask.to_string());
        assert_eq!(said, about_volumes(long.cycle, ask, refusal), "{ask}");
        Some(refusal)
    });
    let mut tally =
        Tally::of(&[("11 at 1", 10), ("11 at 2", 10), ("11 at 3", 5), ("8 at 1", 10), ("8 at 2", 5)]);
    told.iter().for_each(|Refusal { code, place }| tally.note(&format!("{code} at {place}"), true));
    tally.close();
}

/// What is said of a cycle that is no whole number of seconds.
fn about_cycle(cycle: i64) -> String {
    let (seconds, below) = (in_unit(cycle, 10), cycle / 10);
    let needs = format!("a cycle of {seconds} s is no whole number of seconds, as a cabinet needs");
    let mend = format!("type {below}0 for {below} s, or {0}0 for {0} s", below + 1);
    format!("refused, code 13: line 2 has \"{cycle}\", and {needs}; {mend}.\n")
}

#[test]
fn what_is_refused_in_seconds_is_explained_as_its_plan_is() {
    let asked = |k: u64| {
        let random = &mut Random::new(14, k);
        let street = if random.one_in(3) { streets::street(random) } else { streets::in_seconds(random) };
        let ask = any(random, &street);
        (street, ask)
    };
    let asked: Vec<(Street, Ask)> = (0..700).map(asked).collect();
    let codes = in_parallel(&asked, |(street, ask)| {
        let Refusal { code, place } = cabinets(street, *ask, MAX_SIGNALS).err()?;
        let said = look(&write(street), code, place, &format!("seconds {ask}"));
        let told = if code == 13 {
            about_cycle(street.cycle)
        } else {
            look(&write(street), code, place, &ask.to_string())
        };
        assert_eq!(said, told, "{ask} on {street:?}");
        assert!(!said.contains(", place "), "{said}");
        Some(code)
    });
    for (code, least) in [(13, 50), (9, 20), (8, 5), (11, 3)] {
        let met = codes.iter().filter(|&&met| met == code).count();
        println!("{met:5} with code {code}");
        assert!(met >= least, "{met} with code {code}");
    }
}

/// A float of any bits, or of a size that an instrument shows.
fn any_float(random: &mut Random) -> f64 {
    let any = (random.below(1 << 32) << 32 | random.below(1 << 32)) as u64;
    let (eighths, small) = (random.within(0, 160_016), any % (1 << 52));
    let bits = random.pick(&[any, any, small, (any >> 12) | 0x40c0_0000_0000_0000]);
    random.pick(&[f64::from_bits(bits), f64::from_bits(bits), eighths as f64 / 8.0])
}

/// A float in decimal, as it may be typed: with the fewest digits that tell it, with more, or with all that it has.
fn in_decimal(random: &mut Random, float: f64) -> String {
    match random.below(6) {
        _ if !float.is_finite() => float.to_string().to_uppercase(),
        0 => format!("{float:e}"),
        1 => format!("{float:.20E}"),
        2 => format!("{float:.25}"),
        3 => format!("{float:+}"),
        4 => format!("{float:025.3}"),
        _ => format!("{float:?}"),
    }
}

/// The ways to start an awk here.
fn awks() -> Vec<&'static str> {
    let found = |awk: &&str| {
        let start = format!("{awk} 'BEGIN {{ exit 7 }}' </dev/null 2>/dev/null");
        ended(Command::new("sh").args(["-c", &start]), b"").status == Some(7)
    };
    ["awk", "mawk", "gawk", "gawk --posix", "busybox awk", "original-awk"].into_iter().filter(found).collect()
}

#[test]
fn every_number_becomes_the_bits_of_its_float() {
    let random = &mut Random::new(12, 0);
    let limits = LIMITS.iter().map(|limit| format!("{:?}", f64::from_bits(limit.1)));
    let mut words: Vec<String> = limits.collect();
    let fixed = "0 -0 +0 00 -000.0 007 010 0123 08 1. .5 -.5 1e3 1E+3 1e-3 0e5 00e5 2.4703282292062328e-324 1e400 -1e400 \
                 1e-400 2.2250738585072011e-308 9007199254740993 0.1 INF -Infinity nan NaN -0.0625 0020000.1250";
    words.extend(fixed.split_whitespace().map(str::to_string));
    for _ in 0..6_000 {
        let float = any_float(random);
        words.push(in_decimal(random, float));
    }
    words.retain(|word| word != "-NAN");
    let rows: String = words.chunks_exact(3).map(|three| format!("gap {} 50\n", three.join(" "))).collect();
    let (expected, awks) = (String::from_utf8(typed(&rows)).expect("lines"), awks());
    println!("{} numbers through {}", words.len(), awks.join(", "));
    for awk in awks {
        let lines = converted(awk, &rows);
        for ((row, line), told) in rows.lines().zip(expected.lines()).zip(lines.lines()) {
            assert_eq!(line, told, "{awk}, on {row}");
        }
        assert_eq!(lines.len(), expected.len(), "{awk}");
    }
}

/// A row as it may be typed.
fn typed_row(row: &Row) -> String {
    let [position, outbound, inbound] = row.floats.map(f64::from_bits);
    let kind = if row.kind == CHAINAGE { "chainage" } else { "gap" };
    format!("{kind} {position:?} {outbound:?} {inbound:?} {}", row.red)
}

/// What is said of a float that is not accepted.
fn about_float(bits: u64, name: &str) -> Option<String> {
    let float = f64::from_bits(bits);
    let told = match float {
        _ if eighths(bits).is_some() => return None,
        _ if float.is_nan() => "no number",
        _ if float.is_infinite() => "not finite",
        _ if float < 0.0 => "below 0",
        _ if float > 20_000.0 => "above 20,000",
        _ => "no whole multiple of 0.125",
    };
    Some(format!("its {name}, {float:?}, is {told}"))
}

/// What is said of a row that is refused by code 12, given the running distance before it.
fn about_bad_row(row: &Row, before: i64) -> String {
    let kind = if row.kind == CHAINAGE { "chainage" } else { "gap" };
    let numbers = row.floats.into_iter().zip([kind, "outbound speed", "inbound speed"]);
    if let Some(told) = numbers.into_iter().find_map(|(bits, name)| about_float(bits, name)) {
        return told;
    }
    let distance = before + EIGHTH * eighths(row.floats[0]).expect("a number of eighths");
    if row.kind == GAP && distance > 20_000_000 {
        let metres = in_unit(distance, 1_000);
        return format!("its signal, at {metres} m, is more than 20,000 m from the origin");
    }
    "the speeds of the first row must be 0, since no link ends there".to_string()
}

/// What is said of rows that are refused by a code from 5 to 7.
fn about_street(street: &Street, rows: &[Row], code: i64, k: usize) -> String {
    let metres = |k: usize| in_unit(street.distances[k], 1_000);
    let cycle = street.cycle;
    match code {
        5 => {
            let range = format!("its red, the last number, is not from 0 to {} ticks; ", cycle - 1);
            range + &format!("the cycle is {}, {} s", counted(cycle, "tick"), in_unit(cycle, 10))
        }
        6 => {
            let at = format!("its signal, at {} m from the origin, ", metres(k));
            at + &format!("is not beyond that of row {k}, at {} m", metres(k - 1))
        }
        _ => {
            let slow = |speed: i64| !(1_000..=40_000).contains(&speed);
            let f = if slow(street.outbound[k - 1]) { 1 } else { 2 };
            let (name, speed) = (["outbound", "inbound"][f - 1], f64::from_bits(rows[k].floats[f]));
            format!("its {name} speed, {speed:?}, is not from 1 to 40 m/s")
        }
    }
}

/// What is to be said of a survey with the code and place of its refusal, both 0 where it has a plan.
fn about_rows(Survey { cycle, rows }: &Survey) -> (Refusal, String) {
    let street = survey::street(*cycle, rows);
    let refusal = match street.clone().and_then(|street| equal(&street, MAX_SIGNALS)) {
        Ok(_) => return (Refusal { code: 0, place: 0 }, size(&street.expect("a planned street"))),
        Err(refusal) => refusal,
    };
    let Refusal { code, place } = refusal;
    let k = place as usize - usize::from(code != 7 && place > 0);
    let told = match (code, street) {
        (2, _) if rows.is_empty() => "no row came, and a street has 1 to 32 signals".to_string(),
        (2, _) => format!("{} rows came, and a street has 1 to 32 signals", rows.len()),
        (4, _) => format!("the cycle, {cycle}, is not from 10 to 6,000 ticks, tenths of a second"),
        (12, _) => {
            let before = survey::street(*cycle, &rows[..k]).map_or(0, |street| street.distances[k - 1]);
            about_bad_row(&rows[k], before)
        }
        (_, street) => about_street(&street.expect("a judged street"), rows, code, k),
    };
    let row = if [2, 4].contains(&code) {
        String::new()
    } else {
        let line = typed_row(&rows[k]);
        let shown = if line.len() > 60 { format!("{}...", &line[..60]) } else { line };
        format!("row {} has \"{shown}\", and ", k + 1)
    };
    (refusal, format!("refused, code {code}: {row}{told}.\n"))
}

#[test]
fn rows_that_are_refused_are_named_with_the_number_at_fault() {
    let surveys: Vec<Survey> = (0..1_500).map(|k| Survey::random(&mut Random::new(13, k))).collect();
    let codes = in_parallel(&surveys, |survey| {
        let text: String = survey.rows.iter().map(|row| typed_row(row) + "\n").collect();
        let (Refusal { code, place }, told) = about_rows(survey);
        let request = format!("survey {}", survey.cycle);
        assert_eq!(look_at_rows(&text, code, place, &request), told, "{request} {text}");
        assert_eq!(converted("awk", &text).as_bytes(), typed(&text), "{text}");
        // A row that nothing is wrong with is not named.
        if code == 0 {
            let other = look_at_rows(&text, 12, 1, &request);
            assert_eq!(other, "refused, code 12, place 1.\n", "{text}");
        }
        Some(code)
    });
    let wanted = [(0, 300), (2, 15), (4, 10), (5, 30), (6, 30), (7, 50), (12, 400)];
    for (code, least) in wanted {
        let met = codes.iter().filter(|&&met| met == code).count();
        println!("{met:5} with code {code}");
        assert!(met >= least, "{met} with code {code}");
    }
}
