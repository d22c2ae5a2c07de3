//! docs/PAPER.md, docs/SHEETS.md and docs/EXAMPLES.md: their sheets and requests through the programs, and their numbers worked out anew.

use compare::bands::{measure, Band};
use compare::cases::{input, output};
use compare::decimal::{decimal, digits, gain, grouped, nearest, number, seconds};
use compare::equal::{equal, Pairs, Plan};
use compare::hold::replies;
use compare::moved::{Ask, MAX_PLATOON};
use compare::named::named;
use compare::page::{coded, sheet, street, Page, Sample};
use compare::paper::{
    alone, asked, conversions, euclid, measured, parts, quarter, reply, sample, served, through,
};
use compare::paper::{LINKS, PARTS, REPLIES, SIGNALS, TWO_SECONDS};
use compare::printed::{plan_prints, printed};
use compare::resting::taken_out;
use compare::rows::typed;
use compare::run::Program;
use compare::scripts::look;
use compare::seconds::{cabinets, green_starts, kept, moved_by, SECOND, TICKS};
use compare::sheet::{read, write, LARGEST_SHEET};
use compare::street::{link_time, Street, Times, CYCLE, MAX_SIGNALS};
use compare::streets::greatest;
use compare::survey;
use compare::trial::Case;
use compare::volumes::{fitting, platoon, HEADWAY, MAX_VOLUME, PER_HALF};
use std::collections::BTreeSet;

fn typists() -> (Page, Vec<Sample>) {
    let page = Page::open("SHEETS.md");
    let samples = page.samples();
    (page, samples)
}

#[test]
fn the_typists_page_is_read_whole() {
    let (page, samples) = typists();
    let starts = |mark: &str| page.text.lines().filter(|line| line.starts_with(mark)).count();
    let blocks = page.blocks().len();
    assert_eq!((blocks, page.slips().len()), (23, 21));
    assert_eq!((starts("Prints:"), starts("```sheet"), starts("```")), (blocks, blocks, 2 * blocks));
    let slips = page.text.lines().filter(|line| line.starts_with('|') && line.contains("| `refused"));
    assert_eq!(slips.count(), page.slips().len());
    let codes: BTreeSet<&str> = samples.iter().map(|sample| &sample.prints[..9]).collect();
    let codes: Vec<&str> = codes.into_iter().filter(|code| code.starts_with("refused")).collect();
    assert_eq!(codes, ["refused 1", "refused 2", "refused 4", "refused 5", "refused 6", "refused 7"]);
    for mark in page.table("| Mark | Stands for |") {
        let shown = page.text.lines().filter(|line| !line.starts_with("| `<") && line.contains(&mark[0]));
        assert!(shown.count() > 0, "{} stands nowhere", mark[0]);
    }
    assert!(samples.iter().all(|sample| !sample.sheet.contains(&b'<')), "a mark is unknown");
}

/// Holds the model and `plan` to what a sheet gets.
fn expect(program: &Program, sheet: &[u8], prints: &str, place: &str) {
    assert_eq!(plan_prints(sheet), prints, "the model, on {place}");
    let answer = program.answer(sheet).unwrap_or_else(|fault| panic!("{place}: {fault}"));
    assert_eq!(String::from_utf8_lossy(&answer), prints, "plan, on {place}");
}

#[test]
fn the_typists_sheets_get_what_the_page_says() {
    let program = Program::plan();
    for Sample { sheet, prints, line } in typists().1 {
        expect(&program, &sheet, &prints, &format!("docs/SHEETS.md, line {line}"));
    }
}

/// The rows of the examples' page: the request and the sheet, or a survey's rows, as one case, and the reply.
fn examples() -> Vec<(Vec<u8>, String)> {
    let page = Page::open("EXAMPLES.md");
    let example = |line: &str| {
        let words = coded(line);
        let mut words = words.split_inclusive('\n');
        let (name, asked) = (words.next().expect("a sheet"), words.next().expect("a request"));
        ([asked.as_bytes(), &sheet(name.trim_end())].concat(), words.collect())
    };
    let survey = |[rows, asked, reply]: [String; 3]| ([asked.as_bytes(), &typed(&rows)].concat(), reply);
    let sheets = page.lines("| Row | Sheet | Asked | Reply |").into_iter().map(example);
    sheets.chain(page.surveys().into_iter().map(survey)).collect()
}

#[test]
fn the_examples_come_out() {
    let examples = examples();
    assert_eq!(examples.len(), 51 + 13);
    let bytes = input(&examples.iter().map(|(case, _)| case).collect::<Vec<_>>());
    let expected: String = examples.iter().map(|(_, reply)| format!("{reply}\n")).collect();
    assert_eq!(output(&bytes), expected, "the model");
    let answer = Program::cases().answer(&bytes).unwrap_or_else(|fault| panic!("{fault}"));
    assert_eq!(String::from_utf8_lossy(&answer), expected, "cases");
}

/// How many ticks the way to the last signal takes outbound.
fn whole_way(street: &Street) -> i64 {
    Times::of(street).t(0, street.signals() - 1)
}

#[test]
fn the_examples_show_how_times_are_rounded() {
    let page = Page::open("EXAMPLES.md");
    let names = ["row-rounding-49-mm.txt", "row-9-rounded-times.txt", "row-rounding-two-links.txt"];
    let [short, half, two] = names.map(street);
    let common = |street: &Street| (street.cycle, street.reds[0], street.outbound[0], street.inbound[0]);
    assert!(common(&short) == common(&half) && common(&two) == common(&half));
    let [a, b, c] = [&short, &half, &two].map(whole_way);
    let (sum, lengths) = (2 * half.distances[1], [short.distances[1], half.distances[1], two.distances[1]]);
    assert_eq!((sum, lengths), (two.distances[2], [49, 50, 50]));
    page.says(&format!("The link of 49 mm takes {a} ticks, row 9's of 50 mm takes {b}, and two links"));
    let rounded_sum = link_time(sum, two.outbound[0]).0;
    page.says(&format!("links of 50 mm take {c}, since each is rounded by itself; rounded as a sum they would take {rounded_sum}."));
}

#[test]
fn the_examples_show_how_volumes_become_platoons() {
    let (a, long) = (street("street-a.txt"), street("row-long-cycle.txt"));
    let [per_half, fine] = [20, 1].map(|headway| PER_HALF / (a.cycle * headway));
    let (plan, equal) = (asked(&a, Ask::Volumes(800, 300, 20)), asked(&a, Ask::Equal));
    let [p, q, row_11, other, like] = [800, 300, 270, 90, 265].map(|volume| platoon(volume, a.cycle, 20));
    let [longest, longer] = [3_000, 3_001].map(|volume| platoon(volume, long.cycle, HEADWAY.1));
    assert_eq!((88 * 9 + 8, 33 * 9 + 3, 9), (800, 300, per_half));
    assert_eq!((like, asked(&a, Ask::Volumes(265, 270, 20))), (row_11, equal.clone()));
    assert_eq!((long.cycle, longest), (CYCLE.1, MAX_PLATOON));
    let ([out, back], best) = (fitting(&plan, a.cycle, 20), equal.best);
    let [fit, most, longest, longer] = [fine * best, MAX_VOLUME, longest, longer].map(grouped);
    let told = [
        format!("of {} ticks and a headway of 20, {per_half} vehicles an hour come to one half.", a.cycle),
        format!("800 and 300 come to platoons of {p} and {q} halves, rounded up from 88 8/9 and 33 1/3,"),
        format!("{out} and {back} are the most that fit the widths {} and {}.", plan.outbound, plan.inbound),
        format!("270 and 90 come to {row_11} and {other} halves, as in row 11."),
        format!("265 come to {like} as 270 do, and like platoons get the equal plan."),
        format!("At a headway of 1 it takes {fine} to come to a half, and {fit} would fit the width {best};"),
        format!("{most} is the most that is answered."),
        format!("3,000 come to {longest} halves, and 3,001 to {longer}, which is too long a platoon."),
    ];
    told.iter().for_each(|sentence| Page::open("EXAMPLES.md").says(sentence));
}

#[test]
fn the_examples_show_how_rows_become_a_street() {
    let page = Page::open("EXAMPLES.md");
    let surveys = page.surveys();
    let became = |k: usize, cycle: i64| {
        let rows = survey::rows(&typed(&surveys[k][0])).expect("rows");
        survey::street(cycle, &rows)
    };
    let [a, moved] = [0, 1].map(|k| became(k, 100).expect("a street"));
    assert_eq!(a, street("street-a.txt"));
    assert_eq!(moved, Street { distances: vec![50_000, 80_000], ..a.clone() });
    let (eighth, row_9) = (became(2, 10).expect("a street"), street("row-9-rounded-times.txt"));
    assert_eq!(equal(&eighth, MAX_SIGNALS), equal(&row_9, MAX_SIGNALS));
    let (gap, speed) = (eighth.distances[1], eighth.outbound[0]);
    let ticks = decimal(10 * i128::from(gap), speed.into(), 2);
    let told = [
        format!("{} mm, {} mm/s and {} mm/s, and so", a.distances[1], a.outbound[0], a.inbound[0]),
        format!(
            "An eighth of a metre is {gap} mm; at 1 m/s it takes {ticks} ticks, rounded to {}",
            whole_way(&eighth)
        ),
        "the last signal is 20,000.125 m from the origin".to_string(),
    ];
    told.iter().for_each(|sentence| page.says(sentence));
    assert_eq!(became(7, 9).expect_err("a bad row").place, 3);
    let first = surveys[0][0].replace('\n', "\\n");
    let command = format!("    printf '{first}' | ./ask {}", surveys[0][1]);
    assert!(page.text.contains(&command), "the page has no {command}");
}

#[test]
fn the_examples_show_what_a_signal_that_rests_does() {
    let [crossing, one, all] =
        ["crossing", "one-red", "all"].map(|name| street(&format!("row-resting-{name}.txt")));
    let best = |street: &Street| (Pairs::of(street).reference().1, Pairs::of(street).papers_reference().1);
    let ((b, papers), (green, cut), (whole, _)) = (best(&crossing), best(&one), best(&all));
    let offsets =
        [Ask::Equal, Ask::Outbound(1_320), Ask::Inbound(1_320)].map(|ask| asked(&crossing, ask).offsets[1]);
    assert_eq!((asked(&taken_out(&crossing), Ask::Equal).best, offsets), (b, [45; 3]));
    assert_eq!((green, whole), (one.halves() - 2 * one.reds[0], all.halves()));
    let page = Page::open("EXAMPLES.md");
    let told = [
        format!("B is {b}, as on the street without it."),
        format!("a red of no length would still cut the band, and B would be {papers}."),
        format!("Its offset is {}, from the travel times alone;", offsets[0]),
        format!("With one red of a tick B is the whole green, {green}, where the formula has {cut}."),
        format!("Where every signal rests B is the whole cycle, {whole}, the only width"),
    ];
    told.iter().for_each(|sentence| page.says(sentence));
}

#[test]
fn the_examples_show_how_greens_start_in_whole_seconds() {
    let (a, lost) = (street("street-a.txt"), street("row-seconds-19-halves.txt"));
    let started = |street: &Street, ask: Ask| {
        let served = cabinets(street, ask, MAX_SIGNALS).expect("a plan");
        let starts = green_starts(street, &served.plan.offsets);
        (served, starts)
    };
    let ((equal, even), (moved, past), (tied, half)) =
        (started(&a, Ask::Equal), started(&a, Ask::Outbound(80)), started(&a, Ask::Platoons(30, 10)));
    let (crossing, rested) = started(&street("row-resting-crossing.txt"), Ask::Equal);
    let (served, starts) = started(&lost, Ask::Equal);
    let ([f, g], [r, s]) = ([equal.plan.offsets[0], equal.plan.offsets[1]], [a.reds[0], a.reds[1]]);
    let (offset, late) = (moved.plan.offsets[0], tied.plan.offsets[0]);
    let [up, down] = [0, 1].map(|j| moved_by(starts[j], served.seconds[j], lost.halves()));
    let [first, second] = [kept(&lost, &served.seconds)[0], kept(&lost, &served.seconds)[1]];
    let ((out, back), b) = (measure(&lost, &[first, second]), served.plan.best);
    assert_eq!((out.width < back.width, half[0] % SECOND, tied.seconds[0]), (true, SECOND / 2, 1));
    assert_eq!(rested[1], crossing.plan.offsets[1]);
    let told = [
        format!("start at {f} + {r} = {} and {g} + {s} = {} halves,", even[0], even[1]),
        format!("at {} s and at {} s. With 80 outbound", equal.seconds[0], equal.seconds[1]),
        format!(
            "the offset of signal 1 is {offset}, and {offset} + {r} = {} is {} past",
            offset + r,
            past[0]
        ),
        format!("past the cycle, second {} of the next.", moved.seconds[0]),
        format!("it is {late}, and its green starts {} past the cycle, half-way", half[0]),
        format!("rests has its offset, {}, for the start of its green,", crossing.plan.offsets[1]),
        format!("its green, and gets {}. The next", crossing.seconds[1]),
        format!("greens start at {} and at {}: one goes {up} halves up,", starts[0], starts[1]),
        format!("to {} s, and the other {} back, to {} s.", served.seconds[0], -down, served.seconds[1]),
        format!(
            "keep the offsets {SECOND} - {} = {first} and man(0 - {}) = {second},",
            lost.reds[0], lost.reds[1]
        ),
        format!("the outbound band is {} wide: it has lost {} of its {b} halves,", out.width, b - out.width),
        format!("A cycle of {} s is no", decimal(street("row-seconds-98-5-s.txt").cycle.into(), 10, 1)),
    ];
    told.iter().for_each(|sentence| Page::open("EXAMPLES.md").says(sentence));
}

#[test]
fn the_typists_page_shows_a_cycle_that_no_cabinet_keeps() {
    let (page, samples) = typists();
    let broken = |sample: &&Sample| {
        read(&sample.sheet).map_or(false, |street| street.range_fault().is_none() && street.cycle % TICKS > 0)
    };
    let found: Vec<&Sample> = samples.iter().filter(broken).collect();
    assert_eq!(found.len(), 1, "one sheet has such a cycle");
    let street = read(&found[0].sheet).expect("a street");
    assert_eq!(found[0].sheet, sheet("row-seconds-98-5-s.txt"));
    assert_eq!(Street { cycle: 900, ..street.clone() }, read(&samples[0].sheet).expect("the good sheet"));
    let mended = Street { cycle: street.cycle / TICKS * TICKS, ..street.clone() };
    let cases = [Case::about(&street, "seconds equal"), Case::about(&mended, "seconds equal")];
    let answers = replies(&Program::cases(), &cases);
    for (case, answer) in cases.iter().zip(&answers) {
        assert_eq!(output(&case.bytes()), format!("{answer}\n\n"), "the model, on {case:?}");
    }
    page.says(&format!("In seconds it is refused, with `{}`:", answers[0]));
    let lines: Vec<String> = answers[1].lines().map(|line| format!("`{line}`")).collect();
    page.says(&format!("Type {0} or {1},", mended.cycle, mended.cycle + TICKS));
    page.says(&format!("For {} that is {}.", mended.cycle, lines.join(", ")));
    let said = look(&found[0].sheet, 13, 0, "seconds equal");
    page.says(&format!("ask: {}", said.trim_end()));
}

#[test]
fn the_examples_show_a_band_that_is_measured_elsewhere() {
    let street = street("row-elsewhere-another-stretch.txt");
    let plan = asked(&street, Ask::Outbound(16));
    let ([_, band], (_, found)) = (named(&street, &plan), measure(&street, &plan.offsets));
    let starts = (band.start + 2 * band.lags[1]).rem_euclid(street.halves());
    assert!(found.width == band.width && found.start != starts);
    let Band { width, start } = found;
    let (names, finds) = (
        format!("starts at instant {starts} at signal 2;"),
        format!("the stretch of {width} halves that starts at {start}."),
    );
    Page::open("EXAMPLES.md")
        .says(&format!("the inbound band that the plan names {names} `measure` finds {finds}"));
}

#[test]
fn an_empty_line_anywhere_is_refused() {
    let (program, good) = (Program::plan(), typists().1.remove(0).sheet);
    let starts: Vec<usize> = (0..=good.len()).filter(|&at| at == 0 || good[at - 1] == b'\n').collect();
    assert!(starts.len() > 7, "{starts:?}");
    for at in starts {
        let sheet = [&good[..at], b"\n", &good[at..]].concat();
        expect(&program, &sheet, "refused 1 0\n", &sheet.escape_ascii().to_string());
    }
}

#[test]
fn the_typists_example_is_explained_line_by_line() {
    let (page, samples) = typists();
    let typed: String =
        page.table("| Line | Typed | Means |").iter().map(|row| format!("{}\n", row[1])).collect();
    assert_eq!(typed.as_bytes(), samples[0].sheet);
    let speeds = page.table("| km/h | 30 | 40 | 45 | 50 | 60 | 70 | 80 | 100 |");
    for (km_h, mm_s) in [30, 40, 45, 50, 60, 70, 80, 100].into_iter().zip(&speeds[0][1..]) {
        assert_eq!(nearest(10_000 * km_h, 36), number(mm_s), "{km_h} km/h");
    }
    let good = read(&samples[0].sheet).expect("the good sheet");
    let Plan { best, offsets, .. } = asked(&good, Ask::Equal);
    page.says(&format!("B is {best} halves, {} s", seconds(best)));
    page.says(&format!("its red {} halves, {} s, after", offsets[0], decimal(offsets[0].into(), 20, 1)));
    let green = good.halves() - 2 * good.reds[0];
    page.says(&format!("{green} halves are {} s, the whole green of signal 1", green / 20));
}

#[test]
fn the_longest_sheet_of_a_street_is_as_the_page_says() {
    let longest = greatest();
    let (sheet, prints) = (write(&longest), printed(&equal(&longest, MAX_SIGNALS)));
    assert!(!prints.starts_with("refused") && sheet.len() < LARGEST_SHEET);
    expect(&Program::plan(), &sheet, &prints, "the longest sheet");
    typists().0.says(&format!("a street within the limits never needs more than {}.", sheet.len()));
}

#[test]
fn the_papers_signals_became_the_sheets() {
    let rows = Page::open("PAPER.md").table(SIGNALS);
    let [sample, euclid, in_seconds, fitted] = ["sample", "euclid", "euclid-seconds", "euclid-fitted"]
        .map(|name| street(&format!("paper-{name}.txt")));
    assert_eq!(rows.len(), 10);
    for (k, row) in rows.iter().enumerate() {
        assert_eq!(number(&row[0]), k as i128 + 1);
        assert_eq!(number(&row[1]) * 3_048, number(&row[2]) * 10);
        assert_eq!(digits(&row[3]), number(&row[4]), "tenths of a second are ticks");
        assert_eq!(nearest(digits(&row[5]) * 650, 100), number(&row[6]));
        assert_eq!(decimal(number(&row[4]), 650, 2), row[5], "the sample's red, as Euclid's would print");
        assert_eq!(i128::from(sample.reds[k]), number(&row[4]));
        assert_eq!(i128::from(euclid.reds[k]), number(&row[6]));
        assert_eq!(decimal(fitted.reds[k].into(), 650, 2), row[5], "the fitted red, as it would print");
        for street in [&sample, &euclid, &in_seconds, &fitted] {
            assert_eq!(i128::from(street.distances[k]), number(&row[2]));
        }
    }
    assert_eq!(in_seconds.reds, sample.reds);
    let changed = (0..10).filter(|&k| fitted.reds[k] != euclid.reds[k]);
    assert_eq!(changed.map(|k| (k, fitted.reds[k])).collect::<Vec<_>>(), [(0, 304), (1, 258)]);
    for street in [&sample, &euclid, &in_seconds, &fitted] {
        assert_eq!((street.cycle, &street.outbound), (650, &street.inbound));
    }
    for street in [&euclid, &in_seconds, &fitted] {
        assert_eq!((&street.outbound[..], Times::of(street).not_whole), (&[15_240; 9][..], 0));
    }
}

#[test]
fn the_papers_links_became_the_sheets() {
    let (page, sample) = (Page::open("PAPER.md"), street("paper-sample.txt"));
    let (rows, signals, times) = (page.table(LINKS), page.table(SIGNALS), Times::of(&sample));
    assert_eq!((rows.len(), times.not_whole), (9, 9));
    for (k, (row, parts)) in rows.iter().zip(parts(&page)).enumerate() {
        assert_eq!(number(&row[0]), k as i128 + 1);
        assert_eq!(number(&row[1]), number(&signals[k + 1][1]) - number(&signals[k][1]));
        assert_eq!(nearest(number(&row[2]) * 44_704, 100), number(&row[3]));
        assert_eq!(i128::from(sample.outbound[k]), number(&row[3]));
        assert_eq!(decimal(parts, PARTS, 3), row[4]);
        assert_eq!(nearest(parts, PARTS), number(&row[5]));
        assert_eq!(i128::from(times.t(k, k + 1)), number(&row[5]));
        assert_eq!(gain(number(&row[5]) * PARTS - parts, PARTS), row[6]);
    }
}

#[test]
fn the_papers_volumes_became_platoons() {
    let (page, cycle) = (Page::open("PAPER.md"), street("paper-sample.txt").cycle);
    let rows = page.table("| Volume, veh/h | Cycles | Halves | Rounded up | Gained |");
    assert_eq!(rows.iter().map(|row| number(&row[0])).collect::<Vec<_>>(), [0, 200, 400, 600, 850]);
    for row in rows {
        let (over, under) = (number(&row[0]) * 2, 3_600);
        let (halves, platoon) = (over * 1_300, platoon(number(&row[0]) as i64, cycle, TWO_SECONDS));
        let gained = gain(i128::from(platoon) * under - halves, under);
        let shown = [decimal(over, under, 4), decimal(halves, under, 3), platoon.to_string(), gained];
        assert_eq!(row[1..], shown);
    }
}

#[test]
fn the_programs_answer_as_the_papers_page_says() {
    let rows = Page::open("PAPER.md").table(REPLIES);
    assert_eq!(rows.len(), 19);
    let case = |row: &Vec<String>| [row[1].as_bytes(), b"\n", &sheet(&row[0])].concat();
    let bytes = input(&rows.iter().map(case).collect::<Vec<_>>());
    let expected: String = rows.iter().map(|row| reply(row) + "\n").collect();
    assert_eq!(output(&bytes), expected, "the model");
    let answer = Program::cases().answer(&bytes).unwrap_or_else(|fault| panic!("{fault}"));
    assert_eq!(String::from_utf8_lossy(&answer), expected, "cases");
}

/// The sample's plans: for the volumes of a heading, inbound first, and what the wider band gained in parts of a half.
const COMBINATIONS: [(&str, Ask, i128); 3] = [
    ("400 400", Ask::Volumes(400, 400, TWO_SECONDS), 0),
    ("600 200", Ask::Volumes(200, 600, TWO_SECONDS), 2 * PARTS / 3),
    ("850 0", Ask::Volumes(0, 850, TWO_SECONDS), 0),
];

/// The paper's bands at exact times, inbound and outbound, in parts of 33 to a second.
const EXACT: [[i128; 2]; 3] = [[3 * 129, 3 * 129], [11 * 65, 6 * 129 - 11 * 65], [33 * 34, 0]];

/// The digits of a printed number, and how many of its last digit's units make one.
fn printed_number(cell: &str) -> (i128, i128) {
    (digits(cell), 10i128.pow((cell.len() - cell.find('.').expect("a point") - 1) as u32))
}

#[test]
fn the_papers_widths_stand_beside_ours() {
    let (page, sample) = (Page::open("PAPER.md"), street("paper-sample.txt"));
    let rows =
        page.table("| Inbound veh/h | Outbound veh/h | Paper: inbound | Ours | Paper: outbound | Ours |");
    assert_eq!(rows.len(), 3);
    for ((row, (volumes, ask, _)), exact) in rows.iter().zip(COMBINATIONS).zip(EXACT) {
        for (cell, width) in [&row[2], &row[4]].into_iter().zip(exact) {
            let (digits, unit) = printed_number(cell);
            assert!((33 * digits - width * unit).abs() < 33 * unit / 100_000, "{cell}");
        }
        let plan = asked(&sample, ask);
        assert_eq!(format!("{} {}", row[0], row[1]), volumes);
        assert_eq!((plan.reference, &row[3], &row[5]), (7, &seconds(plan.inbound), &seconds(plan.outbound)));
    }
}

#[test]
fn the_papers_largest_volumes_stand_beside_ours() {
    let (page, sample) = (Page::open("PAPER.md"), street("paper-sample.txt"));
    let through = "| Paper: inbound through | Ours | Paper: outbound through | Ours |";
    let rows = page.table(&format!("| Inbound veh/h | Outbound veh/h {through}"));
    assert_eq!(rows.len(), 3);
    for ((row, (volumes, ask, _)), exact) in rows.iter().zip(COMBINATIONS).zip(EXACT) {
        let [out, back] = fitting(&asked(&sample, ask), sample.cycle, TWO_SECONDS);
        assert_eq!(format!("{} {}", row[0], row[1]), volumes);
        for (k, (way, ours)) in [("inbound", back), ("outbound", out)].into_iter().enumerate() {
            let (cell, way) = (&row[2 + 2 * k], if row[2] == row[4] { "both ways" } else { way });
            let (digits, unit) = printed_number(cell);
            // V vehicles an hour come to 13V/18 halves; the paper's numbers are good to some seven digits.
            assert!((33 * 13 * digits - 20 * 18 * exact[k] * unit).abs() < 33 * 13 * unit / 5_000, "{cell}");
            assert_eq!(row[3 + 2 * k], ours.to_string());
            page.says(&format!("**{} {way}, ours {ours}.**", if digits == 0 { "0" } else { cell }));
        }
    }
}

/// The header of the offsets for two volumes, inbound first.
fn header(volumes: &str) -> String {
    let (inbound, outbound) = volumes.split_once(' ').expect("two volumes");
    let papers = format!("| Signal | Paper, {inbound} in, {outbound} out | In s |");
    papers + " Ours, halves | In s | Ours less paper's, s | Way from 7 gained, ticks |"
}

#[test]
fn two_causes_account_for_every_offset() {
    let (page, sample) = (Page::open("PAPER.md"), street("paper-sample.txt"));
    page.says("no offset is further off than 0.061 s");
    let (exact, times, equal) = (parts(&page), Times::of(&sample), asked(&sample, Ask::Equal));
    for (volumes, ask, wider) in &COMBINATIONS[1..] {
        let (rows, offsets) = (page.table(&header(volumes)), asked(&sample, *ask).offsets);
        assert_eq!(rows.len(), 10);
        for (j, row) in rows.iter().enumerate() {
            let (from, to) = (j.min(6), j.max(6));
            let way = exact[from..to].iter().sum::<i128>() * if j < 6 { -1 } else { 1 };
            let gained = i128::from(times.t(6, j)) * PARTS - way;
            // The paper's offset has eight decimals of a cycle of 65 s.
            let (papers, unit) = (digits(&row[1]) * 65, 100_000_000);
            let apart = i128::from(offsets[j]) * unit / 20 - papers;
            let shown =
                [decimal(papers, unit, 3), offsets[j].to_string(), seconds(offsets[j]), gain(apart, unit)];
            assert_eq!((number(&row[0]), &row[2..6]), (j as i128 + 1, &shown[..]));
            assert_eq!(row[6], gain(gained, PARTS));
            let lowered = offsets[j] != equal.offsets[j];
            let cause = if lowered { -wider - 2 * gained } else { 0 };
            assert_eq!(gain(cause, 20 * PARTS), row[5], "signal {} of {volumes}", j + 1);
            assert!(apart.abs() < 61 * unit / 1_000);
            // The digits that the paper prints are good to some hundred-thousandths of a second.
            assert!((apart * 20 * PARTS - cause * unit).abs() < 20 * PARTS * unit / 20_000);
        }
    }
}

#[test]
fn the_papers_streets_are_told_as_they_are() {
    let page = Page::open("PAPER.md");
    let own = |volumes: &str| -> Vec<i64> {
        let halves = |row: &Vec<String>| nearest(digits(&row[1]) * 1_300, 100_000_000) % 1_300;
        page.table(&header(volumes)).iter().map(|row| halves(row) as i64).collect()
    };
    let measured = measured(&own("600 200"), &own("850 0"));
    let told: Vec<String> = [
        conversions(),
        sample(&page),
        served(&page),
        measured,
        through(&page),
        euclid(),
        alone(&page),
        quarter(),
    ]
    .concat();
    assert!(told.len() >= 70, "{} sentences are held", told.len());
    told.iter().for_each(|sentence| page.says(sentence));
}

#[test]
fn no_two_signals_of_the_paper_are_a_quarter_cycle_apart() {
    let page = Page::open("PAPER.md");
    let euclid: Vec<i128> = page.table(LINKS).iter().map(|row| number(&row[1]) * PARTS / 5).collect();
    for links in [parts(&page), euclid] {
        for (from, to) in (0..9).flat_map(|from| (from + 1..10).map(move |to| (from, to))) {
            let way = links[from..to].iter().sum::<i128>() % (650 * PARTS);
            assert!(4 * way != 650 * PARTS && 4 * way != 3 * 650 * PARTS, "{from} and {to}");
        }
    }
}
