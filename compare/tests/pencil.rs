//! docs/RULES.md by hand: its tables, sentences and drawings of street A, of one platoon alone, of volumes and of whole
//! seconds, worked out anew from the sheets.

use compare::bands::{clear, measure};
use compare::decimal::{decimal, grouped, seconds};
use compare::equal::{Pairs, Plan};
use compare::exact::Fine;
use compare::moved::{papers_width, plan, platoon_rule, shortest_green, Ask, MAX_PLATOON};
use compare::named::named;
use compare::page::{sheet, street, Page};
use compare::paper::asked;
use compare::pencil::{drawing, green, named_sentence, passes, starts, switches, turned, widths, SQUARE, UP};
use compare::printed::printed;
use compare::seconds::{cabinets, green_starts, kept, Cabinets, SECOND};
use compare::street::{Street, Times, CYCLE};
use compare::volumes::{fitting, largest, platoon, HEADWAY, PER_HALF};

fn pencil() -> (Page, Street) {
    (Page::open("RULES.md"), street("street-a.txt"))
}

/// Holds the one table with this header to every cell.
fn hold(page: &Page, header: &str, rows: Vec<Vec<String>>) {
    assert_eq!(page.text.lines().filter(|&line| line == header).count(), 1, "{header}");
    assert_eq!(page.table(header), rows, "{header}");
}

fn texts<const N: usize>(numbers: [i64; N]) -> Vec<String> {
    numbers.map(|number| number.to_string()).to_vec()
}

/// A plan's reply, its lines one after the other.
fn reply(plan: &Plan, between: &str) -> String {
    printed(&Ok(plan.clone())).trim_end().replace('\n', between)
}

#[test]
fn the_example_is_worked_line_by_line() {
    let (page, street) = pencil();
    let (times, pairs, equal) = (Times::of(&street), Pairs::of(&street), asked(&street, Ask::Equal));
    let (t, back, b, offsets) = (times.t(0, 1), times.back(0, 1), pairs.leasts(), &equal.offsets);
    let widest = |i: usize, j: usize| pairs.chosen(i, j) - 2 * street.reds[j];
    let [gap, out, home] = [10 * street.distances[1], street.outbound[0], street.inbound[0]].map(grouped);
    let typed = String::from_utf8(sheet("street-a.txt")).expect("a plain sheet").replace('\n', " ");
    assert_eq!(([b[0], b[1]], pairs.chosen(0, 1)), ([equal.best; 2], pairs.u(0, 1, 0)));
    for sentence in [
        format!("\"street A\": {typed}C is {}, so H is {}.", street.cycle, street.halves()),
        format!("The reds are r(1) = {} and r(2) = {}.", street.reds[0], street.reds[1]),
        format!("The one link is {} mm long: outbound it takes", grouped(street.distances[1])),
        format!("it takes {gap} / {out} = {t} ticks, inbound {gap} / {home} = {}.", -back),
        format!("Both are whole, so m is {}. The signed times are", times.not_whole),
        format!("The signed times are t(1,2) = {t}, t'(1,2) = {back}, t(2,1) = {} and", times.t(1, 0)),
        format!("and t'(2,1) = {}.", times.back(1, 0)),
        format!("b(1) is the less of {} and {}, b(2)", widest(0, 0), widest(0, 1)),
        format!("b(2) the less of {} and {}: both are {}.", widest(1, 0), widest(1, 1), b[1]),
        format!("So B is {}, and of the two candidates", equal.best),
        format!("the reference is signal {}. Both phases are 0, and", equal.reference),
        format!("the offsets are man(0) = {} and man({t} - {} + 0) = {}.", offsets[0], -back, offsets[1]),
        format!("The program prints {} To see the bands:", reply(&equal, " ")),
    ] {
        page.says(&sentence);
    }
}

#[test]
fn the_pairs_of_the_example_come_out() {
    let (page, street) = pencil();
    let (pairs, times, cycle) = (Pairs::of(&street), Times::of(&street), street.cycle);
    let signed = |number: i64| format!("{} {}", if number < 0 { '-' } else { '+' }, number.abs());
    let mut rows = vec![];
    for (i, j, e) in
        [(0, 0), (0, 1), (1, 0), (1, 1)].into_iter().flat_map(|(i, j)| [(i, j, 0), (i, j, cycle)])
    {
        let (ri, rj, t, back) = (street.reds[i], street.reds[j], times.t(i, j), times.back(i, j));
        let lag = ri - rj + t - back - e;
        let sum = format!("{ri} - {rj} {} {} = {lag}", signed(t), signed(-back));
        let width = |e: i64| pairs.u(i, j, e) - 2 * rj;
        let bold = if width(e) > width(cycle - e) { "**" } else { "" };
        let mut row = texts([i as i64 + 1, j as i64 + 1, e]);
        row.push(if e == 0 && i != j { sum } else { lag.to_string() });
        row.extend(texts([lag.rem_euclid(street.halves()), pairs.u(i, j, e)]));
        row.push(format!("{bold}{}{bold}", width(e)));
        rows.push(row);
    }
    hold(&page, "| i | j | e | r(i) - r(j) + t(i,j) - t'(i,j) - e | man | u | width u - 2r(j) |", rows);
}

#[test]
fn the_example_shows_its_bands() {
    let (page, street) = pencil();
    let plan = asked(&street, Ask::Equal);
    let [out, back] = named(&street, &plan);
    let [a, b] = [0, 1].map(|j| passes(&street, &plan, &out, j));
    let [c, d] = [0, 1].map(|j| passes(&street, &plan, &back, j));
    let measured = measure(&street, &plan.offsets);
    assert_eq!((measured.0.start, measured.1.start), (a[0], d[0]));
    for sentence in [
        format!("signal 1 is red from {} on and green from {} to {};", a[3] - street.halves(), a[2], a[3]),
        format!("signal 2 is red from {} on and green from {} to {}.", b[3] - street.halves(), b[2], b[3]),
        format!(
            "starts at signal 1 at instant {} and is {} long, so it leaves from {} up to {}.",
            a[0], out.width, a[0], a[1]
        ),
        format!("{} halves later it is at signal 2, from {} up to {},", b[0] - a[0], b[0], b[1]),
        format!("ends at signal 1 at instant {} and passes there from {} up to {};", c[1], c[0], c[1]),
        format!("{} halves before, it passed signal 2 from {} up to {}, all green.", c[0] - d[0], d[0], d[1]),
    ] {
        page.says(&sentence);
    }
}

#[test]
fn red_and_green_start_by_the_formulas() {
    for name in ["street-a.txt", "ten-signals.txt", "paper-sample.txt"] {
        let street = street(name);
        let (h, offsets) = (street.halves(), asked(&street, Ask::Equal).offsets);
        for (j, (f, r)) in offsets.iter().zip(&street.reds).enumerate() {
            assert!(f - r > -h && f + r < 2 * h);
            assert_eq!(starts(&street, &offsets, j), [f - r, f + r].map(|at| at.rem_euclid(h)), "{name}");
            let lasts = (0..h).filter(|&at| green(&street, &offsets, j, at)).count() as i64;
            assert_eq!([lasts, lasts], [h - 2 * r, 2 * (street.cycle - r)], "{name}");
        }
    }
    for sentence in [
        "A red of r ticks is 2r halves long, and half of it is r halves:",
        "So, counted from instant 0 and round the cycle of H halves or C/10 s, - red starts",
        "- red starts at man(f - r) halves, in seconds (f - r)/20; - green starts",
        "- green starts at man(f + r) halves, in seconds (f + r)/20; - the green lasts",
        "- the green lasts H - 2r halves, in seconds (C - r)/10. One step",
        "f - r lies above -H and f + r below 2H: add H halves, C/10 s, where the number is negative,",
        "and take the same off where it is H halves, C/10 s, or more.",
        "**Instant 0 on the street.** The instant 0 of a plan may be laid on any instant on which",
        "all controllers agree, and it comes again every C/10 s.",
        "Past an instant 0 that it keeps, a controller that counts tenths",
        "The two ends of a red lie 2r halves apart, so both are even or both are odd.",
    ] {
        pencil().0.says(sentence);
    }
}

#[test]
fn an_offset_says_when_red_and_green_start() {
    let (page, street) = pencil();
    let offsets = asked(&street, Ask::Equal).offsets;
    let row = |j: usize| {
        let lasts = (0..street.halves()).filter(|&at| green(&street, &offsets, j, at)).count() as i64;
        let mut row = texts([j as i64 + 1, offsets[j], street.reds[j]]);
        row.extend(switches(&street, &offsets, j));
        row.push(seconds(lasts));
        row
    };
    let header =
        "| Signal | f | r | Red starts, halves | In s | Green starts, halves | In s | Green lasts, s |";
    hold(&page, header, vec![row(0), row(1)]);
    let [[red, first], [other, second]] = [0, 1].map(|j| starts(&street, &offsets, j));
    assert_eq!((red, (second - first) % 20), (other, 0));
    page.says(&format!("with its cycle of {} halves or {} s:", street.halves(), street.cycle / 10));
    page.says(&format!("Both reds start {} s past instant 0,", seconds(red)));
    page.says(&format!("signal 2's green starts {} s after signal 1's.", (second - first) / 20));
}

#[test]
fn a_turned_plan_comes_later_and_keeps_its_widths() {
    for (name, step) in [("street-a.txt", 1), ("ten-signals.txt", 97)] {
        let street = street(name);
        let offsets = asked(&street, Ask::Equal).offsets;
        for by in (0..street.halves()).step_by(step) {
            let later = turned(&street, &offsets, by);
            assert_eq!(widths(&street, &later), widths(&street, &offsets), "{name}, turned by {by}");
            for j in 0..street.signals() {
                let moved = starts(&street, &offsets, j).map(|at| (at + by) % street.halves());
                assert_eq!(starts(&street, &later, j), moved, "{name}, turned by {by}");
            }
        }
    }
    let (page, street) = pencil();
    let by = 160;
    let later = turned(&street, &asked(&street, Ask::Equal).offsets, by);
    let [first, second] = [0, 1].map(|j| switches(&street, &later, j)[2].clone());
    let apart = starts(&street, &later, 1)[1] - starts(&street, &later, 0)[1];
    let [out, back] = widths(&street, &later);
    assert_eq!((out, apart % 20), (back, 0));
    page.says(&format!("With {by} added, street A's offsets are {} and {}:", later[0], later[1]));
    page.says(&format!(
        "signal 1's green starts at {first}, signal 2's at {second}, again {} s later,",
        apart / 20
    ));
    page.says(&format!("and both bands are still {out} wide."));
}

#[test]
fn a_plan_that_is_rounded_once_more_has_other_widths() {
    let (page, street) = pencil();
    let Plan { outbound, inbound, offsets, .. } = asked(&street, Ask::Outbound(61));
    let (at, [_, _, start, in_s], red) =
        (starts(&street, &offsets, 0)[1], switches(&street, &offsets, 0), street.reds[0]);
    let kept = |rounded: i64| {
        let offset = (rounded - red).rem_euclid(street.halves());
        let offsets = [offset, offsets[1]];
        assert_eq!((rounded % 2, starts(&street, &offsets, 0)[1]), (0, rounded));
        let [out, back] = widths(&street, &offsets);
        assert_ne!([out, back], [outbound, inbound]);
        let becomes = format!("the offset becomes man({rounded} - {red}) = {offset},");
        (seconds(rounded), becomes, format!("{out} and {back}"))
    };
    let ((early, sooner, wide), (late, later, narrow)) = (kept(at - 1), kept(at + 1));
    for sentence in [
        format!("`outbound 61` gives street A the offsets {} and {} and", offsets[0], offsets[1]),
        format!("and the widths {outbound} and {inbound}, and signal 1's green starts at {start},"),
        format!("green starts at {start}, that is at {in_s} s."),
        format!("Where the controller takes {early} s for it, {sooner} and the bands are {wide} wide;"),
        format!("where it takes {late} s, {later} and they are {narrow}."),
        format!("one that counts whole seconds only multiples of {}.", street.halves() * 10 / street.cycle),
    ] {
        page.says(&sentence);
    }
}

/// The plan of a street in whole seconds, where its greens start, and the offsets that the cabinets keep.
fn in_seconds(street: &Street, ask: Ask) -> (Cabinets, Vec<i64>, Vec<i64>) {
    let found = cabinets(street, ask, street.signals()).expect("a plan");
    let (greens, offsets) = (green_starts(street, &found.plan.offsets), kept(street, &found.seconds));
    (found, greens, offsets)
}

#[test]
fn street_a_in_whole_seconds_comes_out() {
    let (page, street) = pencil();
    let (equal, greens, offsets) = in_seconds(&street, Ask::Equal);
    let (moved, later, same) = in_seconds(&street, Ask::Outbound(61));
    let wide = widths(&street, &same);
    assert_eq!((&offsets, &equal.seconds, &offsets), (&equal.plan.offsets, &moved.seconds, &same));
    for sentence in [
        format!("The greens start at {} and {} halves, both multiples of {SECOND},", greens[0], greens[1]),
        format!("so the cabinets get {} and {} and nothing is lost:", equal.seconds[0], equal.seconds[1]),
        format!("man({} - {}) = {} and", greens[0], street.reds[0], offsets[0]),
        format!("and man({} - {}) = {} are the plan's own offsets.", greens[1], street.reds[1], offsets[1]),
        format!("`outbound 61` starts them at {} and {}.", later[0], later[1]),
        format!("{} is nearest to {},", later[0], SECOND * moved.seconds[0]),
        format!("they keep {} and {}, and the bands are {} and {} wide,", same[0], same[1], wide[0], wide[1]),
        format!("where {} and {} are reported.", moved.plan.outbound, moved.plan.inbound),
    ] {
        page.says(&sentence);
    }
}

#[test]
fn whole_seconds_cost_a_street_all_that_they_may() {
    let (page, reds) = (Page::open("RULES.md"), [9, 10]);
    let street = Street {
        cycle: 30,
        reds: reds.to_vec(),
        distances: vec![0, 2_850],
        outbound: vec![1_000],
        inbound: vec![1_000],
    };
    let exchanged = Street { reds: vec![reds[1], reds[0]], ..street.clone() };
    let (found, greens, offsets) = in_seconds(&street, Ask::Equal);
    let Plan { reference, best, not_whole, .. } = found.plan;
    let exact = |street: &Street, offsets: &[i64]| {
        let fine = Fine::of(street).expect("a coarse unit");
        fine.widths(&fine.in_units(offsets)).map(|width| width / fine.unit)
    };
    let (left, thin) = (widths(&street, &offsets)[0], exact(&street, &offsets)[0]);
    let other = in_seconds(&exchanged, Ask::Equal).2;
    assert_eq!((widths(&exchanged, &other)[1], exact(&exchanged, &other)[1]), (left, thin));
    assert_eq!((left, thin, &found.plan.offsets), (best - 19, (best - 20).into(), &vec![0, 0]));
    for sentence in [
        format!(
            "Take C = {}, reds of {} and {}, a link of 2,850 mm and 1,000 mm/s",
            street.cycle, reds[0], reds[1]
        ),
        format!("B is {best}, the reference is signal {reference}, both offsets are 0 and m is {not_whole}."),
        format!("The greens start at {} and {} halves and become", greens[0], greens[1]),
        format!("become {} and {}, seconds", SECOND * found.seconds[0], SECOND * found.seconds[1]),
        format!("seconds {} and {}. Of the {best} halves", found.seconds[0], found.seconds[1]),
        format!("outbound {left} are left at rounded times and {thin} at exact ones."),
    ] {
        page.says(&sentence);
    }
}

/// The number under which the examples' page has a request on street A.
fn example(ask: Ask) -> String {
    let rows = Page::open("EXAMPLES.md").table("| Row | Sheet | Asked | Reply |");
    let row = rows.iter().find(|row| row[1] == "street-a.txt" && row[2] == ask.to_string());
    row.expect("an example of street A")[0].clone()
}

/// Holds a moved plan's table, given the lowering, from u and the red, as the page shows it and as a number.
fn lowered(page: &Page, ask: Ask, formula: &str, lowering: impl Fn(i64, i64) -> (String, i64)) -> Plan {
    let street = street("street-a.txt");
    let (pairs, equal, moved) = (Pairs::of(&street), asked(&street, Ask::Equal), asked(&street, ask));
    let row = |j: usize| {
        let (u, before, after) = (pairs.chosen(pairs.reference().0, j), equal.offsets[j], moved.offsets[j]);
        let (sum, result) = lowering(u, street.reds[j]);
        let by = result.max(0);
        assert_eq!((before - by).rem_euclid(street.halves()), after);
        let mut row = texts([j as i64 + 1, u]);
        row.extend([format!("{sum} = {result}"), by.to_string(), format!("man({before} - {by}) = {after}")]);
        row.extend(switches(&street, &moved.offsets, j));
        row
    };
    let more = "Lowered by | Offset | Red starts, halves | In s | Green starts, halves | In s |";
    hold(page, &format!("| j | u(j) | {formula} | {more}"), vec![row(0), row(1)]);
    moved
}

#[test]
fn the_moved_plan_is_worked_line_by_line() {
    let (page, street) = pencil();
    let (h, w, pairs, equal) = (street.halves(), 80, Pairs::of(&street), asked(&street, Ask::Equal));
    let (b, g, [r1, r2]) = (equal.best, shortest_green(&street), [street.reds[0], street.reds[1]]);
    let served = [b - 1, b, g, g + 1].map(|width| plan(&street, Ask::Outbound(width), 2).is_ok());
    assert_eq!(served, [false, true, true, false]);
    let [u1, u2] = [0, 1].map(|j| pairs.u(0, j, 0));
    assert_eq!([u1, u2], [0, 1].map(|j| pairs.chosen(0, j)));
    let moved = lowered(&page, Ask::Outbound(w), "u(j) - H + w - B", |u, _| {
        (format!("{u} - {h} + {w} - {b}"), u - h + w - b)
    });
    assert_eq!((moved.outbound, moved.inbound), (w, 2 * b - w));
    let (before, after) = (&equal.offsets, &moved.offsets);
    let at_start = "stands in the example's table at i = 1, j = 1, e = 0,";
    for sentence in [
        format!("Row {} of [EXAMPLES.md]", example(Ask::Outbound(w))),
        format!("asks street A for `outbound {w}`, so w is {w}."),
        format!(
            "H = {h}, c = {}, B = {b}, and the offsets {} and {}.",
            equal.reference, before[0], before[1]
        ),
        format!("g is the less of {h} - 2 * {r1} = {} and {h} - 2 * {r2} = {},", h - 2 * r1, h - 2 * r2),
        format!(
            "so g = {g}. A request may be from {}, the larger of 1 and B, up to {g}, and {w} is.",
            b.max(1)
        ),
        format!("The reference is signal {} and both phases are 0, so u(1)", equal.reference),
        "**Each lowering** is u(j) - H + w - B, or nothing where that is negative.".to_string(),
        format!("so u(1) = {u1} {at_start} and u(2) = {u2} at i = 1, j = 2, e = 0."),
        format!("Outbound is favoured and reports w = {w}; inbound reports 2B - w = {} - {w} =", 2 * b),
        format!("- {w} = {}. c, B and m stay, and the reply is {} **", moved.inbound, reply(&moved, " ")),
        format!("so there f is {}, and r is {r1}. {}", after[0], named_sentence(&street, &moved)),
    ] {
        page.says(&sentence);
    }
}

#[test]
fn the_moved_plan_gains_at_one_end_what_it_loses_at_the_other() {
    let (page, street) = pencil();
    let [equal, moved] = [Ask::Equal, Ask::Outbound(80)].map(|ask| asked(&street, ask));
    let earlier = (equal.offsets[0] - moved.offsets[0]).rem_euclid(street.halves());
    let ends = |plan: &Plan| named(&street, plan).map(|band| [band.start, band.start + band.width]);
    let (before, after) = (ends(&equal), ends(&moved));
    let lowered =
        [0, 1].map(|k| [0, 1].map(|end| (before[k][end] - after[k][end]).rem_euclid(street.halves())));
    assert_eq!((lowered, earlier % 20), ([[earlier, 0], [0, earlier]], 0));
    page.says(&format!(
        "Signal 1's red now comes {earlier} halves, {} s, earlier: the outbound",
        earlier / 20
    ));
}

#[test]
fn the_other_direction_and_the_platoons_come_out() {
    let (page, street) = pencil();
    let (w, b, g) = (80, asked(&street, Ask::Equal).best, shortest_green(&street));
    let moved = lowered(&page, Ask::Inbound(w), "w + 2r(j) - u(j)", |u, r| {
        (format!("{w} + {} - {u}", 2 * r), w + 2 * r - u)
    });
    assert_eq!((moved.outbound, moved.inbound), (2 * b - w, w));
    let (long, short) = (30, 10);
    let (sum, width) = (long + short, 2 * b * long / (long + short));
    assert!(sum <= 2 * b && width <= g && platoon_rule(long, short, b, g) == Ask::Outbound(width));
    let platoons = asked(&street, Ask::Platoons(long, short));
    assert_eq!(platoons, asked(&street, Ask::Outbound(width)));
    let [inbound, platoons] = [&moved, &platoons].map(|plan| format!("`{}`", reply(plan, "`, `")));
    for sentence in [
        format!("Row {}, `inbound {w}`, has the same range", example(Ask::Inbound(w))),
        "Each lowering is now w + 2r(j) - u(j):".to_string(),
        format!("Inbound reports {w} and outbound {} - {w} = {}, so", 2 * b, moved.outbound),
        format!("so the reply is {inbound}. {}", named_sentence(&street, &moved)),
        format!(
            "Row {}, `platoons {long} {short}`: L is {long}, outbound,",
            example(Ask::Platoons(long, short))
        ),
        format!("and T = {long} + {short} = {sum} is at most 2B = {}. So outbound gets", 2 * b),
        format!("So outbound gets {} * {long} / {sum} = {width}, which is at most g,", 2 * b),
        format!("and the plan is that of `outbound {width}`: the reply is {platoons}."),
    ] {
        page.says(&sentence);
    }
}

#[test]
fn a_platoon_that_is_alone_comes_out() {
    let (page, name) = (Page::open("RULES.md"), "row-school-one-platoon.txt");
    let (street, long, short) = (street(name), 50, 0);
    let (h, b, g) = (street.halves(), asked(&street, Ask::Equal).best, shortest_green(&street));
    let (r, sum, found) = (street.reds[0], long + short, 2 * b * long / (long + short));
    assert_eq!((street.reds[1], found, platoon_rule(long, short, b, g)), (r, 2 * b, Ask::Outbound(g)));
    let plan = asked(&street, Ask::Platoons(long, short));
    assert_eq!(plan, asked(&street, Ask::Outbound(g)));
    for sentence in [
        format!("`{name}`: H = {h}, both reds are {r}, and B = {b}. So g = {h} - 2 * {r} = {g}."),
        format!("For `platoons {long} {short}` L is {long}, outbound, and T = {long} + {short} = {sum} is"),
        format!("is at most 2B = {}. The width found is {} * {long} / {sum} = {found},", 2 * b, 2 * b),
        format!("which leaves inbound {} - {found} = {}. So outbound gets g,", 2 * b, 2 * b - found),
        format!("the plan is that of `outbound {g}`: the reply is `{}`.", reply(&plan, "`, `")),
    ] {
        page.says(&sentence);
    }
    let examples = Page::open("EXAMPLES.md");
    examples
        .says(&format!("It would have all of 2B = {} and leave the other way 0, so it gets g = {g};", 2 * b));
    examples.says(&format!("the paper prints it stops at {}.", papers_width(long, sum, b, g)));
}

#[test]
fn volumes_come_to_platoons_and_widths_to_volumes() {
    let (page, street) = pencil();
    let (cycle, [out, back, h]) = (street.cycle, [800, 300, 20]);
    let (twice, g) = (2 * asked(&street, Ask::Equal).best, shortest_green(&street));
    let plan = asked(&street, Ask::Volumes(out, back, h));
    let ([p, q], [x, y]) = ([out, back].map(|volume| platoon(volume, cycle, h)), fitting(&plan, cycle, h));
    assert!(p + q > twice && q < p && p <= g && plan == asked(&street, Ask::Outbound(p)));
    assert!(out <= x && back > y && platoon(x, cycle, h) == p);
    let [product, per_half] = [cycle * h, PER_HALF].map(grouped);
    let exact = |volume: i64| decimal((volume * cycle * h).into(), PER_HALF.into(), 1);
    let too_many = largest(MAX_PLATOON, CYCLE.1, HEADWAY.1) + 1;
    let [longest, too_many] = [CYCLE.1, too_many].map(grouped);
    for sentence in [
        format!("`volumes {out} {back} {h}`, asks street A for {out} vehicles an hour out and {back} in,"),
        format!(
            "C * h is {cycle} * {h} = {product}, so the platoons are {out} * {product} / {per_half} = {}",
            exact(out)
        ),
        format!("and {back} * {product} / {per_half} = {} halves, rounded up {p} and {q}.", exact(back)),
        format!("T = {p} + {q} = {} is above 2B = {twice}, so outbound gets L = {p},", p + q),
        format!("and inbound keeps {twice} - {p} = {}. The plan is that of `outbound {p}`.", plan.inbound),
        format!("Into {p} halves go {per_half} * {p} / {product} = {x} vehicles an hour,"),
        format!("whose platoon is {x} * {product} / {per_half} = {p} and fits; that of {}", x + 1),
        format!("that of {} is {}, rounded up {},", x + 1, exact(x + 1), platoon(x + 1, cycle, h)),
        format!("Into {} go {per_half} * {} / {product} = {y}.", plan.inbound, plan.inbound),
        format!("The reply is `{}`, and then `{x} {y}`:", reply(&plan, "`, `")),
        format!("on the longest cycle, {longest} ticks, at the longest headway, {} ticks,", HEADWAY.1),
        format!("{} ticks, from {too_many} vehicles an hour on.", HEADWAY.1),
    ] {
        page.says(&sentence);
    }
}

#[test]
fn a_band_is_followed_from_signal_to_signal() {
    let (page, street) = pencil();
    let mut rows = vec![];
    for ask in [Ask::Equal, Ask::Outbound(80), Ask::Inbound(80)] {
        let plan = asked(&street, ask);
        let [out, back] = named(&street, &plan);
        for (name, band, order) in [("outbound", out, [0, 1]), ("inbound", back, [1, 0])] {
            let is_clear = |at: i64| clear(&street, &plan.offsets, &band.lags, at);
            let (start, end) = (band.start, band.start + band.width);
            assert!((start..end).all(is_clear), "the {name} band of {ask} meets a red");
            assert!(!is_clear(start - 1) && !is_clear(end), "the {name} band of {ask} could be longer");
            let mut touches = [0, 0];
            for j in order {
                let [from, to, green, red] = passes(&street, &plan, &band, j);
                let left = [from - green, red - to];
                assert!(left[0] >= 0 && left[1] >= 0, "the {name} band of {ask} leaves the green");
                touches = [0, 1].map(|end| touches[end] + i64::from(left[end] == 0));
                let mut row = vec![ask.to_string(), name.to_string()];
                row.extend(texts([j as i64 + 1, from, to]));
                row.push(format!("{} to {}", seconds(from), seconds(to)));
                row.extend(texts([green, red, left[0], left[1]]));
                rows.push(row);
            }
            assert_eq!(touches, [1, 1], "the {name} band of {ask} has a red at either end");
        }
    }
    let header = "| Plan | Band | Signal | From | To | In s | Green from | To | Green before | Green after |";
    hold(&page, header, rows);
    page.says("the equal plan and of the two moved plans with w = 80,");
    page.says("A 0 in one of these columns is where the band touches a red, and it may.");
    page.says("Each of these bands has a 0 before it at one signal and a 0 after it at another,");
}

#[test]
fn a_band_over_the_end_of_the_cycle_is_written_with_h_more() {
    let (page, street) = pencil();
    let (by, h, equal) = (60, street.halves(), asked(&street, Ask::Equal));
    let later = Plan { offsets: turned(&street, &equal.offsets, by), ..equal };
    let [from, to, green, red] = passes(&street, &later, &named(&street, &later)[0], 1);
    assert!(from >= green && to == red && to > h);
    page.says(&format!("turned by {by}, the outbound band is at signal 2 from {from} to {to} and"));
    page.says(&format!(
        "that green lasts from {green} to {red}, where {to} is instant {} of the next",
        to - h
    ));
}

#[test]
fn the_drawings_show_the_bands() {
    let (page, street) = pencil();
    let (times, plan) = (Times::of(&street), asked(&street, Ask::Outbound(80)));
    let (t, back) = (times.t(0, 1), -times.back(0, 1));
    let [up, down] = [2 * t, 2 * back].map(|way| format!("{way} / {SQUARE} = {} squares to", way / SQUARE));
    assert!(2 * t % SQUARE == 0 && 2 * back % SQUARE == 0 && street.halves() % SQUARE == 0);
    for sentence in [
        "Outbound it is at signal j 2t(c,j) halves later than at c, and inbound 2t'(c,j) halves later;"
            .to_string(),
        format!("On street A c is signal {}. Outbound the band", plan.reference),
        format!("comes to signal 2 after signal 1, 2 * {t} = {} halves later.", 2 * t),
        format!("comes to signal 2 first, 2 * {back} = {} halves before it is at signal 1.", 2 * back),
        format!(
            "a square be {SQUARE} halves wide, so that the cycle is {} squares;",
            street.halves() / SQUARE
        ),
        format!("a level line for each signal, here {UP} squares apart,"),
        format!("{up} the right on the way up for outbound, {down} the right on the way down for inbound."),
        "`outbound 80` looks like this: outbound 0".to_string(),
    ] {
        page.says(&sentence);
    }
    let [out, back] = named(&street, &plan);
    let both =
        [(out, "outbound"), (back, "inbound")].map(|(band, name)| drawing(&street, &plan, &band, name));
    let both = both.join("\n");
    assert!(page.text.contains(&format!(":\n\n{both}\n")), "the page should draw\n{both}");
}
