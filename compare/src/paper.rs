//! What `docs/PAPER.md` tells of the paper's streets: its sentences, with their numbers worked out from the sheets.

use crate::bands::measure;
use crate::cases;
use crate::decimal::{decimal, grouped, nearest, number, seconds};
use crate::equal::{Pairs, Plan};
use crate::exact::Fine;
use crate::moved::{papers_width, plan, shortest_green, Ask};
use crate::page::{street, Page};
use crate::street::{Street, Times, MAX_SIGNALS};
use crate::volumes::{fitting, platoon, PER_HALF};

pub const SIGNALS: &str = "| Signal | Feet | mm | Sample red, s | Ticks | Euclid red, cycles | Ticks |";
pub const LINKS: &str = "| Link | Feet | mph | mm/s | Time, ticks | Rounded | Gained |";
pub const REPLIES: &str = "| Sheet | Request | Reply | Offsets | Largest |";

/// The paper's headway, 2 s, in ticks.
pub const TWO_SECONDS: i64 = 20;

/// How many parts make a tick: a link by feet and mph takes feet * 150 / (22 * mph) ticks, and each mph divides 600.
pub const PARTS: i128 = 22 * 600;

/// The exact times of the sample's links in parts of a tick.
pub fn parts(page: &Page) -> Vec<i128> {
    page.table(LINKS).iter().map(|row| 150 * number(&row[1]) * (600 / number(&row[2]))).collect()
}

pub fn asked(street: &Street, ask: Ask) -> Plan {
    plan(street, ask, MAX_SIGNALS).expect("a plan of the page")
}

/// What a row of the replies has: the first line, the offsets one a line, and the largest volumes where there are some.
pub fn reply(row: &[String]) -> String {
    let offsets = row[3].split_whitespace();
    let largest = Some(row[4].as_str()).filter(|cell| !cell.is_empty());
    let lines = [row[2].as_str()].into_iter().chain(offsets).chain(largest);
    lines.map(|line| format!("{line}\n")).collect()
}

fn listed(offsets: &[i64]) -> String {
    offsets.iter().map(i64::to_string).collect::<Vec<_>>().join(" ")
}

pub fn conversions() -> Vec<String> {
    let mm_s = |mph: i128| grouped(nearest(mph * 44_704, 100));
    let exact = |mph: i128| format!("{}.{}", grouped(mph * 44_704 / 100), mph * 44_704 % 100 / 10);
    let cycle = street("paper-sample.txt").cycle;
    vec![
        format!("**Feet to mm**: times {}. Every", decimal(3_048, 10, 1)),
        format!("**mph to mm/s**: times {}. 50 mph", decimal(44_704, 100, 2)),
        format!("**Feet a second to mm/s**: times {}. 50 feet", decimal(3_048, 10, 1)),
        format!("50 feet, {} mm, so nothing is rounded", grouped(50 * 3_048 / 10)),
        format!("50 mph are exactly {} mm/s; 30 mph are {}, rounded to {};", mm_s(50), exact(30), mm_s(30)),
        format!("40 mph are {}, rounded to {}.", exact(40), mm_s(40)),
        format!("50 feet a second are exactly {} mm/s.", grouped(50 * 3_048 / 10)),
        format!("The cycle of 65 s is {cycle} ticks, so H is {} halves.", grouped(2 * cycle)),
        format!("0.47 is {}, rounded to {}.", decimal(47 * 650, 100, 1), nearest(47 * 650, 100)),
        format!("two, 0.10 and 0.30 cycles, are {} and {} halves.", 2 * cycle / 10, 3 * 2 * cycle / 10),
        format!("with the headway of 2 s as {TWO_SECONDS} ticks."),
        format!("`volumes` has V * {cycle} * {TWO_SECONDS} / {} halves,", grouped(PER_HALF)),
        format!("A quarter of {cycle} ticks is {},", decimal(cycle.into(), 4, 1)),
    ]
}

/// How many parts of a tick the way from signal 2 to signal 7 lost when each of its links was rounded.
fn way_lost(page: &Page, street: &Street) -> i128 {
    parts(page)[1..6].iter().sum::<i128>() - PARTS * i128::from(Times::of(street).t(1, 6))
}

pub fn sample(page: &Page) -> Vec<String> {
    let street = street("paper-sample.txt");
    let (pairs, plan, exact) = (Pairs::of(&street), asked(&street, Ask::Equal), parts(page));
    let limit = pairs.chosen(6, 1) - 2 * street.reds[1];
    assert_eq!(pairs.reference(), (6, limit), "signal 2 limits the band of 7");
    let half: Vec<usize> = (1..=10).filter(|&k| plan.offsets[k - 1] == street.cycle).collect();
    assert!(half == [1, 2, 4, 5, 6] && plan.offsets.iter().filter(|&&offset| offset == 0).count() == 5);
    let (way, rounded) = (exact[1..6].iter().sum::<i128>(), Times::of(&street).t(1, 6));
    let lost = way_lost(page, &street);
    let [once, twice, in_s] =
        [(1, 1), (2, 1), (2, 20)].map(|(by, under)| decimal(by * lost, under * PARTS, 3));
    let fine = Fine::of(&street).expect("a unit");
    let [out, back] =
        fine.widths(&fine.in_units(&plan.offsets)).map(|width| decimal(width, 20 * fine.unit, 3));
    assert_eq!(out, back);
    vec![
        format!("half a cycle, {} halves, at signals 1, 2, 4, 5 and 6, and 0 at the others", street.cycle),
        "Signal 7 is the reference and signal 2 limits its band.".to_string(),
        format!("take {} ticks by feet and mph and {rounded} when", decimal(way, PARTS, 3)),
        format!("the band is 2 * {once} = {twice} halves or {in_s} s shorter: 11.727 becomes 11.70."),
        format!("both bands of this plan are {out} s wide"),
    ]
}

/// The plans for the sample's volumes, and what becomes of a platoon that is rounded up.
pub fn served(page: &Page) -> Vec<String> {
    let street = street("paper-sample.txt");
    let (twice_b, g) = (2 * asked(&street, Ask::Equal).best, shortest_green(&street));
    let alone = asked(&street, Ask::Volumes(0, 850, TWO_SECONDS));
    assert_eq!(measure(&street, &alone.offsets).0.width, alone.outbound);
    let [p, q, one] = [600, 200, 850].map(|volume| platoon(volume, street.cycle, TWO_SECONDS));
    // In thirds of a half, 600 vehicles an hour come to 1,300: two less than the platoon has.
    assert_eq!((600 * street.cycle * TWO_SECONDS * 3 / PER_HALF, 3 * p - 1_300), (1_300, 2));
    let lost = 2 * way_lost(page, &street);
    let papers = decimal(i128::from(twice_b - p) * PARTS + 2 * lost + 2 * PARTS / 3, PARTS, 3);
    let lost = decimal(lost, PARTS, 3);
    let mut told = vec![
        format!("{p} and {q} halves are together {}, more than 2B = {twice_b}", p + q),
        format!("{p} halves or {} s, where the paper has two thirds of a half less.", seconds(p)),
        format!("2B - {p} = {}, where the paper has {papers}: twice the {lost} that B lost", twice_b - p),
        format!("to rounded times, and the {} that the platoon gained.", decimal(2, 3, 3)),
        format!("The platoon of {one} halves is more than 2B"),
        format!("Our outbound width of {} is also the measured one.", alone.outbound),
        format!("g = 1300 - 2 * 310 = {g} halves, {} s", g / 20),
        format!("./ask volumes 200 600 {TWO_SECONDS} sheets/paper-sample.txt"),
        format!("{} s earlier, the two thirds of a half that the platoon gained.", decimal(2, 60, 4)),
    ];
    for (out, back) in [(400, 400), (200, 600), (0, 850)] {
        let ask = Ask::Volumes(out, back, TWO_SECONDS);
        told.push(format!("| `paper-sample.txt` | `{ask}` |"));
        told.push(format!("| `paper-sample.txt` | `measure {}` |", listed(&asked(&street, ask).offsets)));
    }
    told
}

/// One platoon alone, and that no other request of the page gets another width than the paper's rule has for it.
pub fn alone(page: &Page) -> Vec<String> {
    let sample = street("paper-sample.txt");
    let ask = Ask::Volumes(0, 600, TWO_SECONDS);
    let (plan, g) = (asked(&sample, ask), shortest_green(&sample));
    let alone = platoon(600, sample.cycle, TWO_SECONDS);
    let papers = papers_width(alone, alone, plan.best, g);
    for row in page.table(REPLIES) {
        let street = street(&row[0]);
        if let Some((out, back)) = platoons(&street, &row[1]).filter(|(out, back)| out != back) {
            let plan = asked(&street, Ask::Platoons(out, back));
            let given = if out > back { plan.outbound } else { plan.inbound };
            let papers = papers_width(out.max(back), out + back, plan.best, shortest_green(&street));
            assert_eq!(given != papers, (out, back) == (0, alone), "{row:?}");
            assert_eq!(given.min(2 * plan.best) == 2 * plan.best, out == 0, "{row:?}");
        }
    }
    vec![
        format!("The platoon of {alone} halves is within 2B = {}. By the", 2 * plan.best),
        format!("the inbound band would be {papers} halves, {} s;", seconds(papers)),
        format!("ours is {}, {} s, as with 850.", plan.inbound, seconds(plan.inbound)),
        format!("| `paper-sample.txt` | `{ask}` |"),
    ]
}

/// The platoons that a request asks for, as they are or by their volumes.
fn platoons(street: &Street, request: &str) -> Option<(i64, i64)> {
    let halves = |volume: i64, headway: i64| platoon(volume, street.cycle, headway);
    match cases::ask(&request.split(' ').collect::<Vec<&str>>())?.0 {
        Ask::Platoons(out, back) => Some((out, back)),
        Ask::Volumes(out, back, headway) => Some((halves(out, headway), halves(back, headway))),
        _ => None,
    }
}

/// What the paper's own offsets, in whole halves, are worth on the sheet beside ours.
pub fn measured(moved: &[i64], alone: &[i64]) -> Vec<String> {
    let street = street("paper-sample.txt");
    let ((out, back), (_, one_way)) = (measure(&street, moved), measure(&street, alone));
    let [ours, one_sided] =
        [(200, 600), (0, 850)].map(|(out, back)| asked(&street, Ask::Volumes(out, back, TWO_SECONDS)));
    assert_eq!((out.width - ours.outbound, ours.inbound - back.width), (1, 1));
    vec![
        format!("`measure {}`", listed(moved)),
        format!("`measure {}`", listed(alone)),
        format!("Those of 600 and 200 have bands of {} and {} halves, one half more", out.width, back.width),
        format!("Those of 850 have {} inbound, where ours have {}:", one_way.width, one_sided.inbound),
    ]
}

/// What our bands take beside the volumes that the paper prints, and what is lost between them.
pub fn through(page: &Page) -> Vec<String> {
    let street = street("paper-sample.txt");
    let product = street.cycle * TWO_SECONDS;
    let plans = [(400, 400), (200, 600), (0, 850)]
        .map(|(out, back)| asked(&street, Ask::Volumes(out, back, TWO_SECONDS)));
    let largest = plans.clone().map(|plan| fitting(&plan, street.cycle, TWO_SECONDS));
    let ([equal, moved, alone], [[all, _], [few, same], [none, most]]) = (plans, largest);
    assert!(all < 400 && few < 200 && none == 0 && all * product == PER_HALF * equal.inbound);
    // What so many parts of a half take, and what a whole band would.
    let take =
        |parts: i128, places: u32| decimal(parts * i128::from(PER_HALF), PARTS * i128::from(product), places);
    let [wide, narrow, widest] =
        [moved.inbound, moved.outbound, alone.inbound].map(|width| take(i128::from(width) * PARTS, 2));
    let lost = 2 * way_lost(page, &street);
    let longer = 2 * lost + 2 * PARTS / 3;
    let exact = decimal(((same + 1) * product).into(), PER_HALF.into(), 2);
    vec![
        format!("/ ({} * {TWO_SECONDS}) = {} vehicles an hour.", street.cycle, take(PARTS, 4)),
        format!("Our band of {} halves takes just {all}: its platoon is {all} *", equal.inbound),
        format!("The {} halves that the band lost to rounded times", decimal(lost, PARTS, 3)),
        format!("would take the other {}.", take(lost, 3)),
        format!("Ours is {} halves and would take {wide};", moved.inbound),
        format!("the platoon of {} is {exact} halves, rounded up {},", same + 1, moved.inbound + 1),
        format!("Our band of {} halves would take {narrow}, and {} does not fit.", moved.outbound, few + 1),
        format!("The paper's is {} halves longer, as said above,", decimal(longer, PARTS, 3)),
        format!("and these take {}: {narrow} and {} are the", take(longer, 3), take(longer, 2)),
        format!("Our band of {} halves would take {widest}, and {} does not fit.", alone.inbound, most + 1),
    ]
}

/// Euclid Avenue's three sheets, by the ends of their names: as printed, in seconds, and fitted.
const EUCLID: [&str; 3] = ["", "-seconds", "-fitted"];

pub fn euclid() -> Vec<String> {
    let streets = EUCLID.map(|end| street(&format!("paper-euclid{end}.txt")));
    let [printed, in_seconds, fitted] = &streets;
    let mut told = euclid_widths([(printed, 1, ','), (in_seconds, 2, ','), (fitted, 1, ':')]);
    told.extend(euclid_by_hand(printed, fitted));
    told.extend(euclid_platoons(printed, fitted));
    told.extend(EUCLID.map(|end| format!("| `paper-euclid{end}.txt` | `platoons 390 130` |")));
    told
}

/// B of each sheet, with the places that the page gives it and the mark after it.
fn euclid_widths(streets: [(&Street, u32, char); 3]) -> Vec<String> {
    let told = |(street, places, mark): (&Street, u32, char)| {
        let best = i128::from(asked(street, Ask::Equal).best);
        // The formula of the page, in halves: signals 1 and 2 limit the band, half a cycle and 110 ticks apart.
        assert_eq!(i128::from(650 + 2 * Times::of(street).t(0, 1) - street.reds[0] - street.reds[1]), best);
        let [s, cycles] = [decimal(best, 20, places), decimal(best, 1_300, 4)];
        format!("{best} halves{mark} {s} s or {cycles} cycles")
    };
    streets.map(told).to_vec()
}

fn euclid_by_hand(printed: &Street, fitted: &Street) -> Vec<String> {
    // B in thousandths of a half, from the sum of the two reds in thousandths of a cycle.
    let by_hand = |reds: i128| 870_000 - 650 * reds;
    let [middle, least, most] = [870, 880, 860].map(|reds| decimal(by_hand(reds), 1_300_000, 4));
    let (whole, exact) = (decimal(870, 1_300, 4), decimal(by_hand(870), 1_000, 1));
    let times = Times::of(printed);
    vec![
        format!("each link takes a whole number of seconds and m is {}.", times.not_whole),
        "signals 1 and 2 limit the band.".to_string(),
        format!("are {} s from each other", times.t(0, 1) / 10),
        format!("B = 0.5 + 11/65 - (r(1) + r(2)) / 2 = {whole} - (0.47 + 0.40) / 2 = {middle} cycles"),
        format!("cycles or {exact} halves; rounding the red of 305.5 ticks to 306 makes it 304."),
        format!("between {least} and {most}."),
        format!("signal 1 is red for {} ticks and signal 2 for {}.", fitted.reds[0], fitted.reds[1]),
    ]
}

fn euclid_platoons(printed: &Street, fitted: &Street) -> Vec<String> {
    let [printed, fitted] = [printed, fitted].map(|street| asked(street, Ask::Platoons(390, 130)));
    let in_s = |width: i64| decimal(width.into(), 20, 1);
    let (wide, narrow) = (printed.outbound, printed.inbound);
    let (out, back) = (fitted.outbound, fitted.inbound);
    vec![
        "The platoons are 390 and 130 halves, together 520, at most 2B.".to_string(),
        "the larger side gets 2B * 390 / 520, one and a half times B".to_string(),
        format!("{wide} halves or {} s with the reds as printed", in_s(wide)),
        format!("and the other side keeps {narrow}, {} s.", in_s(narrow)),
        format!("is {} s, which the fitted sheet gives: {out} and {back} halves.", in_s(out)),
    ]
}

pub fn quarter() -> Vec<String> {
    let street = street("row-3-quarter-cycle-link.txt");
    let (pairs, plan) = (Pairs::of(&street), asked(&street, Ask::Equal));
    let half = street.cycle;
    assert!(pairs.u(0, 1, 0) > pairs.u(0, 1, half) && pairs.u(1, 0, half) > pairs.u(1, 0, 0));
    let b = pairs.leasts();
    assert_eq!(b[0], b[1]);
    let widths = [[0, 0], [0, half]]
        .map(|offsets| measure(&street, &offsets))
        .map(|(out, back)| [out.width, back.width]);
    assert_eq!(widths, [[b[0]; 2]; 2]);
    vec![
        format!("a cycle of {} halves.", grouped(street.halves())),
        format!(
            "with b = {} for both: from signal 1 the better phase is 0, from signal 2 it is half a cycle.",
            b[0]
        ),
        format!(
            "Signal {} is taken, and the offsets are {} and {};",
            plan.reference, plan.offsets[0], plan.offsets[1]
        ),
        format!("the paper's would be 0 and {half}. Both have bands of {},", b[0]),
    ]
}
