//! A count of the whole seconds that a run compared, by every kind of request, every place of a green's start between two
//! seconds, and every fault in its order.

use crate::cases::{request, Request};
use crate::moved::{plan, Ask};
use crate::resting::{holds, Resting};
use crate::seconds::{cabinets, green_starts, Cabinets, SECOND, TICKS};
use crate::sheet::read;
use crate::street::{Refusal, Street, CYCLE};
use crate::tally::Tally;
use crate::trial::Case;

const WANTED: [(&str, usize); 54] = [
    ("requests", 8_000),
    ("planned", 2_500),
    ("planned with 20 signals or more", 800),
    ("planned with a red of 0", 400),
    ("planned with every red 0", 30),
    ("planned with a rounded time", 1_000),
    ("planned for equal", 400),
    ("planned for outbound", 150),
    ("planned for inbound", 150),
    ("planned for platoons", 500),
    ("planned for volumes", 250),
    ("outbound wider", 400),
    ("inbound wider", 400),
    ("planned with a cycle of 10", 300),
    ("planned with a cycle of 6000", 300),
    ("planned into a longer list", 1_500),
    ("planned into a list of n", 100),
    ("start of green at a whole second", 1_500),
    ("start of green half-way, which goes up inside the cycle", 500),
    ("start of green at H - 11, which goes back", 30),
    ("start of green at H - 10, which goes to 0", 30),
    ("start of green at H - 9, which goes to 0", 30),
    ("start of green at H - 1, which goes to 0", 30),
    ("start of green of a signal that rests, moved", 500),
    ("second 0", 800),
    ("last second of a cycle above 10", 200),
    ("refused by code 1", 300),
    ("refused by code 2", 100),
    ("refused by code 3", 100),
    ("refused by code 4", 50),
    ("refused by code 5", 100),
    ("refused by code 6", 50),
    ("refused by code 7", 50),
    ("refused by code 8 at 1", 20),
    ("refused by code 8 at 2", 20),
    ("refused by code 9 at 0", 150),
    ("refused by code 11 at 1", 15),
    ("refused by code 11 at 2", 10),
    ("refused by code 11 at 3", 3),
    ("refused by code 13", 500),
    ("code 13 and nothing else", 250),
    ("code 13 before code 5", 15),
    ("code 13 before code 6", 10),
    ("code 13 before code 7", 8),
    ("code 13 before code 8", 5),
    ("code 13 before code 9", 40),
    ("code 13 before code 11", 3),
    ("code 3 before code 13", 20),
    ("code 4 before code 13", 40),
    ("code 4 on a cycle of whole seconds", 5),
    ("code 13 on a cycle of 11", 15),
    ("code 13 on a cycle of 5999", 5),
    ("code 13 one tick below whole seconds", 20),
    ("code 13 one tick above whole seconds", 20),
];

/// The row of a start of green that lies so many halves past a whole second.
fn past(halves: i64) -> String {
    format!("start of green {halves} past a second")
}

/// Counts the cases, and fails where one of these was met too seldom.
pub fn cover(cases: &[Case]) {
    let mut tally = Tally::of(&WANTED);
    let mut rests = Tally::of(&(0..SECOND).map(|rest| (past(rest), 500)).collect::<Vec<(String, usize)>>());
    cases.iter().for_each(|case| note(&mut tally, &mut rests, case));
    tally.close();
    rests.close();
}

fn note(tally: &mut Tally, rests: &mut Tally, case: &Case) {
    let (ask, room) = match request(case.request.as_bytes()) {
        Some(Request::Seconds { ask, room }) => (ask, room),
        _ => panic!("{case:?}"),
    };
    tally.note("requests", true);
    let street = match read(&case.sheet) {
        Ok(street) => street,
        Err(Refusal { code, .. }) => return tally.note(&format!("refused by code {code}"), true),
    };
    match cabinets(&street, ask, room) {
        Ok(served) => note_plan(tally, rests, &street, ask, room, &served),
        Err(refusal) => note_refusal(tally, &street, ask, room, refusal),
    }
}

/// The word of a request.
fn word(ask: Ask) -> String {
    ask.to_string().split(' ').take(1).collect()
}

fn note_plan(
    tally: &mut Tally,
    rests: &mut Tally,
    street: &Street,
    ask: Ask,
    room: usize,
    Cabinets { plan, seconds }: &Cabinets,
) {
    let (n, last) = (street.signals(), street.cycle / TICKS - 1);
    tally.note("planned", true);
    tally.note("planned with 20 signals or more", n >= 20);
    tally.note("planned with a red of 0", street.reds.contains(&0));
    tally.note("planned with every red 0", holds(street, Resting::All));
    tally.note("planned with a rounded time", plan.not_whole > 0);
    tally.note(&format!("planned for {}", word(ask)), true);
    tally.note("outbound wider", plan.outbound > plan.inbound);
    tally.note("inbound wider", plan.inbound > plan.outbound);
    tally.note("planned with a cycle of 10", street.cycle == CYCLE.0);
    tally.note("planned with a cycle of 6000", street.cycle == CYCLE.1);
    tally.note("planned into a longer list", room > n);
    tally.note("planned into a list of n", room == n);
    tally.note("second 0", seconds.contains(&0));
    tally.note("last second of a cycle above 10", last > 0 && seconds.contains(&last));
    for (j, start) in green_starts(street, &plan.offsets).into_iter().enumerate() {
        note_start(tally, start, street.halves());
        tally.note("start of green of a signal that rests, moved", street.rests(j) && start % SECOND > 0);
        rests.note(&past(start % SECOND), true);
    }
}

fn note_start(tally: &mut Tally, start: i64, halves: i64) {
    let half_way = start % SECOND == SECOND / 2;
    tally.note("start of green at a whole second", start % SECOND == 0);
    let inside = half_way && start + SECOND / 2 < halves;
    tally.note("start of green half-way, which goes up inside the cycle", inside);
    // In a cycle of one second that start goes to the second that it came from.
    tally.note("start of green at H - 11, which goes back", start == halves - 11 && halves > SECOND);
    for before in [10, 9, 1] {
        let name = format!("start of green at H - {before}, which goes to 0");
        tally.note(&name, start == halves - before);
    }
}

fn note_refusal(tally: &mut Tally, street: &Street, ask: Ask, room: usize, refusal: Refusal) {
    let (Refusal { code, place }, rest) = (refusal, street.cycle % TICKS);
    let named = if [8, 9, 11].contains(&code) { format!(" at {place}") } else { String::new() };
    tally.note(&format!("refused by code {code}{named}"), true);
    tally.note("code 3 before code 13", code == 3 && rest > 0);
    tally.note("code 4 before code 13", code == 4 && rest > 0);
    tally.note("code 4 on a cycle of whole seconds", code == 4 && rest == 0);
    if code != 13 {
        return;
    }
    match plan(street, ask, room) {
        Ok(_) => tally.note("code 13 and nothing else", true),
        Err(Refusal { code, .. }) => tally.note(&format!("code 13 before code {code}"), true),
    }
    tally.note("code 13 on a cycle of 11", street.cycle == 11);
    tally.note("code 13 on a cycle of 5999", street.cycle == 5_999);
    tally.note("code 13 one tick below whole seconds", rest == TICKS - 1);
    tally.note("code 13 one tick above whole seconds", rest == 1);
}
