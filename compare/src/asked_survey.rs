//! A count of the surveys that a run compared, by every limit and every branch that the rules tell apart.

use crate::cases::{request, Request};
use crate::equal::{equal, Plan};
use crate::offsets::LARGEST;
use crate::resting::{holds, Resting};
use crate::rows::{LIMITS, NEGATIVE};
use crate::street::{Refusal, Street, CYCLE, MAX_SIGNALS, SPEED};
use crate::survey::{eighths, rows, street, Row, CHAINAGE, EIGHTH, GAP, MOST};
use crate::tally::Tally;
use crate::trial::Case;

const WANTED: [(&str, usize); 82] = [
    ("requests", 8_000),
    ("bad request", 300),
    ("bad request for a row past the most", 6),
    ("planned", 2_000),
    ("planned from 1 row", 300),
    ("planned from 2 rows", 200),
    ("planned from 20 rows or more", 700),
    ("planned from 32 rows", 200),
    ("planned from chainages alone", 350),
    ("planned from gaps alone", 350),
    ("planned from a gap after a chainage", 500),
    ("planned from a chainage after a gap", 500),
    ("planned from a gap in the first row", 300),
    ("planned with a negative zero among the first speeds", 400),
    ("planned with a negative zero for a position", 200),
    ("planned with signals an eighth apart", 200),
    ("planned with a signal at exactly 20,000 m, by chainage", 100),
    ("planned with a signal at exactly 20,000 m, by a gap", 100),
    ("planned with a speed of 1 m/s", 300),
    ("planned with a speed of 40 m/s", 300),
    ("planned with speeds that are no whole metres", 500),
    ("planned with unlike speeds of a link", 1_000),
    ("planned with a red of 0", 300),
    ("planned with every red 0", 60),
    ("planned with a red of 1", 300),
    ("planned with a red of C - 1", 300),
    ("planned with times that are rounded", 1_000),
    ("planned into a list of exactly n", 35),
    ("refused by code 2", 100),
    ("refused by code 2 for no row", 25),
    ("refused by code 2 for 33 rows", 50),
    ("refused by code 2 for 40 rows", 20),
    ("refused by code 2 before a bad row", 12),
    ("refused by code 12", 2_000),
    ("refused by code 12 at row 1", 500),
    ("refused by code 12 at the last row of several", 300),
    ("refused by code 12 at a row between", 300),
    ("refused by code 12 at row 32", 20),
    ("refused by code 12 for a chainage", 300),
    ("refused by code 12 for a gap", 300),
    ("refused by code 12 for an outbound speed", 200),
    ("refused by code 12 for an inbound speed", 200),
    ("refused by code 12 for several numbers of a row", 15),
    ("refused by code 12 with a later bad row", 50),
    ("refused by code 12 before 3", 50),
    ("refused by code 12 before 4", 20),
    ("refused by code 12 before 5", 30),
    ("refused by code 12 for an outbound speed in the first row alone", 15),
    ("refused by code 12 for an inbound speed in the first row alone", 15),
    ("refused by code 12 for both speeds in the first row", 15),
    ("refused by code 12 for the running distance", 80),
    ("refused by code 12 for the running distance of an eighth above 20,000 m", 35),
    ("refused by code 3", 200),
    ("refused by code 3 with one entry too few", 100),
    ("refused by code 3 with a later fault", 30),
    ("refused by code 4", 100),
    ("refused by code 4 for a cycle of 9", 15),
    ("refused by code 4 for a cycle of 6,001", 15),
    ("refused by code 4 for a cycle of 2^32 - 1", 15),
    ("refused by code 4 with a later fault", 10),
    ("refused by code 5", 200),
    ("refused by code 5 beside a red of 0", 20),
    ("refused by code 5 for a red of C", 50),
    ("refused by code 5 for a red of 2^32 - 1", 25),
    ("refused by code 5 with a later fault", 20),
    ("refused by code 6", 200),
    ("refused by code 6 for an equal chainage", 30),
    ("refused by code 6 for a falling chainage", 40),
    ("refused by code 6 for a gap of 0", 30),
    ("refused by code 6 for a gap of negative zero", 30),
    ("refused by code 6 with a later fault", 15),
    ("refused by code 7", 200),
    ("refused by code 7 at link 1", 30),
    ("refused by code 7 at the last link of several", 30),
    ("refused by code 7 for a speed of 0, outbound", 30),
    ("refused by code 7 for a speed of 0, inbound", 30),
    ("refused by code 7 for a speed of 0.875 m/s, outbound", 10),
    ("refused by code 7 for a speed of 0.875 m/s, inbound", 10),
    ("refused by code 7 for a speed of 40.125 m/s, outbound", 10),
    ("refused by code 7 for a speed of 40.125 m/s, inbound", 10),
    ("refused by code 7 for a speed of 20,000 m/s", 20),
    ("refused by code 7 for a negative zero", 15),
];

/// How often each float at a limit must have been judged, with nothing else at fault in its row, as each of the numbers.
const EACH_LIMIT: usize = 5;

const NUMBERS: [&str; 3] = ["position", "outbound speed", "inbound speed"];

fn as_number(name: &str, f: usize) -> String {
    format!("{name} as {}", NUMBERS[f])
}

/// Counts the cases, and fails where a limit or a branch was tried too seldom.
pub fn cover(cases: &[Case]) {
    let names = LIMITS.iter().flat_map(|(name, _)| (0..3).map(move |f| (as_number(name, f), EACH_LIMIT)));
    let mut limits = Tally::of(&names.collect::<Vec<(String, usize)>>());
    let mut tally = Tally::of(&WANTED);
    cases.iter().for_each(|case| note(&mut tally, &mut limits, case));
    limits.close();
    tally.close();
}

fn note(tally: &mut Tally, limits: &mut Tally, case: &Case) {
    let (cycle, room) = match request(case.request.as_bytes()) {
        Some(Request::Survey { cycle, room }) => (cycle, room),
        _ => panic!("{case:?}"),
    };
    tally.note("requests", true);
    let rows = match rows(&case.sheet) {
        Some(rows) => rows,
        None => return note_bad_request(tally, &case.sheet),
    };
    let reply = street(cycle, &rows);
    note_limits(limits, &rows, &reply);
    match reply {
        Err(Refusal { code: 2, .. }) => note_count(tally, &rows),
        Err(Refusal { place, .. }) => note_bad_row(tally, cycle, &rows, place as usize, room),
        Ok(street) => match equal(&street, room) {
            Ok(plan) => note_plan(tally, &rows, &street, &plan, room),
            Err(refusal) => note_refused(tally, &rows, &street, refusal, room),
        },
    }
}

fn note_bad_request(tally: &mut Tally, text: &[u8]) {
    let lines: Vec<&[u8]> = text.split_inclusive(|&byte| byte == 10).collect();
    let past = lines.len() > MAX_SIGNALS && rows(&lines[..MAX_SIGNALS].concat()).is_some();
    tally.note("bad request", true);
    tally.note("bad request for a row past the most", past);
}

/// Counts the floats at a limit in the rows that were judged, where the rest of the row is not at fault.
fn note_limits(limits: &mut Tally, rows: &[Row], reply: &Result<Street, Refusal>) {
    let judged = match reply {
        Ok(_) => rows.len(),
        Err(refusal) => refusal.place as usize,
    };
    for (k, row) in rows.iter().take(judged).enumerate() {
        let good = reply.is_ok() || k + 1 < judged;
        for f in 0..3 {
            let others = (0..3).filter(|&other| other != f).all(|other| eighths(row.floats[other]).is_some());
            let alone = good || others && eighths(row.floats[f]).is_none();
            // An accepted speed says something of itself only where a link ends.
            let counts = alone && (f == 0 || k > 0 || !good || row.floats[f] & !NEGATIVE == 0);
            let limit = LIMITS.iter().find(|limit| limit.1 == row.floats[f]);
            if let Some((name, _)) = limit.filter(|_| counts) {
                limits.note(&as_number(name, f), true);
            }
        }
    }
}

/// Whether some float of a row is not accepted.
fn has_fault(row: &Row) -> bool {
    row.floats.iter().any(|&bits| eighths(bits).is_none())
}

fn note_count(tally: &mut Tally, rows: &[Row]) {
    let n = rows.len();
    assert!(n == 0 || n > MAX_SIGNALS, "{n} rows");
    tally.note("refused by code 2", true);
    tally.note("refused by code 2 for no row", n == 0);
    tally.note("refused by code 2 for 33 rows", n == 33);
    tally.note("refused by code 2 for 40 rows", n == 40);
    tally.note("refused by code 2 before a bad row", rows.iter().any(has_fault));
}

fn note_bad_row(tally: &mut Tally, cycle: i64, rows: &[Row], place: usize, room: usize) {
    let (n, row) = (rows.len(), &rows[place - 1]);
    let faults = row.floats.map(|bits| eighths(bits).is_none());
    let refused = |what: &str| format!("refused by code 12{what}");
    tally.note(&refused(""), true);
    tally.note(&refused(" at row 1"), place == 1);
    tally.note(&refused(" at the last row of several"), place == n && n > 1);
    tally.note(&refused(" at a row between"), 1 < place && place < n);
    tally.note(&refused(" at row 32"), place == 32);
    tally.note(&refused(" for a chainage"), faults[0] && row.kind == CHAINAGE);
    tally.note(&refused(" for a gap"), faults[0] && row.kind == GAP);
    tally.note(&refused(" for an outbound speed"), faults[1]);
    tally.note(&refused(" for an inbound speed"), faults[2]);
    tally.note(&refused(" for several numbers of a row"), faults.iter().filter(|&&fault| fault).count() > 1);
    tally.note(&refused(" with a later bad row"), rows[place..].iter().any(has_fault));
    tally.note(&refused(" before 3"), room < n);
    tally.note(&refused(" before 4"), cycle < CYCLE.0 || cycle > CYCLE.1);
    tally.note(&refused(" before 5"), rows.iter().any(|row| row.red >= cycle));
    if let [Some(position), Some(outbound), Some(inbound)] = row.floats.map(eighths) {
        let before = street(cycle, &rows[..place - 1]).map_or(0, |street| street.distances[place - 2]);
        let distance = if row.kind == GAP { before / EIGHTH + position } else { position };
        let moving = place == 1 && outbound + inbound > 0;
        assert!(distance > MOST || moving, "{rows:?}");
        let speeds = |out: bool, back: bool| moving && (outbound > 0) == out && (inbound > 0) == back;
        tally.note(&refused(" for an outbound speed in the first row alone"), speeds(true, false));
        tally.note(&refused(" for an inbound speed in the first row alone"), speeds(false, true));
        tally.note(&refused(" for both speeds in the first row"), speeds(true, true));
        tally.note(&refused(" for the running distance"), distance > MOST);
        let just = distance == MOST + 1;
        tally.note(&refused(" for the running distance of an eighth above 20,000 m"), just);
    }
}

/// Whether some row of the one kind comes after one of the other.
fn follows(rows: &[Row], kind: i64) -> bool {
    rows.windows(2).any(|pair| pair[1].kind == kind && pair[0].kind != kind)
}

fn note_plan(tally: &mut Tally, rows: &[Row], street: &Street, plan: &Plan, room: usize) {
    let (n, planned) = (rows.len(), |what: &str| format!("planned{what}"));
    tally.note(&planned(""), true);
    tally.note(&planned(" from 1 row"), n == 1);
    tally.note(&planned(" from 2 rows"), n == 2);
    tally.note(&planned(" from 20 rows or more"), n >= 20);
    tally.note(&planned(" from 32 rows"), n == 32);
    tally.note(&planned(" from chainages alone"), n > 1 && rows.iter().all(|row| row.kind == CHAINAGE));
    tally.note(&planned(" from gaps alone"), n > 1 && rows.iter().all(|row| row.kind == GAP));
    tally.note(&planned(" from a gap after a chainage"), follows(rows, GAP));
    tally.note(&planned(" from a chainage after a gap"), follows(rows, CHAINAGE));
    tally.note(&planned(" from a gap in the first row"), rows[0].kind == GAP && street.distances[0] > 0);
    let signed = rows[0].floats[1..].contains(&NEGATIVE);
    tally.note(&planned(" with a negative zero among the first speeds"), signed);
    tally.note(&planned(" with a negative zero for a position"), rows[0].floats[0] == NEGATIVE);
    let close = street.distances.windows(2).any(|pair| pair[1] - pair[0] == EIGHTH);
    tally.note(&planned(" with signals an eighth apart"), close);
    let at_the_end = street.distances[n - 1] == EIGHTH * MOST;
    let way = if rows[n - 1].kind == CHAINAGE { "chainage" } else { "a gap" };
    tally.note(&planned(&format!(" with a signal at exactly 20,000 m, by {way}")), at_the_end);
    let speeds: Vec<i64> = street.outbound.iter().chain(&street.inbound).copied().collect();
    tally.note(&planned(" with a speed of 1 m/s"), speeds.contains(&SPEED.0));
    tally.note(&planned(" with a speed of 40 m/s"), speeds.contains(&SPEED.1));
    let uneven = speeds.iter().any(|speed| speed % 1_000 > 0);
    tally.note(&planned(" with speeds that are no whole metres"), uneven);
    let unlike = street.outbound.iter().zip(&street.inbound).any(|(out, back)| out != back);
    tally.note(&planned(" with unlike speeds of a link"), unlike);
    tally.note(&planned(" with a red of 0"), street.reds.contains(&0));
    tally.note(&planned(" with every red 0"), holds(street, Resting::All));
    tally.note(&planned(" with a red of 1"), street.reds.contains(&1));
    tally.note(&planned(" with a red of C - 1"), street.reds.contains(&(street.cycle - 1)));
    tally.note(&planned(" with times that are rounded"), plan.not_whole > 0);
    tally.note(&planned(" into a list of exactly n"), room == n && n < MAX_SIGNALS);
}

/// The street with the fault of a code mended, so that what is left is a later one.
fn mended(street: &Street, code: i64) -> Street {
    let (cycle, n) = (street.cycle, street.signals() as i64);
    match code {
        3 => street.clone(),
        4 => Street { cycle: CYCLE.1, ..street.clone() },
        5 => Street { reds: vec![cycle - 1; n as usize], ..street.clone() },
        _ => Street { distances: (0..n).collect(), ..street.clone() },
    }
}

fn note_refused(tally: &mut Tally, rows: &[Row], street: &Street, refusal: Refusal, room: usize) {
    let (Refusal { code, place }, cycle) = (refusal, street.cycle);
    let refused = |what: &str| format!("refused by code {code}{what}");
    tally.note(&refused(""), true);
    if code < 7 {
        tally.note(&refused(" with a later fault"), mended(street, code).range_fault().is_some());
    }
    match code {
        3 => tally.note(&refused(" with one entry too few"), room + 1 == rows.len()),
        4 => {
            tally.note(&refused(" for a cycle of 9"), cycle == 9);
            tally.note(&refused(" for a cycle of 6,001"), cycle == 6_001);
            tally.note(&refused(" for a cycle of 2^32 - 1"), cycle == LARGEST);
        }
        5 => {
            let red = street.reds[place as usize - 1];
            tally.note(&refused(" beside a red of 0"), street.reds.contains(&0));
            tally.note(&refused(" for a red of C"), red == cycle);
            tally.note(&refused(" for a red of 2^32 - 1"), red == LARGEST);
        }
        6 => {
            let (k, distances) = (place as usize - 1, &street.distances);
            let (chained, bits) = (rows[k].kind == CHAINAGE, rows[k].floats[0]);
            tally.note(&refused(" for an equal chainage"), chained && distances[k] == distances[k - 1]);
            tally.note(&refused(" for a falling chainage"), distances[k] < distances[k - 1]);
            tally.note(&refused(" for a gap of 0"), !chained && bits == 0);
            tally.note(&refused(" for a gap of negative zero"), !chained && bits == NEGATIVE);
        }
        _ => note_speed(tally, rows, street, place as usize),
    }
}

fn note_speed(tally: &mut Tally, rows: &[Row], street: &Street, link: usize) {
    let (links, refused) = (street.outbound.len(), |what: &str| format!("refused by code 7{what}"));
    let speeds = [street.outbound[link - 1], street.inbound[link - 1]];
    tally.note(&refused(" at link 1"), link == 1);
    tally.note(&refused(" at the last link of several"), link == links && links > 1);
    for (speed, way) in speeds.into_iter().zip(["outbound", "inbound"]) {
        tally.note(&refused(&format!(" for a speed of 0, {way}")), speed == 0);
        tally.note(&refused(&format!(" for a speed of 0.875 m/s, {way}")), speed == 875);
        tally.note(&refused(&format!(" for a speed of 40.125 m/s, {way}")), speed == 40_125);
    }
    tally.note(&refused(" for a speed of 20,000 m/s"), speeds.contains(&20_000_000));
    tally.note(&refused(" for a negative zero"), rows[link].floats[1..].contains(&NEGATIVE));
}
