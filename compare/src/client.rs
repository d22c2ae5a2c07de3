//! The C client as a model: what `client/client.c` prints for its words and the bytes of its sheet or its rows.

use crate::bands::{measured, Band};
use crate::cases::ask;
use crate::equal::Plan;
use crate::moved::{plan, Ask};
use crate::named::named;
use crate::printed::plan_prints;
use crate::seconds::{cabinets, kept};
use crate::sheet::{read, written};
use crate::street::{refusal, Refusal, Street};
use crate::survey::{self, numbered_rows, Row, CHAINAGE};
use crate::volumes::fitting;

/// What the client fills its lent list with; no offset and no second is as large.
const PATTERN: i64 = 77_777;

/// What it fills its lent list of bytes with; no sheet has such a byte.
const BYTE_PATTERN: u8 = 77;

/// How many bytes the client lends where its words do not say: two more than the longest sheet of a street has.
pub const LARGEST_BYTES: usize = 835;

/// The greatest lent list of the client, and the most rows that it hands over.
pub const LARGEST_ROOM: usize = 64;

/// All that the client prints, given the words after the name of its sheet.
pub fn prints(words: &[&str], sheet: &[u8]) -> String {
    match (words, read(sheet)) {
        (["print"], _) => plan_prints(sheet),
        (["survey", cycle, room @ ..], _) => surveyed(cycle, room, sheet),
        (["numbers"], reply) | (_, reply @ Err(_)) => numbers(&reply),
        (["unequal"], Ok(street)) => unequal(&street),
        (["write"], Ok(street)) => written_again(&street, LARGEST_BYTES),
        (["write", room], Ok(street)) => written_again(&street, room.parse().expect("a count of bytes")),
        (["seconds", words @ ..], Ok(street)) => {
            let (ask, room) = lent_ask(words, &street);
            in_seconds(&street, ask, room)
        }
        (words, Ok(street)) => {
            let (ask, room) = lent_ask(words, &street);
            planned(&street, ask, room)
        }
    }
}

/// The plan that words ask for, and how many entries are lent for it: one more than there are signals, where they do not
/// say.
fn lent_ask(words: &[&str], street: &Street) -> (Ask, usize) {
    match words {
        ["room", room] => (Ask::Equal, room.parse().expect("a count of entries")),
        [] => (Ask::Equal, street.signals() + 1),
        words => match ask(words) {
            Some((ask, [])) => (ask, street.signals() + 1),
            _ => panic!("the client has no words {words:?}"),
        },
    }
}

/// All that it prints for empty lists.
pub fn empty() -> String {
    let none = Street { cycle: 600, reds: vec![], distances: vec![], outbound: vec![], inbound: vec![] };
    let asks =
        [Ask::Equal, Ask::Outbound(80), Ask::Inbound(80), Ask::Platoons(30, 10), Ask::Volumes(800, 300, 20)];
    let plans: String = asks.map(|ask| plan_lines(&none, ask, &plan(&none, ask, 0))).concat();
    let in_seconds: String = asks.map(|ask| plan_line(&none, &seconds_plan(&none, ask, 0))).concat();
    let told = numbers(&read(b"")) + &plan_prints(b"") + &plans + &in_seconds + &measure_line(&none, &[]);
    told + &writing_lines(&none, 0) + &numbers_line(&survey::street(600, &[]))
}

fn list(name: &str, entries: &[i64]) -> String {
    entries.iter().fold(name.to_string(), |line, entry| format!("{line} {entry}")) + "\n"
}

fn head<T>(name: &str, reply: &Result<T, Refusal>) -> String {
    let (code, place) = reply.as_ref().err().map_or((0, 0), |refusal| (refusal.code, refusal.place));
    format!("{name} code {code} place {place}")
}

/// The street that was read, or one of which every number is 0.
fn read_street(reply: &Result<Street, Refusal>) -> Street {
    let none = Street { cycle: 0, reds: vec![], distances: vec![], outbound: vec![], inbound: vec![] };
    reply.clone().unwrap_or(none)
}

fn numbers_line(reply: &Result<Street, Refusal>) -> String {
    let street = read_street(reply);
    head("sheet", reply) + &format!(" signals {} cycle {} numbers beyond 0\n", street.signals(), street.cycle)
}

fn numbers(reply: &Result<Street, Refusal>) -> String {
    let street = read_street(reply);
    let mut text = numbers_line(reply);
    text += &list("reds", &street.reds);
    text += &list("distances", &street.distances);
    text += &list("outbound", &street.outbound);
    text + &list("inbound", &street.inbound)
}

/// A plan's reply. At the reference the outbound band starts as the red ends, and the inbound one ends as it starts.
fn plan_line(street: &Street, reply: &Result<Plan, Refusal>) -> String {
    let told = |plan: &Plan| {
        let [out, back] = named(street, plan).map(|band| (band.start, band.start + band.width));
        let [starts, ends] = [out.0, back.1].map(|instant| instant.rem_euclid(street.halves()));
        [plan.reference, plan.best, plan.outbound, plan.inbound, plan.not_whole, starts, ends]
    };
    let [reference, b, outbound, inbound, rounded, starts, ends] = reply.as_ref().map_or([0; 7], told);
    let line = head("plan", reply) + &format!(" reference {reference} b {b} outbound {outbound}");
    line + &format!(" inbound {inbound} rounded {rounded} starts {starts} ends {ends}\n")
}

/// The same, and for volumes a line with the largest that fit; those of a refusal are 0.
fn plan_lines(street: &Street, ask: Ask, reply: &Result<Plan, Refusal>) -> String {
    let line = plan_line(street, reply);
    match ask {
        Ask::Volumes(_, _, headway) => {
            let largest = |plan: &Plan| fitting(plan, street.cycle, headway);
            let [out, back] = reply.as_ref().map_or([0; 2], largest);
            line + &format!("volumes outbound {out} inbound {back}\n")
        }
        _ => line,
    }
}

fn measure_line(street: &Street, offsets: &[i64]) -> String {
    let reply = measured(street, offsets);
    let nothing = Band { width: 0, start: 0 };
    let (out, back) = reply.unwrap_or((nothing, nothing));
    let line = head("measure", &reply) + &format!(" outbound {} from {}", out.width, out.start);
    line + &format!(" inbound {} from {}\n", back.width, back.start)
}

/// A plan, the lent list after it, and the measure of the offsets where there are some.
fn planned(street: &Street, ask: Ask, room: usize) -> String {
    let reply = plan(street, ask, room);
    let mut lent = reply.as_ref().map_or(vec![], |plan| plan.offsets.clone());
    lent.resize(room, PATTERN);
    let measure = reply.as_ref().map_or(String::new(), |plan| measure_line(street, &plan.offsets));
    plan_lines(street, ask, &reply) + &list("list", &lent) + &measure
}

/// The plan of a reply in seconds, which is the plan's own.
fn seconds_plan(street: &Street, ask: Ask, room: usize) -> Result<Plan, Refusal> {
    cabinets(street, ask, room).map(|served| served.plan)
}

/// A plan in seconds, the lent list after it, and the measure of the offsets that the cabinets keep where there are some.
fn in_seconds(street: &Street, ask: Ask, room: usize) -> String {
    let reply = cabinets(street, ask, room).map(|served| served.seconds);
    let mut lent = reply.clone().unwrap_or_default();
    lent.resize(room, PATTERN);
    let measure = reply.map_or(String::new(), |seconds| measure_line(street, &kept(street, &seconds)));
    plan_line(street, &seconds_plan(street, ask, room)) + &list("list", &lent) + &measure
}

/// What the rows of a file come to at a cycle, and where that is a street its equal plan, over a list with one entry more
/// than there are rows or as many as the words say.
fn surveyed(cycle: &str, room: &[&str], text: &[u8]) -> String {
    let rows = numbered_rows(text).unwrap_or_else(|| panic!("no rows: {}", text.escape_ascii()));
    let room = match room {
        [] => (rows.len() + 1).min(LARGEST_ROOM),
        ["room", room] => room.parse().expect("a count of entries"),
        _ => panic!("the client has no words {room:?} after a survey's cycle"),
    };
    let reply = survey::street(cycle.parse().expect("a cycle"), &rows);
    let plan = reply.as_ref().map_or(String::new(), |street| planned(street, Ask::Equal, room));
    numbers(&reply) + &plan
}

/// The reply of the writer, and the lent list of bytes after it.
fn writing_lines(street: &Street, room: usize) -> String {
    let reply = written(street, room);
    let mut lent = reply.clone().unwrap_or_default();
    let line = head("writing", &reply) + &format!(" count {}\n", lent.len());
    lent.resize(room, BYTE_PATTERN);
    line + &list("bytes", &lent.into_iter().map(i64::from).collect::<Vec<i64>>())
}

/// The same, and whether the written sheet reads as the street.
fn written_again(street: &Street, room: usize) -> String {
    let back = written(street, room).map(|sheet| read(&sheet).as_ref() == Ok(street));
    let told = back.map_or("", |same| if same { "read same\n" } else { "read other\n" });
    writing_lines(street, room) + told
}

/// Calls with a list of another length, three of them in seconds too, one with offsets that are still the pattern, and
/// surveys of rows with nothing in them but the reds, five of them with a list of another length.
fn unequal(street: &Street) -> String {
    let n = street.signals();
    let (mut distances, mut outbound, mut inbound) = (street.clone(), street.clone(), street.clone());
    distances.distances.pop();
    outbound.outbound.push(0);
    inbound.inbound.push(0);
    let writing = writing_lines(&distances, n);
    let refused = [(distances, Ask::Equal), (outbound, Ask::Inbound(80)), (inbound, Ask::Outbound(80))];
    let plans: String =
        refused.iter().map(|(street, ask)| plan_line(street, &plan(street, *ask, n))).collect();
    let in_seconds: String =
        refused.iter().map(|(street, ask)| plan_line(street, &seconds_plan(street, *ask, n))).collect();
    let pattern = vec![PATTERN; n + 1];
    let measures = measure_line(street, &pattern) + &measure_line(street, &pattern[..n]);
    let nothing = |&red: &i64| Row { kind: CHAINAGE, floats: [0; 3], red };
    let survey = survey::street(street.cycle, &street.reds.iter().map(nothing).collect::<Vec<Row>>());
    let surveys = numbers_line(&Err(refusal(2, 0))).repeat(5) + &numbers_line(&survey);
    plans + &in_seconds + &list("list", &pattern[..n]) + &measures + &writing + &surveys
}
