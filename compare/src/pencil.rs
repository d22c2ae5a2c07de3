//! A plan as one works it out with a pencil: when a signal's red and green start, where a named band passes, and the
//! drawing of both, found by a look at every half of the cycle.

use crate::bands::{clear, measure};
use crate::decimal::seconds;
use crate::equal::Plan;
use crate::named::{named, Named};
use crate::street::Street;

/// The width of a drawing's square in halves, and how many squares the two signals of a drawing lie apart.
pub const SQUARE: i64 = 5;
pub const UP: i64 = 4;

/// Whether a signal is green at an instant, with no other signal on the street.
pub fn green(street: &Street, offsets: &[i64], j: usize, at: i64) -> bool {
    let (cycle, reds) = (street.cycle, vec![street.reds[j]]);
    let alone = Street { cycle, reds, distances: vec![0], outbound: vec![], inbound: vec![] };
    clear(&alone, &offsets[j..], &[0], at)
}

/// The instants from 0 to H - 1 at which the red and the green of a signal start, which does not rest in green.
pub fn starts(street: &Street, offsets: &[i64], j: usize) -> [i64; 2] {
    let is = |now: bool, at: i64| green(street, offsets, j, at) == now;
    [false, true].map(|now| {
        let found: Vec<i64> = (0..street.halves()).filter(|&at| is(now, at) && is(!now, at - 1)).collect();
        assert_eq!(found.len(), 1, "signal {} has one red in a cycle", j + 1);
        found[0]
    })
}

/// The same as a page shows it: red's start by the formula and in seconds, and then green's.
pub fn switches(street: &Street, offsets: &[i64], j: usize) -> [String; 4] {
    let (f, r, [red, green]) = (offsets[j], street.reds[j], starts(street, offsets, j));
    [format!("man({f} - {r}) = {red}"), seconds(red), format!("man({f} + {r}) = {green}"), seconds(green)]
}

/// The offsets with one and the same number added to all, round the cycle.
pub fn turned(street: &Street, offsets: &[i64], by: i64) -> Vec<i64> {
    offsets.iter().map(|offset| (offset + by).rem_euclid(street.halves())).collect()
}

pub fn widths(street: &Street, offsets: &[i64]) -> [i64; 2] {
    let (out, back) = measure(street, offsets);
    [out.width, back.width]
}

/// The sentence about both named bands, by the starts of the reference's red and green.
pub fn named_sentence(street: &Street, plan: &Plan) -> String {
    let c = plan.reference as usize - 1;
    let ([out, back], [red, green]) = (named(street, plan), starts(street, &plan.offsets, c));
    let instants = [back.start + back.width, out.start].map(|at| at.rem_euclid(street.halves()));
    assert_eq!(instants, [red, green]);
    let [ends, _, starts, _] = switches(street, &plan.offsets, c);
    format!("The named outbound band starts at {starts} and is {} long; ", out.width)
        + &format!("the named inbound band ends at {ends} and is {} long.", back.width)
}

/// A named band at a signal: its start, from 0 to H - 1, and its end, and the start and the end of the signal's green.
pub fn passes(street: &Street, plan: &Plan, band: &Named, j: usize) -> [i64; 4] {
    let from = (band.start + 2 * band.lags[j]).rem_euclid(street.halves());
    let [red, green] = starts(street, &plan.offsets, j);
    [from, from + band.width, green, green + (red - green).rem_euclid(street.halves())]
}

/// What a square of a signal's line shows; no red starts or ends inside it.
fn state(street: &Street, offsets: &[i64], j: usize, square: i64) -> char {
    let shown: Vec<bool> =
        (square * SQUARE..(square + 1) * SQUARE).map(|at| green(street, offsets, j, at)).collect();
    assert!(shown.iter().all(|&one| one == shown[0]), "the square {square} is red and green");
    if shown[0] {
        '-'
    } else {
        '#'
    }
}

/// The drawing of a named band on a street of two signals: time across from 0 to H, distance up.
pub fn drawing(street: &Street, plan: &Plan, band: &Named, name: &str) -> String {
    let halves = street.halves();
    let marks: String = (0..halves / 50).map(|k| format!("{:<10}", 50 * k)).collect();
    let mut lines = vec![format!("{name:<10}{marks}{halves}")];
    let start = passes(street, plan, band, 0)[0];
    for up in (0..=UP).rev() {
        let from = start + 2 * (band.lags[1] - band.lags[0]) * up / UP;
        let signal = [(0, 0), (UP, 1)].into_iter().find(|&(height, _)| height == up).map(|(_, j)| j);
        let title = signal.map_or(String::new(), |j| format!("signal {}", j + 1));
        let shown = |square: i64| {
            let line = signal.map_or(' ', |j| state(street, &plan.offsets, j, square));
            let inside = (from..from + band.width).contains(&(square * SQUARE));
            assert!(!inside || line != '#', "the {name} band meets a red");
            if inside {
                'o'
            } else {
                line
            }
        };
        let line: String = (0..halves / SQUARE).map(shown).collect();
        lines.push(format!("{title:<10}{line}").trim_end().to_string());
    }
    lines.iter().map(|line| format!("    {line}\n")).collect()
}
