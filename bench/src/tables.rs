//! The tables of ratios, in markdown.

use crate::inputs::{streets, Case, Reds, CYCLE, CYCLES, REDS, SIGNALS};
use crate::library::Library;
use crate::plain::Plain;
use crate::same::Same;
use crate::timing::{alternate, repeat, Call, Job, Times, CALLS};

/// A ratio of the best times and one of the medians.
#[derive(Clone, Copy)]
struct Ratio {
    best: f64,
    median: f64,
}

impl Ratio {
    fn of(a: Times, b: Times) -> Ratio {
        Ratio { best: a.best / b.best, median: a.median / b.median }
    }

    fn cell(self) -> String {
        let places = if self.best < 0.0995 { 4 } else { 2 };
        format!("{:.*} ({:.*})", places, self.best, places, self.median)
    }
}

/// One line of a table: the library's time over the time of `same` and of `plain`, for each cycle.
struct Line {
    signals: usize,
    same: [Ratio; CYCLES.len()],
    plain: [Ratio; CYCLES.len()],
}

/// The times of the library, of `same` and of `plain` on one set of cases.
fn programs(call: Call, cases: &mut [Vec<Case>; 1]) -> Vec<Times> {
    let programs = [repeat::<Library>, repeat::<Same>, repeat::<Plain>];
    alternate(&programs.map(|program| Job { program, call, set: 0 }), cases)
}

fn line(call: Call, signals: usize, reds: Reds) -> Line {
    let times = CYCLES.map(|cycle| programs(call, &mut [streets(signals, cycle, reds)]));
    let over = |other: usize| [0, 1, 2].map(|cycle: usize| Ratio::of(times[cycle][0], times[cycle][other]));
    Line { signals, same: over(1), plain: over(2) }
}

fn cells(ratios: &[Ratio]) -> String {
    ratios.iter().map(|ratio| ratio.cell()).collect::<Vec<_>>().join(" | ")
}

/// Prints one call's table and gives its lines.
fn table(call: Call) -> Vec<Line> {
    println!("**{}**\n", call.name());
    println!("| n | reds | same, C = 10 | C = 650 | C = 6,000 | plain, C = 10 | C = 650 | C = 6,000 |");
    println!("|---|---|---|---|---|---|---|---|");
    let mut lines = Vec::new();
    for signals in SIGNALS {
        for reds in REDS {
            let line = line(call, signals, reds);
            println!("| {} | {} | {} | {} |", signals, reds.name(), cells(&line.same), cells(&line.plain));
            lines.push(line);
        }
    }
    println!();
    lines
}

/// Prints how the measure's time at the two longer cycles compares with that at the shortest.
fn cycles() {
    println!("**The measure's time over its time at C = 10**\n");
    println!("| n | reds | C = 650 | C = 6,000 |\n|---|---|---|---|");
    for signals in SIGNALS {
        for reds in REDS {
            let jobs = [0, 1, 2].map(|set| Job { program: repeat::<Library>, call: Call::Measure, set });
            let times = alternate(&jobs, &mut CYCLES.map(|cycle| streets(signals, cycle, reds)));
            let ratios = [Ratio::of(times[1], times[0]), Ratio::of(times[2], times[0])];
            println!("| {} | {} | {} |", signals, reds.name(), cells(&ratios));
        }
    }
    println!();
}

/// The greatest ratio of the best times among the lines that a goal is about.
fn greatest(lines: &[Line], about: impl Fn(&Line) -> bool, ratios: impl Fn(&Line) -> [Ratio; 3]) -> f64 {
    lines.iter().filter(|line| about(line)).flat_map(ratios).map(|ratio| ratio.best).fold(0.0, f64::max)
}

fn summary(all: &[Vec<Line>]) {
    println!("**The greatest ratio of the best times in each table**\n");
    let names: Vec<&str> = CALLS.iter().map(|call| call.name()).collect();
    println!("| Against | {} |\n|---{}|", names.join(" | "), "|---".repeat(names.len()));
    let most = *SIGNALS.last().unwrap_or(&0);
    let row = |name: &str, worst: &dyn Fn(&[Line]) -> f64| {
        let cells: Vec<String> = all.iter().map(|lines| format!("{:.3}", worst(lines))).collect();
        println!("| {} | {} |", name, cells.join(" | "));
    };
    for signals in SIGNALS {
        let goal = if signals < 10 { 1.5 } else { 1.1 };
        let name = format!("same, n = {}; goal {}", signals, goal);
        row(&name, &|lines| greatest(lines, |line| line.signals == signals, |line| line.same));
    }
    let name = format!("plain, n = {}; goal of the plans 0.35", most);
    row(&name, &|lines| greatest(lines, |line| line.signals == most, |line| line.plain));
    println!();
}

/// Prints the best time of one call in nanoseconds, which means something on the machine's own processor alone.
pub fn times() {
    println!("**Nanoseconds of one call, C = 650, wide reds**\n");
    println!("| Call | n | library | same | plain |\n|---|---|---|---|---|");
    for call in CALLS {
        for signals in SIGNALS {
            let times = programs(call, &mut [streets(signals, CYCLE, Reds::Wide)]);
            let cells: Vec<String> = times.iter().map(|time| format!("{:.0}", time.best)).collect();
            println!("| {} | {} | {} |", call.name(), signals, cells.join(" | "));
        }
    }
    println!();
}

pub fn ratios() {
    let all: Vec<Vec<Line>> = CALLS.iter().map(|&call| table(call)).collect();
    cycles();
    summary(&all);
}
