//! Samples of time: each is a loop of many calls, the programs take turns, and of each the best and the median count.

use crate::calls::Calls;
use crate::inputs::Case;
use std::arch::asm;
use std::time::{Duration, Instant};

pub const SAMPLES: usize = 101;
/// A sample is made this long, by repeating its calls.
pub const LENGTH: Duration = Duration::from_micros(200);

/// The timed calls.
#[derive(Clone, Copy, Debug)]
pub enum Call {
    Read,
    Equal,
    Moved,
    Measure,
    Write,
}

pub const CALLS: [Call; 5] = [Call::Read, Call::Equal, Call::Moved, Call::Measure, Call::Write];

impl Call {
    pub fn name(self) -> &'static str {
        match self {
            Call::Read => "Reading a sheet",
            Call::Equal => "The equal plan",
            Call::Moved => "A moved plan",
            Call::Measure => "The measure",
            Call::Write => "Writing a sheet",
        }
    }
}

/// Hides from the compiler what becomes of a value, so that no call is dropped or moved out of its loop.
#[inline(always)]
fn keep<T>(value: &mut T) {
    // SAFETY: there is no instruction, only a pointer that the compiler must take to be used.
    unsafe { asm!("/* {0} */", in(reg) value as *mut T as *mut u8, options(nostack, preserves_flags)) }
}

/// Makes one call of a program on every case, `rounds` times.
#[inline(never)]
pub fn repeat<T: Calls>(call: Call, cases: &mut [Case], rounds: usize) {
    for _ in 0..rounds {
        for case in cases.iter_mut() {
            keep(case);
            let Case { cycle, reds, distances, out, back, .. } = case;
            match call {
                Call::Read => keep(&mut T::read(&case.sheet)),
                Call::Equal => keep(&mut T::equal(*cycle, reds, distances, out, back, &mut case.lent)),
                Call::Moved => keep(&mut T::moved(*cycle, reds, distances, out, back, case.width, &mut case.lent)),
                Call::Measure => keep(&mut T::measure(*cycle, reds, distances, out, back, &case.measured)),
                Call::Write => keep(&mut T::write(*cycle, reds, distances, out, back, &mut case.bytes)),
            }
        }
    }
}

/// What is timed: a program's call on one of the sets of cases.
#[derive(Clone, Copy)]
pub struct Job {
    pub program: fn(Call, &mut [Case], usize),
    pub call: Call,
    pub set: usize,
}

/// The best and the median time of a call, in nanoseconds.
#[derive(Clone, Copy, Debug)]
pub struct Times {
    pub best: f64,
    pub median: f64,
}

fn sample(job: Job, sets: &mut [Vec<Case>], rounds: usize) -> Duration {
    let start = Instant::now();
    (job.program)(job.call, &mut sets[job.set], rounds);
    start.elapsed()
}

/// How many rounds make a sample long enough. Finding out warms the caches too.
fn rounds(job: Job, sets: &mut [Vec<Case>]) -> usize {
    let mut rounds = 1;
    while sample(job, sets, rounds) < LENGTH {
        rounds *= 2;
    }
    rounds
}

/// Times the jobs, which take turns; each turn begins with another one.
pub fn alternate(jobs: &[Job], sets: &mut [Vec<Case>]) -> Vec<Times> {
    let rounds: Vec<usize> = jobs.iter().map(|&job| rounds(job, sets)).collect();
    let mut all = vec![Vec::new(); jobs.len()];
    for turn in 0..SAMPLES {
        for k in (0..jobs.len()).map(|k| (k + turn) % jobs.len()) {
            let calls = rounds[k] * sets[jobs[k].set].len();
            all[k].push(sample(jobs[k], sets, rounds[k]).as_nanos() as f64 / calls as f64);
        }
    }
    all.into_iter().map(Times::of).collect()
}

impl Times {
    fn of(mut samples: Vec<f64>) -> Times {
        samples.sort_by(f64::total_cmp);
        Times { best: samples[0], median: samples[SAMPLES / 2] }
    }
}
