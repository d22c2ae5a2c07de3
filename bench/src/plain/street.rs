//! A street's checks, and its times as signed numbers.

use crate::calls::{Refusal, MAX_SIGNALS};

pub struct Street {
    pub signals: usize,
    pub cycle: i32,
    pub reds: [i32; MAX_SIGNALS],
    pub rounded: u32,
    /// The outbound and the inbound ticks of the links before each signal.
    out: [i32; MAX_SIGNALS],
    back: [i32; MAX_SIGNALS],
}

/// The first of the codes 2 to 7 that a plan over a lent list gets.
pub fn check(
    cycle: u32,
    reds: &[u32],
    distances: &[u32],
    out: &[u32],
    back: &[u32],
    lent: usize,
) -> Result<(), Refusal> {
    let n = reds.len();
    if n < 1 || n > MAX_SIGNALS || distances.len() != n || out.len() + 1 != n || back.len() + 1 != n {
        return Err((2, 0));
    }
    if lent < n {
        return Err((3, 0));
    }
    if cycle < 10 || cycle > 6_000 {
        return Err((4, 0));
    }
    for i in 0..n {
        if reds[i] >= cycle {
            return Err((5, i as u32 + 1));
        }
    }
    for i in 0..n {
        if distances[i] > 20_000_000 || i > 0 && distances[i] <= distances[i - 1] {
            return Err((6, i as u32 + 1));
        }
    }
    for k in 0..n - 1 {
        if out[k] < 1_000 || out[k] > 40_000 || back[k] < 1_000 || back[k] > 40_000 {
            return Err((7, k as u32 + 1));
        }
    }
    Ok(())
}

impl Street {
    /// The street of lists that pass the checks.
    pub fn of(cycle: u32, reds: &[u32], distances: &[u32], out: &[u32], back: &[u32]) -> Street {
        let mut s = Street {
            signals: reds.len(),
            cycle: cycle as i32,
            reds: [0; MAX_SIGNALS],
            rounded: 0,
            out: [0; MAX_SIGNALS],
            back: [0; MAX_SIGNALS],
        };
        for j in 0..reds.len() {
            s.reds[j] = reds[j] as i32;
        }
        for k in 0..out.len() {
            let length = distances[k + 1] - distances[k];
            s.out[k + 1] = s.out[k] + ((20 * length + out[k]) / (2 * out[k])) as i32;
            s.back[k + 1] = s.back[k] + ((20 * length + back[k]) / (2 * back[k])) as i32;
            if 10 * length % out[k] != 0 || 10 * length % back[k] != 0 {
                s.rounded += 1;
            }
        }
        s
    }

    /// Whether signal j has a red; else it rests in green.
    pub fn stops(&self, j: usize) -> bool {
        self.reds[j] > 0
    }

    /// H, the cycle in halves.
    pub fn halves(&self) -> i32 {
        2 * self.cycle
    }

    pub fn man(&self, z: i32) -> i32 {
        z.rem_euclid(self.halves())
    }

    /// t(i,j).
    pub fn t(&self, i: usize, j: usize) -> i32 {
        self.out[j] - self.out[i]
    }

    /// t'(i,j).
    pub fn t_back(&self, i: usize, j: usize) -> i32 {
        self.back[i] - self.back[j]
    }
}
