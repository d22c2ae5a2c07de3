//! A count of what a run compared, and what a run must have compared to be worth anything.

use crate::equal::{Pairs, Plan};
use crate::resting::{holds, Resting};
use crate::sheet::read;
use crate::street::Refusal;

#[derive(Default)]
pub struct Coverage {
    pub sheets: usize,
    pub accepted: usize,
    /// By code; the entry 0 stays 0.
    pub refused: [usize; 8],
    pub twenty: usize,
    pub negative: usize,
    pub none: usize,
    pub rounded: usize,
    pub reference_after_1: usize,
    pub tied: usize,
    pub touching: usize,
    pub resting: usize,
    pub all_resting: usize,
}

impl Coverage {
    /// Counts a sheet and the model's reply to it.
    pub fn add(&mut self, sheet: &[u8], reply: &Result<Plan, Refusal>) {
        self.sheets += 1;
        match reply {
            Ok(plan) => self.add_plan(sheet, plan),
            Err(refusal) => self.refused[refusal.code as usize] += 1,
        }
    }

    fn add_plan(&mut self, sheet: &[u8], plan: &Plan) {
        let street = read(sheet).expect("a planned sheet reads");
        let pairs = Pairs::of(&street);
        let ties = pairs.leasts().iter().filter(|&&least| least == plan.best).count();
        self.accepted += 1;
        self.twenty += usize::from(street.signals() >= 20);
        self.negative += usize::from(plan.best < 0);
        self.none += usize::from(plan.best == 0);
        self.rounded += usize::from(plan.not_whole > 0);
        self.reference_after_1 += usize::from(plan.reference > 1);
        self.tied += usize::from(ties > 1);
        self.touching += usize::from(pairs.touches());
        self.resting += usize::from(street.reds.contains(&0));
        self.all_resting += usize::from(holds(&street, Resting::All));
    }

    pub fn print(&self) {
        println!("{} sheets, {} of them planned", self.sheets, self.accepted);
        println!(
            "planned: {} with 20 signals or more, {} with a negative B, {} with B 0",
            self.twenty, self.negative, self.none
        );
        println!(
            "planned: {} with a rounded time, {} with a reference after signal 1",
            self.rounded, self.reference_after_1
        );
        println!("planned: {} with tied candidates, {} with touching trajectories", self.tied, self.touching);
        println!("planned: {} with a red of 0, {} with no other red", self.resting, self.all_resting);
        let codes: Vec<String> =
            (1..8).map(|code| format!("{} by code {code}", self.refused[code])).collect();
        println!("refused: {}", codes.join(", "));
    }

    /// What this run left out, in words; empty when it compared enough of everything.
    pub fn gaps(&self) -> Vec<String> {
        let mut gaps = vec![];
        let mut want = |holds: bool, gap: &str| {
            if !holds {
                gaps.push(gap.to_string());
            }
        };
        want(self.sheets >= 20_000, "fewer than 20,000 sheets");
        want(3 * self.accepted >= self.sheets, "fewer than a third of the sheets were planned");
        want(
            10 * self.twenty >= self.sheets,
            "fewer than a tenth of the sheets were planned with 20 signals or more",
        );
        for code in 1..8 {
            want(self.refused[code] > 0, &format!("no sheet was refused by code {code}"));
        }
        want(self.negative > 0, "no B was negative");
        want(self.none > 0, "no B was 0");
        want(self.rounded > 0 && self.rounded < self.accepted, "not both whole and rounded times");
        want(self.reference_after_1 > 0, "signal 1 was always the reference");
        want(self.tied > 0, "no candidates tied");
        want(self.touching > 0, "no trajectories touched");
        want(
            20 * self.resting >= self.sheets,
            "fewer than a twentieth of the sheets were planned with a red of 0",
        );
        want(self.all_resting > 0, "no sheet was planned with every red 0");
        gaps
    }
}
