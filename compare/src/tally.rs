//! Counts under names, each with the least that a run must have counted to be worth anything.

pub struct Tally {
    rows: Vec<(String, usize, usize)>,
}

impl Tally {
    /// The names to count and how often each must be noted at least.
    pub fn of<N: ToString>(wanted: &[(N, usize)]) -> Tally {
        Tally { rows: wanted.iter().map(|(name, least)| (name.to_string(), *least, 0)).collect() }
    }

    pub fn note(&mut self, name: &str, holds: bool) {
        let row = self.rows.iter_mut().find(|row| row.0 == name);
        let (_, _, count) = row.unwrap_or_else(|| panic!("nothing is counted under `{name}`"));
        *count += usize::from(holds);
    }

    /// Prints each count, and fails where one is below its least.
    pub fn close(&self) {
        for (name, _, count) in &self.rows {
            println!("{count:7} {name}");
        }
        let gaps = self.rows.iter().filter(|(_, least, count)| count < least);
        let gaps: Vec<String> = gaps.map(|(name, least, _)| format!("fewer than {least} {name}")).collect();
        assert!(gaps.is_empty(), "this run shows too little: {}", gaps.join("; "));
    }
}
