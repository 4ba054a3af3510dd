//! Which outcomes the cases expected: for each entry, how often it had to
//! accept and how often each number had to be given. A run of all groups in
//! which an outcome of documents 01 and 02 never came up would say too little, and one
//! in which another came up would say something wrong.

use reference::call::{Call, Reply, REFUSED};

/// Each entry with the questions that can stop it. Since request E2 question 5 stops
/// neither solve nor kernel.
const ENTRIES: [(&str, &[usize]); 6] = [
    ("check", &[2, 3, 4, 5, 6, 7, 8, 9, 10]),
    ("push", &[2, 3, 4, 5, 6, 7, 8, 9, 10, 12]),
    ("solve", &[1, 2, 3, 4, 6, 7, 11]),
    ("kernel", &[1, 2, 3, 4, 6, 7, 8, 11]),
    ("name", &[3, 5, 7]),
    ("compose", &[1, 2, 3, 4, 5, 6, 7, 8, 9, 10, 13, 14]),
];

/// Counts by entry and number; number 0 stands for accepting.
#[derive(Clone, Default)]
pub struct Coverage {
    counts: [[u64; 15]; ENTRIES.len()],
    /// Chains that all ways make, that they refuse with one number, and with several.
    chains: [u64; 3],
}

impl Coverage {
    pub fn record(&mut self, call: &Call, expected: &Reply) {
        let refused = expected.number.saturating_sub(REFUSED);
        let (entry, number) = match call {
            Call::Check { .. } => (0, expected.number),
            Call::Push { .. } => (1, refused),
            Call::Solve { .. } => (2, refused),
            Call::Kernel { .. } => (3, refused),
            Call::Name { .. } => (4, refused),
            Call::Compose { .. } => (5, refused),
        };
        self.counts[entry][number as usize] += 1;
    }

    /// The number that each way to join a chain is to get, 0 for none.
    pub fn record_ways(&mut self, numbers: &[u32]) {
        let alike = numbers.iter().all(|number| *number == numbers[0]);
        let place = match numbers[0] {
            0 if alike => 0,
            _ if alike => 1,
            _ => 2,
        };
        self.chains[place] += 1;
    }

    pub fn merge(&mut self, other: &Coverage) {
        let all = self.counts.iter_mut().flatten().chain(&mut self.chains);
        all.zip(other.counts.iter().flatten().chain(&other.chains))
            .for_each(|(sum, count)| *sum += count);
    }

    /// One line for each entry, and one for chains.
    pub fn lines(&self) -> Vec<String> {
        let rows = ENTRIES.iter().zip(&self.counts);
        let lines = rows.map(|((name, asked), counts)| {
            let refusals = asked.iter().map(|&n| format!("{n}: {}", counts[n]));
            let refusals: Vec<String> = refusals.collect();
            let accepted = counts[0];
            format!(
                "{name}: accepts {accepted}, refuses {}",
                refusals.join(", ")
            )
        });
        let [made, one, several] = self.chains;
        let chains = format!(
            "chains: {made} made in every way, {one} refused with one number, {several} with several"
        );
        lines.chain([chains]).collect()
    }

    /// Whether every outcome came up.
    pub fn is_complete(&self) -> bool {
        let mut rows = ENTRIES.iter().zip(&self.counts);
        rows.all(|((_, asked), counts)| counts[0] > 0 && asked.iter().all(|&n| counts[n] > 0))
            && self.chains.iter().all(|&count| count > 0)
    }

    /// What was expected of an entry and cannot be right, as "solve: 5".
    pub fn impossible(&self) -> Vec<String> {
        let mut found = Vec::new();
        for ((name, asked), counts) in ENTRIES.iter().zip(&self.counts) {
            let met = (1..counts.len()).filter(|&n| counts[n] > 0);
            let wrong = met.filter(|n| !asked.contains(n));
            found.extend(wrong.map(|n| format!("{name}: {n}")));
        }
        found
    }
}
