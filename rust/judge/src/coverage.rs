//! How often each entry point gave each answer, and whether every answer that can occur did; then how large what was written was, and
//! which escapes and which IPv6 addresses were met.

use crate::case::Case;
use crate::entry::{Entry, ENTRIES};
use crate::escapes::Escapes;
use crate::ipv6::Addresses;
use crate::judged::Answers;
use crate::sizes::Sizes;
use std::fmt::Write;

/// The numbers of answers: 0 to 19.
const NUMBERS: usize = 20;

/// Rows are entry points, columns are numbers.
#[derive(Clone, Debug, Default)]
pub struct Table {
    counts: [[u64; NUMBERS]; ENTRIES.len()],
    sizes: Sizes,
    escapes: Escapes,
    addresses: Addresses,
}

impl Table {
    /// Counts the answers to a case; a number above 19 counts for none.
    pub fn add(&mut self, case: &Case, answers: &Answers) {
        self.sizes.add(answers);
        self.escapes.add(case, answers);
        self.addresses.add(case, answers);
        for (entry, outcome) in answers {
            if let Some(count) = self.counts[*entry as usize].get_mut(usize::from(outcome.answer.number())) {
                *count += 1;
            }
        }
    }

    /// Adds another table's counts.
    pub fn merge(&mut self, other: &Table) {
        self.sizes.merge(&other.sizes);
        self.escapes.merge(&other.escapes);
        self.addresses.merge(&other.addresses);
        let pairs = self.counts.iter_mut().flatten().zip(other.counts.iter().flatten());
        pairs.for_each(|(count, more)| *count += more);
    }

    pub fn count(&self, entry: Entry, number: usize) -> u64 {
        self.counts[entry as usize][number]
    }

    /// The table in print; a dot is an answer that cannot occur and did not.
    pub fn print(&self) -> String {
        let mut text = format!("{:<28}", "answer");
        for number in 0..NUMBERS {
            let _ = write!(text, "{number:>8}");
        }
        for entry in ENTRIES {
            let _ = write!(text, "\n{:<28}", entry.name());
            for number in 0..NUMBERS {
                let count = self.count(entry, number);
                let cell = if count == 0 && !entry.can_answer(number) {
                    ".".to_string()
                } else {
                    count.to_string()
                };
                let _ = write!(text, "{cell:>8}");
            }
        }
        [text, self.sizes.print(), self.escapes.print(), self.addresses.print()].join("\n\n")
    }

    /// The answers that can occur and did not, those that cannot and did, and the faults of the sizes, the escapes and the addresses.
    pub fn faults(&self) -> Vec<String> {
        let cells = ENTRIES.iter().flat_map(|&entry| (0..NUMBERS).map(move |number| (entry, number)));
        let wrong = cells.filter(|&(entry, number)| entry.can_answer(number) != (self.count(entry, number) > 0));
        wrong
            .map(|(entry, number)| format!("{} answered {number} {} times", entry.name(), self.count(entry, number)))
            .chain(self.sizes.faults())
            .chain(self.escapes.faults())
            .chain(self.addresses.faults())
            .collect()
    }
}
