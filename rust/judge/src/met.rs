//! A table of what the cases are to meet: how often each sign was met in each place, in print, and which never was.

use std::fmt::Write;

/// What is looked for in some bytes, by name.
pub type Sign = (&'static str, fn(&[u8]) -> bool);

/// Rows are places, columns are signs; every sign is to be met in every place.
#[derive(Clone, Debug)]
pub struct Met {
    title: &'static str,
    places: Vec<&'static str>,
    signs: Vec<Sign>,
    counts: Vec<Vec<u64>>,
}

impl Met {
    /// The table in which nothing is met yet.
    pub fn new(title: &'static str, places: Vec<&'static str>, signs: Vec<Sign>) -> Met {
        let counts = vec![vec![0; signs.len()]; places.len()];
        Met {
            title,
            places,
            signs,
            counts,
        }
    }

    /// A table of things that are each met or not, with one column; they are counted with no bytes.
    pub fn events(title: &'static str, events: &[&'static str]) -> Met {
        Met::new(title, events.to_vec(), vec![("times", |_| true)])
    }

    /// Counts the signs that the bytes at a place have.
    pub fn add(&mut self, place: usize, bytes: &[u8]) {
        for (count, (_, holds)) in self.counts[place].iter_mut().zip(&self.signs) {
            *count += u64::from(holds(bytes));
        }
    }

    /// Adds the counts of another table of the same places and signs.
    pub fn merge(&mut self, other: &Met) {
        let pairs = self.counts.iter_mut().flatten().zip(other.counts.iter().flatten());
        pairs.for_each(|(count, more)| *count += more);
    }

    /// The table in print.
    pub fn print(&self) -> String {
        let mut text = format!("{:<34}", self.title);
        for (sign, _) in &self.signs {
            let _ = write!(text, "{sign:>14}");
        }
        for (place, row) in self.places.iter().zip(&self.counts) {
            let _ = write!(text, "\n{place:<34}");
            for count in row {
                let _ = write!(text, "{count:>14}");
            }
        }
        text
    }

    /// The signs that were never met, and where.
    pub fn faults(&self) -> Vec<String> {
        let mut faults = Vec::new();
        for (place, row) in self.places.iter().zip(&self.counts) {
            for ((sign, _), _) in self.signs.iter().zip(row).filter(|(_, count)| **count == 0) {
                faults.push(format!("{}: {sign} was never met in {place}", self.title));
            }
        }
        faults
    }
}
