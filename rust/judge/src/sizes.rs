//! How often the functions that write met the largest name and the largest file, and whether each met both and passed neither.

use crate::answer::Answer;
use crate::entry::Entry;
use crate::judged::Answers;
use crate::reference::writer::{FILE_MAX, NAME_MAX};
use std::cmp::Ordering;
use std::fmt::Write;

/// The entry points that write.
const WRITERS: [Entry; 2] = [Entry::WriteIwd, Entry::MoveService];

/// What they write, and the most bytes that it has.
const LARGEST: [(&str, usize); 2] = [("name", NAME_MAX), ("file", FILE_MAX)];

/// How often something written had one byte less than the most, the most, and more.
#[derive(Clone, Copy, Debug, Default)]
struct Met {
    near: u64,
    exactly: u64,
    longer: u64,
}

impl Met {
    fn add(&mut self, length: usize, most: usize) {
        match length.cmp(&most) {
            Ordering::Less => self.near += u64::from(length + 1 == most),
            Ordering::Equal => self.exactly += 1,
            Ordering::Greater => self.longer += 1,
        }
    }

    fn merge(&mut self, other: &Met) {
        self.near += other.near;
        self.exactly += other.exactly;
        self.longer += other.longer;
    }
}

/// Rows are the entry points that write, columns the name and the file.
#[derive(Clone, Debug, Default)]
pub struct Sizes {
    met: [[Met; LARGEST.len()]; WRITERS.len()],
}

impl Sizes {
    /// Counts what the answers to a case wrote; the lengths of a refusal are 0.
    pub fn add(&mut self, answers: &Answers) {
        for (entry, outcome) in answers {
            let writer = WRITERS.iter().position(|writer| writer == entry);
            if let (Some(writer), Answer::Written { written, .. }) = (writer, &outcome.answer) {
                for (place, length) in [written.name_len, written.file_len].into_iter().enumerate() {
                    self.met[writer][place].add(length, LARGEST[place].1);
                }
            }
        }
    }

    /// Adds the counts of others.
    pub fn merge(&mut self, other: &Sizes) {
        let pairs = self.met.iter_mut().flatten().zip(other.met.iter().flatten());
        pairs.for_each(|(met, more)| met.merge(more));
    }

    /// The counts in print.
    pub fn print(&self) -> String {
        let mut text = format!("{:<28}", "bytes written");
        for (what, most) in LARGEST {
            for cell in [format!("{what} {}", most - 1), format!("{what} {most}"), "longer".to_string()] {
                let _ = write!(text, "{cell:>10}");
            }
        }
        for (writer, row) in WRITERS.iter().zip(&self.met) {
            let _ = write!(text, "\n{:<28}", writer.name());
            for count in row.iter().flat_map(|met| [met.near, met.exactly, met.longer]) {
                let _ = write!(text, "{count:>10}");
            }
        }
        text
    }

    /// What was never as large as it can be, and what was larger.
    pub fn faults(&self) -> Vec<String> {
        let mut faults = Vec::new();
        for (writer, row) in WRITERS.iter().zip(&self.met) {
            for (met, (what, most)) in row.iter().zip(LARGEST) {
                if met.exactly == 0 {
                    faults.push(format!("{} wrote no {what} of {most} bytes", writer.name()));
                }
                if met.longer > 0 {
                    faults.push(format!(
                        "{} wrote a {what} of more than {most} bytes {} times",
                        writer.name(),
                        met.longer
                    ));
                }
            }
        }
        faults
    }
}
