//! Each file that was asked for, as it was read, or why it was not; and how all of them came out.

use crate::catalogue::counted;
use crate::input::{unreadable, Input};
use crate::output::Output;
use crate::report::shown_path;
use crate::walk::{Found, Reason};
use crate::Outcome;
use std::collections::BTreeMap;
use std::io;
use std::path::{Path, PathBuf};

pub enum Item {
    Read(Input),
    Skipped(PathBuf, Reason),
    /// With the sentence that says why it could not be read.
    Failed(PathBuf, String),
    /// A folder that was named and has no network file, with a sentence.
    Empty(PathBuf, String),
}

impl Item {
    /// Reads what was found. The verb says what was to be done with it.
    pub fn of(found: Found, verb: &str) -> Item {
        let (path, read) = match found {
            Found::Skipped(path, reason) => return Item::Skipped(path, reason),
            Found::Empty(path) => {
                let sentence = format!("{} has no iwd or ConnMan file in it: nothing to {verb}", shown_path(&path));
                return Item::Empty(path, sentence);
            }
            Found::Unreadable(path, error) => (path, Err(error)),
            Found::File(path) => {
                let read = Input::read(&path);
                (path, read)
            }
            Found::Standard(name) => {
                let read = Input::standard(&name);
                (name, read)
            }
        };
        match read {
            Ok(input) => Item::Read(input),
            Err(error) => {
                let sentence = unreadable(&path, &error);
                Item::Failed(path, sentence)
            }
        }
    }
}

/// How many files came out how, and the names of those that did not pass.
#[derive(Default)]
pub struct Tally {
    pub good: usize,
    pub refused: usize,
    pub unreadable: usize,
    pub skipped: BTreeMap<Reason, usize>,
    pub warnings: usize,
    /// How many files have a warning.
    pub warned: usize,
    failed: Vec<PathBuf>,
}

impl Tally {
    /// How many files there were.
    pub fn files(&self) -> usize {
        self.good + self.refused + self.unreadable
    }

    pub fn skipped(&self) -> usize {
        self.skipped.values().sum()
    }

    pub fn skip(&mut self, reason: Reason) {
        *self.skipped.entry(reason).or_default() += 1;
    }

    pub fn refuse(&mut self, path: &Path) {
        self.refused += 1;
        self.fail(path);
    }

    pub fn lose(&mut self, path: &Path) {
        self.unreadable += 1;
        self.fail(path);
    }

    /// Counts the warnings of a file, which do not let it pass where they are strict.
    pub fn warn(&mut self, path: &Path, count: usize, strict: bool) {
        self.warnings += count;
        self.warned += usize::from(count > 0);
        if strict && count > 0 {
            self.fail(path);
        }
    }

    fn fail(&mut self, path: &Path) {
        if self.failed.last().is_none_or(|last| last != path) {
            self.failed.push(path.to_path_buf());
        }
    }

    pub fn outcome(&self) -> Outcome {
        match (self.unreadable, self.failed.len()) {
            (0, 0) => Outcome::Good,
            (0, _) => Outcome::Refused,
            _ => Outcome::Unreadable,
        }
    }

    /// The line that counts the files.
    pub fn summary(&self) -> String {
        let Tally {
            good, refused, unreadable, ..
        } = self;
        format!(
            "{good} good, {refused} refused, {unreadable} unreadable, {} skipped",
            self.skipped()
        )
    }

    /// The line that counts what was skipped.
    pub fn skipped_line(&self) -> String {
        let counts: Vec<String> = self.skipped.iter().map(|(reason, count)| counted(*count, reason.thing())).collect();
        format!("skipped: {}; --verbose names each", counts.join(", "))
    }

    /// Names every file of several that did not pass, where errors go.
    pub fn name_failed(&self, output: &mut Output) -> io::Result<()> {
        if self.failed.is_empty() || self.files() < 2 {
            return Ok(());
        }
        let names: Vec<String> = self.failed.iter().map(|path| shown_path(path)).collect();
        let count = format!("{} of {}", names.len(), counted(self.files(), "file"));
        output.error(&format!("{count} did not pass: {}", names.join(", ")))
    }
}
