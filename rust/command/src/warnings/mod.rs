//! Warnings: what the library accepts and a till does not do with what was meant.

mod iwd;
mod services;
mod table;
#[cfg(test)]
mod tests;
mod values;

pub use table::{by_name, Row, Word, TABLE};

use crate::catalogue::Dialect;
use crate::diagnosis::filled;
use crate::input::Input;

/// A warning about a file.
#[derive(Clone, Debug, PartialEq, Eq)]
pub struct Warning {
    pub word: Word,
    pub line: Option<usize>,
    /// The number of the ConnMan service that it is about.
    pub service: Option<usize>,
    pub sentence: String,
    /// Whether it concerns only the file that the service becomes.
    pub when_moved: bool,
}

impl Warning {
    pub fn new(word: Word, line: Option<usize>, parts: &[(&str, String)]) -> Warning {
        let sentence = filled(word.row().sentence, parts);
        Warning {
            word,
            line,
            service: None,
            sentence: sentence.unwrap_or_else(|| word.row().title.to_string()),
            when_moved: false,
        }
    }

    /// The same, if the service moves.
    pub fn once_moved(self) -> Warning {
        Warning { when_moved: true, ..self }
    }
}

/// All warnings about a file that the library accepts, in the order of its lines.
pub fn found_in(input: &Input) -> Vec<Warning> {
    let (name, file) = (input.name.as_slice(), input.bytes.as_slice());
    let mut found = match input.dialect() {
        Dialect::Iwd => iwd::warnings(name, file),
        Dialect::Connman => services::warnings(name, file),
    };
    found.sort_by_key(|warning| (warning.line, warning.word));
    found
}

/// The warnings about a file as it stands.
pub fn of_file(input: &Input) -> Vec<Warning> {
    found_in(input).into_iter().filter(|warning| !warning.when_moved).collect()
}
