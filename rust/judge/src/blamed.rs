//! The setting on a line that a refusal blames.

use crate::reference::lines::{header, lines, shape, Shape};
use crate::reference::Dialect;

/// A setting: the name of its group, its key, and where its value stands in the file.
#[derive(Clone, Debug, PartialEq, Eq)]
pub struct Blamed {
    pub group: String,
    pub key: String,
    pub start: usize,
    pub length: usize,
}

/// The setting on a line of a file, whose lines above it are sound; none where the line is no setting.
pub fn blamed(dialect: Dialect, file: &[u8], number: usize) -> Option<Blamed> {
    let mut group = String::new();
    for line in lines(file).into_iter().take(number) {
        match shape(dialect, &line) {
            Shape::Bracketed(text) => group = header(text).unwrap_or_default().to_string(),
            Shape::Setting { key, value, start } if line.number == number => {
                return Some(Blamed {
                    group,
                    key: String::from_utf8_lossy(key).into_owned(),
                    start,
                    length: value.len(),
                })
            }
            _ => {}
        }
    }
    None
}
