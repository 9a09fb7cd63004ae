//! The two buffers that a writing function is lent: full of dots before, and shown whole behind its answer.

use crate::ask::zero;
use crate::show::{unused, Lines};
use crate::written::{encoded, number};
use qewaris::raw;

pub struct Rooms {
    pub name: Vec<u8>,
    pub file: Vec<u8>,
}

impl Rooms {
    /// Buffers of the lengths that a case gives in decimal digits.
    pub fn new(name: &[u8], file: &[u8]) -> Result<Rooms, String> {
        let dots = |length| Some(vec![b'.'; number(length)?]);
        match (dots(name), dots(file)) {
            (Some(name), Some(file)) => Ok(Rooms { name, file }),
            _ => Err("the length of a buffer is missing".to_string()),
        }
    }

    /// The answer, `good` with the two counts or `refused` with the number and the line, and all bytes of the two buffers.
    pub fn show(&self, lines: &mut Lines, told: raw::Written) {
        let refused = raw::Written {
            line: told.line,
            number: told.number,
            ..zero()
        };
        match told.number {
            0 => lines.say(&format!("good {} {}", told.name_len, told.file_len)),
            number => lines.say(&format!("refused {number} {}{}", told.line, unused(told == refused))),
        }
        lines.key("name", &encoded(&self.name));
        lines.key("file", &encoded(&self.file));
    }
}
