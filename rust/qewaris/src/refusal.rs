//! Refusals: a number, a line and a plain sentence.

use crate::raw;
use std::error::Error;
use std::fmt;

/// Why something is refused. The numbers are those of the library's table of answers.
#[derive(Clone, Copy, Debug, PartialEq, Eq, Hash)]
#[repr(u8)]
#[non_exhaustive]
pub enum Reason {
    Size = raw::SIZE,
    FileName = raw::FILE_NAME,
    Unrecognized = raw::UNRECOGNIZED,
    Extension = raw::EXTENSION,
    BadHeader = raw::BAD_HEADER,
    UnknownGroup = raw::UNKNOWN_GROUP,
    RepeatedGroup = raw::REPEATED_GROUP,
    NoGroup = raw::NO_GROUP,
    UnknownKey = raw::UNKNOWN_KEY,
    RepeatedKey = raw::REPEATED_KEY,
    ValueText = raw::VALUE_TEXT,
    ValueKind = raw::VALUE_KIND,
    ManyServices = raw::MANY_SERVICES,
    Missing = raw::MISSING,
    Contradiction = raw::CONTRADICTION,
    NoPlace = raw::NO_PLACE,
    ShortBuffer = raw::SHORT_BUFFER,
    NoService = raw::NO_SERVICE,
    Malformed = raw::MALFORMED,
}

/// The reasons with their sentences, in the order of their numbers from 1.
const REASONS: [(Reason, &str); 19] = [
    (Reason::Size, "the file has more than 16,384 bytes"),
    (Reason::FileName, "the file name breaks its rule"),
    (Reason::Unrecognized, "the line is not blank, a comment, a header or a setting"),
    (Reason::Extension, "extension blocks are not taken"),
    (Reason::BadHeader, "the line starts with [ but is no header"),
    (Reason::UnknownGroup, "there is no such group"),
    (Reason::RepeatedGroup, "the group is named a second time"),
    (Reason::NoGroup, "the setting stands before any group"),
    (Reason::UnknownKey, "the key is not one of its group's"),
    (Reason::RepeatedKey, "the key is given a second time in its group"),
    (Reason::ValueText, "the value is not UTF-8, holds byte 0 or 13, or has a bad escape"),
    (Reason::ValueKind, "the value is not of its key's kind"),
    (Reason::ManyServices, "there are more than eight services"),
    (Reason::Missing, "something that is needed is missing"),
    (Reason::Contradiction, "two settings contradict each other"),
    (Reason::NoPlace, "iwd has no place for it"),
    (Reason::ShortBuffer, "a buffer is too short"),
    (Reason::NoService, "there is no service with this number"),
    (Reason::Malformed, "the record is malformed"),
];

impl Reason {
    /// The number, from 1 to 19.
    pub fn number(self) -> u8 {
        self as u8
    }

    /// What the refusal says, as a plain sentence without its full stop.
    pub fn sentence(self) -> &'static str {
        REASONS[self as usize - 1].1
    }
}

/// A refusal: its reason, and the line that is to blame where there is one.
#[derive(Clone, Copy, Debug, PartialEq, Eq, Hash)]
pub struct Refusal {
    reason: Reason,
    line: usize,
}

impl Refusal {
    /// The refusal of an answer of the archive, if its number is one.
    pub(crate) fn of(number: u8, line: usize) -> Option<Refusal> {
        let place = usize::from(number).checked_sub(1)?;
        let (reason, _) = REASONS[place];
        Some(Refusal { reason, line })
    }

    /// A record that does not fit the archive's struct, and so is malformed.
    pub(crate) const MALFORMED: Refusal = Refusal {
        reason: Reason::Malformed,
        line: 0,
    };

    pub fn reason(&self) -> Reason {
        self.reason
    }

    /// The number, from 1 to 19.
    pub fn number(&self) -> u8 {
        self.reason.number()
    }

    /// The line that is to blame, counted from 1; none where the whole file, a record or a buffer is.
    pub fn line(&self) -> Option<usize> {
        (self.line > 0).then_some(self.line)
    }
}

impl fmt::Display for Refusal {
    fn fmt(&self, f: &mut fmt::Formatter<'_>) -> fmt::Result {
        if let Some(line) = self.line() {
            write!(f, "line {line}: ")?;
        }
        write!(f, "{} [{}]", self.reason.sentence(), self.number())
    }
}

impl Error for Refusal {}

/// What was asked for, or the refusal that an answer's number and line are.
pub(crate) fn answered<T>(number: u8, line: usize, found: impl FnOnce() -> T) -> Result<T, Refusal> {
    match Refusal::of(number, line) {
        Some(refusal) => Err(refusal),
        None => Ok(found()),
    }
}

#[cfg(test)]
mod tests {
    use super::*;

    #[test]
    fn the_table_is_in_the_order_of_the_numbers() {
        for (place, (reason, _)) in REASONS.iter().enumerate() {
            assert_eq!(usize::from(reason.number()), place + 1);
            assert_eq!(Refusal::of(reason.number(), 0).map(|r| r.reason()), Some(*reason));
        }
        assert_eq!(Refusal::of(0, 0), None);
    }

    #[test]
    fn a_refusal_is_one_sentence_with_its_line_and_number() {
        let refusal = Refusal::of(9, 4).unwrap();
        assert_eq!(refusal.to_string(), "line 4: the key is not one of its group's [9]");
        assert_eq!(Refusal::of(2, 0).unwrap().to_string(), "the file name breaks its rule [2]");
    }
}
