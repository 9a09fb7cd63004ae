//! The text of an IPv6 address: read as RFC 4291 section 2.2 has it, byte by byte and without looking back, and written in the form of
//! RFC 5952 section 4, "never with a dotted tail (house)".

use super::kind::address as dotted_address;
use std::cmp::Reverse;
use std::ops::Range;

/// The groups of an address, of two bytes each.
const GROUPS: usize = 8;

/// Where a reader stands in a text, by what it has just passed.
#[derive(Clone, Copy, Debug, PartialEq, Eq)]
enum State {
    /// Nothing yet.
    Start,
    /// One colon, with which the text begins: another must follow.
    FirstColon,
    /// So many digits of a group, the number that they are, and where they began.
    Group { digits: usize, number: u16, start: usize },
    /// The colon behind a group: another group must follow, or the second colon of `::`.
    Colon,
    /// `::`: a group may follow.
    Gap,
}

/// What a reader has passed: the bytes of the groups, and how many of them stood before `::`.
struct Reader<'a> {
    text: &'a [u8],
    bytes: Vec<u8>,
    gap: Option<usize>,
}

/// The address of a text, or none.
///
/// "The preferred form is x:x:x:x:x:x:x:x, where the 'x's are one to four hexadecimal digits of the eight 16-bit pieces of the address."
/// "The use of '::' indicates one or more groups of 16 bits of zeros. The '::' can only appear once in an address." "An alternative form
/// .. is x:x:x:x:x:x:d.d.d.d", where the tail is document 01's address, without leading zeros.
pub fn read(text: &[u8]) -> Option<[u8; 16]> {
    let mut reader = Reader {
        text,
        bytes: Vec::new(),
        gap: None,
    };
    let mut state = State::Start;
    for (place, &byte) in text.iter().enumerate() {
        state = match (state, byte) {
            (State::Group { start, .. }, b'.') => return reader.tail(start),
            (State::Start, b':') => State::FirstColon,
            (State::FirstColon | State::Colon, b':') => reader.open_gap()?,
            (State::Group { number, .. }, b':') => reader.close_group(number),
            (State::FirstColon, _) => return None,
            (State::Group { digits, number, start }, _) if digits < 4 => State::Group {
                digits: digits + 1,
                number: number * 16 + hex_digit(byte)?,
                start,
            },
            (State::Group { .. }, _) => return None,
            (State::Start | State::Colon | State::Gap, _) => State::Group {
                digits: 1,
                number: hex_digit(byte)?,
                start: place,
            },
        };
    }
    match state {
        State::Group { number, .. } => {
            reader.close_group(number);
        }
        State::Gap => {}
        State::Start | State::FirstColon | State::Colon => return None,
    }
    reader.address()
}

/// A digit "of either case".
fn hex_digit(byte: u8) -> Option<u16> {
    char::from(byte).to_digit(16).map(|digit| digit as u16)
}

impl Reader<'_> {
    fn open_gap(&mut self) -> Option<State> {
        self.gap.replace(self.bytes.len()).is_none().then_some(State::Gap)
    }

    fn close_group(&mut self, number: u16) -> State {
        self.bytes.extend(number.to_be_bytes());
        State::Colon
    }

    /// The address where everything from `start` on is a dotted tail.
    fn tail(mut self, start: usize) -> Option<[u8; 16]> {
        let tail = dotted_address(&self.text[start..])?;
        self.bytes.extend(tail);
        self.address()
    }

    /// The sixteen bytes: as they stand, or with zeros for one group or more where `::` stood.
    fn address(mut self) -> Option<[u8; 16]> {
        if let Some(gap) = self.gap {
            let zeros = 16_usize.checked_sub(self.bytes.len()).filter(|zeros| *zeros >= 2)?;
            self.bytes.splice(gap..gap, vec![0; zeros]);
        }
        self.bytes.try_into().ok()
    }
}

/// The one text of an address in RFC 5952's form. Of every run of two zero groups or more that `::` could stand for ("the symbol '::' MUST
/// NOT be used to shorten just one 16-bit 0 field") it takes the longest, and of equal ones the first: "the use of the symbol '::' MUST be
/// used to its maximum capability", and "when the length of the consecutive 16-bit 0 fields are equal .., the first sequence of zero bits
/// MUST be shortened".
pub fn write(address: [u8; 16]) -> Vec<u8> {
    let groups: [u16; GROUPS] = std::array::from_fn(|place| u16::from_be_bytes([address[2 * place], address[2 * place + 1]]));
    let runs = (0..GROUPS).flat_map(|start| (start + 2..=GROUPS).map(move |end| start..end));
    let zeros = runs.filter(|run| groups[run.clone()].iter().all(|group| *group == 0));
    let text = match zeros.max_by_key(|run: &Range<usize>| (run.len(), Reverse(run.start))) {
        Some(run) => format!("{}::{}", joined(&groups[..run.start]), joined(&groups[run.end..])),
        None => joined(&groups),
    };
    text.into_bytes()
}

/// "Leading zeros MUST be suppressed", and "the characters 'a' .. 'f' in an IPv6 address MUST be represented in lowercase".
fn joined(groups: &[u16]) -> String {
    groups.iter().map(|group| format!("{group:x}")).collect::<Vec<_>>().join(":")
}
