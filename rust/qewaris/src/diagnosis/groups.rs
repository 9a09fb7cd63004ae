//! Refusals 5, 6, 7 and 13: lines that start with `[`.

use super::{Blamed, Diagnosis};
use crate::catalogue::{counted, Dialect};
use crate::layout::{self, blanks, is_header_byte, Form};
use crate::messages::Message;
use std::ops::Range;

/// 5: what keeps the line from being a header.
pub fn bad_header(blamed: &Blamed<'_>) -> Option<Diagnosis> {
    let line = blamed.line;
    let start = blanks(line) + 1;
    let end = start + line.get(start..)?.iter().take_while(|byte| is_header_byte(**byte)).count();
    let found = match line.get(end) {
        None | Some(b'\r') => Diagnosis::new(Message::HeaderOpen).at(end),
        Some(b']') if end == start => Diagnosis::new(Message::HeaderEmpty).at(end),
        Some(b']') => {
            let behind = end + 1 + blanks(line.get(end + 1..)?);
            let message = match line.get(behind..)? {
                b"\r" => Message::HeaderReturn,
                _ => Message::HeaderBehind,
            };
            Diagnosis::new(message).at(behind)
        }
        Some(_) => Diagnosis::new(Message::HeaderByte).with("found", blamed.byte(end)).at(end),
    };
    Some(found)
}

/// The place of the name in a header.
fn name_of(blamed: &Blamed<'_>) -> Option<Range<usize>> {
    match layout::form(blamed.dialect, blamed.line) {
        Form::Header(name) => Some(name),
        _ => None,
    }
}

/// 6: which groups there are.
pub fn unknown_group(blamed: &Blamed<'_>) -> Option<Diagnosis> {
    let name = name_of(blamed)?;
    let message = match blamed.dialect {
        Dialect::Iwd => Message::GroupOfIwd,
        Dialect::Connman if blamed.line.get(name.clone())?.starts_with(b"service_") => {
            return service(blamed, name.start + b"service_".len()..name.end);
        }
        Dialect::Connman => Message::GroupOfConnman,
    };
    let found = blamed.quote(name.clone()).unwrap_or_else(|| "of this name".to_string());
    Some(Diagnosis::new(message).with("found", found).at(name.start))
}

/// A service's identifier that breaks its rule.
fn service(blamed: &Blamed<'_>, places: Range<usize>) -> Option<Diagnosis> {
    let identifier = blamed.line.get(places.clone())?;
    let foreign = identifier.iter().position(|byte| !byte.is_ascii_alphanumeric() && *byte != b'_');
    let found = match (foreign, identifier.len()) {
        (Some(place), _) => Diagnosis::new(Message::ServiceByte)
            .with("found", blamed.byte(places.start + place))
            .at(places.start + place),
        (None, 0) => Diagnosis::new(Message::ServiceLength).with("found", "nothing").at(places.start),
        (None, length) => Diagnosis::new(Message::ServiceLength)
            .with("found", counted(length, "character"))
            .at(places.start + 32),
    };
    Some(found)
}

/// 7: where the group stands already.
pub fn repeated_group(blamed: &Blamed<'_>) -> Option<Diagnosis> {
    let name = blamed.line.get(name_of(blamed)?)?;
    let mut before = layout::lines(blamed.file).take(blamed.number - 1);
    let first = before.position(|line| blamed.header(line) == Some(name))? + 1;
    let found = Diagnosis::new(Message::RepeatedGroup).with("group", blamed.word(name_of(blamed)?)?);
    Some(found.with("first", first).at(name_of(blamed)?.start))
}

/// 13: which service is the ninth.
pub fn many_services(blamed: &Blamed<'_>) -> Option<Diagnosis> {
    let name = name_of(blamed)?;
    let found = Diagnosis::new(Message::ManyServices).with("group", blamed.word(name.clone())?);
    Some(found.at(name.start))
}
