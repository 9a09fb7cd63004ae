//! Refusal 11: where a value's text is broken.

use super::{Blamed, Diagnosis};
use crate::escapes::bad_escape;
use crate::messages::Message;

/// The first of the things that break the text.
pub fn broken_text(blamed: &Blamed<'_>) -> Option<Diagnosis> {
    let (key, value) = blamed.setting()?;
    let text = blamed.line.get(value.clone())?;
    let is_string = blamed.kind()?.lengths().is_some();
    let broken = [
        (
            std::str::from_utf8(text).err().map(|error| error.valid_up_to()),
            Message::TextEncoding,
        ),
        (text.iter().position(|byte| *byte == 0), Message::TextZero),
        (text.iter().position(|byte| *byte == b'\r'), Message::TextReturn),
        (bad_escape(text).filter(|_| is_string), Message::TextEscape),
    ];
    let (place, message) = broken
        .into_iter()
        .filter_map(|(place, message)| Some((place?, message)))
        .min_by_key(|(place, _)| *place)?;
    let found = Diagnosis::new(message).with("key", blamed.name(key)?);
    Some(found.at(value.start + place))
}
