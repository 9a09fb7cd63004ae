//! Refusals 3, 8, 9 and 10: lines that are no settings, and settings in the wrong place.

use super::{Blamed, Diagnosis};
use crate::catalogue::{is_of_paper, iwd_groups_of, kind_in, listed, Dialect, Keys, GLOBAL, SERVICE};
use crate::layout::{self, blanks, Form};
use crate::messages::Message;

/// 3: what keeps the line from being a setting.
pub fn unrecognized(blamed: &Blamed<'_>) -> Option<Diagnosis> {
    let start = blanks(blamed.line);
    let body = blamed.line.get(start..)?;
    let message = match body {
        b"\r" => Message::LineReturn,
        [0xef, 0xbb, 0xbf, ..] => Message::LineMark,
        [b';', ..] => Message::LineSemicolon,
        [b'=', ..] => Message::LineWithoutKey,
        _ if !body.contains(&b'=') => Message::LineWithoutEqual,
        _ => return foreign_byte(blamed, start),
    };
    Some(Diagnosis::new(message).at(start))
}

/// The first byte that a key cannot have.
fn foreign_byte(blamed: &Blamed<'_>, start: usize) -> Option<Diagnosis> {
    let key = blamed.line[start..]
        .iter()
        .take_while(|byte| blamed.dialect.is_key_byte(**byte))
        .count();
    let place = start + key;
    let allowed = match blamed.dialect {
        Dialect::Iwd => "letters, digits, _ and -",
        Dialect::Connman => "letters, digits, _, - and .",
    };
    let found = Diagnosis::new(Message::LineKeyByte).with("found", blamed.byte(place));
    Some(found.with("allowed", allowed).at(place))
}

/// 8: the header that could come first.
pub fn early_setting(blamed: &Blamed<'_>) -> Option<Diagnosis> {
    let allowed = match blamed.dialect {
        Dialect::Iwd => "[Security]",
        Dialect::Connman => "[service_till]",
    };
    Some(Diagnosis::new(Message::EarlySetting).with("allowed", allowed))
}

/// 9: which keys the group has, or which group the key belongs to.
pub fn unknown_key(blamed: &Blamed<'_>) -> Option<Diagnosis> {
    let (key, _) = blamed.setting()?;
    let bytes = blamed.line.get(key.clone())?;
    let keys: Vec<&str> = blamed.keys()?.iter().map(|(name, _)| *name).collect();
    let is_of_paper = is_of_paper(blamed.dialect, blamed.group()?, bytes);
    let (message, allowed) = match home(blamed.dialect, bytes) {
        _ if is_of_paper => (Message::KeyOfPaper, listed(&keys, "and")),
        Some(home) => (Message::KeyElsewhere, home),
        None if bytes.starts_with(b"SAE-PT-Group") => (Message::KeyOfDaemon, listed(&keys, "and")),
        None => (Message::UnknownKey, listed(&keys, "and")),
    };
    let found = Diagnosis::new(message).with("key", blamed.word(key.clone()).unwrap_or_else(|| "This".to_string()));
    let group = String::from_utf8_lossy(blamed.group()?).into_owned();
    let paper = match blamed.dialect {
        Dialect::Iwd => "iwd's",
        Dialect::Connman => "ConnMan's",
    };
    let found = found.with("found", paper).with("group", group);
    Some(found.with("allowed", allowed).at(key.start))
}

/// The groups of its dialect that a key belongs to.
fn home(dialect: Dialect, key: &[u8]) -> Option<String> {
    let has = |keys: Keys| kind_in(keys, key).is_some();
    match dialect {
        Dialect::Iwd => {
            let groups: Vec<String> = iwd_groups_of(key).map(|name| format!("[{name}]")).collect();
            let groups: Vec<&str> = groups.iter().map(String::as_str).collect();
            (!groups.is_empty()).then(|| listed(&groups, "or"))
        }
        Dialect::Connman if has(SERVICE) => Some("a service".to_string()),
        Dialect::Connman => has(GLOBAL).then(|| "[global]".to_string()),
    }
}

/// 10: where the key stands already.
pub fn repeated_key(blamed: &Blamed<'_>) -> Option<Diagnosis> {
    let (key, _) = blamed.setting()?;
    let bytes = blamed.line.get(key.clone())?;
    let mut first = None;
    for (place, line) in layout::lines(blamed.file).take(blamed.number - 1).enumerate() {
        match layout::form(blamed.dialect, line) {
            Form::Header(_) => first = None,
            Form::Setting { key, .. } if line.get(key.clone()) == Some(bytes) => first = Some(place + 1),
            _ => {}
        }
    }
    let found = Diagnosis::new(Message::RepeatedKey).with("key", blamed.word(key.clone())?);
    Some(found.with("first", first?).at(key.start))
}
