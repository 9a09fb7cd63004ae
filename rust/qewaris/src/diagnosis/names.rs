//! Refusal 2: what is wrong with a file name.

use super::{called, Diagnosis, Subject};
use crate::hex::decoded;
use crate::messages::Message;
use crate::visible::{quoted, visible};

/// The suffixes of names that are taken, with those that are nearly one.
const SUFFIXES: [&str; 3] = [".open", ".psk", ".config"];

pub fn name(subject: &Subject<'_>) -> Option<Diagnosis> {
    let name = subject.name;
    if subject.for_move && !name.to_ascii_lowercase().ends_with(b".config") {
        return Some(Diagnosis::new(Message::NotConnman));
    }
    for suffix in SUFFIXES {
        if let Some(stem) = name.strip_suffix(suffix.as_bytes()) {
            return match suffix {
                ".config" => connman(stem),
                _ => iwd(stem, suffix),
            };
        }
    }
    Some(suffix(name))
}

/// A name that ends in none of the suffixes.
fn suffix(name: &[u8]) -> Diagnosis {
    let Some(dot) = name.iter().rposition(|byte| *byte == b'.') else {
        return Diagnosis::new(Message::NameWithoutSuffix);
    };
    let end = &name[dot..];
    let found = visible(end);
    if end == b".8021x" {
        return Diagnosis::new(Message::NameOfLogin);
    }
    match SUFFIXES.iter().find(|suffix| suffix.as_bytes().eq_ignore_ascii_case(end)) {
        Some(suffix) => Diagnosis::new(Message::NameSuffixCase).with("found", found).with("allowed", suffix),
        None => Diagnosis::new(Message::NameSuffix).with("found", found),
    }
}

fn connman(stem: &[u8]) -> Option<Diagnosis> {
    if stem.is_empty() {
        return Some(Diagnosis::new(Message::ConnmanNameEmpty));
    }
    let foreign = stem.iter().find(|byte| !byte.is_ascii_alphanumeric())?;
    Some(Diagnosis::new(Message::ConnmanNameByte).with("found", called(*foreign)))
}

fn iwd(stem: &[u8], suffix: &str) -> Option<Diagnosis> {
    if let Some(hex) = stem.strip_prefix(b"=") {
        return encoded(hex, suffix);
    }
    if let Some(foreign) = stem.iter().find(|byte| !is_plain(**byte)) {
        return Some(Diagnosis::new(Message::NameByte).with("found", called(*foreign)));
    }
    length(stem, suffix)
}

/// Whether a network name with this byte may stand plainly in a file name.
fn is_plain(byte: u8) -> bool {
    byte.is_ascii_alphanumeric() || b" _-".contains(&byte)
}

fn length(network: &[u8], suffix: &str) -> Option<Diagnosis> {
    match network.len() {
        0 => Some(Diagnosis::new(Message::NameEmpty).with("found", suffix)),
        1..=32 => None,
        length => Some(Diagnosis::new(Message::NameLength).with("found", length)),
    }
}

/// A stem of `=` and hex.
fn encoded(hex: &[u8], suffix: &str) -> Option<Diagnosis> {
    if let Some(foreign) = hex.iter().find(|byte| !byte.is_ascii_hexdigit()) {
        return Some(Diagnosis::new(Message::NameHexDigit).with("found", called(*foreign)));
    }
    if hex.iter().any(u8::is_ascii_uppercase) {
        return Some(Diagnosis::new(Message::NameHexCase));
    }
    if hex.len() % 2 == 1 {
        return Some(Diagnosis::new(Message::NameHexCount).with("found", hex.len()));
    }
    let network = decoded(hex)?;
    length(&network, suffix).or_else(|| {
        let plainly = [&network, suffix.as_bytes()].concat();
        let found = Diagnosis::new(Message::NameHexPlain).with("found", quoted(&network));
        network
            .iter()
            .all(|byte| is_plain(*byte))
            .then(|| found.with("allowed", quoted(&plainly)))
    })
}
