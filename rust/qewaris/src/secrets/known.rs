//! The texts that stand in a file as a passphrase or a key, so that they are hidden wherever else they stand.

use super::words::{is_telling_key, leading_word, mentions_secret};
use crate::catalogue::{all_keys, kinds_anywhere, Kind};
use crate::escapes::{meant, unescaped};
use crate::hex::encoded;
use crate::layout::{is_blank, lines, trimmed};

/// A text that is shorter is not looked for elsewhere: it would be found in any word.
const LEAST: usize = 6;

/// The texts of a file that could be a passphrase or a key, also without their escapes and in hex.
pub fn secrets_of(file: &[u8]) -> Vec<Vec<u8>> {
    let secrets = lines(file).filter_map(secret_in).flat_map(forms);
    let swallowed = lines(file).filter_map(string_of).flat_map(swallowed_in);
    let mut found: Vec<Vec<u8>> = secrets.chain(swallowed).collect();
    found.sort();
    found.dedup();
    found
}

/// The text that a line has behind a key that tells of a secret, or behind its first word if it is no setting.
fn secret_in(line: &[u8]) -> Option<&[u8]> {
    let body = trimmed(line);
    if !mentions_secret(body) && !is_telling_key(body) {
        return None;
    }
    let text = match body.iter().position(|byte| *byte == b'=' || *byte == b':') {
        Some(place) if is_telling_key(&body[..place]) => &body[place + 1..],
        Some(_) => return None,
        None => &body[leading_word(body).len()..],
    };
    Some(trimmed(text).strip_suffix(b"\r").unwrap_or(trimmed(text)))
}

/// The forms of a string that seems to have swallowed a secret, as it stands or as it is meant: those of all of it, and those of what
/// stands behind the key in it.
fn swallowed_in(value: &[u8]) -> Vec<Vec<u8>> {
    let meant = unescaped(value);
    let telling = [value, &meant].into_iter().filter_map(|text| Some([text, swallowed_secret(text)?]));
    telling.flatten().flat_map(forms).collect()
}

/// The value of a line whose key takes a text.
fn string_of(line: &[u8]) -> Option<&[u8]> {
    let equal = line.iter().position(|byte| *byte == b'=')?;
    let mut kinds = kinds_anywhere(trimmed(&line[..equal]));
    let is_text = kinds.any(|kind| kind.lengths().is_some() || kind == Kind::Entries);
    is_text.then(|| trimmed(&line[equal + 1..]))
}

/// The key that stands in a text with an equal sign behind it, as if the text had swallowed the line below.
pub fn swallowed(text: &[u8]) -> Option<&'static str> {
    let before_equal = |front: &[u8]| all_keys().map(|(key, _)| key).find(|key| ends_with_key(front, key));
    equals(text).find_map(|place| before_equal(trimmed(&text[..place])))
}

fn ends_with_key(front: &[u8], key: &str) -> bool {
    let end = front.len().checked_sub(key.len()).map_or(&[][..], |start| &front[start..]);
    match key {
        "Passphrase" | "PreSharedKey" => end.eq_ignore_ascii_case(key.as_bytes()),
        _ => end == key.as_bytes(),
    }
}

/// What stands in a text behind a key, or behind a word that tells of a secret, and an equal sign; such a text is hidden.
pub fn swallowed_secret(text: &[u8]) -> Option<&[u8]> {
    let is_key = |front: &[u8]| {
        let word = front.rsplit(|byte| is_blank(*byte)).next().unwrap_or(front);
        is_telling_key(word) || all_keys().any(|(key, _)| ends_with_key(front, key))
    };
    let place = equals(text).find(|place| is_key(trimmed(&text[..*place])))?;
    Some(trimmed(&text[place + 1..]))
}

/// The places of the equal signs.
fn equals(text: &[u8]) -> impl Iterator<Item = usize> + '_ {
    let numbered = text.iter().enumerate();
    numbered.filter(|(_, byte)| **byte == b'=').map(|(place, _)| place)
}

/// A text as it may stand elsewhere: as it stands here and as it is meant, with its blanks and without, and in hex; all in either case.
fn forms(text: &[u8]) -> Vec<Vec<u8>> {
    let plain = unescaped(text);
    let all = [
        text.to_vec(),
        plain.to_vec(),
        trimmed(&plain).to_vec(),
        encoded(&plain).into_bytes(),
    ];
    let cases = all
        .iter()
        .flat_map(|form| [form.clone(), form.to_ascii_lowercase(), form.to_ascii_uppercase()]);
    cases.filter(|form| form.len() >= LEAST).collect()
}

/// Marks the bytes of each secret that stands in these bytes, or that they mean with their escapes.
pub fn mark(bytes: &[u8], secrets: &[Vec<u8>], hidden: &mut [bool]) {
    mark_in(bytes.iter().copied().enumerate(), secrets, hidden);
    mark_in(meant(bytes), secrets, hidden);
}

/// Marks each secret in a text whose bytes come with their places: each stands from its own up to the next one's.
fn mark_in(placed: impl Iterator<Item = (usize, u8)>, secrets: &[Vec<u8>], hidden: &mut [bool]) {
    let (places, text): (Vec<usize>, Vec<u8>) = placed.unzip();
    for secret in secrets {
        for (at, window) in text.windows(secret.len().max(1)).enumerate() {
            if window == secret.as_slice() {
                let end = places.get(at + secret.len()).copied().unwrap_or(hidden.len());
                hidden[places[at]..end].fill(true);
            }
        }
    }
}
