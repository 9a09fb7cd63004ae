//! What of a line may be shown. A passphrase or a key never is, and what could be one is taken for one.
//!
//! A line is shown only as far as it is sure to hold no secret: an exact key that takes none, with a value that looks like its
//! kind; a group's name that is one; a key's name before its `=`. All behind that is hidden, and so is, anywhere, a text that
//! stands elsewhere in the file as a passphrase or a key. A string that seems to have swallowed the next line
//! is hidden whole.

mod known;
#[cfg(test)]
mod tests;
mod words;

pub use known::{mark, secrets_of, swallowed, swallowed_secret};

use crate::catalogue::{keys_of, kinds_anywhere, Dialect, Kind};
use crate::escapes::unescaped;
use crate::layout::{blanks, is_blank, line, lines, trimmed};
pub use words::nearest;
use words::{is_near_group, is_near_key, is_plain_word, leading_word, mentions_secret};

const BYTE_ORDER_MARK: &[u8] = b"\xef\xbb\xbf";

/// For each byte of a line, by its number from 1, whether it is to be hidden.
pub fn hidden(file: &[u8], number: usize) -> Vec<bool> {
    let shown = line(file, number).unwrap_or(b"");
    let front = open_front(shown, is_doubtful(file, number));
    let mut hidden: Vec<bool> = (0..shown.len()).map(|at| at >= front).collect();
    mark(shown, &secrets_of(file), &mut hidden);
    hidden
}

/// Whether a line could go on with a secret of the line before it.
fn is_doubtful(file: &[u8], number: usize) -> bool {
    let before = lines(file).take(number.saturating_sub(1)).filter(|line| !trimmed(line).is_empty());
    before.last().is_some_and(|line| mentions_secret(line) && !takes_no_secret(line))
}

/// Whether a line is a setting whose key takes no secret.
fn takes_no_secret(line: &[u8]) -> bool {
    let key = line.split(|byte| *byte == b'=').next().unwrap_or(b"");
    let mut kinds = kinds_anywhere(trimmed(key));
    kinds.next().is_some_and(|kind| !matches!(kind, Kind::Passphrase | Kind::Key))
}

/// How many bytes at the front of a line are sure to be no secret.
fn open_front(line: &[u8], doubtful: bool) -> usize {
    let start = blanks(line);
    let body = &line[start..];
    if let Some(rest) = body.strip_prefix(BYTE_ORDER_MARK) {
        return start + BYTE_ORDER_MARK.len() + open_front(rest, doubtful);
    }
    if body.iter().all(|byte| is_blank(*byte) || byte.is_ascii_control()) {
        return line.len();
    }
    match body.first() {
        Some(b'#') => start,
        Some(b'[') => start + header_front(body, doubtful),
        _ => start + setting_front(body, doubtful),
    }
}

/// The same of a line that starts with `[`: up to the `]` of a group's name that is one or nearly one.
fn header_front(body: &[u8], doubtful: bool) -> usize {
    for prefix in [&b"[@pem@"[..], b"[@"] {
        if body.starts_with(prefix) {
            return prefix.len();
        }
    }
    let end = body.iter().position(|byte| *byte == b']').unwrap_or(body.len());
    let name = &body[1..end];
    let behind = body.get(end + 1..).unwrap_or(b"");
    let through = match trimmed(behind) {
        b"" | b"\r" => body.len(),
        _ => end + 1,
    };
    let unsure = doubtful || mentions_secret(body) || body.contains(&b'=');
    if is_group(name) || (!unsure && (is_near_group(trimmed(name)) || is_plain_word(trimmed(name)))) {
        through
    } else if !unsure && body.starts_with(b"[service_") {
        b"[service_".len()
    } else {
        1
    }
}

/// Whether a name is a group's, in either dialect.
fn is_group(name: &[u8]) -> bool {
    keys_of(Dialect::Iwd, name).or(keys_of(Dialect::Connman, name)).is_some()
}

/// The same of any other line: up to the value, and with it where it is sure to be none.
fn setting_front(body: &[u8], doubtful: bool) -> usize {
    let Some(equal) = body.iter().position(|byte| *byte == b'=') else {
        return word_front(body, doubtful);
    };
    let key = trimmed(&body[..equal]);
    let start = equal + 1 + blanks(&body[equal + 1..]);
    let value = &body[start..];
    let kinds: Vec<Kind> = kinds_anywhere(key).collect();
    match kinds.as_slice() {
        [] if mentions_secret(value) => 0,
        [] if is_near_key(key) => start,
        [] if is_plain_word(key) && !doubtful && !value.is_empty() => start,
        [] => word_front(&body[..equal], doubtful),
        kinds if kinds.iter().any(|kind| may_be_shown(*kind, value)) => body.len(),
        _ => start,
    }
}

/// The first word of a line that is no setting, where it is a key and something follows it.
fn word_front(body: &[u8], doubtful: bool) -> usize {
    let word = leading_word(body);
    if !doubtful && word.len() < trimmed(body).len() && words::is_key(word) {
        word.len()
    } else {
        0
    }
}

/// Whether a value is sure to be no secret that was put behind the wrong key.
fn may_be_shown(kind: Kind, value: &[u8]) -> bool {
    match kind {
        Kind::Passphrase | Kind::Key => false,
        Kind::Security => value.len() < 8 || words::is_security(value),
        _ if is_telling(value) || is_telling(&unescaped(value)) => false,
        _ if kind.is_free() || value.len() < 8 => true,
        Kind::Type | Kind::Privacy => words::is_near(value, kind.words().iter().copied()),
        Kind::Mac => is_pairs(value),
        _ => is_numbers(value) || is_hex_parts(value),
    }
}

/// Whether a value tells of a secret or seems to have swallowed one.
fn is_telling(value: &[u8]) -> bool {
    mentions_secret(value) || swallowed_secret(value).is_some()
}

/// Whether a value looks like a MAC address: pairs of hex digits with something between, or almost.
fn is_pairs(value: &[u8]) -> bool {
    let colons = value.iter().filter(|byte| b":-.".contains(byte)).count();
    let digits = value.iter().filter(|byte| byte.is_ascii_hexdigit()).count();
    value.len() <= 24 && colons >= 2 && colons + digits + 2 >= value.len()
}

/// Whether a value looks like addresses: numbers with dots, or almost.
fn is_numbers(value: &[u8]) -> bool {
    let count = |wanted: fn(&u8) -> bool| value.iter().filter(|byte| wanted(byte)).count();
    let (digits, dots) = (count(u8::is_ascii_digit), count(|byte| *byte == b'.'));
    let numbers = count(|byte| byte.is_ascii_digit() || b"./,: \t\r".contains(byte)) == value.len();
    dots > 0 && (numbers || (dots >= 3 && digits * 2 > value.len()))
}

/// Whether a value looks like IPv6 addresses: hex digits with colons, or almost. A key that is written in pairs with colons has more of
/// them.
fn is_hex_parts(value: &[u8]) -> bool {
    let parts = || value.split(|byte| b"/,".contains(byte));
    let colons = |text: &[u8]| text.iter().filter(|byte| **byte == b':').count();
    let is_short = parts().all(|part| part.len() <= 45 && colons(part) <= 10);
    let foreign: usize = parts().map(foreign_bytes).sum();
    let is_likely = match colons(value) {
        0 => false,
        1 => foreign == 0 && value.contains(&b'/'),
        _ => foreign * 5 <= value.len(),
    };
    is_short && is_likely
}

/// How many bytes of a text no IPv6 address has. The name of an interface behind an address and a `%` is one with that.
fn foreign_bytes(text: &[u8]) -> usize {
    let count = |text: &[u8]| {
        text.iter()
            .filter(|byte| !byte.is_ascii_hexdigit() && !b":.".contains(byte))
            .count()
    };
    match text.iter().position(|byte| *byte == b'%') {
        Some(place) if count(&text[..place]) == 0 && text[place + 1..].iter().all(u8::is_ascii_alphanumeric) => 1,
        _ => count(text),
    }
}
