//! Strings: the bytes that one can stand for, with UTF-8 of all lengths; values that stand for them, with escapes; and ways to break them.

use crate::random::Random;
use crate::reference::Dialect;

/// Code points at the edges of UTF-8's lengths and of the surrogates, and some that are only odd.
const EDGES: [u32; 16] = [
    0x80, 0xA0, 0xE9, 0x7FF, 0x800, 0x20AC, 0xD7FF, 0xE000, 0xFDD0, 0xFEFF, 0xFFFD, 0xFFFE, 0xFFFF, 0x10000, 0x1F600, 0x10FFFF,
];

/// Bytes that are not UTF-8: lone and missing continuations, overlong forms, surrogates, above U+10FFFF.
pub const BROKEN_UTF8: [&[u8]; 24] = [
    b"\x80",
    b"\xBF",
    b"\xC0\x80",
    b"\xC0\xAF",
    b"\xC1\xBF",
    b"\xC3",
    b"\xC3\x28",
    b"\xDF\xC0",
    b"\xE0\x80\x80",
    b"\xE0\x9F\xBF",
    b"\xE2\x82",
    b"\xE2\x28\xA1",
    b"\xED\xA0\x80",
    b"\xED\xBF\xBF",
    b"\xEF\xBF",
    b"\xF0\x80\x80\x80",
    b"\xF0\x8F\xBF\xBF",
    b"\xF0\x9F\x98",
    b"\xF0\x28\x8C\xBC",
    b"\xF4\x90\x80\x80",
    b"\xF5\x80\x80\x80",
    b"\xF8\x88\x80\x80\x80",
    b"\xFE",
    b"\xFF",
];

/// Backslashes that begin no escape, those of the last line for the end of a value: there ConnMan drops the blanks.
const BAD_ESCAPES: &[u8] =
    b"\\a|\\0|\\x41|\\u0041|\\011|\\S|\\T|\\R|\\N|\\\"|\\=|\\;|\\\x01|\\\x7F|\\ s|\\\tt|\\\xC3\xA9|\\\xF0\x9F\x98\x80|\
    \\|\\|\\ |\\\t| \\";

/// A letter or digit.
pub fn letter(random: &mut Random) -> u8 {
    random.pick(b"abcdefghijklmnopqrstuvwxyzABCDEFGHIJKLMNOPQRSTUVWXYZ0123456789")
}

/// A character of several bytes.
pub fn wide(random: &mut Random) -> Vec<u8> {
    let code = if random.once_in(2) {
        random.pick(&EDGES)
    } else {
        0x80 + random.below(0xD000) as u32
    };
    char::from_u32(code).expect("no surrogate").to_string().into_bytes()
}

/// A value that stands for so many bytes in a file of the dialect.
pub fn text(random: &mut Random, dialect: Dialect, length: usize) -> Vec<u8> {
    let content = content(random, length);
    spelled(random, dialect, &content)
}

/// So many bytes that a string can stand for, UTF-8 without byte 0: letters, a mixture, or blanks.
pub fn content(random: &mut Random, length: usize) -> Vec<u8> {
    let piece: fn(&mut Random) -> Vec<u8> = match random.weighted(&[19, 20, 1]) {
        0 => |random| vec![letter(random)],
        1 => piece,
        _ => |random| vec![blank(random)],
    };
    let mut content = Vec::new();
    while content.len() < length {
        let next = piece(random);
        if content.len() + next.len() <= length {
            content.extend(next);
        }
    }
    content
}

fn blank(random: &mut Random) -> u8 {
    random.pick(b" \t  ")
}

/// Some bytes of a mixture: one of those that are escaped and what looks like an escape, among others.
fn piece(random: &mut Random) -> Vec<u8> {
    match random.weighted(&[40, 12, 8, 6, 8, 2, 10]) {
        0 => vec![letter(random)],
        1 => vec![blank(random)],
        2 => vec![random.pick(b"#=[];,.:/-_\"'@!~")],
        3 => vec![random.pick(b"\x01\x07\x08\x0B\x0C\x0E\x1B\x1F\x7F")],
        4 => vec![random.pick(b"\n\r\\")],
        5 => vec![b'\\', random.pick(b"strn")],
        _ => wide(random),
    }
}

/// A value that stands for the bytes in a file of the dialect: byte 10, byte 13 and backslash escaped, and blanks where they would be
/// dropped; other blanks escaped or not.
pub fn spelled(random: &mut Random, dialect: Dialect, content: &[u8]) -> Vec<u8> {
    let mut value = Vec::new();
    for (place, byte) in content.iter().enumerate() {
        let is_last = place + 1 == content.len();
        let is_dropped = place == 0 || (is_last && dialect == Dialect::Connman);
        value.extend(match byte {
            b'\n' => b"\\n",
            b'\r' => b"\\r",
            b'\\' => b"\\\\",
            b' ' if is_dropped || random.once_in(3) => b"\\s",
            b'\t' if is_dropped || random.once_in(3) => b"\\t",
            _ => std::slice::from_ref(byte),
        });
    }
    value
}

/// A length from `low` to `high`, often at one end.
pub fn length(random: &mut Random, low: usize, high: usize) -> usize {
    match random.weighted(&[6, 2, 2, 1, 9]) {
        0 => low,
        1 => (low + 1).min(high),
        2 => high,
        3 => high.saturating_sub(1).max(low),
        _ => random.between(low, high.min(low + 20)),
    }
}

/// A string one past an end of its lengths, counted in the bytes that it stands for.
pub fn wrong_length(random: &mut Random, dialect: Dialect, low: usize, high: usize) -> Vec<u8> {
    let length = random.pick(&[low - 1, low - 1, high + 1, high + 1, 0, high + 2, 2 * high]);
    text(random, dialect, length)
}

/// A string with something in it that no value may have.
pub fn broken(random: &mut Random, dialect: Dialect, low: usize, high: usize) -> Vec<u8> {
    let length = length(random, low, high);
    let mut value = text(random, dialect, length);
    match random.weighted(&[3, 2, 4]) {
        0 => escape_badly(random, &mut value),
        1 => {
            let byte = random.pick(&[0, 13]);
            put_in(random, &mut value, &[byte]);
        }
        _ => {
            let bytes = random.pick(&BROKEN_UTF8);
            put_in(random, &mut value, bytes);
        }
    }
    value
}

/// Puts a backslash that begins no escape into a string.
pub fn escape_badly(random: &mut Random, value: &mut Vec<u8>) {
    let fault = random.pick_word(BAD_ESCAPES);
    put_in(random, value, fault);
}

/// Puts a fault into a value, often at its end or in the place of its end.
fn put_in(random: &mut Random, value: &mut Vec<u8>, fault: &[u8]) {
    if random.once_in(3) {
        value.truncate(value.len().saturating_sub(fault.len()));
    }
    let place = random.place(value.len());
    value.splice(place..place, fault.iter().copied());
}
