//! What is looked for in values as they stand, and in the bytes of a service that is moved.

use crate::met::Sign;
use crate::reference::lines::is_whitespace;

/// The five escapes.
pub const ESCAPES: [Sign; 5] = [
    ("\\s", |value| units(value).contains(&&b"\\s"[..])),
    ("\\t", |value| units(value).contains(&&b"\\t"[..])),
    ("\\r", |value| units(value).contains(&&b"\\r"[..])),
    ("\\n", |value| units(value).contains(&&b"\\n"[..])),
    ("\\\\", |value| units(value).contains(&&b"\\\\"[..])),
];

/// What only an escape keeps at the ends of a value, and a backslash in last place.
pub const ENDS: [Sign; 4] = [
    ("blank first", |value| units(value).first().is_some_and(is_escaped_blank)),
    ("blank last", |value| units(value).last().is_some_and(is_escaped_blank)),
    ("blanks alone", |value| !value.is_empty() && units(value).iter().all(is_blank)),
    ("\\\\ last", |value| ends(value, b"\\\\")),
];

/// The sorts of bad escapes: what stands behind the first backslash that begins no escape.
pub const BAD: [Sign; 7] = [
    ("small letter", |value| matches!(bad_escape(value), Some([_, b'a'..=b'z']))),
    ("capital", |value| matches!(bad_escape(value), Some([_, b'A'..=b'Z']))),
    ("digit", |value| matches!(bad_escape(value), Some([_, b'0'..=b'9']))),
    (
        "mark",
        |value| matches!(bad_escape(value), Some([_, mark]) if mark.is_ascii_punctuation()),
    ),
    ("blank", |value| matches!(bad_escape(value), Some([_, b' ' | b'\t']))),
    ("wide", |value| matches!(bad_escape(value), Some([_, 0x80..=0xFF]))),
    ("nothing", |value| matches!(bad_escape(value), Some([_]))),
];

/// A backslash that begins no escape.
pub const NO_ESCAPE: Sign = ("no escape", |value| bad_escape(value).is_some());

/// What stands last before whitespace that is dropped: an escape stays whole, a backslash alone is a bad one.
pub const BEFORE_DROPPED: [Sign; 4] = [
    ("\\s", |value| ends(value, b"\\s")),
    ("\\t", |value| ends(value, b"\\t")),
    ("\\\\", |value| ends(value, b"\\\\")),
    ("\\ alone", |value| ends(value, b"\\")),
];

/// Bytes that a ConnMan file can hold only as escapes, and a tab, which it can hold both ways.
pub const MOVED: [Sign; 6] = [
    ("byte 9", |bytes| bytes.contains(&b'\t')),
    ("byte 10", |bytes| bytes.contains(&b'\n')),
    ("byte 13", |bytes| bytes.contains(&b'\r')),
    ("blank first", |bytes| bytes.first().is_some_and(|&byte| is_whitespace(byte))),
    ("blank last", |bytes| bytes.last().is_some_and(|&byte| is_whitespace(byte))),
    ("\\ last", |bytes| bytes.last() == Some(&b'\\')),
];

/// A value piece by piece: a backslash with the byte behind it, any other byte by itself.
fn units(value: &[u8]) -> Vec<&[u8]> {
    let mut units = Vec::new();
    let mut rest = value;
    while let Some(&first) = rest.first() {
        let length = if first == b'\\' { 2.min(rest.len()) } else { 1 };
        let (unit, behind) = rest.split_at(length);
        units.push(unit);
        rest = behind;
    }
    units
}

fn ends(value: &[u8], unit: &[u8]) -> bool {
    units(value).last() == Some(&unit)
}

/// The first backslash that begins no escape, with the byte behind it.
fn bad_escape(value: &[u8]) -> Option<&[u8]> {
    units(value)
        .into_iter()
        .find(|unit| unit[0] == b'\\' && !matches!(unit, [_, b's' | b't' | b'r' | b'n' | b'\\']))
}

fn is_escaped_blank(unit: &&[u8]) -> bool {
    matches!(unit, [b'\\', b's' | b't'])
}

fn is_blank(unit: &&[u8]) -> bool {
    is_escaped_blank(unit) || is_whitespace(unit[0])
}

#[cfg(test)]
mod tests {
    use super::{Sign, BAD, BEFORE_DROPPED, ENDS, ESCAPES, NO_ESCAPE};

    /// The names of the signs that a value has.
    fn names(signs: &[Sign], value: &[u8]) -> Vec<&'static str> {
        signs.iter().filter(|(_, holds)| holds(value)).map(|(name, _)| *name).collect()
    }

    #[test]
    fn escapes_are_told_from_left_to_right() {
        let rows: [(&[u8], &[&str]); 6] = [
            (b"", &[]),
            (b"strn", &[]),
            (b"\\s\\t\\r\\n\\\\", &["\\s", "\\t", "\\r", "\\n", "\\\\"]),
            (b"\\\\s", &["\\\\"]),
            (b"\\\\\\s", &["\\s", "\\\\"]),
            (b"\\x\\s", &["\\s"]),
        ];
        for (value, expected) in rows {
            assert_eq!(names(&ESCAPES, value), expected, "{}", value.escape_ascii());
        }
    }

    #[test]
    fn ends_are_told_by_their_escapes() {
        let rows: [(&[u8], &[&str]); 7] = [
            (b"", &[]),
            (b"a b", &[]),
            (b"\\sa\\t", &["blank first", "blank last"]),
            (b"\\t", &["blank first", "blank last", "blanks alone"]),
            (b"\\s \\s", &["blank first", "blank last", "blanks alone"]),
            (b"\\\\s", &[]),
            (b"a\\\\", &["\\\\ last"]),
        ];
        for (value, expected) in rows {
            assert_eq!(names(&ENDS, value), expected, "{}", value.escape_ascii());
        }
    }

    #[test]
    fn a_bad_escape_is_of_one_sort() {
        let rows: [(&[u8], &str); 8] = [
            (b"\\\\\\x", "small letter"),
            (b"\\S\\x", "capital"),
            (b"\\0", "digit"),
            (b"\\;", "mark"),
            (b"\\ a", "blank"),
            (b"\\\ta", "blank"),
            (b"\\\xC3\xA9", "wide"),
            (b"a\\\\\\", "nothing"),
        ];
        for (value, expected) in rows {
            assert_eq!(names(&BAD, value), [expected], "{}", value.escape_ascii());
            assert!(NO_ESCAPE.1(value), "{}", value.escape_ascii());
        }
        assert!(!NO_ESCAPE.1(b"\\s\\t\\r\\n\\\\"));
        assert_eq!(names(&BEFORE_DROPPED, b"a\\\\\\"), ["\\ alone"]);
        assert_eq!(names(&BEFORE_DROPPED, b"a\\\\"), ["\\\\"]);
    }
}
