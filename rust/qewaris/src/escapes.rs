//! The five escapes of strings, which iwd's and ConnMan's files have alike: one table, and one walk over a string as it stands.

use std::borrow::Cow;
use std::iter;

/// What stands behind the backslash of each escape, and the byte that it means.
const ESCAPES: [(char, u8); 5] = [('s', b' '), ('t', b'\t'), ('r', b'\r'), ('n', b'\n'), ('\\', b'\\')];

/// A part of a string as it stands.
enum Part {
    /// A byte that means itself.
    Plain(u8),
    /// An escape, by the byte that it means.
    Escape(u8),
    /// A backslash that begins no escape.
    Backslash,
}

/// The parts of a string from left to right, each with the place where it starts.
fn parts(text: &[u8]) -> impl Iterator<Item = (usize, Part)> + '_ {
    let mut next = 0;
    iter::from_fn(move || {
        let place = next;
        let part = match (*text.get(place)?, text.get(place + 1).and_then(|letter| meaning(*letter))) {
            (b'\\', Some(byte)) => Part::Escape(byte),
            (b'\\', None) => Part::Backslash,
            (byte, _) => Part::Plain(byte),
        };
        next += if matches!(part, Part::Escape(_)) { 2 } else { 1 };
        Some((place, part))
    })
}

/// The byte that an escape means, by what stands behind its backslash.
fn meaning(letter: u8) -> Option<u8> {
    let escape = ESCAPES.iter().find(|(of, _)| *of == char::from(letter));
    escape.map(|(_, byte)| *byte)
}

/// The escape of a byte that has one.
pub fn escape_of(byte: u8) -> Option<String> {
    let escape = ESCAPES.iter().find(|(_, of)| *of == byte);
    escape.map(|(letter, _)| format!("\\{letter}"))
}

/// The bytes that a string means, each with the place where it stands. In a file that is not accepted a backslash may begin no escape:
/// it then means itself.
pub(crate) fn meant(text: &[u8]) -> impl Iterator<Item = (usize, u8)> + '_ {
    parts(text).map(|(place, part)| match part {
        Part::Plain(byte) | Part::Escape(byte) => (place, byte),
        Part::Backslash => (place, b'\\'),
    })
}

/// The bytes that a string means; borrowed where it has no backslash. A backslash that begins no escape means itself.
///
/// ```
/// use qewaris::escapes::unescaped;
///
/// assert_eq!(*unescaped(b"\\slow\\tide\\\\"), *b" low\tide\\");
/// ```
pub fn unescaped(text: &[u8]) -> Cow<'_, [u8]> {
    if text.contains(&b'\\') {
        Cow::Owned(meant(text).map(|(_, byte)| byte).collect())
    } else {
        Cow::Borrowed(text)
    }
}

/// The place of the first backslash that begins no escape.
pub fn bad_escape(text: &[u8]) -> Option<usize> {
    let bad = parts(text).find(|(_, part)| matches!(part, Part::Backslash));
    bad.map(|(place, _)| place)
}

#[cfg(test)]
mod tests {
    use super::*;

    /// A string as it stands, what it means, and the place of its first bad escape.
    const CASES: &[(&[u8], &[u8], Option<usize>)] = &[
        (b"", b"", None),
        (b"low tide", b"low tide", None),
        (b"\\s\\t\\r\\n\\\\", b" \t\r\n\\", None),
        (b"\\slow tide\\s", b" low tide ", None),
        (b"a\\\\tb", b"a\\tb", None),
        (b"a\\\\\\tb", b"a\\\tb", None),
        (b"a\\\\", b"a\\", None),
        (b"a\\", b"a\\", Some(1)),
        (b"a\\\\\\", b"a\\\\", Some(3)),
        (b"\\S", b"\\S", Some(0)),
        (b"\\t\\x\\y", b"\t\\x\\y", Some(2)),
        (b"\\\xc3\xa9", b"\\\xc3\xa9", Some(0)),
    ];

    #[test]
    fn escapes_are_read_from_left_to_right() {
        for (text, meant, bad) in CASES {
            assert_eq!(*unescaped(text), **meant, "{}", text.escape_ascii());
            assert_eq!(bad_escape(text), *bad, "{}", text.escape_ascii());
        }
    }

    #[test]
    fn a_string_without_a_backslash_is_borrowed() {
        for (text, meant, _) in CASES {
            assert_eq!(
                matches!(unescaped(text), Cow::Borrowed(_)),
                !text.contains(&b'\\'),
                "{}",
                text.escape_ascii()
            );
            assert!(meant.len() <= text.len());
        }
    }

    #[test]
    fn the_escape_of_a_byte_means_that_byte() {
        let escaped: Vec<u8> = (0..=255).filter(|byte| escape_of(*byte).is_some()).collect();
        assert_eq!(escaped, b"\t\n\r \\");
        for byte in escaped {
            assert_eq!(*unescaped(escape_of(byte).unwrap().as_bytes()), [byte]);
        }
    }
}
