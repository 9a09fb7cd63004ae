//! Bytes as text that harms no terminal: what is not plainly printable is escaped, what is hidden is a dot for each byte.
//!
//! A part of a file is shown as it stands. The bytes that a string means are shown as a file could have them, with its own escapes, so
//! that no two strings look alike and no blank at an end is overlooked.

use crate::escapes::escape_of;

/// A stretch of shown text: where its bytes start, how it is shown, and how many columns that takes.
pub struct Piece {
    pub start: usize,
    pub text: String,
    pub columns: usize,
}

/// Bytes as text, with everything escaped that a terminal could take for something else.
pub fn visible(bytes: &[u8]) -> String {
    pieces(bytes, &[]).into_iter().map(|piece| piece.text).collect()
}

/// How many columns a visible text takes.
pub fn columns(text: &str) -> usize {
    pieces(text.as_bytes(), &[]).iter().map(|piece| piece.columns).sum()
}

/// Bytes as text in double quotes.
pub fn quoted(bytes: &[u8]) -> String {
    in_quotes(&visible(bytes))
}

/// The bytes that a string means, as a file could have them. Those whose place in `hidden` is true show as dots.
///
/// ```
/// assert_eq!(qewaris::visible::string(b"low\tide 88 ", &[]), "low\\tide 88\\s");
/// assert_eq!(qewaris::visible::string(b"low\\tide 88", &[]), "low\\\\tide 88");
/// ```
pub fn string(bytes: &[u8], hidden: &[bool]) -> String {
    let within = 1..bytes.len().saturating_sub(1);
    let shown = |piece: Piece| {
        let (start, byte) = (piece.start, bytes[piece.start]);
        let stands = hidden.get(start) == Some(&true) || (byte == b' ' && within.contains(&start));
        escape_of(byte).filter(|_| !stands).unwrap_or(piece.text)
    };
    pieces(bytes, hidden).into_iter().map(shown).collect()
}

/// The bytes that a string means, as a file could have them, in double quotes.
pub fn quoted_string(bytes: &[u8]) -> String {
    in_quotes(&string(bytes, &[]))
}

fn in_quotes(text: &str) -> String {
    format!("\"{}\"", text.replace('"', "\\\""))
}

/// The pieces of a line. The bytes whose place in `hidden` is true show as dots.
pub fn pieces(bytes: &[u8], hidden: &[bool]) -> Vec<Piece> {
    let is_hidden = |at: usize| hidden.get(at).copied().unwrap_or(false);
    let mut found = Vec::new();
    let mut at = 0;
    while at < bytes.len() {
        let length = bytes[at..]
            .iter()
            .enumerate()
            .take_while(|(i, _)| is_hidden(at + i) == is_hidden(at))
            .count();
        if is_hidden(at) {
            found.extend((at..at + length).map(|start| piece(start, ".".to_string(), 1)));
        } else {
            shown(&bytes[at..at + length], at, &mut found);
        }
        at += length;
    }
    found
}

fn piece(start: usize, text: String, columns: usize) -> Piece {
    Piece { start, text, columns }
}

/// The pieces of bytes of which none is hidden, counted from `start`.
fn shown(bytes: &[u8], mut start: usize, found: &mut Vec<Piece>) {
    for chunk in bytes.utf8_chunks() {
        for character in chunk.valid().chars() {
            let (text, columns) = character_text(character);
            found.push(piece(start, text, columns));
            start += character.len_utf8();
        }
        for byte in chunk.invalid() {
            found.push(piece(start, format!("\\x{byte:02x}"), 4));
            start += 1;
        }
    }
}

fn character_text(character: char) -> (String, usize) {
    match character {
        '\t' => ("\\t".to_string(), 2),
        ' '..='~' => (character.to_string(), 1),
        _ => match width(character) {
            Some(columns) => (character.to_string(), columns),
            None => {
                let text = escaped(character);
                let columns = text.len();
                (text, columns)
            }
        },
    }
}

fn escaped(character: char) -> String {
    let code = u32::from(character);
    if code < 0x80 {
        format!("\\x{code:02x}")
    } else {
        format!("\\u{{{code:x}}}")
    }
}

/// How many columns a character beyond ASCII takes, where every terminal agrees about it; none for all others.
fn width(character: char) -> Option<usize> {
    let code = u32::from(character);
    let within = |ranges: &[(u32, u32)]| ranges.iter().any(|(low, high)| (*low..=*high).contains(&code));
    if within(&NARROW) {
        Some(1)
    } else if within(&WIDE) {
        Some(2)
    } else {
        None
    }
}

/// Latin, Greek and Cyrillic letters, dashes, quotation marks and currency signs.
const NARROW: [(u32, u32); 9] = [
    (0xa1, 0xac),
    (0xae, 0x24f),
    (0x386, 0x3ff),
    (0x400, 0x481),
    (0x48a, 0x52f),
    (0x1e00, 0x1eff),
    (0x2010, 0x2015),
    (0x2018, 0x2022),
    (0x20a0, 0x20bf),
];

/// Kana, the ideographs of Chinese and Japanese, and Korean syllables.
const WIDE: [(u32, u32); 5] = [
    (0x3001, 0x3029),
    (0x3041, 0x3096),
    (0x30a1, 0x30ff),
    (0x4e00, 0x9fff),
    (0xac00, 0xd7a3),
];

#[cfg(test)]
mod tests {
    use super::*;

    #[test]
    fn what_a_terminal_could_obey_is_escaped() {
        assert_eq!(visible(b"Desk 4"), "Desk 4");
        assert_eq!(visible(b"\x1b[31m\x07\x00\x7f\r\n"), "\\x1b[31m\\x07\\x00\\x7f\\x0d\\x0a");
        assert_eq!(visible(b"Caf\xc3\xa9\xff"), "Caf\u{e9}\\xff");
        assert_eq!(visible("a\u{202e}b\u{9b}c\u{feff}".as_bytes()), "a\\u{202e}b\\u{9b}c\\u{feff}");
        assert_eq!(visible("\u{30d0}\u{301}".as_bytes()), "\u{30d0}\\u{301}");
    }

    #[test]
    fn a_string_is_shown_as_a_file_could_have_it() {
        for (bytes, shown) in [
            (&b"Desk 4"[..], "Desk 4"),
            (b" Desk 4 ", "\\sDesk 4\\s"),
            (b" ", "\\s"),
            (b"  ", "\\s\\s"),
            (b"", ""),
            (b"a\tb\nc\rd", "a\\tb\\nc\\rd"),
            (b"a\\tb\x1b", "a\\\\tb\\x1b"),
            (b"a\\x1b\xff", "a\\\\x1b\\xff"),
        ] {
            assert_eq!(string(bytes, &[]), shown);
        }
        assert_eq!(string(b"a\t b ", &[false, true, true, true, true]), "a....");
        assert_eq!(quoted_string(b"\"a\\ "), "\"\\\"a\\\\\\s\"");
    }

    #[test]
    fn pieces_cover_every_byte_in_order() {
        let line = "a\tb\u{e9}\u{30d0}\u{1}".as_bytes();
        let hidden = [false, false, true];
        let starts: Vec<usize> = pieces(line, &hidden).iter().map(|piece| piece.start).collect();
        assert_eq!(starts, [0, 1, 2, 3, 5, 8]);
        let columns: usize = pieces(line, &hidden).iter().map(|piece| piece.columns).sum();
        assert_eq!(columns, 1 + 2 + 1 + 1 + 2 + 4);
    }

    #[test]
    fn a_hidden_byte_is_one_dot() {
        let line = b"Passphrase = low\xfftide";
        let hidden: Vec<bool> = (0..line.len()).map(|at| at >= 13).collect();
        let text: String = pieces(line, &hidden).into_iter().map(|piece| piece.text).collect();
        assert_eq!(text, "Passphrase = ........");
    }
}
