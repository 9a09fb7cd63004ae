//! Lines, alike in both dialects: where they end, and which of blank, comment, header and setting each is.

use super::dialect::Dialect;

/// A line of a file without its byte 10: its number from 1, and where it starts in the file.
#[derive(Clone, Copy, Debug, PartialEq, Eq)]
pub struct Line<'a> {
    pub number: usize,
    pub start: usize,
    pub bytes: &'a [u8],
}

/// What a line is once its leading whitespace is dropped.
#[derive(Clone, Copy, Debug, PartialEq, Eq)]
pub enum Shape<'a> {
    Blank,
    Comment,
    /// The line starts with `[`, header or not: all of it.
    Bracketed(&'a [u8]),
    /// A setting; `start` is where its value stands in the file.
    Setting {
        key: &'a [u8],
        value: &'a [u8],
        start: usize,
    },
    Unrecognized,
}

/// "A line ends at byte 10 or at the end of the file; nothing after the last byte 10 is no line."
pub fn lines(file: &[u8]) -> Vec<Line<'_>> {
    let mut start = 0;
    let mut lines = Vec::new();
    for piece in file.split_inclusive(|&byte| byte == b'\n') {
        let bytes = piece.strip_suffix(b"\n").unwrap_or(piece);
        lines.push(Line {
            number: lines.len() + 1,
            start,
            bytes,
        });
        start += piece.len();
    }
    lines
}

/// "Whitespace is space and tab (house)."
pub fn is_whitespace(byte: u8) -> bool {
    byte == b' ' || byte == b'\t'
}

/// The text without its leading whitespace.
pub fn skip_whitespace(text: &[u8]) -> &[u8] {
    let kept = text.iter().position(|&byte| !is_whitespace(byte)).unwrap_or(text.len());
    &text[kept..]
}

/// The text without its trailing whitespace.
pub fn drop_trailing_whitespace(text: &[u8]) -> &[u8] {
    let kept = text.iter().rposition(|&byte| !is_whitespace(byte)).map_or(0, |last| last + 1);
    &text[..kept]
}

/// "Leading whitespace is dropped; blank and comment lines are passed over before anything else is asked, a comment being one
/// whose first byte then is `#`."
pub fn shape<'a>(dialect: Dialect, line: &Line<'a>) -> Shape<'a> {
    let text = skip_whitespace(line.bytes);
    match text.first() {
        None => Shape::Blank,
        Some(b'#') => Shape::Comment,
        Some(b'[') => Shape::Bracketed(text),
        Some(_) => setting(dialect, line, text).unwrap_or(Shape::Unrecognized),
    }
}

/// "A setting is a key of one or more bytes, optional whitespace, `=`, optional whitespace, and the value."
fn setting<'a>(dialect: Dialect, line: &Line<'a>, text: &'a [u8]) -> Option<Shape<'a>> {
    let key_length = text.iter().take_while(|&&byte| dialect.is_key_byte(byte)).count();
    let (key, rest) = text.split_at(key_length);
    let rest = skip_whitespace(rest).strip_prefix(b"=")?;
    let value = skip_whitespace(rest);
    let start = line.start + line.bytes.len() - value.len();
    let value = dialect.value_end(value);
    (!key.is_empty()).then_some(Shape::Setting { key, value, start })
}

/// "A header is `[`, one or more bytes 32 to 126 other than `[` and `]`, then `]`, then only whitespace." Gives the group's name.
pub fn header(text: &[u8]) -> Option<&str> {
    let inside = text.strip_prefix(b"[")?;
    let end = inside.iter().position(|&byte| byte == b']')?;
    let (name, tail) = (&inside[..end], &inside[end + 1..]);
    let printable = name.iter().all(|&byte| (32..=126).contains(&byte) && byte != b'[');
    if name.is_empty() || !printable || !skip_whitespace(tail).is_empty() {
        return None;
    }
    std::str::from_utf8(name).ok()
}

#[cfg(test)]
mod tests {
    use super::{header, lines};

    #[test]
    fn nothing_after_the_last_newline_is_no_line() {
        let numbers = |file: &[u8]| {
            lines(file)
                .iter()
                .map(|line| (line.number, line.start, line.bytes.len()))
                .collect::<Vec<_>>()
        };
        assert_eq!(numbers(b""), []);
        assert_eq!(numbers(b"\n"), [(1, 0, 0)]);
        assert_eq!(numbers(b"ab"), [(1, 0, 2)]);
        assert_eq!(numbers(b"ab\n"), [(1, 0, 2)]);
        assert_eq!(numbers(b"ab\n\nc"), [(1, 0, 2), (2, 3, 0), (3, 4, 1)]);
    }

    #[test]
    fn headers() {
        let rows: [(&[u8], Option<&str>); 12] = [
            (b"[IPv4]", Some("IPv4")),
            (b"[IPv4] \t", Some("IPv4")),
            (b"[ IPv4 ]", Some(" IPv4 ")),
            (b"[~ !]", Some("~ !")),
            (b"[]", None),
            (b"[IPv4", None),
            (b"[IPv4]x", None),
            (b"[IPv4]]", None),
            (b"[[IPv4]", None),
            (b"[IP\tv4]", None),
            (b"[IPv4\x7f]", None),
            (b"[", None),
        ];
        for (text, name) in rows {
            assert_eq!(header(text), name, "{}", text.escape_ascii());
        }
    }
}
