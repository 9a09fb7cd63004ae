//! Where things stand in a file: its lines, the parts of a line, and its groups with their settings.

use crate::catalogue::Dialect;
use std::ops::Range;

/// A line as its dialect reads it; places are counted from the start of the line.
#[derive(Debug, PartialEq, Eq)]
#[non_exhaustive]
pub enum Form {
    Blank,
    Comment,
    Header(Range<usize>),
    Setting { key: Range<usize>, value: Range<usize> },
    Other,
}

/// A group of a good file: its name, the line of its header, and its settings.
pub struct Section<'a> {
    pub name: &'a [u8],
    pub line: usize,
    pub settings: Vec<Setting<'a>>,
}

/// A setting with its value as it stands: a string is still escaped.
pub struct Setting<'a> {
    pub key: &'a [u8],
    pub value: &'a [u8],
    pub line: usize,
}

impl Section<'_> {
    pub fn setting(&self, key: &str) -> Option<&Setting<'_>> {
        self.settings.iter().find(|setting| setting.key == key.as_bytes())
    }
}

pub fn is_blank(byte: u8) -> bool {
    byte == b' ' || byte == b'\t'
}

/// How many blanks stand at the front.
pub fn blanks(bytes: &[u8]) -> usize {
    bytes.iter().take_while(|byte| is_blank(**byte)).count()
}

/// The bytes without the blanks at both ends.
pub fn trimmed(bytes: &[u8]) -> &[u8] {
    let front = &bytes[blanks(bytes)..];
    &front[..front.len() - trailing_blanks(front)]
}

pub fn trailing_blanks(bytes: &[u8]) -> usize {
    bytes.iter().rev().take_while(|byte| is_blank(**byte)).count()
}

/// The lines of a file, without the byte 10 that ends each.
pub fn lines(file: &[u8]) -> impl Iterator<Item = &[u8]> {
    file.split_inclusive(|byte| *byte == b'\n')
        .map(|line| line.strip_suffix(b"\n").unwrap_or(line))
}

/// A line by its number from 1.
pub fn line(file: &[u8], number: usize) -> Option<&[u8]> {
    lines(file).nth(number.checked_sub(1)?)
}

/// What a line is.
pub fn form(dialect: Dialect, line: &[u8]) -> Form {
    let start = blanks(line);
    match line.get(start) {
        None => Form::Blank,
        Some(b'#') => Form::Comment,
        Some(b'[') => header(line, start + 1),
        Some(_) => setting(dialect, line, start),
    }
}

fn header(line: &[u8], start: usize) -> Form {
    let name = line[start..].iter().take_while(|byte| is_header_byte(**byte)).count();
    let end = start + name;
    let closed = line.get(end) == Some(&b']') && line[end + 1..].iter().all(|byte| is_blank(*byte));
    if name > 0 && closed {
        Form::Header(start..end)
    } else {
        Form::Other
    }
}

/// Whether a group's name may have this byte.
pub fn is_header_byte(byte: u8) -> bool {
    (32..=126).contains(&byte) && byte != b'[' && byte != b']'
}

fn setting(dialect: Dialect, line: &[u8], start: usize) -> Form {
    let key = line[start..].iter().take_while(|byte| dialect.is_key_byte(**byte)).count();
    let equal = start + key + blanks(&line[start + key..]);
    if key == 0 || line.get(equal) != Some(&b'=') {
        return Form::Other;
    }
    let value = equal + 1 + blanks(&line[equal + 1..]);
    let end = match dialect {
        Dialect::Iwd => line.len(),
        Dialect::Connman => line.len() - trailing_blanks(&line[value..]),
    };
    Form::Setting {
        key: start..start + key,
        value: value..end,
    }
}

/// The groups of a file with their settings; what is neither is passed over.
pub fn sections(dialect: Dialect, file: &[u8]) -> Vec<Section<'_>> {
    let mut found: Vec<Section<'_>> = Vec::new();
    for (place, line) in lines(file).enumerate() {
        match form(dialect, line) {
            Form::Header(name) => found.push(Section {
                name: &line[name],
                line: place + 1,
                settings: Vec::new(),
            }),
            Form::Setting { key, value } => {
                if let Some(section) = found.last_mut() {
                    section.settings.push(Setting {
                        key: &line[key],
                        value: &line[value],
                        line: place + 1,
                    });
                }
            }
            _ => {}
        }
    }
    found
}

/// The services of a ConnMan file, in the order of their numbers.
pub fn services(file: &[u8]) -> Vec<Section<'_>> {
    let sections = sections(Dialect::Connman, file).into_iter();
    sections.filter(|section| section.name.starts_with(b"service_")).collect()
}

#[cfg(test)]
mod tests {
    use super::*;

    #[test]
    fn lines_end_at_byte_10_or_at_the_end() {
        let found: Vec<&[u8]> = lines(b"a\n\nb").collect();
        assert_eq!(found, [&b"a"[..], b"", b"b"]);
        assert_eq!(lines(b"a\n").count(), 1);
        assert_eq!(lines(b"").count(), 0);
        assert_eq!(line(b"a\nb\n", 2), Some(&b"b"[..]));
        assert_eq!((line(b"a\n", 0), line(b"a\n", 2)), (None, None));
    }

    #[test]
    fn values_end_as_their_dialect_says() {
        let setting = |value| Form::Setting { key: 1..5, value };
        assert_eq!(form(Dialect::Iwd, b" Name = a "), setting(8..10));
        assert_eq!(form(Dialect::Connman, b" Name = a "), setting(8..9));
        assert_eq!(form(Dialect::Connman, b" Name = "), setting(8..8));
        assert_eq!(form(Dialect::Iwd, b"IPv6.Privacy=a"), Form::Other);
        assert_eq!(form(Dialect::Iwd, b" [IPv4] "), Form::Header(2..6));
        assert_eq!(form(Dialect::Iwd, b"[IPv4] x"), Form::Other);
        assert_eq!(form(Dialect::Iwd, b"[]"), Form::Other);
    }
}
