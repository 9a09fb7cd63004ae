//! The first place at which a value breaks its kind, for the caret; none where it does not.

use super::ipv6;
use crate::catalogue::{Dialect, Kind};
use crate::layout::is_blank;

pub fn fault(dialect: Dialect, kind: Kind, text: &[u8]) -> Option<usize> {
    match kind {
        Kind::YesNo if dialect == Dialect::Iwd => not_one_of(text, &["true", "false", "1", "0"]),
        Kind::YesNo => not_one_of(text, &["true", "false"]),
        Kind::Address => address(text),
        Kind::Mask => mask(text),
        Kind::Ipv4 => ipv4(text),
        Kind::SpacedAddresses => spaced(text),
        Kind::CommaAddresses => parts(text, 4, address),
        Kind::Entries => parts(text, 4, entry),
        Kind::Mac => mac(text),
        Kind::Key => hex(text, 64..=64),
        Kind::Ssid => hex(text, 2..=64).or((text.len() % 2 == 1).then(|| text.len() - 1)),
        Kind::Passphrase | Kind::NetworkName | Kind::Text => Some(0),
        Kind::Ipv6 | Kind::Ipv6Address | Kind::Ipv6Gateway => ipv6::fault(kind, text).map(|found| found.place),
        Kind::Type | Kind::Privacy | Kind::Security => not_one_of(text, kind.words()),
    }
}

/// What stands between separators, with its place.
pub fn pieces(text: &[u8], separator: u8) -> impl Iterator<Item = (usize, &[u8])> {
    let mut next = 0;
    text.split(move |byte| *byte == separator).map(move |piece| {
        let start = next;
        next += piece.len() + 1;
        (start, piece)
    })
}

fn not_one_of(text: &[u8], words: &[&str]) -> Option<usize> {
    let good = words.iter().any(|word| word.as_bytes() == text);
    (!good).then_some(0)
}

/// A number of at most `most` without leading zeros.
pub fn number(text: &[u8], most: u32) -> Option<u32> {
    let digits = std::str::from_utf8(text).ok()?;
    let plain = text.iter().all(u8::is_ascii_digit) && (text.len() == 1 || text.first() != Some(&b'0'));
    digits.parse().ok().filter(|value| plain && *value <= most)
}

/// Four numbers with dots.
pub fn address(text: &[u8]) -> Option<usize> {
    let mut numbers = pieces(text, b'.').enumerate();
    let wrong = numbers.find(|(count, (_, part))| *count == 4 || number(part, 255).is_none());
    let is_short = || pieces(text, b'.').count() < 4;
    wrong.map(|(_, (place, _))| place).or_else(|| is_short().then_some(text.len()))
}

fn mask(text: &[u8]) -> Option<usize> {
    if let Some(place) = address(text) {
        return Some(place);
    }
    let mut ended = false;
    for (place, part) in pieces(text, b'.') {
        let bits = number(part, 255).and_then(|bits| u8::try_from(bits).ok()).unwrap_or(0);
        if bits.leading_ones() != bits.count_ones() || (ended && bits > 0) || (place == 0 && bits == 0) {
            return Some(place);
        }
        ended = bits != 255;
    }
    None
}

/// `off`, `dhcp`, or address/(mask or length) and perhaps /gateway.
fn ipv4(text: &[u8]) -> Option<usize> {
    if text == b"off" || text == b"dhcp" {
        return None;
    }
    for (count, (place, part)) in pieces(text, b'/').enumerate() {
        let wrong = match count {
            0 | 2 => address(part),
            1 if number(part, 32).is_some_and(|length| length > 0) => None,
            1 => mask(part).map(|wrong| if part.contains(&b'.') { wrong } else { 0 }),
            _ => Some(0),
        };
        if let Some(wrong) = wrong {
            return Some(place + wrong);
        }
    }
    (!text.contains(&b'/')).then_some(text.len())
}

/// 1 to 4 addresses with spaces between and perhaps at the end.
fn spaced(text: &[u8]) -> Option<usize> {
    let given = || pieces(text, b' ').filter(|(_, part)| !part.is_empty());
    for (count, (place, part)) in given().enumerate() {
        if let Some(wrong) = address(part) {
            return Some(place + wrong);
        }
        if count == 4 {
            return Some(place);
        }
    }
    given().next().is_none().then_some(0)
}

/// At most `most` parts with one comma between.
fn parts(text: &[u8], most: usize, judge: fn(&[u8]) -> Option<usize>) -> Option<usize> {
    for (count, (place, part)) in pieces(text, b',').enumerate() {
        if let Some(wrong) = judge(part) {
            return Some(place + wrong);
        }
        if count == most {
            return Some(place);
        }
    }
    None
}

fn entry(text: &[u8]) -> Option<usize> {
    let blank = text.iter().position(|byte| is_blank(*byte));
    blank.or(((text.is_empty()) || text.len() > 253).then_some(0))
}

/// Six pairs of hex digits with colons.
fn mac(text: &[u8]) -> Option<usize> {
    let good = |(place, byte): (usize, &u8)| match place {
        17.. => false,
        _ if place % 3 == 2 => *byte == b':',
        _ => byte.is_ascii_hexdigit(),
    };
    let wrong = text.iter().enumerate().position(|at| !good(at));
    wrong.or((text.len() < 17).then_some(text.len()))
}

fn hex(text: &[u8], lengths: std::ops::RangeInclusive<usize>) -> Option<usize> {
    let wrong = text.iter().position(|byte| !byte.is_ascii_hexdigit());
    wrong.or((!lengths.contains(&text.len())).then_some(0))
}
