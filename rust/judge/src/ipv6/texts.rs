//! What is looked for in the texts of IPv6 addresses: the shapes of those that are accepted, the faults of those that are refused, each
//! such that the text would be one without it, and the shapes of those that are written.

use super::mending::{self, mends};
use crate::met::Sign;
use crate::reference::ipv6_text::read;

/// What stands in the text of an address.
pub const SHAPES: [Sign; 9] = [
    ("full", |text| !has_gap(text)),
    (":: first", gap_is_first),
    (":: inside", gap_is_inside),
    (":: last", gap_is_last),
    (":: alone", |text| text == b"::"),
    (":: for one", |text| has_gap(text) && group_count(text) == 7),
    (":: for more", |text| has_gap(text) && group_count(text) < 7),
    ("full, tail", |text| !has_gap(text) && has_tail(text)),
    ("::, tail", |text| has_gap(text) && has_tail(text)),
];

/// How its digits are written.
pub const DIGITS: [Sign; 6] = [
    ("lower case", |text| {
        has(text, u8::is_ascii_lowercase) && !has(text, u8::is_ascii_uppercase)
    }),
    ("upper case", |text| {
        has(text, u8::is_ascii_uppercase) && !has(text, u8::is_ascii_lowercase)
    }),
    ("both cases", |text| {
        has(text, u8::is_ascii_uppercase) && has(text, u8::is_ascii_lowercase)
    }),
    ("leading 0", |text| {
        groups(text).iter().any(|group| group.len() > 1 && group.starts_with('0'))
    }),
    ("0000", |text| groups(text).contains(&"0000")),
    ("mapped", |text| read(text).is_some_and(|address| address[..12] == MAPPED)),
];

/// The front of an address that has an IPv4 address mapped into it.
const MAPPED: [u8; 12] = [0, 0, 0, 0, 0, 0, 0, 0, 0, 0, 0xFF, 0xFF];

/// Faults of the groups and colons.
pub const FAULTS: [Sign; 13] = [
    ("empty", |text| text.is_empty()),
    ("five digits", |text| mends(text, mending::shorter_groups)),
    ("no digit", |text| mends(text, mending::other_digit)),
    ("seven", |text| mends(text, mending::one_more)),
    ("nine", |text| mends(text, mending::one_fewer)),
    (":: for none", |text| mends(text, mending::without_only_gap)),
    (":: twice", |text| mends(text, mending::without_second_gap)),
    (":::", |text| mends(text, mending::without_third_colon)),
    (": first", |text| mends(text, mending::without_first_colon)),
    (": last", |text| mends(text, mending::without_last_colon)),
    ("zone", |text| mends(text, mending::without_zone)),
    ("brackets", |text| mends(text, mending::without_brackets)),
    ("blank", |text| mends(text, mending::without_blanks)),
];

/// Faults of a dotted tail.
pub const TAIL_FAULTS: [Sign; 7] = [
    ("leading 0", |text| mends(text, mending::without_leading_zero)),
    ("above 255", |text| mends(text, mending::smaller_number)),
    ("three", |text| mends(text, mending::one_number_more)),
    ("five", |text| mends(text, mending::one_number_fewer)),
    ("not last", |text| mends(text, mending::tail_as_groups)),
    ("behind seven", |text| mends(text, mending::tail_as_group)),
    ("alone", |text| mends(text, mending::behind_gap)),
];

/// Lengths that are legal, and some that are not.
pub const LENGTHS: [Sign; 5] = [
    ("1", |text| text == b"1"),
    ("64", |text| text == b"64"),
    ("two digits", |text| text.len() == 2),
    ("three digits", |text| text.len() == 3),
    ("128", |text| text == b"128"),
];

pub const LENGTH_FAULTS: [Sign; 7] = [
    ("empty", |text| text.is_empty()),
    ("0", |text| text == b"0"),
    ("129", |text| text == b"129"),
    ("130 to 255", |text| number(text).is_some_and(|number| (130..256).contains(&number))),
    ("256 and more", |text| number(text).is_some_and(|number| number > 255)),
    ("leading 0", |text| {
        text.len() > 1 && text.starts_with(b"0") && text.iter().all(u8::is_ascii_digit)
    }),
    ("no number", |text| has(text, |byte| !byte.is_ascii_digit())),
];

/// Texts as they are written.
pub const WRITTEN: [Sign; 10] = [
    ("no ::", |text| !has_gap(text)),
    (":: first", gap_is_first),
    (":: inside", gap_is_inside),
    (":: last", gap_is_last),
    (":: alone", |text| text == b"::"),
    ("equal runs", |text| has_gap(text) && longest_zeros(text) == 8 - group_count(text)),
    ("shorter run", |text| {
        has_gap(text) && (2..8 - group_count(text)).contains(&longest_zeros(text))
    }),
    ("one 0 kept", |text| longest_zeros(text) == 1),
    ("mapped", |text| text.starts_with(b"::ffff:") && group_count(text) == 3),
    ("39 bytes", |text| text.len() == 39),
];

fn shown(text: &[u8]) -> &str {
    std::str::from_utf8(text).unwrap_or("")
}

fn has(text: &[u8], wanted: fn(&u8) -> bool) -> bool {
    text.iter().any(wanted)
}

fn has_gap(text: &[u8]) -> bool {
    shown(text).contains("::")
}

fn gap_is_first(text: &[u8]) -> bool {
    text.starts_with(b"::") && text.len() > 2
}

fn gap_is_last(text: &[u8]) -> bool {
    text.ends_with(b"::") && text.len() > 2
}

fn gap_is_inside(text: &[u8]) -> bool {
    has_gap(text) && !text.starts_with(b"::") && !text.ends_with(b"::")
}

fn has_tail(text: &[u8]) -> bool {
    text.contains(&b'.')
}

/// The groups of hex digits, in order.
fn groups(text: &[u8]) -> Vec<&str> {
    shown(text)
        .split(':')
        .filter(|piece| !piece.is_empty() && !piece.contains('.'))
        .collect()
}

/// How many groups stand in the text, a dotted tail being two.
fn group_count(text: &[u8]) -> usize {
    groups(text).len() + if has_tail(text) { 2 } else { 0 }
}

/// The most groups `0` in a row.
fn longest_zeros(text: &[u8]) -> usize {
    let pieces: Vec<&str> = shown(text).split(':').collect();
    let runs = pieces.chunk_by(|one, next| one == next).filter(|run| run[0] == "0");
    runs.map(<[_]>::len).max().unwrap_or(0)
}

fn number(text: &[u8]) -> Option<u64> {
    shown(text).parse().ok().filter(|_| !text.starts_with(b"+"))
}

#[cfg(test)]
mod tests {
    use super::{Sign, DIGITS, FAULTS, LENGTHS, LENGTH_FAULTS, SHAPES, TAIL_FAULTS, WRITTEN};

    /// The names of the signs that a text has.
    fn names(signs: &[Sign], text: &str) -> Vec<&'static str> {
        signs
            .iter()
            .filter(|(_, holds)| holds(text.as_bytes()))
            .map(|(name, _)| *name)
            .collect()
    }

    fn check(signs: &[Sign], rows: &[(&str, &[&str])]) {
        for (text, expected) in rows {
            assert_eq!(names(signs, text), *expected, "{text}");
        }
    }

    #[test]
    fn shapes_are_told() {
        check(
            &SHAPES,
            &[
                ("1:2:3:4:5:6:7:8", &["full"]),
                ("1:2:3:4:5:6:7.8.9.10", &["full", "full, tail"]),
                ("::", &[":: alone", ":: for more"]),
                ("::1", &[":: first", ":: for more"]),
                ("1::", &[":: last", ":: for more"]),
                ("1::2", &[":: inside", ":: for more"]),
                ("1:2:3::5:6:7:8", &[":: inside", ":: for one"]),
                ("::3:4:5:6:1.2.3.4", &[":: first", ":: for more", "::, tail"]),
                ("1::3:4:5:6:1.2.3.4", &[":: inside", ":: for one", "::, tail"]),
            ],
        );
    }

    #[test]
    fn digits_are_told() {
        check(
            &DIGITS,
            &[
                ("::1", &[]),
                ("::a", &["lower case"]),
                ("::A", &["upper case"]),
                ("::aB", &["both cases"]),
                ("::01", &["leading 0"]),
                ("0000::1", &["leading 0", "0000"]),
                ("::1.2.3.4", &[]),
                ("::ffff:1.2.3.4", &["lower case", "mapped"]),
                ("::FFFF:0:0", &["upper case", "mapped"]),
            ],
        );
    }

    #[test]
    fn a_fault_is_told_where_the_text_is_good_without_it() {
        check(
            &FAULTS,
            &[
                ("", &["empty"]),
                ("::12345", &["five digits"]),
                ("::01234", &["five digits"]),
                ("::12345:g", &[]),
                ("::g", &["no digit"]),
                ("1:2:3:4:5:6:7", &["seven"]),
                ("1:2:3:4:5:1.2.3.4", &["seven"]),
                ("1:2:3:4:5:6:7:8:9", &["nine"]),
                ("1:2:3:4:5:6:7:1.2.3.4", &["nine"]),
                ("1:2:3:4::5:6:7:8", &[":: for none"]),
                ("::1:2:3:4:5:6:7:8", &[":: for none"]),
                ("1:2:3:4:5:6:7:8::", &[":: for none"]),
                ("1::2::3", &[":: twice"]),
                ("::1::", &[":: twice"]),
                (":::", &[":::"]),
                ("1:::2", &[":::"]),
                (":1:2:3:4:5:6:7:8", &[": first"]),
                (":1::2", &[": first"]),
                ("1::2:", &[": last"]),
                ("fe80::1%eth0", &["zone"]),
                ("[::1]", &["brackets"]),
                ("[::1]:80", &[]),
                ("::1 ", &["blank"]),
                (": :1", &["blank"]),
                ("1:2", &[]),
            ],
        );
    }

    #[test]
    fn a_fault_of_a_tail_is_told_where_the_text_is_good_without_it() {
        check(
            &TAIL_FAULTS,
            &[
                ("::01.2.3.4", &["leading 0"]),
                ("::1.2.3.00", &["leading 0"]),
                ("::1.2.3.256", &["above 255"]),
                ("1:2:3:4:5:6:1.2.3", &["three"]),
                ("::1.2.3.4.5", &["five"]),
                ("1.2.3.4::", &["not last"]),
                ("::1.2.3.4:5", &["not last"]),
                ("1:2:3:4:5:6:7:1.2.3.4", &["behind seven"]),
                ("1.2.3.4", &["alone"]),
                ("::1.2.3.a", &[]),
            ],
        );
    }

    #[test]
    fn lengths_are_told() {
        check(
            &LENGTHS,
            &[
                ("1", &["1"]),
                ("64", &["64", "two digits"]),
                ("100", &["three digits"]),
                ("128", &["three digits", "128"]),
            ],
        );
        check(
            &LENGTH_FAULTS,
            &[
                ("", &["empty"]),
                ("0", &["0"]),
                ("129", &["129"]),
                ("130", &["130 to 255"]),
                ("256", &["256 and more"]),
                ("01", &["leading 0"]),
                ("+1", &["no number"]),
                ("6 4", &["no number"]),
            ],
        );
    }

    #[test]
    fn written_texts_are_told() {
        check(
            &WRITTEN,
            &[
                ("1:2:3:4:5:6:7:8", &["no ::"]),
                ("1:0:3:4:5:6:7:8", &["no ::", "one 0 kept"]),
                ("::", &[":: alone"]),
                ("::1", &[":: first"]),
                ("1::", &[":: last"]),
                ("2001:db8::1:0:0:1", &[":: inside", "equal runs"]),
                ("2001:0:0:1::1", &[":: inside", "shorter run"]),
                ("1::2:0:3", &[":: inside", "one 0 kept"]),
                ("::ffff:102:304", &[":: first", "mapped"]),
                ("1111:2222:3333:4444:5555:6666:7777:8888", &["no ::", "39 bytes"]),
            ],
        );
    }
}
