//! IPv6 texts just outside what RFC 4291 allows, each with one fault, and the values of the three settings with one part outside its kind.

use super::ipv6::{length, prefix, text};
use super::values::address;
use crate::random::Random;

/// A text that is most likely no address.
pub fn near_text(random: &mut Random) -> Vec<u8> {
    let text = plain(text(random));
    let near = match random.below(20) {
        0 => five_digits(random, &text),
        1 => full_with_gap(random),
        2 => other_count(random),
        3 => second_gap(random),
        4 => text.replacen("::", ":::", 1),
        5 => lone_colon(random, &text),
        6 => wrapped(random, &text),
        7 => other_digit(random, &text),
        8 => bad_tail(random),
        9 => tail_elsewhere(random),
        10 => misplaced_tail(random),
        11 => dotted(random),
        12 => random
            .pick(&[
                "", ":", ":::", "::::", "1", "1:", ":1", ":1:", "1::2::3", "::g", "0", "/", "::/", "2001:db8", "fe80",
            ])
            .to_string(),
        13 => with_blank(random, &text),
        14 => empty_group(random, &text),
        15 => format!("[{text}]"),
        16 => format!("{text}%{}", random.pick(&["eth0", "1", "", "wlan0"])),
        17 => zero_in_tail(random),
        18 => large_in_tail(random),
        _ => return changed(random, text.into_bytes()),
    };
    near.into_bytes()
}

fn plain(text: Vec<u8>) -> String {
    String::from_utf8(text).expect("a text of an address is plain")
}

/// A dotted tail by itself.
fn dotted(random: &mut Random) -> String {
    plain(address(random))
}

/// The pieces of a text between its colons.
fn pieces(text: &str) -> Vec<String> {
    text.split(':').map(str::to_string).collect()
}

/// The places of the pieces that are groups of hex digits.
fn hex_places(pieces: &[String]) -> Vec<usize> {
    let is_group = |piece: &String| !piece.is_empty() && !piece.contains('.');
    (0..pieces.len()).filter(|place| is_group(&pieces[*place])).collect()
}

/// A group with a fifth digit, which may be a leading zero.
fn five_digits(random: &mut Random, text: &str) -> String {
    let mut pieces = pieces(text);
    let places = hex_places(&pieces);
    if places.is_empty() {
        return "::12345".to_string();
    }
    let group = &mut pieces[random.pick(&places)];
    let missing = 4 - group.len();
    let front = random.pick(&["0", "0", "1", "f", "00"]);
    *group = format!("{front}{}{group}", "0".repeat(missing));
    pieces.join(":")
}

/// Groups that are not zero, so that they stand in full.
fn full(random: &mut Random, count: usize) -> Vec<String> {
    (0..count).map(|_| format!("{:x}", random.between(0, 0xFFFF))).collect()
}

/// Eight groups, or six and a dotted tail, with `::` beside them, where it stands for none.
fn full_with_gap(random: &mut Random) -> String {
    let mut pieces = full(random, 8);
    if random.once_in(4) {
        pieces.truncate(6);
        pieces.push(dotted(random));
    }
    match random.below(pieces.len() + 1) {
        0 => format!("::{}", pieces.join(":")),
        place if place == pieces.len() => format!("{}::", pieces.join(":")),
        place => format!("{}::{}", pieces[..place].join(":"), pieces[place..].join(":")),
    }
}

/// Seven or nine groups without `::`, among other counts.
fn other_count(random: &mut Random) -> String {
    let count = random.pick(&[1, 4, 6, 7, 7, 7, 9, 9, 9, 10, 16]);
    full(random, count).join(":")
}

/// A text with `::` twice.
fn second_gap(random: &mut Random) -> String {
    let before = random.between(0, 3);
    let between = random.between(1, 3);
    let after = random.between(0, 3);
    [full(random, before), full(random, between), full(random, after)]
        .map(|groups| groups.join(":"))
        .join("::")
}

/// A colon more at the front or at the end.
fn lone_colon(random: &mut Random, text: &str) -> String {
    if random.once_in(2) {
        format!(":{text}")
    } else {
        format!("{text}:")
    }
}

/// In brackets with a port, in half of them, in quotes, or with another thing around.
fn wrapped(random: &mut Random, text: &str) -> String {
    match random.below(6) {
        0 => format!("[{text}]:80"),
        1 => format!("{text}]"),
        2 => format!("[{text}"),
        3 => format!("\"{text}\""),
        4 => format!("0x{text}"),
        _ => format!("{text},{text}"),
    }
}

/// A byte next to the digits in the place of one.
fn other_digit(random: &mut Random, text: &str) -> String {
    let mut bytes = text.as_bytes().to_vec();
    let digits: Vec<usize> = (0..bytes.len()).filter(|place| bytes[*place].is_ascii_hexdigit()).collect();
    if digits.is_empty() {
        return "::g".to_string();
    }
    bytes[random.pick(&digits)] = random.pick(b"gG/@`;xzZ-+_*#\\%");
    plain(bytes)
}

/// A front for a dotted tail, full or with `::`.
fn front(random: &mut Random) -> String {
    if random.once_in(3) {
        return full(random, 6).join(":") + ":";
    }
    let (before, after) = (random.between(0, 3), random.between(0, 2));
    let (before, after) = (full(random, before), full(random, after));
    let after: String = after.iter().map(|group| format!("{group}:")).collect();
    format!("{}::{after}", before.join(":"))
}

/// A tail with one of its numbers in another text.
fn with_number(random: &mut Random, number: &str) -> String {
    let mut numbers: Vec<String> = dotted(random).split('.').map(str::to_string).collect();
    numbers[random.below(4)] = number.to_string();
    front(random) + &numbers.join(".")
}

fn zero_in_tail(random: &mut Random) -> String {
    let number = random.pick(&["00", "01", "010", "001", "000", "0255"]);
    with_number(random, number)
}

fn large_in_tail(random: &mut Random) -> String {
    let number = random.pick(&["256", "300", "999", "1000", "65536"]);
    with_number(random, number)
}

/// A tail with a number that is none, or with another count of numbers.
fn bad_tail(random: &mut Random) -> String {
    let tail = dotted(random);
    let (most, last) = tail.rsplit_once('.').expect("a dotted tail");
    match random.below(10) {
        0..=2 => front(random) + most,
        3..=5 => format!("{}{tail}.{last}", front(random)),
        6 => format!("{}{tail}.", front(random)),
        7 => format!("{}.{tail}", front(random)),
        8 => format!("{}{most}..{last}", front(random)),
        _ => {
            let number = random.pick(&["", "a", "0x1", "-1", "+1", " 1", "1 ", "f"]);
            with_number(random, number)
        }
    }
}

/// A dotted part that is not last.
fn tail_elsewhere(random: &mut Random) -> String {
    match random.below(4) {
        0 => format!("{}:{}", dotted(random), full(random, 6).join(":")),
        1 => format!("{}::{}", dotted(random), full(random, 2).join(":")),
        2 => format!("{}{}:{}", front(random), dotted(random), full(random, 1)[0]),
        _ => format!("{}{}::", front(random), dotted(random)),
    }
}

/// A tail behind another number of groups than six, or where `::` would stand for none.
fn misplaced_tail(random: &mut Random) -> String {
    let count = random.pick(&[1, 5, 5, 7, 7, 8]);
    format!("{}:{}", full(random, count).join(":"), dotted(random))
}

fn with_blank(random: &mut Random, text: &str) -> String {
    let place = random.below(text.len() + 1);
    let blank = random.pick(&[" ", "\t", "  ", "\u{a0}", "\u{ff1a}"]);
    format!("{}{blank}{}", &text[..place], &text[place..])
}

/// A group left empty.
fn empty_group(random: &mut Random, text: &str) -> String {
    let mut pieces = pieces(text);
    let places = hex_places(&pieces);
    if places.is_empty() {
        return "::1::".to_string();
    }
    pieces[random.pick(&places)].clear();
    pieces.join(":")
}

/// A byte put in, taken out, doubled or put in the place of another.
pub fn changed(random: &mut Random, mut text: Vec<u8>) -> Vec<u8> {
    let place = random.below(text.len().max(1));
    match random.below(4) {
        0 => text.insert(place, random.pick(b"::::0f.%[]/ gG9-")),
        1 if !text.is_empty() => drop(text.remove(place)),
        2 if !text.is_empty() => text[place] = random.pick(b"::::0f.%[]/ gG9-"),
        _ if !text.is_empty() => text.insert(place, text[place]),
        _ => text.push(b':'),
    }
    text
}

/// A length that is none.
fn near_length(random: &mut Random) -> Vec<u8> {
    let lengths = b"0|129|0|129|01|064|0128|00||+1|-1|1280|200|255|256|257|384|999|1e1|0x40|64.|ffff|:|::|6 4| 64|\xD9\xA1|4294967297";
    random.pick_word(lengths).to_vec()
}

/// Gateway of iwd's IPv6, or near it: also with a length, as ConnMan has it, or as its Address may be.
pub fn near_gateway(random: &mut Random) -> Vec<u8> {
    match random.below(8) {
        0 => [text(random), length(random)].join(&b'/'),
        1 => [&text(random)[..], b"/"].concat(),
        2 => random.pick_word(b"off|auto|none|/|/64|::/0|default").to_vec(),
        _ => near_text(random),
    }
}

/// Address of iwd's IPv6, or near it: one part outside its kind, or a gateway behind.
pub fn near_prefix(random: &mut Random) -> Vec<u8> {
    match random.below(8) {
        0 | 1 => [text(random), near_length(random)].join(&b'/'),
        2 => [near_text(random), length(random)].join(&b'/'),
        3 => [prefix(random), text(random)].join(&b'/'),
        4 => [prefix(random), length(random)].join(&b'/'),
        5 => random.pick_word(b"off|auto|/64|/|//|1.2.3.4/24").to_vec(),
        _ => near_text(random),
    }
}

/// ConnMan's IPv6 with one part outside its kind, or of another shape.
pub fn near_method(random: &mut Random) -> Vec<u8> {
    let mut parts = vec![text(random), length(random), text(random)];
    match random.below(12) {
        0..=2 => parts[0] = near_text(random),
        3..=5 => parts[2] = near_text(random),
        6 => parts[1] = near_length(random),
        7 => {
            parts[1] = near_length(random);
            parts.pop();
        }
        8 => {
            parts[0] = near_text(random);
            parts.pop();
        }
        9 => parts.push(random.pick_word(b"|1|64|128").to_vec()),
        10 => parts.truncate(1),
        _ => {
            return match random.below(4) {
                0 => [text(random), text(random)].join(&b'/'),
                1 => [text(random), length(random), vec![]].join(&b'/'),
                _ => random
                    .pick_word(b"Off|AUTO|dhcp|off/|auto/64|on|/64|/|//|off auto|disabled|1.2.3.4/24|1.2.3.4/24/1.2.3.1")
                    .to_vec(),
            }
        }
    }
    parts.join(&b'/')
}
