//! IPv6 addresses, texts of every shape that stand for them, and the legal values of the three settings that have them.

use crate::random::Random;
use std::ops::Range;

/// The eight groups of an address.
pub type Groups = [u16; 8];

/// Numbers of a group where the count of its digits changes, or its letters begin.
const EDGES: [u16; 12] = [1, 9, 0xA, 0xF, 0x10, 0xFF, 0x100, 0xDB8, 0xFFF, 0x1000, 0xABCD, 0xFFFF];

/// The groups of some address: with runs of zeros or nothing but zeros, with a well-known front, or any.
pub fn groups(random: &mut Random) -> Groups {
    let mut groups = [0; 8];
    match random.weighted(&[5, 3, 2, 1, 1]) {
        0 => groups = std::array::from_fn(|_| if random.percent(45) { 0 } else { group(random) }),
        1 => groups = std::array::from_fn(|_| group(random)),
        2 if random.once_in(4) => {}
        2 => groups[random.below(8)] = group(random),
        3 => {
            let front: &[u16] = random.pick(&[&[0, 0, 0, 0, 0, 0xFFFF], &[], &[0x64, 0xFF9B], &[0xFE80], &[0x2001, 0xDB8]]);
            groups[..front.len()].copy_from_slice(front);
            groups[6] = group(random);
            groups[7] = group(random);
        }
        _ => {
            let (first, second) = (random.below(8), random.below(8));
            groups = std::array::from_fn(|place| if place == first || place == second { group(random) } else { 0 });
        }
    }
    groups
}

/// A group that is not zero.
fn group(random: &mut Random) -> u16 {
    if random.once_in(2) {
        random.pick(&EDGES)
    } else {
        random.between(1, 0xFFFF) as u16
    }
}

/// The bytes of an address, each group's first byte first.
pub fn address(random: &mut Random) -> [u8; 16] {
    let groups = groups(random);
    std::array::from_fn(|place| groups[place / 2].to_be_bytes()[place % 2])
}

/// A text of some address.
pub fn text(random: &mut Random) -> Vec<u8> {
    let groups = groups(random);
    spelled(random, &groups)
}

/// A text of an address whose bytes are given.
pub fn text_of(random: &mut Random, address: [u8; 16]) -> Vec<u8> {
    let groups = std::array::from_fn(|place| u16::from_be_bytes([address[2 * place], address[2 * place + 1]]));
    spelled(random, &groups)
}

/// Some text of an address: `::` for any run of its zero groups or for none, leading zeros, either case, perhaps a dotted tail.
pub fn spelled(random: &mut Random, groups: &Groups) -> Vec<u8> {
    let gap = gap(random, groups);
    let (before, after) = match &gap {
        Some(gap) => (&groups[..gap.start], &groups[gap.end..]),
        None => (&groups[..], &[][..]),
    };
    let last = if gap.is_some() { after } else { before };
    let has_tail = last.len() >= 2 && random.once_in(4);
    let spelling = Spelling::new(random);
    let mut text = spelling.joined(random, before, has_tail && gap.is_none());
    if gap.is_some() {
        text.push_str("::");
        text.push_str(&spelling.joined(random, after, has_tail));
    }
    text.into_bytes()
}

/// The groups that `::` stands for: a run of zeros, most often as long as it can be.
fn gap(random: &mut Random, groups: &Groups) -> Option<Range<usize>> {
    let runs = (0..8).flat_map(|start| (start + 1..=8).map(move |end| start..end));
    let zeros: Vec<Range<usize>> = runs.filter(|run| groups[run.clone()].iter().all(|group| *group == 0)).collect();
    let longest = zeros.iter().map(ExactSizeIterator::len).max()?;
    let wanted: Vec<&Range<usize>> = match random.below(4) {
        0 => return None,
        1 => zeros.iter().collect(),
        _ => zeros.iter().filter(|run| run.len() == longest).collect(),
    };
    Some(wanted[random.below(wanted.len())].clone())
}

/// How the groups of a text are written.
struct Spelling {
    /// The fewest digits of a group; 0 for any number of them.
    least: usize,
    case: Case,
}

#[derive(Clone, Copy)]
enum Case {
    Lower,
    Upper,
    Mixed,
}

impl Spelling {
    fn new(random: &mut Random) -> Spelling {
        Spelling {
            least: random.pick(&[1, 1, 1, 4, 0]),
            case: random.pick(&[Case::Lower, Case::Lower, Case::Upper, Case::Mixed]),
        }
    }

    /// The groups with colons between, the last two as a dotted tail if asked.
    fn joined(&self, random: &mut Random, groups: &[u16], has_tail: bool) -> String {
        let (plain, tail) = groups.split_at(groups.len() - if has_tail { 2 } else { 0 });
        let mut parts: Vec<String> = plain.iter().map(|group| self.group(random, *group)).collect();
        if let [high, low] = tail {
            let ([a, b], [c, d]) = (high.to_be_bytes(), low.to_be_bytes());
            parts.push(format!("{a}.{b}.{c}.{d}"));
        }
        parts.join(":")
    }

    fn group(&self, random: &mut Random, group: u16) -> String {
        let least = if self.least == 0 { random.between(1, 4) } else { self.least };
        let digits = format!("{group:0least$x}");
        match self.case {
            Case::Lower => digits,
            Case::Upper => digits.to_uppercase(),
            Case::Mixed => digits.chars().map(|digit| mixed(random, digit)).collect(),
        }
    }
}

fn mixed(random: &mut Random, digit: char) -> char {
    if random.once_in(2) {
        digit.to_ascii_uppercase()
    } else {
        digit
    }
}

/// The length of a prefix, often at an end of what is legal or where the count of its digits changes.
pub fn length(random: &mut Random) -> Vec<u8> {
    let length = if random.once_in(2) {
        random.pick(&[1, 1, 9, 10, 64, 64, 99, 100, 127, 128, 128])
    } else {
        random.between(1, 128)
    };
    length.to_string().into_bytes()
}

/// Address of iwd's IPv6: its length may be left off.
pub fn prefix(random: &mut Random) -> Vec<u8> {
    if random.once_in(3) {
        return text(random);
    }
    [text(random), length(random)].join(&b'/')
}

/// ConnMan's IPv6.
pub fn method(random: &mut Random) -> Vec<u8> {
    match random.below(6) {
        0 => b"off".to_vec(),
        1 => b"auto".to_vec(),
        2 => fixed(random, false),
        _ => fixed(random, true),
    }
}

/// ConnMan's IPv6 that iwd has a place for.
pub fn placed_method(random: &mut Random) -> Vec<u8> {
    match random.below(5) {
        0 => b"off".to_vec(),
        1 => b"auto".to_vec(),
        _ => fixed(random, true),
    }
}

/// Address, length, and perhaps a gateway.
pub fn fixed(random: &mut Random, gateway: bool) -> Vec<u8> {
    let mut parts = vec![text(random), length(random)];
    if gateway {
        parts.push(text(random));
    }
    parts.join(&b'/')
}
