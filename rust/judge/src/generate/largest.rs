//! Records at the largest, whose written lines all have their greatest length, and near it, where one part is one step smaller.

use super::names::{odd_ssid, plain_stem};
use super::strings::letter;
use crate::random::Random;
use crate::reference::{Credential, Dialect, Ipv4, Ipv6, Record};
use std::ops::RangeInclusive;

/// The most bytes of a network name, of a passphrase and of a domain, and the most name servers.
const SSID: usize = 32;
const PASSPHRASE: usize = 63;
const DOMAIN: usize = 253;
const SERVERS: usize = 4;

/// The mask lengths whose masks have four numbers of three digits.
const WIDE_MASKS: RangeInclusive<usize> = 25..=32;

/// The lengths of three digits.
const WIDE_LENGTHS: RangeInclusive<usize> = 100..=128;

/// A record that a file of the dialect can have: one of a largest file, one of a largest name, or one near the first.
pub fn record(random: &mut Random, dialect: Dialect) -> Record {
    let mut record = largest_file(random);
    match random.weighted(&[2, 1, 2]) {
        0 => {}
        1 => record.credential = Credential::None,
        _ => step_down(random, dialect, &mut record),
    }
    record
}

/// A record whose file has as many bytes as any.
fn largest_file(random: &mut Random) -> Record {
    Record {
        ssid: odd_ssid(random, SSID),
        credential: Credential::Passphrase(escaped(random, PASSPHRASE)),
        hidden: true,
        ipv4: Ipv4::Static {
            address: wide(random),
            prefix_length: random.between(*WIDE_MASKS.start(), *WIDE_MASKS.end()) as u8,
            gateway: Some(wide(random)),
        },
        servers: (0..SERVERS).map(|_| wide(random)).collect(),
        domain: escaped(random, DOMAIN),
        ipv6: Ipv6::Static {
            address: wide_groups(random),
            prefix_length: random.between(*WIDE_LENGTHS.start(), *WIDE_LENGTHS.end()) as u8,
            gateway: Some(wide_groups(random)),
        },
    }
}

/// Makes one part of a record of a largest file one step smaller. Only a file of iwd can have a 32-byte key.
fn step_down(random: &mut Random, dialect: Dialect, record: &mut Record) {
    match random.below(12) {
        0 => record.credential = Credential::Passphrase(one_less(random, PASSPHRASE)),
        1 => record.domain = one_less(random, DOMAIN),
        2 => step_down_ipv4(random, &mut record.ipv4),
        3 => record.servers[random.below(SERVERS)] = less_wide(random),
        4 => record.servers.truncate(SERVERS - 1),
        5 => record.ssid = odd_ssid(random, SSID - 1),
        6 => record.ssid = plain_stem(random, SSID),
        7 => record.hidden = false,
        8 if dialect == Dialect::Iwd => record.credential = Credential::Key(std::array::from_fn(|_| random.byte())),
        8 | 9 => record.ipv6 = random.pick(&[Ipv6::Auto, Ipv6::Off]),
        _ => step_down_ipv6(random, &mut record.ipv6),
    }
}

fn step_down_ipv4(random: &mut Random, ipv4: &mut Ipv4) {
    if let Ipv4::Static {
        address,
        prefix_length,
        gateway,
    } = ipv4
    {
        match random.below(3) {
            0 => *address = less_wide(random),
            1 => *gateway = Some(less_wide(random)),
            _ => *prefix_length = *WIDE_MASKS.start() as u8 - 1,
        }
    }
}

fn step_down_ipv6(random: &mut Random, ipv6: &mut Ipv6) {
    if let Ipv6::Static {
        address,
        prefix_length,
        gateway,
    } = ipv6
    {
        match random.below(3) {
            0 => *address = less_wide_groups(random),
            1 => *gateway = Some(less_wide_groups(random)),
            _ => *prefix_length = *WIDE_LENGTHS.start() as u8 - 1,
        }
    }
}

/// The bytes that are escaped when they are written, wherever they stand, and those that are so in first place only.
const ALWAYS_ESCAPED: &[u8] = b"\\\n\r";
const ESCAPED_FIRST: &[u8] = b" \t";

/// A string of which every byte is escaped when it is written.
fn escaped(random: &mut Random, length: usize) -> Vec<u8> {
    let mut text: Vec<u8> = (0..length).map(|_| random.pick(ALWAYS_ESCAPED)).collect();
    if random.once_in(3) {
        text[0] = random.pick(ESCAPED_FIRST);
    }
    text
}

/// Such a string with one byte that is not escaped, or with one byte fewer.
fn one_less(random: &mut Random, length: usize) -> Vec<u8> {
    if random.once_in(2) {
        return escaped(random, length - 1);
    }
    let mut text = escaped(random, length);
    text[random.below(length)] = letter(random);
    text
}

/// An address of four numbers of three digits.
fn wide(random: &mut Random) -> [u8; 4] {
    std::array::from_fn(|_| random.between(100, 255) as u8)
}

/// Such an address with one number of two digits.
fn less_wide(random: &mut Random) -> [u8; 4] {
    let mut address = wide(random);
    address[random.below(4)] = random.between(10, 99) as u8;
    address
}

/// An IPv6 address of eight groups of four digits.
fn wide_groups(random: &mut Random) -> [u8; 16] {
    std::array::from_fn(|place| {
        let least = if place % 2 == 0 { 0x10 } else { 0 };
        random.between(least, 0xFF) as u8
    })
}

/// Such an address with one group of three digits.
fn less_wide_groups(random: &mut Random) -> [u8; 16] {
    let mut address = wide_groups(random);
    address[2 * random.below(8)] = random.between(1, 0xF) as u8;
    address
}
