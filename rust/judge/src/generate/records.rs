//! Records for the writer: well-formed ones of every shape, and each way of breaking one.

use super::ipv6;
use super::largest;
use super::strings::{content, BROKEN_UTF8};
use crate::encoding::{record_bytes, record_of_bytes, RECORD_LENGTH};
use crate::layout::lay_record;
use crate::random::Random;
use crate::reference::{Credential, Dialect, Ipv4, Ipv6, Record};
use qewaris::raw;

/// A record, well formed more often than not.
pub fn record(random: &mut Random) -> raw::Record {
    let mut record = lay_record(&well_formed(random));
    match random.weighted(&[55, 25, 8, 4, 2, 1, 5]) {
        0 => {}
        1 => break_once(random, &mut record),
        2 => (0..2).for_each(|_| break_once(random, &mut record)),
        3 => record = change_byte(random, &record),
        4 => record = record_of_bytes(&random.bytes(RECORD_LENGTH)),
        5 => record = raw::Record::ZERO,
        _ => record = lay_record(&just_outside(random)),
    }
    record
}

/// A well-formed record, once in eight times at the largest or near it.
pub fn well_formed(random: &mut Random) -> Record {
    if random.once_in(8) {
        return largest::record(random, Dialect::Iwd);
    }
    let credential = match random.below(4) {
        0 => Credential::None,
        1 => Credential::Key(std::array::from_fn(|_| random.byte())),
        _ => Credential::Passphrase(string(random, &[8, 9, 11, 20, 62, 63])),
    };
    let ipv4 = match random.weighted(&[4, 1, 1, 6]) {
        0 => Ipv4::Auto,
        1 => Ipv4::Off,
        2 => Ipv4::Static {
            address: four(random),
            prefix_length: random.between(1, 32) as u8,
            gateway: None,
        },
        _ => Ipv4::Static {
            address: four(random),
            prefix_length: random.between(1, 32) as u8,
            gateway: Some(four(random)),
        },
    };
    Record {
        ssid: ssid(random),
        credential,
        hidden: random.once_in(2),
        ipv4,
        servers: (0..random.pick(&[0, 0, 1, 2, 3, 4])).map(|_| four(random)).collect(),
        domain: string(random, &[0, 0, 0, 1, 2, 12, 252, 253]),
        ipv6: some_ipv6(random),
    }
}

fn some_ipv6(random: &mut Random) -> Ipv6 {
    match random.weighted(&[3, 3, 1, 6]) {
        0 => Ipv6::Auto,
        1 => Ipv6::Off,
        2 => static_ipv6(random, None),
        _ => {
            let gateway = ipv6::address(random);
            static_ipv6(random, Some(gateway))
        }
    }
}

fn static_ipv6(random: &mut Random, gateway: Option<[u8; 16]>) -> Ipv6 {
    Ipv6::Static {
        address: ipv6::address(random),
        prefix_length: random.pick(&[1, 9, 10, 64, 99, 100, 127, 128]),
        gateway,
    }
}

/// A record with one part just outside its bounds and everything else as it should be.
fn just_outside(random: &mut Random) -> Record {
    let mut record = well_formed(random);
    match random.below(4) {
        0 => record.ssid.clear(),
        1 => record.credential = Credential::Passphrase(string(random, &[0, 1, 6, 7, 7, 7])),
        2 => {
            record.ipv6 = Ipv6::Static {
                address: ipv6::address(random),
                prefix_length: random.pick(&[0, 129, 130, 192, 255]),
                gateway: Some(ipv6::address(random)).filter(|_| random.once_in(2)),
            }
        }
        _ => {
            record.ipv4 = Ipv4::Static {
                address: four(random),
                prefix_length: random.pick(&[0, 33, 34, 64, 255]),
                gateway: Some(four(random)),
            }
        }
    }
    record
}

fn four(random: &mut Random) -> [u8; 4] {
    std::array::from_fn(|_| {
        if random.once_in(3) {
            random.pick(&[0, 1, 9, 10, 99, 100, 255])
        } else {
            random.byte()
        }
    })
}

/// Any 1 to 32 bytes, often such that they stand plainly.
fn ssid(random: &mut Random) -> Vec<u8> {
    let length = random.pick(&[1, 2, 5, 8, 31, 32]);
    if random.once_in(3) {
        return random.bytes(length);
    }
    let mut ssid: Vec<u8> = (0..length).map(|_| random.pick(b"azAZ09 _-")).collect();
    if random.once_in(4) {
        let place = random.below(length);
        ssid[place] = random.pick(b"/:@[`{.=\x00\x1F\x7F\x80");
    }
    ssid
}

/// UTF-8 without byte 0 of one of the lengths, the bytes that are escaped among it.
fn string(random: &mut Random, lengths: &[usize]) -> Vec<u8> {
    let length = random.pick(lengths);
    content(random, length)
}

/// One byte of the record changed.
fn change_byte(random: &mut Random, record: &raw::Record) -> raw::Record {
    let mut bytes = record_bytes(record);
    let place = random.below(bytes.len());
    bytes[place] = random.byte();
    record_of_bytes(&bytes)
}

/// Breaks a record in one way; at some records the change is none.
fn break_once(random: &mut Random, record: &mut raw::Record) {
    match random.below(4) {
        0 => break_length(random, record),
        1 => break_code(random, record),
        2 => fill_unused(random, record),
        _ => break_text(random, record),
    }
}

fn break_length(random: &mut Random, record: &mut raw::Record) {
    match random.below(7) {
        0 => record.name_len = random.pick(&[0, 32, 33, 34, 128, 255]),
        1 => record.passphrase_len = random.pick(&[0, 1, 7, 8, 63, 64, 65, 128, 255]),
        2 => record.domain_len = random.pick(&[0, 1, 253, 254, 255]),
        3 => record.server_count = random.pick(&[0, 4, 5, 6, 64, 65, 128, 255]),
        4 => record.prefix_length = random.pick(&[0, 1, 32, 33, 64, 128, 255]),
        5 => record.ipv6_prefix_length = random.pick(&[0, 0, 1, 64, 128, 129, 129, 130, 192, 255]),
        _ => {
            record.name_len = record.name_len.wrapping_add(random.pick(&[1, 255]));
            record.domain_len = record.domain_len.wrapping_add(random.pick(&[0, 1, 255]));
        }
    }
}

fn break_code(random: &mut Random, record: &mut raw::Record) {
    let code = random.pick(&[0, 1, 2, 2, 3, 3, 4, 128, 129, 130, 255]);
    match random.below(6) {
        0 => record.credential = code,
        1 => record.hidden = code,
        2 => record.ipv4 = code,
        3 => record.has_gateway = code,
        4 => record.has_ipv6_gateway = code,
        _ => record.ipv6 = code,
    }
}

/// Something in a place that is most likely not in use: next behind a length, last of all, or between.
fn fill_unused(random: &mut Random, record: &mut raw::Record) {
    let byte = random.pick(&[1, 1, b'a', 128, 255]);
    let (tail, used) = match random.below(9) {
        0 => (&mut record.name[..], usize::from(record.name_len)),
        1 => (&mut record.passphrase[..], usize::from(record.passphrase_len)),
        2 => (&mut record.domain[..], usize::from(record.domain_len)),
        3 => (&mut record.servers[..], 4 * usize::from(record.server_count)),
        4 => (&mut record.key[..], 0),
        5 => (&mut record.address[..], 0),
        6 => (&mut record.ipv6_address[..], 0),
        7 => (&mut record.ipv6_gateway[..], 0),
        _ => (&mut record.gateway[..], 0),
    };
    let last = tail.len() - 1;
    let first = used.min(last);
    let between = random.between(first, last);
    tail[random.pick(&[first, between, last])] = byte;
}

/// Text that is not UTF-8, or byte 0, inside a string or cut off by its length.
fn break_text(random: &mut Random, record: &mut raw::Record) {
    let fault = if random.once_in(3) { &b"\0"[..] } else { random.pick(&BROKEN_UTF8) };
    let in_domain = random.once_in(2);
    let (text, length) = match in_domain {
        true => (&mut record.domain[..], usize::from(record.domain_len).min(253)),
        false => (&mut record.passphrase[..], usize::from(record.passphrase_len).min(63)),
    };
    if length >= fault.len() {
        let start = if random.once_in(2) {
            length - fault.len()
        } else {
            random.below(length - fault.len() + 1)
        };
        text[start..start + fault.len()].copy_from_slice(fault);
    }
}
