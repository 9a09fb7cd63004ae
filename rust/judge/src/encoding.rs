//! A case as bytes, for fuzzers and for seed files written by hand.
//!
//! A file case is a header line, the name's line, and the file as it stands:
//!
//! ```text
//! file 1 70 944 0
//! shop.config
//! [service_till]
//! Type = wifi
//! ```
//!
//! The numbers are the service, the lengths of the buffers for the name and for the file, and the dirt (see `case::Buffers`). In
//! the name's line `\n` is byte 10 and `\\` is a backslash; any other byte is itself. A record case is a header line and the
//! record's 448 bytes in the order of the header file:
//!
//! ```text
//! record 70 944 0
//! ```
//!
//! Every byte string is some case: a first line that begins with `r` is a record's, any other a file's; numbers that are
//! missing, no numbers or too large are replaced by 1, `NAME_MAX`, `FILE_MAX` and 0, the buffers' lengths bounded by 4096; a record
//! that is cut short ends in zeros, and what follows one that is whole is ignored.

use crate::case::{Buffers, Case, FileCase, RecordCase};
use crate::reference::writer::{FILE_MAX, NAME_MAX};
use qewaris::raw;

/// The longest buffer that a header line can ask for.
pub const LONGEST_BUFFER: usize = 4096;

/// The bytes of a case, from which `decode` gives it back.
pub fn encode(case: &Case) -> Vec<u8> {
    let Buffers { name, file, dirt } = case.buffers();
    match case {
        Case::File(case) => {
            let header = format!("file {} {name} {file} {dirt}\n", case.service).into_bytes();
            [header, encode_name(&case.name), case.file.clone()].concat()
        }
        Case::Record(case) => {
            let header = format!("record {name} {file} {dirt}\n").into_bytes();
            [header, record_bytes(&case.record)].concat()
        }
    }
}

/// The case that some bytes stand for.
pub fn decode(bytes: &[u8]) -> Case {
    let (header, rest) = cut_line(bytes);
    let numbers: Vec<Option<usize>> = header.split(|&byte| byte == b' ').skip(1).map(read_number).collect();
    let number = |place: usize, default: usize| numbers.get(place).copied().flatten().unwrap_or(default);
    let buffers = |place: usize| Buffers {
        name: number(place, NAME_MAX).min(LONGEST_BUFFER),
        file: number(place + 1, FILE_MAX).min(LONGEST_BUFFER),
        dirt: number(place + 2, 0) as u8,
    };
    if header.starts_with(b"r") {
        let record = record_of_bytes(rest);
        return Case::Record(Box::new(RecordCase {
            record,
            buffers: buffers(0),
        }));
    }
    let (name, file) = cut_line(rest);
    Case::File(FileCase {
        name: decode_name(name),
        file: file.to_vec(),
        service: number(0, 1),
        buffers: buffers(1),
    })
}

/// The bytes before the first byte 10 and those after it; all and none where there is no byte 10.
fn cut_line(bytes: &[u8]) -> (&[u8], &[u8]) {
    let mut parts = bytes.splitn(2, |&byte| byte == b'\n');
    (parts.next().unwrap_or(&[]), parts.next().unwrap_or(&[]))
}

fn read_number(word: &[u8]) -> Option<usize> {
    std::str::from_utf8(word).ok()?.parse().ok()
}

fn encode_name(name: &[u8]) -> Vec<u8> {
    let escape = |&byte: &u8| match byte {
        b'\n' => b"\\n".to_vec(),
        b'\\' => b"\\\\".to_vec(),
        _ => vec![byte],
    };
    name.iter().flat_map(escape).chain([b'\n']).collect()
}

fn decode_name(line: &[u8]) -> Vec<u8> {
    let mut name = Vec::new();
    let mut rest = line;
    while let Some(&byte) = rest.first() {
        let (meant, used) = match rest {
            [b'\\', b'n', ..] => (b'\n', 2),
            [b'\\', b'\\', ..] => (b'\\', 2),
            _ => (byte, 1),
        };
        name.push(meant);
        rest = &rest[used..];
    }
    name
}

/// How many bytes a record has.
pub const RECORD_LENGTH: usize = 448;

/// A record's bytes in the order of the header file.
pub fn record_bytes(record: &raw::Record) -> Vec<u8> {
    let parts: [&[u8]; 21] = [
        &[record.name_len],
        &record.name,
        &[record.credential],
        &[record.passphrase_len],
        &record.passphrase,
        &record.key,
        &[record.hidden],
        &[record.ipv4],
        &record.address,
        &[record.prefix_length],
        &[record.has_gateway],
        &record.gateway,
        &[record.server_count],
        &record.servers,
        &[record.domain_len],
        &record.domain,
        &[record.ipv6],
        &record.ipv6_address,
        &[record.ipv6_prefix_length],
        &[record.has_ipv6_gateway],
        &record.ipv6_gateway,
    ];
    parts.concat()
}

/// The record of some bytes; those that are missing are zero.
pub fn record_of_bytes(bytes: &[u8]) -> raw::Record {
    let mut rest = bytes.iter().copied();
    raw::Record {
        name_len: take::<1>(&mut rest)[0],
        name: take(&mut rest),
        credential: take::<1>(&mut rest)[0],
        passphrase_len: take::<1>(&mut rest)[0],
        passphrase: take(&mut rest),
        key: take(&mut rest),
        hidden: take::<1>(&mut rest)[0],
        ipv4: take::<1>(&mut rest)[0],
        address: take(&mut rest),
        prefix_length: take::<1>(&mut rest)[0],
        has_gateway: take::<1>(&mut rest)[0],
        gateway: take(&mut rest),
        server_count: take::<1>(&mut rest)[0],
        servers: take(&mut rest),
        domain_len: take::<1>(&mut rest)[0],
        domain: take(&mut rest),
        ipv6: take::<1>(&mut rest)[0],
        ipv6_address: take(&mut rest),
        ipv6_prefix_length: take::<1>(&mut rest)[0],
        has_ipv6_gateway: take::<1>(&mut rest)[0],
        ipv6_gateway: take(&mut rest),
    }
}

fn take<const N: usize>(rest: &mut impl Iterator<Item = u8>) -> [u8; N] {
    std::array::from_fn(|_| rest.next().unwrap_or(0))
}
