//! Cases of writing iwd files.
//!
//! A case is a file name, the lengths of the buffers lent for the new name and the new file, and an iwd file, whose join record
//! is written. Words behind a `!`, with `+` between them, stand in place of the name for a record that is no file's: the worked file's
//! record, changed as each word says. Both buffers are full of the byte `.` before. The answer is `good` with the two counts or
//! `refused` with the number and the line, all bytes of the two buffers, and whether the record, written with room, reads back
//! as itself.

use crate::ask::{read, write};
use crate::rooms::Rooms;
use crate::show::Lines;
use crate::written::{decoded, number, parts};
use qewaris::{raw, FILE_MAX, NAME_MAX};

/// The answer to a case.
pub fn answer(case: &[u8]) -> Result<Vec<u8>, String> {
    let [name, name_room, file_room, file] = parts(case)?;
    let mut rooms = Rooms::new(name_room, file_room)?;
    let record = match name.strip_prefix(b"!") {
        Some(words) => words.split(|byte| *byte == b'+').try_fold(worked()?, odd)?,
        None => record_of(&decoded(name), &decoded(file))?,
    };
    let told = write(record, &mut rooms.name, &mut rooms.file);
    let mut lines = Lines::default();
    rooms.show(&mut lines, told);
    lines.key("reads back", if reads_back(record) { "yes" } else { "no" });
    Ok(lines.into_bytes())
}

/// The join record of an iwd file.
fn record_of(name: &[u8], file: &[u8]) -> Result<raw::Record, String> {
    let found = read(raw::qewaris_iwd_record, name, file);
    match found.number {
        0 => Ok(found.record),
        number => Err(format!("its file is refused with {number}")),
    }
}

/// Whether a record, written with room, is read as itself, in every place.
fn reads_back(record: raw::Record) -> bool {
    let (mut name, mut file) = ([0; NAME_MAX], [0; FILE_MAX]);
    let told = write(record, &mut name, &mut file);
    told.number == 0 && record_of(&name[..told.name_len], &file[..told.file_len]) == Ok(record)
}

/// The record of the worked file.
fn worked() -> Result<raw::Record, String> {
    let file = b"[Settings]\nHidden=true\n[Security]\nPassphrase=low\tide 88\n[IPv4]\nAddress=10.20.0.14\n\
        Netmask=255.255.255.0\nGateway=10.20.0.1\nDNS=10.20.0.2 10.20.0.3\n[IPv6]\nEnabled=false\n";
    record_of(b"Desk 4.psk", file)
}

/// A record, changed as a word says.
fn odd(mut record: raw::Record, word: &[u8]) -> Result<raw::Record, String> {
    match word {
        b"zero" => record = raw::Record::ZERO,
        b"name-0" => (record.name_len, record.name) = (0, [0; 32]),
        b"name-33" => record.name_len = 33,
        b"dirty-name" => record.name[31] = 1,
        b"none-with-passphrase" => record.credential = 0,
        b"credential-3" => record.credential = 3,
        b"passphrase-7" => {
            record.passphrase_len = 7;
            record.passphrase[7..].fill(0);
        }
        b"passphrase-64" => record.passphrase_len = 64,
        b"dirty-passphrase" => record.passphrase[62] = 1,
        b"null-byte" => record.passphrase[3] = 0,
        b"dirty-key" => record.key[0] = 1,
        b"hidden-2" => record.hidden = 2,
        b"server-5" => record.server_count = 5,
        b"dirty-server" => record.servers[15] = 1,
        _ => {
            return odd_ipv4(word, record)
                .or_else(|| odd_ipv6(word, record))
                .or_else(|| odd_domain(word, record))
                .ok_or_else(|| no_word(word))
        }
    }
    Ok(record)
}

/// Words for the IPv4 of a record.
fn odd_ipv4(word: &[u8], mut record: raw::Record) -> Option<raw::Record> {
    match word {
        b"off" => {
            (record.ipv4, record.address, record.prefix_length) = (1, [0; 4], 0);
            (record.has_gateway, record.gateway) = (0, [0; 4]);
        }
        b"off-numbered" => record.ipv4 = 1,
        b"dhcp-numbered" => record.ipv4 = 0,
        b"ipv4-3" => record.ipv4 = 3,
        b"length-0" => record.prefix_length = 0,
        b"length-33" => record.prefix_length = 33,
        b"no-gateway" => (record.has_gateway, record.gateway) = (0, [0; 4]),
        b"dirty-gateway" => record.has_gateway = 0,
        b"gateway-2" => record.has_gateway = 2,
        _ => return None,
    }
    Some(record)
}

/// 2001:db8::14 and fe80::1.
const TILL: [u8; 16] = [0x20, 0x01, 0x0d, 0xb8, 0, 0, 0, 0, 0, 0, 0, 0, 0, 0, 0, 0x14];
const ROUTER: [u8; 16] = [0xfe, 0x80, 0, 0, 0, 0, 0, 0, 0, 0, 0, 0, 0, 0, 0, 1];

/// Words for the IPv6 of a record.
fn odd_ipv6(word: &[u8], mut record: raw::Record) -> Option<raw::Record> {
    match word {
        b"ipv6-auto" => record.ipv6 = 0,
        b"ipv6-off" => record.ipv6 = 1,
        b"ipv6-static" => {
            (record.ipv6, record.ipv6_address, record.ipv6_prefix_length) = (2, TILL, 64);
            (record.has_ipv6_gateway, record.ipv6_gateway) = (1, ROUTER);
        }
        b"ipv6-3" => record.ipv6 = 3,
        b"ipv6-first-byte" => record.ipv6_address[0] = 1,
        b"ipv6-last-byte" => record.ipv6_address[15] = 1,
        b"ipv6-gateway-first-byte" => record.ipv6_gateway[0] = 1,
        b"ipv6-gateway-last-byte" => record.ipv6_gateway[15] = 1,
        b"ipv6-no-address" => record.ipv6_address = [0; 16],
        b"ipv6-no-gateway" => (record.has_ipv6_gateway, record.ipv6_gateway) = (0, [0; 16]),
        b"ipv6-no-gateway-bytes" => record.ipv6_gateway = [0; 16],
        _ => {
            let coded = |front: &str| number(word.strip_prefix(front.as_bytes())?).and_then(|code| code.try_into().ok());
            if let Some(length) = coded("ipv6-length-") {
                record.ipv6_prefix_length = length;
            } else {
                record.has_ipv6_gateway = coded("ipv6-gateway-")?;
            }
        }
    }
    Some(record)
}

/// Words for the domain of a record.
fn odd_domain(word: &[u8], mut record: raw::Record) -> Option<raw::Record> {
    match word {
        b"domain-254" => record.domain_len = 254,
        b"dirty-domain" => record.domain[252] = 1,
        b"bad-domain" => (record.domain_len, record.domain[0]) = (1, 255),
        b"cr" => {
            record.domain_len = 3;
            record.domain[..3].copy_from_slice(b"\r\n ");
        }
        _ => return None,
    }
    Some(record)
}

fn no_word(word: &[u8]) -> String {
    format!("there is no record !{}", String::from_utf8_lossy(word))
}
