//! The written iwd file: its name and its bytes, line by line as document 01 lists them.

use super::addressing::{Ipv4, Ipv6};
use super::file_name::{self, lower_hex, Suffix};
use super::ipv6_text;
use super::kind::mask_of;
use super::record::{Credential, Record};
use super::refusal::{Fault, Refusal};
use super::text::escape;

/// A file name and a file, to be written into two buffers.
#[derive(Clone, Debug, PartialEq, Eq)]
pub struct Written {
    pub name: Vec<u8>,
    pub file: Vec<u8>,
}

/// "We want it shown that no record the writer accepts ever needs more than 858 bytes for the file and 70 for the name, and that some
/// record reaches each figure" (request 2026-01); with request 2026-03 the "file figure is worked out afresh": the lines of a static IPv6
/// are `[IPv6]`, `Address=` with 39 bytes and `/128`, and `Gateway=` with 39 bytes, 107 in all, where `[IPv6]` and `Enabled=false` were 21.
pub const FILE_MAX: usize = 944;
pub const NAME_MAX: usize = 70;

/// How long the two lent buffers are.
#[derive(Clone, Copy, Debug, PartialEq, Eq)]
pub struct Room {
    pub name: usize,
    pub file: usize,
}

/// "Buffers of those sizes then never meet refusal 17."
pub const ENOUGH: Room = Room {
    name: NAME_MAX,
    file: FILE_MAX,
};

/// What the writer writes of a record, which is none where it was malformed: "the writer asks 19, 16, 17".
pub fn write(record: Option<&Record>, room: Room) -> Result<Written, Refusal> {
    let record = record
        .filter(|record| record.is_well_formed())
        .ok_or(Fault::Malformed.without_line())?;
    if !record.has_place_in_iwd() {
        return Err(Fault::NoPlace.without_line());
    }
    let written = Written {
        name: name(record),
        file: file(record),
    };
    if written.fits(room) {
        Ok(written)
    } else {
        Err(Fault::ShortBuffer.without_line())
    }
}

impl Written {
    /// "A buffer has room when it is at least as long as what must be written into it."
    fn fits(&self, room: Room) -> bool {
        self.name.len() <= room.name && self.file.len() <= room.file
    }
}

fn name(record: &Record) -> Vec<u8> {
    let suffix = if record.needs_key() { Suffix::Psk } else { Suffix::Open };
    file_name::write_iwd(&record.ssid, suffix)
}

/// "Groups in the order Settings, Security, IPv4, IPv6, only those with a line."
fn file(record: &Record) -> Vec<u8> {
    let groups: [(&[u8], Vec<Vec<u8>>); 4] = [
        (b"[Settings]", settings_lines(record)),
        (b"[Security]", security_lines(record)),
        (b"[IPv4]", ipv4_lines(record)),
        (b"[IPv6]", ipv6_lines(record)),
    ];
    let mut file = Vec::new();
    for (header, lines) in groups.into_iter().filter(|(_, lines)| !lines.is_empty()) {
        for line in std::iter::once(header.to_vec()).chain(lines) {
            file.extend(line);
            file.push(b'\n');
        }
    }
    file
}

fn setting(key: &str, value: &[u8]) -> Vec<u8> {
    [key.as_bytes(), b"=", value].concat()
}

/// "Hidden=true if hidden."
fn settings_lines(record: &Record) -> Vec<Vec<u8>> {
    record.hidden.then(|| setting("Hidden", b"true")).into_iter().collect()
}

/// "Passphrase or PreSharedKey (lower-case hex)."
fn security_lines(record: &Record) -> Vec<Vec<u8>> {
    match &record.credential {
        Credential::None => vec![],
        Credential::Passphrase(passphrase) => vec![setting("Passphrase", &escape(passphrase))],
        Credential::Key(key) => vec![setting("PreSharedKey", &lower_hex(key))],
    }
}

/// "Address, Netmask, Gateway if static; DNS with single spaces; DomainName."
fn ipv4_lines(record: &Record) -> Vec<Vec<u8>> {
    let mut lines = Vec::new();
    if let Ipv4::Static {
        address,
        prefix_length,
        gateway: Some(gateway),
    } = record.ipv4
    {
        lines.push(setting("Address", &dotted(address)));
        lines.push(setting("Netmask", &dotted(mask_of(prefix_length))));
        lines.push(setting("Gateway", &dotted(gateway)));
    }
    if !record.servers.is_empty() {
        let servers: Vec<Vec<u8>> = record.servers.iter().map(|&server| dotted(server)).collect();
        lines.push(setting("DNS", &servers.join(&b' ')));
    }
    if !record.domain.is_empty() {
        lines.push(setting("DomainName", &escape(&record.domain)));
    }
    lines
}

/// "Enabled=false if off"; "iwd's Address is written always with its length, then Gateway" (request 2026-03).
fn ipv6_lines(record: &Record) -> Vec<Vec<u8>> {
    match record.ipv6 {
        Ipv6::Off => vec![setting("Enabled", b"false")],
        Ipv6::Static {
            address,
            prefix_length,
            gateway: Some(gateway),
        } => {
            let length = prefix_length.to_string().into_bytes();
            vec![
                setting("Address", &[ipv6_text::write(address), length].join(&b'/')),
                setting("Gateway", &ipv6_text::write(gateway)),
            ]
        }
        Ipv6::Auto | Ipv6::Static { gateway: None, .. } => vec![],
    }
}

/// The text of an address: "four numbers 0 to 255 with dots, no leading zeros".
pub fn dotted([a, b, c, d]: [u8; 4]) -> Vec<u8> {
    format!("{a}.{b}.{c}.{d}").into_bytes()
}
