//! The reference's answers laid out as the structs of the C boundary: the header's codes, and zeros in places not in use.

mod settings;

pub use settings::{iwd_settings, service_settings};

use crate::reference::groups::Text;
use crate::reference::writer::Written;
use crate::reference::{Addressing, Counts, Credential, Record, Refusal};
use qewaris::raw;

/// A reading: the counts, or the refusal with zeros else.
pub fn reading(result: Result<Counts, Refusal>) -> raw::Reading {
    match result {
        Ok(counts) => raw::Reading {
            number: 0,
            line: 0,
            settings: counts.settings,
            services: counts.services,
            reserved: [0; 7],
        },
        Err(refusal) => raw::Reading {
            number: refusal.number(),
            line: refusal.line,
            settings: 0,
            services: 0,
            reserved: [0; 7],
        },
    }
}

/// A lookup: where the string stands; zeros where it is absent.
pub fn text(result: Result<Option<&Text>, Refusal>) -> raw::Text {
    match result {
        Ok(Some(text)) => raw::Text {
            number: 0,
            line: text.line,
            start: text.start,
            length: text.length,
            reserved: [0; 7],
        },
        Ok(None) => raw::Text {
            number: 0,
            line: 0,
            start: 0,
            length: 0,
            reserved: [0; 7],
        },
        Err(refusal) => raw::Text {
            number: refusal.number(),
            line: refusal.line,
            start: 0,
            length: 0,
            reserved: [0; 7],
        },
    }
}

/// What a writer or a move answers beside the buffers.
pub fn written(result: &Result<Written, Refusal>) -> raw::Written {
    match result {
        Ok(written) => raw::Written {
            number: 0,
            line: 0,
            name_len: written.name.len(),
            file_len: written.file.len(),
            reserved: [0; 7],
        },
        Err(refusal) => raw::Written {
            number: refusal.number(),
            line: refusal.line,
            name_len: 0,
            file_len: 0,
            reserved: [0; 7],
        },
    }
}

/// A record, or the refusal with the zero record.
pub fn record_answer(result: Result<Record, Refusal>) -> raw::RecordAnswer {
    match result {
        Ok(record) => raw::RecordAnswer {
            number: 0,
            line: 0,
            record: lay_record(&record),
            reserved: [0; 7],
        },
        Err(refusal) => raw::RecordAnswer {
            number: refusal.number(),
            line: refusal.line,
            record: raw::Record::ZERO,
            reserved: [0; 7],
        },
    }
}

/// The bytes first, zeros after them.
fn padded<const N: usize>(bytes: &[u8]) -> [u8; N] {
    let mut array = [0; N];
    array[..bytes.len()].copy_from_slice(bytes);
    array
}

/// A well-formed record as a struct.
pub fn lay_record(record: &Record) -> raw::Record {
    let mut laid = raw::Record::ZERO;
    laid.name_len = record.ssid.len() as u8;
    laid.name = padded(&record.ssid);
    match &record.credential {
        Credential::None => laid.credential = 0,
        Credential::Passphrase(passphrase) => {
            laid.credential = 1;
            laid.passphrase_len = passphrase.len() as u8;
            laid.passphrase = padded(passphrase);
        }
        Credential::Key(key) => {
            laid.credential = 2;
            laid.key = *key;
        }
    }
    laid.hidden = record.hidden.into();
    let ipv4 = Places::of(&record.ipv4);
    (laid.ipv4, laid.address, laid.prefix_length) = (ipv4.code, ipv4.address, ipv4.prefix_length);
    (laid.has_gateway, laid.gateway) = (ipv4.has_gateway, ipv4.gateway);
    laid.server_count = record.servers.len() as u8;
    laid.servers = padded(&record.servers.concat());
    laid.domain_len = record.domain.len() as u8;
    laid.domain = padded(&record.domain);
    let ipv6 = Places::of(&record.ipv6);
    (laid.ipv6, laid.ipv6_address, laid.ipv6_prefix_length) = (ipv6.code, ipv6.address, ipv6.prefix_length);
    (laid.has_ipv6_gateway, laid.ipv6_gateway) = (ipv6.has_gateway, ipv6.gateway);
    laid
}

/// The record that a struct holds; none where a code or a length is out of range or a place not in use is not zero.
pub fn lift_record(laid: &raw::Record) -> Option<Record> {
    let credential = match laid.credential {
        0 => Credential::None,
        1 => Credential::Passphrase(laid.passphrase.get(..laid.passphrase_len.into())?.to_vec()),
        2 => Credential::Key(laid.key),
        _ => return None,
    };
    let ipv4 = Places {
        code: laid.ipv4,
        address: laid.address,
        prefix_length: laid.prefix_length,
        has_gateway: laid.has_gateway,
        gateway: laid.gateway,
    };
    let ipv6 = Places {
        code: laid.ipv6,
        address: laid.ipv6_address,
        prefix_length: laid.ipv6_prefix_length,
        has_gateway: laid.has_ipv6_gateway,
        gateway: laid.ipv6_gateway,
    };
    let servers = laid.servers.get(..4 * usize::from(laid.server_count))?;
    let record = Record {
        ssid: laid.name.get(..laid.name_len.into())?.to_vec(),
        credential,
        hidden: flag(laid.hidden)?,
        ipv4: ipv4.lift()?,
        servers: servers
            .chunks(4)
            .map(|server| [server[0], server[1], server[2], server[3]])
            .collect(),
        domain: laid.domain.get(..laid.domain_len.into())?.to_vec(),
        ipv6: ipv6.lift()?,
    };
    (lay_record(&record) == *laid).then_some(record)
}

/// A yes/no of a record.
fn flag(code: u8) -> Option<bool> {
    (code <= 1).then_some(code == 1)
}

/// The five places of IPv4, and of IPv6, in a struct.
#[derive(Clone, Copy)]
struct Places<const WIDTH: usize> {
    code: u8,
    address: [u8; WIDTH],
    prefix_length: u8,
    has_gateway: u8,
    gateway: [u8; WIDTH],
}

impl<const WIDTH: usize> Places<WIDTH> {
    /// `QEWARIS_IPV4_DHCP` and `QEWARIS_IPV6_AUTO`, `.._OFF` and `.._STATIC` are 0, 1 and 2; only what is static is in use.
    fn of(addressing: &Addressing<WIDTH>) -> Places<WIDTH> {
        let (code, address, prefix_length, gateway) = match *addressing {
            Addressing::Auto => (0, [0; WIDTH], 0, None),
            Addressing::Off => (1, [0; WIDTH], 0, None),
            Addressing::Static {
                address,
                prefix_length,
                gateway,
            } => (2, address, prefix_length, gateway),
        };
        let (has_gateway, gateway) = presence(gateway);
        Places {
            code,
            address,
            prefix_length,
            has_gateway,
            gateway,
        }
    }

    /// What the places say, whatever stands in those not in use.
    fn lift(&self) -> Option<Addressing<WIDTH>> {
        let gateway = flag(self.has_gateway)?.then_some(self.gateway);
        match self.code {
            0 => Some(Addressing::Auto),
            1 => Some(Addressing::Off),
            2 => Some(Addressing::Static {
                address: self.address,
                prefix_length: self.prefix_length,
                gateway,
            }),
            _ => None,
        }
    }
}

/// "of an address, a MAC or a key `has_..` says whether it is there": 1 and its bytes, or zeros.
fn presence<const N: usize>(bytes: Option<[u8; N]>) -> (u8, [u8; N]) {
    bytes.map_or((0, [0; N]), |bytes| (1, bytes))
}
