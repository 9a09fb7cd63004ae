//! The reference on request 2026-03: the examples of RFC 4291 and RFC 5952 and what else those papers say of texts; and the request's own
//! sentences and the decisions about what it leaves open, in the three settings that have IPv6 addresses, in records and in files.

mod boundary;
mod records;
mod settings;
mod texts;

use judge::reference::{Credential, Ipv4, Ipv6, Record};

/// The bytes of eight groups.
fn bytes(groups: [u16; 8]) -> [u8; 16] {
    std::array::from_fn(|place| groups[place / 2].to_be_bytes()[place % 2])
}

fn fixed(address: [u8; 16], prefix_length: u8, gateway: Option<[u8; 16]>) -> Ipv6 {
    Ipv6::Static {
        address,
        prefix_length,
        gateway,
    }
}

fn record(ipv4: Ipv4, ipv6: Ipv6) -> Record {
    Record {
        ssid: b"a".to_vec(),
        credential: Credential::None,
        hidden: false,
        ipv4,
        servers: vec![],
        domain: vec![],
        ipv6,
    }
}

/// 2001:db8::14
const ADDRESS: [u8; 16] = [0x20, 0x01, 0x0D, 0xB8, 0, 0, 0, 0, 0, 0, 0, 0, 0, 0, 0, 0x14];

/// fe80::1
const GATEWAY: [u8; 16] = [0xFE, 0x80, 0, 0, 0, 0, 0, 0, 0, 0, 0, 0, 0, 0, 0, 1];
