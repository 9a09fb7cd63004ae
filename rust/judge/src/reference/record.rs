//! The join record, and when one is well formed.

use super::addressing::{Ipv4, Ipv6};

/// "Credential (none, passphrase of 8 to 63 bytes, or 32-byte key)."
#[derive(Clone, Debug, PartialEq, Eq)]
pub enum Credential {
    None,
    Passphrase(Vec<u8>),
    Key([u8; 32]),
}

/// What a till needs to join a network.
#[derive(Clone, Debug, PartialEq, Eq)]
pub struct Record {
    pub ssid: Vec<u8>,
    pub credential: Credential,
    pub hidden: bool,
    pub ipv4: Ipv4,
    pub servers: Vec<[u8; 4]>,
    /// Empty where it is absent.
    pub domain: Vec<u8>,
    pub ipv6: Ipv6,
}

impl Record {
    /// Whether every part is within the paper's bounds: "a record outside this is 19".
    pub fn is_well_formed(&self) -> bool {
        let credential = match &self.credential {
            Credential::Passphrase(passphrase) => (8..=63).contains(&passphrase.len()) && is_clean_text(passphrase),
            Credential::None | Credential::Key(_) => true,
        };
        let addresses = self.ipv4.is_well_formed() && self.ipv6.is_well_formed();
        let domain = self.domain.len() <= 253 && is_clean_text(&self.domain);
        (1..=32).contains(&self.ssid.len()) && credential && addresses && self.servers.len() <= 4 && domain
    }

    /// "For the writer: IPv4 off, or static without gateway" have no place in iwd; and of IPv6 "static without gateway .. joins both of 01's
    /// lists of what iwd has no place for" (request 2026-03).
    pub fn has_place_in_iwd(&self) -> bool {
        self.ipv4 != Ipv4::Off && !self.ipv4.lacks_gateway() && !self.ipv6.lacks_gateway()
    }

    /// "A service needs a key when its credential is not none."
    pub fn needs_key(&self) -> bool {
        self.credential != Credential::None
    }
}

/// "Passphrase and domain are UTF-8 without byte 0."
fn is_clean_text(bytes: &[u8]) -> bool {
    std::str::from_utf8(bytes).is_ok() && !bytes.contains(&0)
}
