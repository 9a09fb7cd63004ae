//! The files in which a value is tried: nothing else in them can be refused.

use crate::ask::{read, read_service};
use qewaris::raw;

/// A value's place in a file: the file up to it, and what stands behind its line.
#[derive(Clone, Copy)]
pub struct Place {
    pub name: &'static str,
    pub before: &'static str,
    pub behind: &'static str,
}

pub const HIDDEN: Place = iwd("Desk.open", "[Settings]\nHidden=", "");
pub const ADDRESS_OVERRIDE: Place = iwd("Desk.open", "[Settings]\nAddressOverride=", "");
pub const PASSPHRASE: Place = iwd("Desk.psk", "[Security]\nPassphrase=", "");
pub const PRE_SHARED_KEY: Place = iwd("Desk.psk", "[Security]\nPreSharedKey=", "");
pub const ADDRESS: Place = iwd("Desk.open", "[IPv4]\nAddress=", "Gateway=10.0.0.1\n");
pub const NETMASK: Place = iwd("Desk.open", "[IPv4]\nNetmask=", "Address=10.0.0.2\nGateway=10.0.0.1\n");
pub const DNS: Place = iwd("Desk.open", "[IPv4]\nDNS=", "");
pub const IWD_IPV6_ADDRESS: Place = iwd("Desk.open", "[IPv6]\nAddress=", "Gateway=::1\n");
pub const IWD_IPV6_LENGTH: Place = iwd("Desk.open", "[IPv6]\nAddress=::1/", "Gateway=::1\n");
pub const IWD_IPV6_GATEWAY: Place = iwd("Desk.open", "[IPv6]\nGateway=", "Address=::1\n");
pub const DOMAIN_NAME: Place = iwd("Desk.open", "[IPv4]\nDomainName=", "");

pub const GLOBAL_NAME: Place = service("[global]\nName=", "[service_a]\nType=wifi\nName=n\n");
pub const DESCRIPTION: Place = service("[global]\nDescription=", "[service_a]\nType=wifi\nName=n\n");
pub const TYPE: Place = service("[service_a]\nType=", "Name=n\n");
pub const TYPE_ALONE: Place = service("[service_a]\nType=", "");
pub const SERVICE_IPV4: Place = service("[service_a]\nIPv4=", "Type=ethernet\n");
pub const SERVICE_MASK: Place = service("[service_a]\nIPv4=10.0.0.2/", "Type=ethernet\n");
pub const SERVICE_IPV6: Place = service("[service_a]\nIPv6=", "Type=ethernet\n");
pub const SERVICE_IPV6_LENGTH: Place = service("[service_a]\nIPv6=::1/", "Type=ethernet\n");
pub const SERVICE_IPV6_GATEWAY: Place = service("[service_a]\nIPv6=::1/64/", "Type=ethernet\n");
pub const PRIVACY: Place = service("[service_a]\nIPv6.Privacy=", "Type=ethernet\n");
pub const MAC: Place = service("[service_a]\nMAC=", "Type=ethernet\n");
pub const NAMESERVERS: Place = service("[service_a]\nNameservers=", "Type=ethernet\n");
pub const SEARCH_DOMAINS: Place = service("[service_a]\nSearchDomains=", "Type=ethernet\n");
pub const TIMESERVERS: Place = service("[service_a]\nTimeservers=", "Type=ethernet\n");
pub const DOMAIN: Place = service("[service_a]\nDomain=", "Type=wifi\nName=n\n");
pub const NAME: Place = service("[service_a]\nName=", "Type=wifi\n");
pub const SSID: Place = service("[service_a]\nSSID=", "Type=wifi\n");
pub const SERVICE_PASSPHRASE: Place = service("[service_a]\nPassphrase=", "Type=wifi\nName=n\n");
pub const SECURITY: Place = service("[service_a]\nSecurity=", "Type=wifi\nName=n\nPassphrase=12345678\n");
pub const SECURITY_ALONE: Place = service("[service_a]\nSecurity=", "Type=wifi\nName=n\n");
pub const SERVICE_HIDDEN: Place = service("[service_a]\nHidden=", "Type=wifi\nName=n\n");

const fn iwd(name: &'static str, before: &'static str, behind: &'static str) -> Place {
    Place { name, before, behind }
}

const fn service(before: &'static str, behind: &'static str) -> Place {
    Place {
        name: "shop.config",
        before,
        behind,
    }
}

impl Place {
    fn file(self, value: &[u8]) -> Vec<u8> {
        [self.before.as_bytes(), value, b"\n", self.behind.as_bytes()].concat()
    }

    /// The number and the line of the reading of the file with this value.
    pub fn checked(self, value: &[u8]) -> Told {
        let check = match self.name {
            "shop.config" => raw::qewaris_check_connman,
            _ => raw::qewaris_check_iwd,
        };
        let reading = read(check, self.name.as_bytes(), &self.file(value));
        Told(reading.number, reading.line)
    }

    pub fn iwd_settings(self, value: &[u8]) -> Result<raw::IwdSettings, Told> {
        let found = read(raw::qewaris_iwd_settings_of, self.name.as_bytes(), &self.file(value));
        Told(found.number, found.line).or(found)
    }

    pub fn service_settings(self, value: &[u8]) -> Result<raw::ServiceSettings, Told> {
        let found = read_service(raw::qewaris_service_settings_of, self.name.as_bytes(), &self.file(value), 1);
        Told(found.number, found.line).or(found)
    }

    /// The join record of the file, or of its first service.
    pub fn record(self, value: &[u8]) -> Result<raw::Record, Told> {
        let (name, file) = (self.name.as_bytes(), self.file(value));
        let found = match self.name {
            "shop.config" => read_service(raw::qewaris_service_record, name, &file, 1),
            _ => read(raw::qewaris_iwd_record, name, &file),
        };
        Told(found.number, found.line).or(found.record)
    }
}

/// The answer at several places: one where they answer alike, else that of each.
pub fn alike(places: &[Place], answer: impl Fn(Place) -> Vec<u8>) -> Vec<u8> {
    agreed(places.iter().map(|place| answer(*place)).collect())
}

/// One answer where all are alike, else each of them.
pub fn agreed(mut answers: Vec<Vec<u8>>) -> Vec<u8> {
    answers.dedup();
    answers.join(&b' ')
}

/// The number and the line of an answer.
#[derive(Clone, Copy, PartialEq, Eq)]
pub struct Told(pub u8, pub usize);

/// The value is the file's second line.
const VALUE_LINE: usize = 2;

impl Told {
    fn or<T>(self, found: T) -> Result<T, Told> {
        match self.0 {
            0 => Ok(found),
            _ => Err(self),
        }
    }

    /// Whether the value's text is broken.
    pub fn is_text(self) -> bool {
        self == Told(11, VALUE_LINE)
    }

    /// Whether the value breaks its kind.
    pub fn is_kind(self) -> bool {
        self == Told(12, VALUE_LINE)
    }

    pub fn shown(self) -> Vec<u8> {
        format!("refused {} {}", self.0, self.1).into_bytes()
    }

    /// A word for a value that is broken in its text or its kind.
    pub fn broken(self, word: &str) -> Vec<u8> {
        if self.is_text() || self.is_kind() {
            return word.as_bytes().to_vec();
        }
        self.shown()
    }
}

/// A value as it is shown, or that it is broken.
pub fn shown<T>(found: Result<T, Told>, show: impl FnOnce(T) -> String) -> Vec<u8> {
    match found {
        Ok(value) => show(value).into_bytes(),
        Err(told) => told.broken("broken"),
    }
}
