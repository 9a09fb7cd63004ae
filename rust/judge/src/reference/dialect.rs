//! The two dialects: what differs between them in lines, and which groups and keys each knows.

use super::kind::Kind;
use super::lines::drop_trailing_whitespace;

/// Whose file it is.
#[derive(Clone, Copy, Debug, PartialEq, Eq)]
pub enum Dialect {
    Iwd,
    Connman,
}

/// A kind of group that a dialect knows.
#[derive(Clone, Copy, Debug, PartialEq, Eq)]
pub enum GroupKind {
    Settings,
    Security,
    Ipv4,
    Ipv6,
    Global,
    Service,
}

impl Dialect {
    /// Key bytes: in iwd "letters, digits, `_`, `-`", in ConnMan "those and `.`".
    pub fn is_key_byte(self, byte: u8) -> bool {
        byte.is_ascii_alphanumeric() || byte == b'_' || byte == b'-' || (self == Dialect::Connman && byte == b'.')
    }

    /// Where a value ends: in iwd "at line end, trailing blanks kept", in ConnMan "trailing whitespace dropped". Strings are "unescaped
    /// after the whitespace is trimmed" (request 2026-02), so a blank that an escape stands for is kept at either end.
    pub fn value_end(self, value: &[u8]) -> &[u8] {
        match self {
            Dialect::Iwd => value,
            Dialect::Connman => drop_trailing_whitespace(value),
        }
    }

    /// The group of a header, none where the dialect does not know it.
    pub fn group(self, name: &str) -> Option<GroupKind> {
        match (self, name) {
            (Dialect::Iwd, "Settings") => Some(GroupKind::Settings),
            (Dialect::Iwd, "Security") => Some(GroupKind::Security),
            (Dialect::Iwd, "IPv4") => Some(GroupKind::Ipv4),
            (Dialect::Iwd, "IPv6") => Some(GroupKind::Ipv6),
            (Dialect::Connman, "global") => Some(GroupKind::Global),
            (Dialect::Connman, _) => name
                .strip_prefix("service_")
                .filter(|rest| is_identifier(rest))
                .map(|_| GroupKind::Service),
            _ => None,
        }
    }
}

/// "1 to 32 letters, digits or `_`."
fn is_identifier(text: &str) -> bool {
    (1..=32).contains(&text.len()) && text.bytes().all(|byte| byte.is_ascii_alphanumeric() || byte == b'_')
}

/// "Settings and their kinds": the kind of a key in a group, none where the key is not listed.
pub fn kind_of(group: GroupKind, key: &str) -> Option<Kind> {
    match group {
        GroupKind::Settings | GroupKind::Security | GroupKind::Ipv4 | GroupKind::Ipv6 => iwd_kind(group, key),
        GroupKind::Global => global_kind(key),
        GroupKind::Service => service_kind(key),
    }
}

/// A bool of iwd: "true, false, 1, 0".
const IWD_BOOL: Kind = Kind::Flag {
    yes: &["true", "1"],
    no: &["false", "0"],
};

/// A bool of ConnMan: "true, false".
const CONNMAN_BOOL: Kind = Kind::Flag {
    yes: &["true"],
    no: &["false"],
};

/// A string of `min` to `max` bytes.
const fn string(min: usize, max: usize) -> Kind {
    Kind::Text { min, max }
}

fn iwd_kind(group: GroupKind, key: &str) -> Option<Kind> {
    Some(match (group, key) {
        (GroupKind::Settings, "AutoConnect" | "Hidden" | "AlwaysRandomizeAddress") => IWD_BOOL,
        (GroupKind::Settings, "AddressOverride") => Kind::Mac,
        (GroupKind::Security, "Passphrase") => string(8, 63),
        (GroupKind::Security, "PreSharedKey") => Kind::Hex { min: 64, max: 64 },
        (GroupKind::Ipv4, "Address" | "Gateway" | "Broadcast") => Kind::Address,
        (GroupKind::Ipv4, "Netmask") => Kind::Mask,
        (GroupKind::Ipv4, "DNS") => Kind::SpacedServers,
        (GroupKind::Ipv4, "DomainName") => string(1, 253),
        (GroupKind::Ipv4, "SendHostname") => IWD_BOOL,
        (GroupKind::Ipv6, "Enabled") => IWD_BOOL,
        (GroupKind::Ipv6, "Address") => Kind::Ipv6Prefix,
        (GroupKind::Ipv6, "Gateway") => Kind::Ipv6Address,
        _ => return None,
    })
}

fn global_kind(key: &str) -> Option<Kind> {
    matches!(key, "Name" | "Description").then_some(string(1, 253))
}

fn service_kind(key: &str) -> Option<Kind> {
    Some(match key {
        "Type" => Kind::Word(&[("wifi", "wifi"), ("ethernet", "ethernet")]),
        "IPv4" => Kind::Ipv4,
        "IPv6" => Kind::Ipv6,
        "IPv6.Privacy" => Kind::Word(&[
            ("disabled", "disabled"),
            ("enabled", "enabled"),
            ("preferred", "preferred"),
            ("prefered", "preferred"),
        ]),
        "MAC" => Kind::Mac,
        "Nameservers" => Kind::CommaServers,
        "SearchDomains" | "Timeservers" => Kind::Entries,
        "Domain" => string(1, 253),
        "Name" => string(1, 32),
        "SSID" => Kind::Hex { min: 2, max: 64 },
        "Passphrase" => string(8, 63),
        "Security" => Kind::Word(&[("psk", "psk"), ("ieee8021x", "ieee8021x"), ("none", "none"), ("wep", "wep")]),
        "Hidden" => CONNMAN_BOOL,
        _ => return None,
    })
}
