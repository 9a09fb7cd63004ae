//! The groups and keys that files are made of, with the kinds of their values: the generators' own list.

/// What a generator puts behind a key.
#[derive(Clone, Copy, Debug)]
pub enum Kind {
    Words(&'static [&'static str]),
    /// A string that stands for so many bytes.
    Text(usize, usize),
    /// So many hex digits.
    Hex(usize, usize),
    Mac,
    Address,
    Mask,
    SpacedServers,
    CommaServers,
    Entries,
    Ipv4,
    /// ConnMan's IPv6.
    Ipv6,
    /// Address of iwd's IPv6.
    Ipv6Prefix,
    /// Gateway of iwd's IPv6.
    Ipv6Address,
}

/// A key and its kind.
#[derive(Clone, Copy, Debug)]
pub struct Key {
    pub name: &'static str,
    pub kind: Kind,
}

const fn key(name: &'static str, kind: Kind) -> Key {
    Key { name, kind }
}

/// What iwd's Enabled can be beside an Address.
pub const ENABLED: Key = key("Enabled", Kind::Words(&["true", "1"]));

const IWD_BOOL: Kind = Kind::Words(&["true", "false", "1", "0"]);
const CONNMAN_BOOL: Kind = Kind::Words(&["true", "false"]);

/// The four groups of iwd.
pub const IWD_GROUPS: [(&str, &[Key]); 4] = [
    (
        "Settings",
        &[
            key("AutoConnect", IWD_BOOL),
            key("Hidden", IWD_BOOL),
            key("AlwaysRandomizeAddress", IWD_BOOL),
            key("AddressOverride", Kind::Mac),
        ],
    ),
    (
        "Security",
        &[key("Passphrase", Kind::Text(8, 63)), key("PreSharedKey", Kind::Hex(64, 64))],
    ),
    (
        "IPv4",
        &[
            key("Address", Kind::Address),
            key("Gateway", Kind::Address),
            key("Broadcast", Kind::Address),
            key("Netmask", Kind::Mask),
            key("DNS", Kind::SpacedServers),
            key("DomainName", Kind::Text(1, 253)),
            key("SendHostname", IWD_BOOL),
        ],
    ),
    (
        "IPv6",
        &[
            key("Enabled", IWD_BOOL),
            key("Address", Kind::Ipv6Prefix),
            key("Gateway", Kind::Ipv6Address),
        ],
    ),
];

/// The keys of ConnMan's `global`.
pub const GLOBAL_KEYS: &[Key] = &[key("Name", Kind::Text(1, 253)), key("Description", Kind::Text(1, 253))];

/// The keys of a ConnMan service.
pub const SERVICE_KEYS: &[Key] = &[
    key("Type", Kind::Words(&["wifi", "ethernet"])),
    key("IPv4", Kind::Ipv4),
    key("IPv6", Kind::Ipv6),
    key("IPv6.Privacy", Kind::Words(&["disabled", "enabled", "preferred", "prefered"])),
    key("MAC", Kind::Mac),
    key("Nameservers", Kind::CommaServers),
    key("SearchDomains", Kind::Entries),
    key("Timeservers", Kind::Entries),
    key("Domain", Kind::Text(1, 253)),
    key("Name", Kind::Text(1, 32)),
    key("SSID", Kind::Hex(2, 64)),
    key("Passphrase", Kind::Text(8, 63)),
    key("Security", Kind::Words(&["psk", "ieee8021x", "none", "wep"])),
    key("Hidden", CONNMAN_BOOL),
];

/// Every key of both dialects.
pub fn all_keys() -> Vec<Key> {
    let iwd = IWD_GROUPS.iter().flat_map(|(_, keys)| keys.iter());
    iwd.chain(GLOBAL_KEYS).chain(SERVICE_KEYS).copied().collect()
}

/// Whether the keys of that name, in whatever group, are strings.
pub fn is_string(name: &[u8]) -> bool {
    let is_text = |key: &Key| key.name.as_bytes() == name && matches!(key.kind, Kind::Text(..));
    all_keys().iter().any(is_text)
}

/// The key of a name in a list that has it.
pub fn find(keys: &[Key], name: &str) -> Key {
    *keys.iter().find(|key| key.name == name).expect("the list has the key")
}
