//! The groups and keys of both dialects and the kind of each key's value, for messages; what is good or not the library says.

/// Whose file it is.
#[derive(Clone, Copy, Debug, PartialEq, Eq)]
pub enum Dialect {
    Iwd,
    Connman,
}

impl Dialect {
    /// The dialect of a file by its name: ConnMan's end in `.config`, all others are asked as iwd's.
    pub fn of(name: &[u8]) -> Dialect {
        if name.ends_with(b".config") {
            Dialect::Connman
        } else {
            Dialect::Iwd
        }
    }

    /// Whether a key may have this byte.
    pub fn is_key_byte(self, byte: u8) -> bool {
        byte.is_ascii_alphanumeric() || byte == b'_' || byte == b'-' || (byte == b'.' && self == Dialect::Connman)
    }
}

/// The kinds of values.
#[derive(Clone, Copy, Debug, PartialEq, Eq)]
#[non_exhaustive]
pub enum Kind {
    YesNo,
    Address,
    Mask,
    Ipv4,
    SpacedAddresses,
    CommaAddresses,
    Entries,
    Mac,
    Key,
    Ssid,
    /// 8 to 63 bytes.
    Passphrase,
    /// 1 to 32 bytes.
    NetworkName,
    /// 1 to 253 bytes.
    Text,
    Type,
    /// ConnMan's IPv6.
    Ipv6,
    /// iwd's Address of IPv6.
    Ipv6Address,
    /// iwd's Gateway of IPv6.
    Ipv6Gateway,
    Privacy,
    Security,
}

impl Kind {
    /// How many bytes a string of this kind has.
    pub fn lengths(self) -> Option<(usize, usize)> {
        match self {
            Kind::Passphrase => Some((8, 63)),
            Kind::NetworkName => Some((1, 32)),
            Kind::Text => Some((1, 253)),
            _ => None,
        }
    }

    /// The words of a kind that has some.
    pub fn words(self) -> &'static [&'static str] {
        match self {
            Kind::Type => &["wifi", "ethernet"],
            Kind::Ipv6 => &["off", "auto"],
            Kind::Privacy => &["disabled", "enabled", "preferred", "prefered"],
            Kind::Security => &["psk", "ieee8021x", "none", "wep"],
            _ => &[],
        }
    }

    /// Whether any text will do, within its length.
    pub fn is_free(self) -> bool {
        self.lengths().is_some() || matches!(self, Kind::Entries | Kind::Ssid)
    }
}

/// A group's keys with their kinds.
pub type Keys = &'static [(&'static str, Kind)];

/// iwd's groups.
pub const IWD: &[(&str, Keys)] = &[
    (
        "Settings",
        &[
            ("AutoConnect", Kind::YesNo),
            ("Hidden", Kind::YesNo),
            ("AlwaysRandomizeAddress", Kind::YesNo),
            ("AddressOverride", Kind::Mac),
        ],
    ),
    ("Security", &[("Passphrase", Kind::Passphrase), ("PreSharedKey", Kind::Key)]),
    (
        "IPv4",
        &[
            ("Address", Kind::Address),
            ("Gateway", Kind::Address),
            ("Broadcast", Kind::Address),
            ("Netmask", Kind::Mask),
            ("DNS", Kind::SpacedAddresses),
            ("DomainName", Kind::Text),
            ("SendHostname", Kind::YesNo),
        ],
    ),
    (
        "IPv6",
        &[
            ("Enabled", Kind::YesNo),
            ("Address", Kind::Ipv6Address),
            ("Gateway", Kind::Ipv6Gateway),
        ],
    ),
];

/// The keys of ConnMan's group `global`.
pub const GLOBAL: Keys = &[("Name", Kind::Text), ("Description", Kind::Text)];

/// The keys of a ConnMan service.
pub const SERVICE: Keys = &[
    ("Type", Kind::Type),
    ("IPv4", Kind::Ipv4),
    ("IPv6", Kind::Ipv6),
    ("IPv6.Privacy", Kind::Privacy),
    ("MAC", Kind::Mac),
    ("Nameservers", Kind::CommaAddresses),
    ("SearchDomains", Kind::Entries),
    ("Timeservers", Kind::Entries),
    ("Domain", Kind::Text),
    ("Name", Kind::NetworkName),
    ("SSID", Kind::Ssid),
    ("Passphrase", Kind::Passphrase),
    ("Security", Kind::Security),
    ("Hidden", Kind::YesNo),
];

/// Whether the papers about a dialect have a key in a group and it is not taken here: keys of extended logins, of IPv6's name servers
/// and domain, and what iwd sets by itself.
pub fn is_of_paper(dialect: Dialect, group: &[u8], key: &[u8]) -> bool {
    let within = |keys: &[&str]| keys.iter().any(|name| name.as_bytes() == key);
    match (dialect, group) {
        (Dialect::Iwd, b"IPv6") => within(&["DNS", "DomainName"]),
        (Dialect::Iwd, _) => key.starts_with(b"EAP-") || within(&IWD_ONLY),
        (Dialect::Connman, _) => within(&CONNMAN_ONLY),
    }
}

/// The keys of iwd's paper that are not taken here, beside those of extended logins.
pub const IWD_ONLY: [&str; 7] = [
    "TransitionDisable",
    "DisabledTransitionModes",
    "UseDefaultEccGroup",
    "PasswordIdentifier",
    "EncryptedSalt",
    "EncryptedSecurity",
    "MulticastDNS",
];

/// The keys of ConnMan's paper that are not taken here.
pub const CONNMAN_ONLY: [&str; 8] = [
    "EAP",
    "CACertFile",
    "ClientCertFile",
    "PrivateKeyFile",
    "PrivateKeyPassphrase",
    "PrivateKeyPassphraseType",
    "Identity",
    "Phase2",
];

/// The keys of a group, if there is such a group.
pub fn keys_of(dialect: Dialect, group: &[u8]) -> Option<Keys> {
    match dialect {
        Dialect::Iwd => IWD.iter().find(|(name, _)| name.as_bytes() == group).map(|(_, keys)| *keys),
        Dialect::Connman if group == b"global" => Some(GLOBAL),
        Dialect::Connman => is_service(group).then_some(SERVICE),
    }
}

/// Whether a group's name is a service's.
pub fn is_service(group: &[u8]) -> bool {
    let identifier = group.strip_prefix(b"service_").unwrap_or(b"");
    (1..=32).contains(&identifier.len()) && identifier.iter().all(|byte| byte.is_ascii_alphanumeric() || *byte == b'_')
}

/// The kind of a key of a group.
pub fn kind_in(keys: Keys, key: &[u8]) -> Option<Kind> {
    keys.iter().find(|(name, _)| name.as_bytes() == key).map(|(_, kind)| *kind)
}

/// The kinds of a key in whichever groups it stands; none where it is no key.
pub fn kinds_anywhere(key: &[u8]) -> impl Iterator<Item = Kind> + '_ {
    all_keys().filter(move |(name, _)| name.as_bytes() == key).map(|(_, kind)| kind)
}

/// The groups of iwd that have a key: Address and Gateway stand in two.
pub fn iwd_groups_of(key: &[u8]) -> impl Iterator<Item = &'static str> + '_ {
    let has = move |keys: Keys| kind_in(keys, key).is_some();
    IWD.iter().filter(move |(_, keys)| has(keys)).map(|(name, _)| *name)
}

/// Every key of every group.
pub fn all_keys() -> impl Iterator<Item = (&'static str, Kind)> {
    let iwd = IWD.iter().flat_map(|(_, keys)| keys.iter());
    iwd.chain(GLOBAL).chain(SERVICE).copied()
}

/// Words as they stand in a sentence: `a, b and c`.
pub fn listed(words: &[&str], last: &str) -> String {
    match words {
        [] => String::new(),
        [word] => word.to_string(),
        [front @ .., end] => format!("{} {last} {end}", front.join(", ")),
    }
}

/// A count of things: `1 byte`, `7 bytes`.
pub fn counted(count: usize, thing: &str) -> String {
    let plural = if count == 1 { "" } else { "s" };
    format!("{count} {thing}{plural}")
}
