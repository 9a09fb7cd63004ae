//! File names: an iwd name and the network that it stands for, both ways, and the rule of a ConnMan name.

use super::kind::hex;

/// What the suffix of an iwd name says of the network.
#[derive(Clone, Copy, Debug, PartialEq, Eq)]
pub enum Suffix {
    Open,
    Psk,
}

impl Suffix {
    /// The suffix as it stands in the name.
    pub fn text(self) -> &'static [u8] {
        match self {
            Suffix::Open => b".open",
            Suffix::Psk => b".psk",
        }
    }
}

/// "The network name as it stands if every byte is a letter, digit, space, `_` or `-`."
pub fn stands_plainly(ssid: &[u8]) -> bool {
    ssid.iter()
        .all(|&byte| byte.is_ascii_alphanumeric() || byte == b' ' || byte == b'_' || byte == b'-')
}

/// "iwd: a stem and `.open` or `.psk`." The network's name and the suffix, none where the file name breaks its rule.
pub fn read_iwd(name: &[u8]) -> Option<(Vec<u8>, Suffix)> {
    [Suffix::Open, Suffix::Psk].into_iter().find_map(|suffix| {
        let stem = name.strip_suffix(suffix.text())?;
        Some((read_stem(stem)?, suffix))
    })
}

/// The name that a stem stands for. "Hex of a name that could stand plainly is refused, so one network and kind has one file name."
fn read_stem(stem: &[u8]) -> Option<Vec<u8>> {
    let ssid = match stem.strip_prefix(b"=") {
        Some(digits) if digits.iter().any(u8::is_ascii_uppercase) => return None,
        Some(digits) => hex(digits).filter(|ssid| !stands_plainly(ssid))?,
        None => Some(stem.to_vec()).filter(|ssid| stands_plainly(ssid))?,
    };
    (1..=32).contains(&ssid.len()).then_some(ssid)
}

/// The one file name of a network: "else `=` and lower-case hex of the name".
pub fn write_iwd(ssid: &[u8], suffix: Suffix) -> Vec<u8> {
    let stem = if stands_plainly(ssid) {
        ssid.to_vec()
    } else {
        [b"=".to_vec(), lower_hex(ssid)].concat()
    };
    [&stem, suffix.text()].concat()
}

/// Two lower-case digits for each byte.
pub fn lower_hex(bytes: &[u8]) -> Vec<u8> {
    bytes.iter().flat_map(|byte| format!("{byte:02x}").into_bytes()).collect()
}

/// "ConnMan: one or more letters or digits, then `.config`."
pub fn is_connman(name: &[u8]) -> bool {
    name.strip_suffix(b".config")
        .is_some_and(|stem| !stem.is_empty() && stem.iter().all(u8::is_ascii_alphanumeric))
}
