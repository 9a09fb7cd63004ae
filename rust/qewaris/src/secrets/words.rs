//! The words by which a line is known: keys, groups, and what tells of a secret.

use crate::catalogue::{all_keys, CONNMAN_ONLY, IWD, IWD_ONLY};

/// Further keys by which a secret is known: those of extended logins, what iwd writes by itself, and what other programs have.
const OTHER_KEYS: [&str; 14] = [
    "SAE-PT-Group19",
    "SAE-PT-Group20",
    "EAP-Method",
    "EAP-Identity",
    "EAP-Password",
    "EAP-TLS-CACert",
    "EAP-TLS-ClientCert",
    "EAP-TLS-ClientKey",
    "EAP-TLS-ClientKeyPassphrase",
    "AnonymousIdentity",
    "Password",
    "PSK",
    "Key",
    "WPAPassphrase",
];

/// Groups that the daemons and other programs have and the library does not take.
const OTHER_GROUPS: [&str; 8] = [
    "General",
    "Network",
    "Blacklist",
    "Rank",
    "Scan",
    "DriverQuirks",
    "connection",
    "wifi",
];

/// What a line that has a secret in it says, as a part of any word.
const TELLING_PARTS: [&str; 6] = ["pass", "psk", "secret", "pwd", "phrase", "sharedkey"];

/// The same as a word by itself.
const TELLING_WORDS: [&str; 7] = ["key", "keys", "wep", "wpa", "sae", "pin", "code"];

/// What a value of Security may be made of.
const SECURITY_PARTS: [&str; 8] = ["psk", "wpa", "wep", "802", "eap", "sae", "none", "open"];

/// Whether bytes tell of a passphrase or a key.
pub fn mentions_secret(bytes: &[u8]) -> bool {
    let text = bytes.to_ascii_lowercase();
    let has = |part: &str| text.windows(part.len()).any(|window| window == part.as_bytes());
    TELLING_PARTS.iter().any(|part| has(part))
        || text
            .split(|byte| !byte.is_ascii_alphabetic())
            .any(|word| TELLING_WORDS.iter().any(|telling| telling.as_bytes() == word))
}

/// Whether a key tells of a passphrase or a key, in whatever way it is spelled.
pub fn is_telling_key(key: &[u8]) -> bool {
    let squeezed: Vec<u8> = key.iter().filter(|byte| byte.is_ascii_alphabetic()).copied().collect();
    let near = |word: &str| distance(&squeezed.to_ascii_lowercase(), word.as_bytes()) <= 3;
    let has_key = squeezed.to_ascii_lowercase().windows(3).any(|window| window == b"key");
    mentions_secret(key) || mentions_secret(&squeezed) || has_key || near("passphrase") || near("presharedkey")
}

/// Whether a word is a key, in whatever case.
pub fn is_key(word: &[u8]) -> bool {
    keys().any(|key| key.as_bytes().eq_ignore_ascii_case(word))
}

/// Whether bytes are a key or nearly one, perhaps with a foreign byte or two in it.
pub fn is_near_key(bytes: &[u8]) -> bool {
    let squeezed: Vec<u8> = bytes.iter().filter(|byte| is_word_byte(**byte)).copied().collect();
    bytes.len() <= squeezed.len() + 2 && is_near(&squeezed, keys())
}

fn keys() -> impl Iterator<Item = &'static str> {
    all_keys().map(|(key, _)| key).chain(IWD_ONLY).chain(CONNMAN_ONLY).chain(OTHER_KEYS)
}

/// Whether a word is a group's name or nearly one.
pub fn is_near_group(word: &[u8]) -> bool {
    let service = word.strip_prefix(b"service_").unwrap_or(b"");
    let is_near_service = (1..=40).contains(&service.len()) && leading_word(service).len() == service.len();
    is_near_service || is_near(word, IWD.iter().map(|(name, _)| *name).chain(["global"]).chain(OTHER_GROUPS))
}

/// Whether a value says how a network is secured, in words that other programs have for it.
pub fn is_security(value: &[u8]) -> bool {
    let text = value.to_ascii_lowercase();
    let has = |part: &&str| text.windows(part.len()).any(|window| window == part.as_bytes());
    value.len() <= 12 && text.iter().all(|byte| byte.is_ascii_alphanumeric() || b"-_./ ".contains(byte)) && SECURITY_PARTS.iter().any(has)
}

/// Whether a word is one of these, but for its case and a slip or two in a long one.
pub fn is_near(word: &[u8], mut known: impl Iterator<Item = &'static str>) -> bool {
    let word = word.to_ascii_lowercase();
    known.any(|name| {
        let slips = match name.len() {
            0..=4 => 0,
            5..=7 => 1,
            _ => 2,
        };
        name.len().abs_diff(word.len()) <= slips && distance(&word, name.to_ascii_lowercase().as_bytes()) <= slips
    })
}

/// The word of these that a word was meant to be: the nearest one, with a slip or two, or with signs between its letters.
pub fn nearest(word: &[u8], known: impl Iterator<Item = &'static str>) -> Option<&'static str> {
    let letters = |word: &[u8]| -> Vec<u8> {
        let kept = word.iter().filter(|byte| byte.is_ascii_alphanumeric());
        kept.map(u8::to_ascii_lowercase).collect()
    };
    let word = letters(word);
    let slips = |name: &&str| distance(&word, &letters(name.as_bytes()));
    let nearest = known.min_by_key(slips)?;
    (slips(&nearest) <= nearest.len() / 4).then_some(nearest)
}

/// The front of bytes that keys may have.
pub fn leading_word(bytes: &[u8]) -> &[u8] {
    let length = bytes.iter().take_while(|byte| is_word_byte(**byte)).count();
    &bytes[..length]
}

fn is_word_byte(byte: u8) -> bool {
    byte.is_ascii_alphanumeric() || b"_-.".contains(&byte)
}

/// Whether bytes are written as keys and groups are, one word of letters with a capital first, and too short for a passphrase.
pub fn is_plain_word(bytes: &[u8]) -> bool {
    bytes.first().is_some_and(u8::is_ascii_uppercase)
        && bytes.iter().all(u8::is_ascii_alphabetic)
        && bytes.len() < 8
        && !mentions_secret(bytes)
}

/// How many bytes must be changed, put in or left out to make one word the other.
fn distance(one: &[u8], other: &[u8]) -> usize {
    let mut row: Vec<usize> = (0..=other.len()).collect();
    for (i, a) in one.iter().enumerate() {
        let mut corner = i;
        row[0] = i + 1;
        for (j, b) in other.iter().enumerate() {
            let changed = corner + usize::from(a != b);
            corner = row[j + 1];
            row[j + 1] = changed.min(corner + 1).min(row[j] + 1);
        }
    }
    row[other.len()]
}

#[cfg(test)]
mod tests {
    use super::*;

    #[test]
    fn distance_counts_slips() {
        assert_eq!(distance(b"passphrase", b"passphrase"), 0);
        assert_eq!(distance(b"pasphrase", b"passphrase"), 1);
        assert_eq!(distance(b"pashprase", b"passphrase"), 2);
        assert_eq!(distance(b"", b"abc"), 3);
    }

    #[test]
    fn the_nearest_word_is_the_one_that_was_meant() {
        let nearest = |word: &[u8]| super::nearest(word, ["Passphrase", "Type", "IPv4", "IPv6"].into_iter());
        assert_eq!(nearest(b"Pasphrase"), Some("Passphrase"));
        assert_eq!(nearest(b"pass-phrase"), Some("Passphrase"));
        assert_eq!(nearest(b"type"), Some("Type"));
        assert_eq!(nearest(b"Typ"), Some("Type"));
        assert_eq!((nearest(b"Colour"), nearest(b"")), (None, None));
    }

    #[test]
    fn keys_of_secrets_are_known_in_many_spellings() {
        for key in [
            "Passphrase",
            "PASSPHRASE",
            "Pass phrase",
            "Pasphrase",
            "psk",
            "PreShared-Key",
            "wep_key0",
            "Password",
            "passwd",
            "EAP-Password",
        ] {
            assert!(is_telling_key(key.as_bytes()), "{key}");
        }
        for key in ["Name", "Hidden", "Address", "IPv6.Privacy", "Nameservers"] {
            assert!(!is_telling_key(key.as_bytes()), "{key}");
        }
    }
}
