//! The kinds of values: "each kind judges only the stretch after the equal sign and its whitespace".

use super::addressing::{Addressing, Ipv4, Ipv6};
use super::{ipv6_text, text};

/// What a value of a key must be.
#[derive(Clone, Copy, Debug, PartialEq, Eq)]
pub enum Kind {
    /// A bool with its words.
    Flag {
        yes: &'static [&'static str],
        no: &'static [&'static str],
    },
    /// One of these words, each with the word it reads as.
    Word(&'static [(&'static str, &'static str)]),
    /// A string of `min` to `max` bytes after unescaping.
    Text {
        min: usize,
        max: usize,
    },
    /// `min` to `max` hex digits, an even count.
    Hex {
        min: usize,
        max: usize,
    },
    Mac,
    Address,
    Mask,
    /// iwd's DNS.
    SpacedServers,
    /// ConnMan's Nameservers.
    CommaServers,
    /// ConnMan's SearchDomains and Timeservers.
    Entries,
    /// ConnMan's IPv4.
    Ipv4,
    /// ConnMan's IPv6.
    Ipv6,
    /// Address of iwd's IPv6.
    Ipv6Prefix,
    /// Gateway of iwd's IPv6.
    Ipv6Address,
}

/// What a value says.
#[derive(Clone, Debug, PartialEq, Eq)]
pub enum Value {
    Flag(bool),
    Word(&'static str),
    Text(Vec<u8>),
    Hex(Vec<u8>),
    Mac([u8; 6]),
    Address([u8; 4]),
    Mask(u8),
    Servers(Vec<[u8; 4]>),
    /// Start in the value, and length, of each entry.
    Entries(Vec<(usize, usize)>),
    Ipv4(Ipv4),
    Ipv6(Ipv6),
    /// An address and the length of its prefix.
    Ipv6Prefix([u8; 16], u8),
    Ipv6Address([u8; 16]),
}

/// Why a value is refused.
#[derive(Clone, Copy, Debug, PartialEq, Eq)]
pub enum Broken {
    Text,
    Kind,
}

impl Kind {
    /// What the value says; a broken text comes before a broken kind. "Only strings are unescaped."
    pub fn judge(self, value: &[u8]) -> Result<Value, Broken> {
        let is_string = matches!(self, Kind::Text { .. });
        if text::is_broken(value) || (is_string && text::unescape(value).is_none()) {
            return Err(Broken::Text);
        }
        self.read(value).ok_or(Broken::Kind)
    }

    fn read(self, value: &[u8]) -> Option<Value> {
        match self {
            Kind::Flag { yes, no } => flag(value, yes, no).map(Value::Flag),
            Kind::Word(words) => words
                .iter()
                .find(|(word, _)| word.as_bytes() == value)
                .map(|(_, reads)| Value::Word(reads)),
            Kind::Text { min, max } => string(value, min, max).map(Value::Text),
            Kind::Hex { min, max } => hex(value).filter(|_| (min..=max).contains(&value.len())).map(Value::Hex),
            Kind::Mac => mac(value).map(Value::Mac),
            Kind::Address => address(value).map(Value::Address),
            Kind::Mask => mask(value).map(Value::Mask),
            Kind::SpacedServers => spaced_servers(value).map(Value::Servers),
            Kind::CommaServers => comma_servers(value).map(Value::Servers),
            Kind::Entries => entries(value).map(Value::Entries),
            Kind::Ipv4 => ipv4(value).map(Value::Ipv4),
            Kind::Ipv6 => ipv6(value).map(Value::Ipv6),
            Kind::Ipv6Prefix => ipv6_prefix(value).map(|(address, length)| Value::Ipv6Prefix(address, length)),
            Kind::Ipv6Address => ipv6_text::read(value).map(Value::Ipv6Address),
        }
    }
}

fn flag(value: &[u8], yes: &[&str], no: &[&str]) -> Option<bool> {
    let among = |words: &[&str]| words.iter().any(|word| word.as_bytes() == value);
    match (among(yes), among(no)) {
        (true, _) => Some(true),
        (_, true) => Some(false),
        _ => None,
    }
}

/// "Every string's length counts its bytes after unescaping."
fn string(value: &[u8], min: usize, max: usize) -> Option<Vec<u8>> {
    text::unescape(value).filter(|bytes| (min..=max).contains(&bytes.len()))
}

/// The bytes of pairs of hex digits. "Hex digits may be either case."
pub fn hex(digits: &[u8]) -> Option<Vec<u8>> {
    if !digits.len().is_multiple_of(2) {
        return None;
    }
    let digit = |byte: u8| (byte as char).to_digit(16).map(|digit| digit as u8);
    digits.chunks(2).map(|pair| Some(digit(pair[0])? * 16 + digit(pair[1])?)).collect()
}

/// "A MAC is 17 bytes, six pairs of hex digits with colons."
fn mac(value: &[u8]) -> Option<[u8; 6]> {
    let pairs: Vec<&[u8]> = value.split(|&byte| byte == b':').collect();
    if pairs.iter().any(|pair| pair.len() != 2) {
        return None;
    }
    hex(&pairs.concat())?.try_into().ok()
}

/// A number without leading zeros, at most 255.
fn decimal(text: &[u8]) -> Option<u8> {
    let plain = text.iter().all(u8::is_ascii_digit) && (text == b"0" || !text.starts_with(b"0"));
    if !plain {
        return None;
    }
    std::str::from_utf8(text).ok()?.parse().ok()
}

/// "In text an address is four numbers 0 to 255 with dots, no leading zeros."
pub fn address(value: &[u8]) -> Option<[u8; 4]> {
    let numbers: Option<Vec<u8>> = value.split(|&byte| byte == b'.').map(decimal).collect();
    numbers?.try_into().ok()
}

/// The mask that begins with `length` ones.
pub fn mask_of(length: u8) -> [u8; 4] {
    let mut mask = [0; 4];
    for bit in 0..usize::from(length) {
        mask[bit / 8] |= 0x80 >> (bit % 8);
    }
    mask
}

/// "In a mask every one comes before every zero and there is at least one; the mask length is the count of its leading ones."
fn mask(value: &[u8]) -> Option<u8> {
    let mask = address(value)?;
    (1..=32).find(|&length| mask_of(length) == mask)
}

/// "1 to 4 addresses, one or more spaces between, trailing spaces allowed."
fn spaced_servers(value: &[u8]) -> Option<Vec<[u8; 4]>> {
    let words = value.split(|&byte| byte == b' ').filter(|word| !word.is_empty());
    servers(words.map(address).collect::<Option<_>>()?)
}

/// "1 to 4 addresses, one comma between, no blanks."
fn comma_servers(value: &[u8]) -> Option<Vec<[u8; 4]>> {
    servers(value.split(|&byte| byte == b',').map(address).collect::<Option<_>>()?)
}

fn servers(list: Vec<[u8; 4]>) -> Option<Vec<[u8; 4]>> {
    (1..=4).contains(&list.len()).then_some(list)
}

/// "1 to 4 entries of 1 to 253 bytes without comma, space or tab, one comma between."
fn entries(value: &[u8]) -> Option<Vec<(usize, usize)>> {
    let mut start = 0;
    let mut places = Vec::new();
    for entry in value.split(|&byte| byte == b',') {
        if !(1..=253).contains(&entry.len()) || entry.contains(&b' ') || entry.contains(&b'\t') {
            return None;
        }
        places.push((start, entry.len()));
        start += entry.len() + 1;
    }
    (places.len() <= 4).then_some(places)
}

/// "ConnMan IPv4 is `off`, `dhcp`, or address `/` mask or length (1 to 32, no leading zero), and optionally `/` gateway."
fn ipv4(value: &[u8]) -> Option<Ipv4> {
    addressing(value, b"dhcp", address, |text| mask(text).or_else(|| prefix_length(text, 32)))
}

/// "ConnMan's IPv6 gains address/length with an optional gateway", beside `off` and `auto`.
fn ipv6(value: &[u8]) -> Option<Ipv6> {
    addressing(value, b"auto", ipv6_text::read, ipv6_length)
}

/// "iwd's group gains Address (length 128 if left off)."
fn ipv6_prefix(value: &[u8]) -> Option<([u8; 16], u8)> {
    match value.iter().position(|&byte| byte == b'/') {
        Some(slash) => Some((ipv6_text::read(&value[..slash])?, ipv6_length(&value[slash + 1..])?)),
        None => Some((ipv6_text::read(value)?, 128)),
    }
}

/// "Lengths run from 1 to 128 without leading zero."
pub fn ipv6_length(text: &[u8]) -> Option<u8> {
    prefix_length(text, 128)
}

fn prefix_length(text: &[u8], most: u8) -> Option<u8> {
    decimal(text).filter(|length| (1..=most).contains(length))
}

/// `off`, the word for what is come by on its own, or address `/` length, and optionally `/` gateway.
fn addressing<const WIDTH: usize>(
    value: &[u8],
    auto: &[u8],
    address: fn(&[u8]) -> Option<[u8; WIDTH]>,
    length: fn(&[u8]) -> Option<u8>,
) -> Option<Addressing<WIDTH>> {
    if value == b"off" {
        return Some(Addressing::Off);
    }
    if value == auto {
        return Some(Addressing::Auto);
    }
    let parts: Vec<&[u8]> = value.split(|&byte| byte == b'/').collect();
    let (first, second, gateway) = match parts[..] {
        [first, second] => (first, second, None),
        [first, second, third] => (first, second, Some(address(third)?)),
        _ => return None,
    };
    Some(Addressing::Static {
        address: address(first)?,
        prefix_length: length(second)?,
        gateway,
    })
}
