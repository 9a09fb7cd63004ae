//! How values are shown in an answer.

use crate::written::{encoded, hex};

/// The lines of an answer.
#[derive(Default)]
pub struct Lines(String);

impl Lines {
    pub fn say(&mut self, line: &str) {
        if !self.0.is_empty() {
            self.0.push('\n');
        }
        self.0.push_str(line);
    }

    /// A word and a value behind it.
    pub fn key(&mut self, word: &str, value: &str) {
        self.say(&format!("{word} {value}"));
    }

    pub fn into_bytes(self) -> Vec<u8> {
        self.0.into_bytes()
    }
}

/// What is shown behind a value where a place that is not in use is not zero.
pub fn unused(zero: bool) -> &'static str {
    if zero {
        ""
    } else {
        " not zero"
    }
}

pub fn is_zero(bytes: &[u8]) -> bool {
    bytes.iter().all(|byte| *byte == 0)
}

/// The first `count` bytes; those behind them are not in use.
fn front(bytes: &[u8], count: usize, shown: fn(&[u8]) -> String) -> String {
    match bytes.split_at_checked(count) {
        Some((used, behind)) => shown(used) + unused(is_zero(behind)),
        None => "too long".to_string(),
    }
}

pub fn hex_front(bytes: &[u8], count: usize) -> String {
    front(bytes, count, hex)
}

pub fn text_front(bytes: &[u8], count: usize) -> String {
    front(bytes, count, encoded)
}

pub fn dotted(address: [u8; 4]) -> String {
    address.map(|byte| byte.to_string()).join(".")
}

/// Sixteen bytes as eight groups, each with its four digits.
pub fn grouped(address: [u8; 16]) -> String {
    address.chunks(2).map(hex).collect::<Vec<_>>().join(":")
}

/// The four addresses of sixteen bytes.
pub fn four(bytes: &[u8; 16]) -> [[u8; 4]; 4] {
    std::array::from_fn(|place| std::array::from_fn(|byte| bytes[4 * place + byte]))
}

/// The line of the name servers, those that are not in use too.
pub fn servers(lines: &mut Lines, bytes: &[u8; 16]) {
    lines.key("servers", &four(bytes).map(dotted).join(" "));
}

pub fn flag(code: u8) -> String {
    word(code, &["false", "true"])
}

/// The word of a code that counts from 0.
pub fn word(code: u8, words: &[&str]) -> String {
    words
        .get(usize::from(code))
        .map_or_else(|| format!("code {code}"), |word| word.to_string())
}

/// An IPv4 or an IPv6: of a static one the address, its length and perhaps a gateway.
pub struct Addressing<const N: usize> {
    pub address: [u8; N],
    pub prefix_length: u8,
    pub has_gateway: u8,
    pub gateway: [u8; N],
}

impl<const N: usize> Addressing<N> {
    /// Whether it holds no address, length or gateway.
    fn is_unnumbered(&self) -> bool {
        is_zero(&self.address) && self.prefix_length == 0 && self.has_gateway == 0 && is_zero(&self.gateway)
    }

    /// It as it is shown under a code: one of these words, or behind them a static one, whose addresses are shown by `text`.
    fn shown(&self, code: u8, words: &[&str], text: fn([u8; N]) -> String) -> String {
        if usize::from(code) != words.len() {
            return word(code, words) + unused(self.is_unnumbered());
        }
        let address = format!("{}/{}", text(self.address), self.prefix_length);
        match self.has_gateway {
            0 => address + unused(is_zero(&self.gateway)),
            1 => address + " via " + &text(self.gateway),
            code => format!("{address} code {code}"),
        }
    }
}

impl Addressing<4> {
    /// A record's IPv4.
    pub fn of_record(&self, code: u8) -> String {
        self.shown(code, &["dhcp", "off"], dotted)
    }

    /// A service's IPv4, which may be absent.
    pub fn of_service(&self, code: u8) -> String {
        self.shown(code, &["absent", "dhcp", "off"], dotted)
    }
}

impl Addressing<16> {
    /// A record's IPv6.
    pub fn of_record(&self, code: u8) -> String {
        self.shown(code, &["auto", "off"], grouped)
    }

    /// A service's IPv6, which may be absent.
    pub fn of_service(&self, code: u8) -> String {
        self.shown(code, &["absent", "auto", "off"], grouped)
    }
}
