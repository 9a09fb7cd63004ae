//! Legal values of every kind, often at the ends of what is legal.

use super::ipv6;
use super::keys::Kind;
use super::strings::{length, letter, text, wide};
use crate::random::Random;
use crate::reference::Dialect;

/// A legal value of the kind, in a file of the dialect.
pub fn good(random: &mut Random, dialect: Dialect, kind: Kind) -> Vec<u8> {
    match kind {
        Kind::Words(words) => random.pick(words).as_bytes().to_vec(),
        Kind::Text(low, high) => {
            let bytes = length(random, low, high);
            text(random, dialect, bytes)
        }
        Kind::Hex(low, high) => {
            let bytes = length(random, low / 2, high / 2);
            hex_digits(random, 2 * bytes)
        }
        Kind::Mac => mac(random),
        Kind::Address => address(random),
        Kind::Mask => mask(random),
        Kind::SpacedServers => spaced_servers(random),
        Kind::CommaServers => {
            let count = random.between(1, 4);
            comma_list(random, count, address)
        }
        Kind::Entries => {
            let count = random.between(1, 4);
            comma_list(random, count, entry)
        }
        Kind::Ipv4 => ipv4(random),
        Kind::Ipv6 => ipv6::method(random),
        Kind::Ipv6Prefix => ipv6::prefix(random),
        Kind::Ipv6Address => ipv6::text(random),
    }
}

/// Hex digits in one case or in both.
pub fn hex_digits(random: &mut Random, count: usize) -> Vec<u8> {
    let digits: &[u8] = random.pick(&[b"0123456789abcdef", b"0123456789ABCDEF", b"0123456789abcdefABCDEF"]);
    (0..count).map(|_| random.pick(digits)).collect()
}

/// Six pairs with colons.
pub fn mac(random: &mut Random) -> Vec<u8> {
    (0..6).map(|_| hex_digits(random, 2)).collect::<Vec<_>>().join(&b':')
}

/// A number of an address, often where its length changes.
fn octet(random: &mut Random) -> u8 {
    let edge = random.pick(&[0, 1, 9, 10, 19, 99, 100, 127, 128, 199, 200, 249, 250, 254, 255]);
    if random.once_in(2) {
        edge
    } else {
        random.byte()
    }
}

/// Four numbers with dots.
pub fn address(random: &mut Random) -> Vec<u8> {
    let [a, b, c, d] = [octet(random), octet(random), octet(random), octet(random)];
    format!("{a}.{b}.{c}.{d}").into_bytes()
}

/// The dotted mask of so many ones.
pub fn mask_text(ones: usize) -> Vec<u8> {
    let bits = if ones == 0 { 0 } else { u32::MAX << (32 - ones) };
    let [a, b, c, d] = bits.to_be_bytes();
    format!("{a}.{b}.{c}.{d}").into_bytes()
}

fn mask(random: &mut Random) -> Vec<u8> {
    mask_text(random.between(1, 32))
}

fn spaced_servers(random: &mut Random) -> Vec<u8> {
    let mut value = address(random);
    for _ in 1..random.between(1, 4) {
        value.extend(spaces(random));
        value.extend(address(random));
    }
    if random.once_in(4) {
        value.extend(spaces(random));
    }
    value
}

fn spaces(random: &mut Random) -> Vec<u8> {
    let count = random.pick(&[1, 1, 1, 2, 3, 17]);
    vec![b' '; count]
}

/// So many things with one comma between.
pub fn comma_list(random: &mut Random, count: usize, thing: fn(&mut Random) -> Vec<u8>) -> Vec<u8> {
    (0..count).map(|_| thing(random)).collect::<Vec<_>>().join(&b',')
}

/// An entry of SearchDomains or Timeservers.
pub fn entry(random: &mut Random) -> Vec<u8> {
    let bytes = random.pick(&[1, 2, 5, 8, 13, 20, 20, 252, 253]);
    entry_of(random, bytes)
}

/// An entry of so many bytes. In it a backslash is an ordinary byte, whatever stands behind it.
pub fn entry_of(random: &mut Random, bytes: usize) -> Vec<u8> {
    let plain = random.percent(80);
    let mut entry = Vec::new();
    while entry.len() < bytes {
        match random.below(9) {
            0 if !plain && entry.len() + 4 <= bytes => entry.extend(wide(random)),
            1 if !plain && entry.len() + 2 <= bytes => entry.extend([b'\\', random.pick(b"strn\\xS;.")]),
            2 if !plain => entry.push(random.pick(b"\x01\x0B\x7F\\#=[]/:;")),
            3 => entry.push(random.pick(b".-_")),
            _ => entry.push(letter(random)),
        }
    }
    entry
}

/// ConnMan's IPv4.
fn ipv4(random: &mut Random) -> Vec<u8> {
    match random.below(6) {
        0 => b"off".to_vec(),
        1 => b"dhcp".to_vec(),
        2 => static_ipv4(random, false),
        _ => static_ipv4(random, true),
    }
}

/// Address, mask or length, and perhaps a gateway.
pub fn static_ipv4(random: &mut Random, gateway: bool) -> Vec<u8> {
    let ones = random.pick(&[1, 8, 9, 10, 16, 19, 24, 29, 30, 31, 32]);
    let second = if random.once_in(2) {
        mask(random)
    } else {
        format!("{ones}").into_bytes()
    };
    let mut parts = vec![address(random), second];
    if gateway {
        parts.push(address(random));
    }
    parts.join(&b'/')
}
