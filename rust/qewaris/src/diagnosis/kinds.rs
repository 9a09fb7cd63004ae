//! Refusal 12: where a value breaks its kind, and what the kind takes.

mod faults;
mod ipv6;

use super::{Blamed, Diagnosis};
use crate::catalogue::{counted, Dialect, Kind};
use crate::escapes::unescaped;
use crate::layout::{is_blank, trailing_blanks};
use crate::messages::Message;
use crate::visible::quoted;
pub use faults::fault;
use ipv6::Of;

pub fn broken_kind(blamed: &Blamed<'_>) -> Option<Diagnosis> {
    let (key, value) = blamed.setting()?;
    let kind = blamed.kind()?;
    let text = blamed.line.get(value.clone())?;
    let name = blamed.name(key)?;
    let end = text.len() - trailing_blanks(text);
    let takes_blanks = kind.lengths().is_some() || kind == Kind::SpacedAddresses;
    let is_trailing = blamed.dialect == Dialect::Iwd && 0 < end && end < text.len() && !takes_blanks;
    if is_trailing && fault(blamed.dialect, kind, &text[..end]).is_none() {
        return Some(Diagnosis::new(Message::TrailingBlank).with("key", name).at(value.start + end));
    }
    let is_hidden = blamed.is_hidden(value.clone());
    if let Some(found) = of_ipv6(blamed.dialect, kind, text, &name).filter(|_| !is_hidden) {
        let place = found.place.unwrap_or(0);
        return Some(found.at(value.start + place));
    }
    let found = match kind.lengths() {
        Some(_) => counted(unescaped(text).len(), "byte"),
        None if kind == Kind::Key => counted(text.len(), "hex digit"),
        None if is_hidden => "something else".to_string(),
        None => told(text),
    };
    let place = fault(blamed.dialect, kind, text).unwrap_or(0);
    let message = message_of(blamed.dialect, kind, text);
    Some(Diagnosis {
        discreet: discreet(kind, text).filter(|_| is_hidden),
        ..Diagnosis::new(message)
            .with("key", name)
            .with("found", found)
            .at(value.start + place)
    })
}

/// A text that may be shown, as a sentence tells it.
fn told(text: &[u8]) -> String {
    match text.len() {
        0 => "empty".to_string(),
        1..=80 => quoted(text),
        _ => "something else".to_string(),
    }
}

/// What breaks a value that has an IPv6 address or should have one, with the place in the value; none where it is told as all others.
fn of_ipv6(dialect: Dialect, kind: Kind, text: &[u8], name: &str) -> Option<Diagnosis> {
    if !matches!(kind, Kind::Ipv6 | Kind::Ipv6Address | Kind::Ipv6Gateway) {
        return ipv6_for_ipv4(dialect, kind, text, name);
    }
    let found = ipv6::fault(kind, text)?;
    let name = match found.of {
        Of::Address if kind == Kind::Ipv6 => format!("The address in {name}"),
        Of::Gateway if kind == Kind::Ipv6 => format!("The gateway in {name}"),
        _ => name.to_string(),
    };
    let diagnosis = Diagnosis {
        parts: found.parts,
        ..Diagnosis::new(found.message)
    };
    let home = home(dialect, "IPv4");
    Some(diagnosis.with("key", name).with("allowed", home).at(found.place))
}

/// An IPv6 address where an IPv4 address is meant.
fn ipv6_for_ipv4(dialect: Dialect, kind: Kind, text: &[u8], name: &str) -> Option<Diagnosis> {
    let takes_addresses = [Kind::Address, Kind::Ipv4, Kind::SpacedAddresses, Kind::CommaAddresses].contains(&kind);
    let place = fault(dialect, kind, text).filter(|_| takes_addresses)?;
    let ends = |byte: &u8| is_blank(*byte) || b",/".contains(byte);
    let found = text.get(place..)?.split(ends).next()?;
    let message = match kind {
        Kind::Address | Kind::Ipv4 if place == 0 => Message::Ipv6ForIpv4,
        _ => Message::Ipv6AmongIpv4,
    };
    let diagnosis = Diagnosis::new(message).with("key", name).with("allowed", home(dialect, "IPv6"));
    ipv6::is_address(found).then(|| diagnosis.at(place))
}

/// Where the addresses of a family stand: iwd has a group for them, and ConnMan a key.
fn home(dialect: Dialect, family: &str) -> String {
    match dialect {
        Dialect::Iwd => format!("[{family}]"),
        Dialect::Connman => format!("the key {family}"),
    }
}

/// What is wrong with the length of a text or key, without telling it.
fn discreet(kind: Kind, text: &[u8]) -> Option<&'static str> {
    match kind.lengths() {
        Some((least, _)) if unescaped(text).len() < least => Some("too few bytes"),
        Some(_) => Some("too many bytes"),
        None if kind == Kind::Key && text.len() < 64 => Some("too few hex digits"),
        None => (kind == Kind::Key).then_some("too many hex digits"),
    }
}

/// The sentence for a kind.
pub fn message_of(dialect: Dialect, kind: Kind, text: &[u8]) -> Message {
    match kind {
        Kind::YesNo if dialect == Dialect::Iwd => Message::YesNoOfIwd,
        Kind::YesNo => Message::YesNoOfConnman,
        Kind::Address => Message::Address,
        Kind::Mask => Message::Mask,
        Kind::Ipv4 => Message::Ipv4,
        Kind::SpacedAddresses => Message::SpacedAddresses,
        Kind::CommaAddresses => Message::CommaAddresses,
        Kind::Entries => Message::Entries,
        Kind::Mac => Message::Mac,
        Kind::Key if text.iter().all(u8::is_ascii_hexdigit) => Message::KeyLength,
        Kind::Key => Message::KeyDigit,
        Kind::Ssid => Message::Ssid,
        Kind::Passphrase => Message::Passphrase,
        Kind::NetworkName => Message::NetworkName,
        Kind::Text => Message::Text,
        Kind::Type => Message::Type,
        Kind::Ipv6 => Message::Ipv6,
        Kind::Ipv6Address => Message::Ipv6Address,
        Kind::Ipv6Gateway => Message::Ipv6Gateway,
        Kind::Privacy => Message::Privacy,
        Kind::Security => Message::Security,
    }
}
