//! How a value breaks as an IPv6 address with its length and its gateway, and where.
//!
//! What stands between the colons of an address is called a part here, since a file has groups of its own.

use super::faults::{address as ipv4_address, number, pieces};
use super::told;
use crate::catalogue::{counted, Kind};
use crate::diagnosis::called;
use crate::layout::is_blank;
use crate::messages::Message;

/// What breaks a value: its place, the sentence that tells it, of what in the value that speaks, and what fills it.
pub struct Fault {
    pub place: usize,
    pub message: Message,
    pub of: Of,
    pub parts: Vec<(&'static str, String)>,
}

/// The whole value, or the address or the gateway in it.
#[derive(Clone, Copy)]
pub enum Of {
    Value,
    Address,
    Gateway,
}

impl Fault {
    fn new(message: Message, place: usize) -> Fault {
        Fault {
            place,
            message,
            of: Of::Value,
            parts: Vec::new(),
        }
    }

    fn with(mut self, name: &'static str, part: String) -> Fault {
        self.parts.push((name, part));
        self
    }

    fn of(self, of: Of) -> Fault {
        Fault { of, ..self }
    }

    /// The same in a text that starts at a place of the value.
    fn behind(self, start: usize) -> Fault {
        let place = start + self.place;
        Fault { place, ..self }
    }
}

/// The first fault of a value of a kind that has an IPv6 address.
pub fn fault(kind: Kind, text: &[u8]) -> Option<Fault> {
    match kind {
        Kind::Ipv6Address => iwd_address(text),
        Kind::Ipv6Gateway => iwd_gateway(text),
        _ if kind.words().iter().any(|word| word.as_bytes() == text) => None,
        _ => connman(text),
    }
}

/// Whether a text is an IPv6 address.
pub fn is_address(text: &[u8]) -> bool {
    address(text).is_none()
}

/// An address and perhaps /length.
fn iwd_address(text: &[u8]) -> Option<Fault> {
    let mut pieces = pieces(text, b'/');
    let (_, front) = pieces.next()?;
    let general = Fault::new(Message::Ipv6Address, 0).with("found", told(text));
    if let Some(found) = judged(front, Of::Address, general) {
        return Some(found);
    }
    let (start, behind) = pieces.next()?;
    if behind.contains(&b':') {
        return Some(Fault::new(Message::Ipv6BehindLength, start));
    }
    let more = pieces.next().map(|(start, _)| Fault::new(Message::Ipv6BehindLength, start - 1));
    length(behind).map(|found| found.behind(start)).or(more)
}

/// An address alone.
fn iwd_gateway(text: &[u8]) -> Option<Fault> {
    let mut pieces = pieces(text, b'/');
    let (_, front) = pieces.next()?;
    gateway(front).or_else(|| Some(behind_gateway(pieces.next()?.0)))
}

/// address/length and perhaps /gateway.
fn connman(text: &[u8]) -> Option<Fault> {
    let mut pieces = pieces(text, b'/');
    let (_, front) = pieces.next()?;
    let general = Fault::new(Message::Ipv6, 0).with("found", told(text));
    if let Some(found) = judged(front, Of::Address, general) {
        return Some(found);
    }
    let Some((start, behind)) = pieces.next() else {
        return Some(Fault::new(Message::Ipv6WithoutLength, text.len()));
    };
    if behind.contains(&b':') {
        return Some(Fault::new(Message::Ipv6AddressForLength, start));
    }
    if let Some(found) = length(behind) {
        return Some(found.behind(start));
    }
    let (start, last) = pieces.next()?;
    let found = gateway(last).map(|found| found.behind(start));
    found.or_else(|| Some(behind_gateway(pieces.next()?.0)))
}

fn gateway(text: &[u8]) -> Option<Fault> {
    let general = Fault::new(Message::Ipv6Gateway, 0).with("found", told(text)).of(Of::Gateway);
    judged(text, Of::Gateway, general)
}

/// What starts at a place behind a gateway and its slash.
fn behind_gateway(start: usize) -> Fault {
    Fault::new(Message::Ipv6BehindGateway, start - 1).of(Of::Gateway)
}

/// A length of 1 to 128.
fn length(text: &[u8]) -> Option<Fault> {
    if let Some(place) = text.iter().position(|byte| is_blank(*byte)) {
        return Some(foreign(text[place], place));
    }
    let is_good = number(text, 128).is_some_and(|length| length > 0);
    (!is_good).then(|| Fault::new(Message::Ipv6Length, 0).with("found", told(text)))
}

/// The first fault of a text as an address; the general one where it looks like none.
fn judged(text: &[u8], of: Of, general: Fault) -> Option<Fault> {
    if text.contains(&b':') {
        address(text).map(|found| found.of(of))
    } else if ipv4_address(text).is_none() {
        Some(Fault::new(Message::Ipv4ForIpv6, 0).of(of))
    } else {
        Some(general)
    }
}

/// Eight parts with colons between, or fewer and one `::`; the last two may be an IPv4 address.
fn address(text: &[u8]) -> Option<Fault> {
    let (mut at, mut count, mut gap) = (0, 0, None);
    while at < text.len() {
        let colons = text[at..].iter().take_while(|byte| **byte == b':').count();
        match colons {
            1 if at == 0 => return Some(Fault::new(Message::Ipv6ColonFirst, at)),
            1 if at + 1 == text.len() => return Some(Fault::new(Message::Ipv6ColonLast, at)),
            2 if gap.is_some() => return Some(Fault::new(Message::Ipv6GapTwice, at)),
            2 => gap = Some(at),
            3.. => return Some(Fault::new(Message::Ipv6Colons, at + 2).with("found", counted(colons, "colon"))),
            _ => {}
        }
        at += colons;
        let rest = &text[at..];
        let part = rest.split(|byte| *byte == b':').next().unwrap_or(rest);
        let is_dotted = part.contains(&b'.');
        let found = match part {
            [] => break,
            _ if is_dotted => dotted(part, part.len() == rest.len()),
            _ => hex(part),
        };
        if let Some(found) = found {
            return Some(found.behind(at));
        }
        count += if is_dotted { 2 } else { 1 };
        if count > 8 {
            return Some(Fault::new(Message::Ipv6ManyParts, at));
        }
        at += part.len();
    }
    match gap {
        None if count < 8 => Some(Fault::new(Message::Ipv6FewParts, text.len()).with("found", counted(count, "part"))),
        Some(place) if count == 8 => Some(Fault::new(Message::Ipv6GapOfNone, place)),
        _ => None,
    }
}

/// One to four hex digits.
fn hex(part: &[u8]) -> Option<Fault> {
    if let Some(place) = part.iter().position(|byte| !byte.is_ascii_hexdigit()) {
        return Some(foreign(part[place], place));
    }
    (part.len() > 4).then(|| Fault::new(Message::Ipv6LongPart, 0).with("found", counted(part.len(), "digit")))
}

/// An IPv4 address, as the last part.
fn dotted(part: &[u8], is_last: bool) -> Option<Fault> {
    let is_foreign = |byte: &u8| !byte.is_ascii_hexdigit() && *byte != b'.';
    if let Some(place) = part.iter().position(is_foreign) {
        return Some(foreign(part[place], place));
    }
    if !is_last {
        return Some(Fault::new(Message::Ipv6DottedEarly, 0));
    }
    let count = pieces(part, b'.').count();
    let by_count = |place| Some(Fault::new(Message::Ipv6DottedCount, place).with("found", counted(count, "number")));
    for (which, (start, text)) in pieces(part, b'.').enumerate() {
        let Some(which) = ["first", "second", "third", "fourth"].get(which) else {
            return by_count(start);
        };
        if number(text, 255).is_none() {
            let found = Fault::new(Message::Ipv6DottedNumber, start).with("which", which.to_string());
            return Some(found.with("found", told(text)));
        }
    }
    if count < 4 {
        return by_count(part.len());
    }
    None
}

/// A byte that stands in no address.
fn foreign(byte: u8, place: usize) -> Fault {
    match byte {
        b'%' => Fault::new(Message::Ipv6Zone, place),
        b'[' | b']' => Fault::new(Message::Ipv6Bracket, place),
        _ if is_blank(byte) => Fault::new(Message::Ipv6Blank, place).with("found", called(byte)),
        _ => Fault::new(Message::Ipv6Byte, place).with("found", called(byte)),
    }
}
