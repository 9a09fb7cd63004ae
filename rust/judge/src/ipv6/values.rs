//! The values with IPv6 addresses that were accepted and refused: the shapes of their texts and lengths, and their faults.

use super::texts::{DIGITS, FAULTS, LENGTHS, LENGTH_FAULTS, SHAPES, TAIL_FAULTS};
use crate::blamed::{blamed, Blamed};
use crate::met::Met;
use crate::reference::dialect::GroupKind;
use crate::reference::groups::Group;
use crate::reference::ipv6_text::read;
use crate::reference::kind::{ipv6_length, Value};
use crate::reference::text::is_broken;
use crate::reference::Dialect;

/// Where the text of an address stands, and where a length does.
const TEXTS: [&str; 4] = [
    "ConnMan's IPv6, address",
    "ConnMan's IPv6, gateway",
    "iwd's IPv6 Address",
    "iwd's IPv6 Gateway",
];
const LENGTH_PLACES: [&str; 2] = ["ConnMan's IPv6", "iwd's IPv6 Address"];

/// The settings that have addresses.
#[derive(Clone, Copy, Debug, PartialEq, Eq)]
enum Setting {
    ConnmanIpv6,
    IwdAddress,
    IwdGateway,
}

/// A value with good parts in another number or order than it should have, by its setting.
type Misshapen = (&'static str, Setting, fn(&[&[u8]]) -> bool);

const MISSHAPEN: [Misshapen; 7] = [
    ("ConnMan: no length", Setting::ConnmanIpv6, |parts| is_shape(parts, "a")),
    ("ConnMan: gateway for length", Setting::ConnmanIpv6, |parts| is_shape(parts, "aa")),
    ("ConnMan: length behind", Setting::ConnmanIpv6, |parts| is_shape(parts, "alal")),
    ("iwd Address: gateway behind", Setting::IwdAddress, |parts| is_shape(parts, "ala")),
    ("iwd Address: gateway for length", Setting::IwdAddress, |parts| {
        is_shape(parts, "aa")
    }),
    ("iwd Address: two lengths", Setting::IwdAddress, |parts| is_shape(parts, "all")),
    ("iwd Gateway: length behind", Setting::IwdGateway, |parts| is_shape(parts, "al")),
];

/// Whether the parts are addresses and lengths as the letters say. A length is also the text of a group, but of no address.
fn is_shape(parts: &[&[u8]], letters: &str) -> bool {
    let fits = |part: &[u8], letter: char| {
        if letter == 'a' {
            read(part).is_some()
        } else {
            ipv6_length(part).is_some()
        }
    };
    parts.len() == letters.len() && parts.iter().zip(letters.chars()).all(|(part, letter)| fits(part, letter))
}

/// The tables of what was met.
#[derive(Clone, Debug)]
pub struct Values {
    shapes: Met,
    digits: Met,
    faults: Met,
    tail_faults: Met,
    lengths: Met,
    length_faults: Met,
    left_off: Met,
    misshapen: Met,
}

impl Default for Values {
    fn default() -> Values {
        let (texts, lengths) = (TEXTS.to_vec(), LENGTH_PLACES.to_vec());
        Values {
            shapes: Met::new("IPv6 texts accepted with", texts.clone(), SHAPES.to_vec()),
            digits: Met::new("IPv6 digits accepted with", texts.clone(), DIGITS.to_vec()),
            faults: Met::new("IPv6 texts refused for", texts.clone(), FAULTS.to_vec()),
            tail_faults: Met::new("dotted tails refused for", texts, TAIL_FAULTS.to_vec()),
            lengths: Met::new("lengths accepted", lengths.clone(), LENGTHS.to_vec()),
            length_faults: Met::new("lengths refused for", lengths, LENGTH_FAULTS.to_vec()),
            left_off: Met::events("lengths left off", &["iwd's IPv6 Address"]),
            misshapen: Met::events("IPv6 values refused for", &MISSHAPEN.map(|(name, ..)| name)),
        }
    }
}

impl Values {
    pub fn tables(&self) -> [&Met; 8] {
        [
            &self.shapes,
            &self.digits,
            &self.faults,
            &self.tail_faults,
            &self.lengths,
            &self.length_faults,
            &self.left_off,
            &self.misshapen,
        ]
    }

    /// Adds the counts of others.
    pub fn merge(&mut self, other: &Values) {
        self.shapes.merge(&other.shapes);
        self.digits.merge(&other.digits);
        self.faults.merge(&other.faults);
        self.tail_faults.merge(&other.tail_faults);
        self.lengths.merge(&other.lengths);
        self.length_faults.merge(&other.length_faults);
        self.left_off.merge(&other.left_off);
        self.misshapen.merge(&other.misshapen);
    }

    /// The values of a file whose lines are all good.
    pub fn add_accepted(&mut self, file: &[u8], groups: &[Group]) {
        for setting in groups.iter().flat_map(|group| &group.settings) {
            let value = &file[setting.start..][..setting.length];
            match setting.value {
                Value::Ipv6(_) => self.add_value(Setting::ConnmanIpv6, value),
                Value::Ipv6Prefix(..) => self.add_value(Setting::IwdAddress, value),
                Value::Ipv6Address(_) => self.add_value(Setting::IwdGateway, value),
                _ => {}
            }
        }
    }

    /// The texts and lengths of a good value, which is no word where it has a colon.
    fn add_value(&mut self, setting: Setting, value: &[u8]) {
        if !value.contains(&b':') {
            return;
        }
        let parts: Vec<&[u8]> = value.split(|&byte| byte == b'/').collect();
        for (place, part) in setting.places().iter().zip(&parts) {
            match place {
                Place::Text(text) => {
                    self.shapes.add(*text, part);
                    self.digits.add(*text, part);
                }
                Place::Length(length) => self.lengths.add(*length, part),
            }
        }
        if setting == Setting::IwdAddress && parts.len() == 1 {
            self.left_off.add(0, &[]);
        }
    }

    /// A value that is refused, for the one of its parts that is bad or for the number of them.
    pub fn add_refused(&mut self, dialect: Dialect, file: &[u8], line: usize) {
        let Some(blamed) = blamed(dialect, file, line) else { return };
        let (Some(setting), value) = (Setting::of(dialect, &blamed), &file[blamed.start..][..blamed.length]) else {
            return;
        };
        if is_broken(value) {
            return;
        }
        let parts: Vec<&[u8]> = value.split(|&byte| byte == b'/').collect();
        for (event, (_, of, is_misshapen)) in MISSHAPEN.iter().enumerate() {
            if *of == setting && is_misshapen(&parts) {
                self.misshapen.add(event, &[]);
            }
        }
        let places = setting.places();
        let bad: Vec<usize> = (0..parts.len().min(places.len()))
            .filter(|part| !places[*part].is_good(parts[*part]))
            .collect();
        if let ([part], true) = (&bad[..], setting.has_count(parts.len())) {
            match places[*part] {
                Place::Text(text) => {
                    self.faults.add(text, parts[*part]);
                    self.tail_faults.add(text, parts[*part]);
                }
                Place::Length(length) => self.length_faults.add(length, parts[*part]),
            }
        }
    }
}

/// A part of a value: the text of an address or a length, and its row in the tables.
#[derive(Clone, Copy, Debug)]
enum Place {
    Text(usize),
    Length(usize),
}

impl Place {
    fn is_good(self, part: &[u8]) -> bool {
        match self {
            Place::Text(_) => read(part).is_some(),
            Place::Length(_) => ipv6_length(part).is_some(),
        }
    }
}

impl Setting {
    fn of(dialect: Dialect, blamed: &Blamed) -> Option<Setting> {
        match (dialect.group(&blamed.group)?, &blamed.key[..]) {
            (GroupKind::Service, "IPv6") => Some(Setting::ConnmanIpv6),
            (GroupKind::Ipv6, "Address") => Some(Setting::IwdAddress),
            (GroupKind::Ipv6, "Gateway") => Some(Setting::IwdGateway),
            _ => None,
        }
    }

    fn places(self) -> &'static [Place] {
        match self {
            Setting::ConnmanIpv6 => &[Place::Text(0), Place::Length(0), Place::Text(1)],
            Setting::IwdAddress => &[Place::Text(2), Place::Length(1)],
            Setting::IwdGateway => &[Place::Text(3)],
        }
    }

    /// Whether a value can have so many parts.
    fn has_count(self, count: usize) -> bool {
        match self {
            Setting::ConnmanIpv6 => count == 2 || count == 3,
            Setting::IwdAddress => count == 1 || count == 2,
            Setting::IwdGateway => count == 1,
        }
    }
}
