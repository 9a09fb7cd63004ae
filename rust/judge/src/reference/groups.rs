//! A file as its groups: the first faulty line, or every group with its settings.

use super::addressing::{Ipv4, Ipv6};
use super::dialect::{kind_of, Dialect, GroupKind};
use super::kind::{Broken, Value};
use super::lines::{header, lines, shape, Shape};
use super::refusal::{Fault, Refusal};

/// A setting: its key, its line, where its value stands in the file, how long the value is there, and what it says.
#[derive(Clone, Debug, PartialEq, Eq)]
pub struct Setting {
    pub key: String,
    pub line: usize,
    pub start: usize,
    pub length: usize,
    pub value: Value,
}

/// A group: its header's name and line, and its settings in file order.
#[derive(Clone, Debug, PartialEq, Eq)]
pub struct Group {
    pub kind: GroupKind,
    pub name: String,
    pub line: usize,
    pub settings: Vec<Setting>,
}

/// A string setting: its line, where it stands, still escaped, and the bytes that it stands for.
#[derive(Clone, Debug, PartialEq, Eq)]
pub struct Text {
    pub line: usize,
    pub start: usize,
    pub length: usize,
    pub bytes: Vec<u8>,
}

/// The groups of a file in its order, or its first faulty line.
pub fn groups(dialect: Dialect, file: &[u8]) -> Result<Vec<Group>, Refusal> {
    let mut groups: Vec<Group> = Vec::new();
    for line in lines(file) {
        let judged = match shape(dialect, &line) {
            Shape::Blank | Shape::Comment => Ok(()),
            Shape::Bracketed(text) => open_group(dialect, text, line.number, &mut groups),
            Shape::Setting { key, value, start } => add_setting(key, value, (line.number, start), &mut groups),
            Shape::Unrecognized => Err(Fault::Unrecognized),
        };
        judged.map_err(|fault| fault.at(line.number))?;
    }
    Ok(groups)
}

/// A line starting with `[`: "4, 5, 6, 7, 13".
fn open_group(dialect: Dialect, text: &[u8], line: usize, groups: &mut Vec<Group>) -> Result<(), Fault> {
    if dialect == Dialect::Iwd && text.starts_with(b"[@") {
        return Err(Fault::Extension);
    }
    let name = header(text).ok_or(Fault::BadHeader)?;
    let kind = dialect.group(name).ok_or(Fault::UnknownGroup)?;
    if groups.iter().any(|group| group.name == name) {
        return Err(Fault::RepeatedGroup);
    }
    let services = groups.iter().filter(|group| group.kind == GroupKind::Service).count();
    if kind == GroupKind::Service && services == 8 {
        return Err(Fault::ManyServices);
    }
    groups.push(Group {
        kind,
        name: name.to_string(),
        line,
        settings: Vec::new(),
    });
    Ok(())
}

/// A setting line: "8, 9, 10, 11, 12". `place` is its line and where its value starts.
fn add_setting(key: &[u8], value: &[u8], place: (usize, usize), groups: &mut [Group]) -> Result<(), Fault> {
    let group = groups.last_mut().ok_or(Fault::NoGroup)?;
    let key = String::from_utf8_lossy(key).into_owned();
    let kind = kind_of(group.kind, &key).ok_or(Fault::UnknownKey)?;
    if group.setting(&key).is_some() {
        return Err(Fault::RepeatedKey);
    }
    let said = kind.judge(value).map_err(|broken| match broken {
        Broken::Text => Fault::ValueText,
        Broken::Kind => Fault::ValueKind,
    })?;
    let (line, start) = place;
    group.settings.push(Setting {
        key,
        line,
        start,
        length: value.len(),
        value: said,
    });
    Ok(())
}

impl Group {
    /// The setting of a key, if the group has it.
    pub fn setting(&self, key: &str) -> Option<&Setting> {
        self.settings.iter().find(|setting| setting.key == key)
    }

    /// Whether the group has one of the keys.
    pub fn has_any(&self, keys: &[&str]) -> bool {
        keys.iter().any(|key| self.setting(key).is_some())
    }

    fn value(&self, key: &str) -> Option<&Value> {
        self.setting(key).map(|setting| &setting.value)
    }

    pub fn flag(&self, key: &str) -> Option<bool> {
        match self.value(key)? {
            Value::Flag(flag) => Some(*flag),
            other => panic!("{key} is no bool: {other:?}"),
        }
    }

    pub fn word(&self, key: &str) -> Option<&'static str> {
        match self.value(key)? {
            Value::Word(word) => Some(word),
            other => panic!("{key} is no word: {other:?}"),
        }
    }

    pub fn text(&self, key: &str) -> Option<Text> {
        let setting = self.setting(key)?;
        match &setting.value {
            Value::Text(bytes) => Some(Text {
                line: setting.line,
                start: setting.start,
                length: setting.length,
                bytes: bytes.clone(),
            }),
            other => panic!("{key} is no string: {other:?}"),
        }
    }

    pub fn hex(&self, key: &str) -> Option<Vec<u8>> {
        match self.value(key)? {
            Value::Hex(bytes) => Some(bytes.clone()),
            other => panic!("{key} is no hex: {other:?}"),
        }
    }

    pub fn mac(&self, key: &str) -> Option<[u8; 6]> {
        match self.value(key)? {
            Value::Mac(mac) => Some(*mac),
            other => panic!("{key} is no MAC: {other:?}"),
        }
    }

    pub fn address(&self, key: &str) -> Option<[u8; 4]> {
        match self.value(key)? {
            Value::Address(address) => Some(*address),
            other => panic!("{key} is no address: {other:?}"),
        }
    }

    pub fn mask(&self, key: &str) -> Option<u8> {
        match self.value(key)? {
            Value::Mask(length) => Some(*length),
            other => panic!("{key} is no mask: {other:?}"),
        }
    }

    /// The servers of a list; an absent list has none.
    pub fn servers(&self, key: &str) -> Vec<[u8; 4]> {
        match self.value(key) {
            None => Vec::new(),
            Some(Value::Servers(servers)) => servers.clone(),
            Some(other) => panic!("{key} is no list of servers: {other:?}"),
        }
    }

    /// Where each entry of a list stands in the file, and its length; an absent list has none.
    pub fn entries(&self, key: &str) -> Vec<(usize, usize)> {
        match self.setting(key).map(|setting| (setting.start, &setting.value)) {
            None => Vec::new(),
            Some((start, Value::Entries(places))) => places.iter().map(|(place, length)| (start + place, *length)).collect(),
            Some((_, other)) => panic!("{key} is no list of entries: {other:?}"),
        }
    }

    pub fn ipv4(&self, key: &str) -> Option<Ipv4> {
        match self.value(key)? {
            Value::Ipv4(ipv4) => Some(*ipv4),
            other => panic!("{key} is no IPv4: {other:?}"),
        }
    }

    pub fn ipv6(&self, key: &str) -> Option<Ipv6> {
        match self.value(key)? {
            Value::Ipv6(ipv6) => Some(*ipv6),
            other => panic!("{key} is no IPv6: {other:?}"),
        }
    }

    /// An IPv6 address with the length of its prefix.
    pub fn ipv6_prefix(&self, key: &str) -> Option<([u8; 16], u8)> {
        match self.value(key)? {
            Value::Ipv6Prefix(address, length) => Some((*address, *length)),
            other => panic!("{key} is no IPv6 address with a length: {other:?}"),
        }
    }

    pub fn ipv6_address(&self, key: &str) -> Option<[u8; 16]> {
        match self.value(key)? {
            Value::Ipv6Address(address) => Some(*address),
            other => panic!("{key} is no IPv6 address: {other:?}"),
        }
    }
}
