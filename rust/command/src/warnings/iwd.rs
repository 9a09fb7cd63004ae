//! The warnings about an iwd file.

use super::{values, Warning, Word};
use crate::catalogue::{Dialect, IWD};
use crate::layout::{sections, Section, Setting};
use crate::visible::visible;

pub fn warnings(name: &[u8], file: &[u8]) -> Vec<Warning> {
    let sections = sections(Dialect::Iwd, file);
    let mut found = Vec::new();
    for section in &sections {
        let keys = IWD.iter().find(|(group, _)| group.as_bytes() == section.name);
        found.extend(keys.into_iter().flat_map(|(_, keys)| values::warnings(keys, section)));
        found.extend(section.settings.iter().filter_map(noncharacter));
    }
    if name.ends_with(b".open") {
        found.extend(values::commented_out(Dialect::Iwd, file, 0..usize::MAX));
    }
    let setting = |group: &str, key: &str| setting_of(&sections, group, key);
    if let (Some(_), Some(key)) = (setting("Security", "Passphrase"), setting("Security", "PreSharedKey")) {
        found.push(Warning::new(Word::BothKeys, Some(key.line), &[]));
    }
    if let Some(list) = setting("IPv4", "DNS").filter(|list| list.value.ends_with(b" ") || list.value.windows(2).any(|pair| pair == b"  "))
    {
        found.push(Warning::new(Word::DnsBlanks, Some(list.line), &[]));
    }
    if let Some(domain) = setting("IPv4", "DomainName") {
        let told = "DomainName is never read by iwd 2.3".to_string();
        found.push(Warning::new(Word::DomainUnread, Some(domain.line), &[("key", told)]));
    }
    found.extend(mask(name, file, setting("IPv4", "Netmask")));
    if let Ok(record) = qewaris::iwd_record(name, file) {
        found.extend(of_network(&record.name, None));
    }
    found
}

fn setting_of<'a>(sections: &'a [Section<'_>], group: &str, key: &str) -> Option<&'a Setting<'a>> {
    let section = sections.iter().find(|section| section.name == group.as_bytes())?;
    section.setting(key)
}

fn noncharacter(setting: &Setting<'_>) -> Option<Warning> {
    let key = ("key", visible(setting.key));
    values::has_noncharacter(setting.value).then(|| Warning::new(Word::Noncharacter, Some(setting.line), &[key]))
}

fn mask(name: &[u8], file: &[u8], netmask: Option<&Setting<'_>>) -> Option<Warning> {
    let length = qewaris::iwd_settings(name, file).ok()?.ipv4.netmask_length?;
    of_mask(length, netmask?.line)
}

/// The warning about a mask of this length.
pub fn of_mask(length: u8, line: usize) -> Option<Warning> {
    (length > 30).then(|| Warning::new(Word::LongMask, Some(line), &[("found", length.to_string())]))
}

/// The warnings about the name of a network.
pub fn of_network(name: &[u8], line: Option<usize>) -> Option<Warning> {
    if std::str::from_utf8(name).is_err() {
        return Some(Warning::new(Word::NameNotUtf8, line, &[]));
    }
    let key = ("key", "The network name".to_string());
    values::has_noncharacter(name).then(|| Warning::new(Word::Noncharacter, line, &[key]))
}
