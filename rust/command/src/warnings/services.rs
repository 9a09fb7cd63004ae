//! The warnings about a ConnMan file and its services.

use super::iwd::{of_mask, of_network};
use super::{values, Warning, Word};
use crate::catalogue::{Dialect, GLOBAL, SERVICE};
use crate::escapes::unescaped;
use crate::layout::{self, sections, trailing_blanks, Section};
use crate::visible::visible;
use qewaris::{Credential, Ipv4, JoinRecord};

pub fn warnings(name: &[u8], file: &[u8]) -> Vec<Warning> {
    let sections = sections(Dialect::Connman, file);
    let mut found = Vec::new();
    if layout::services(file).is_empty() {
        found.push(Warning::new(Word::NoService, None, &[]));
    }
    let mut number = 0;
    for (place, section) in sections.iter().enumerate() {
        if section.name == b"global" {
            found.extend(values::warnings(GLOBAL, section));
            continue;
        }
        number += 1;
        let end = sections.get(place + 1).map_or(usize::MAX, |next| next.line);
        let about = about(name, file, number, section, end).into_iter();
        found.extend(about.map(|warning| Warning {
            service: Some(number),
            ..warning
        }));
    }
    found
}

/// The warnings about a service whose section ends before a line.
fn about(name: &[u8], file: &[u8], number: usize, section: &Section<'_>, end: usize) -> Vec<Warning> {
    let mut found = values::warnings(SERVICE, section);
    let Ok(record) = qewaris::service_record(name, file, number) else {
        return found;
    };
    if record.credential == Credential::None {
        if section.setting("Security").is_none() {
            let group = ("group", visible(section.name));
            found.push(Warning::new(Word::OpenBySilence, Some(section.line), &[group]));
        }
        // What stands above the first service is taken for its own.
        let start = if number == 1 { 0 } else { section.line };
        found.extend(values::commented_out(Dialect::Connman, file, start..end));
    }
    if let Some(passphrase) = section.setting("Passphrase") {
        let line = layout::line(file, passphrase.line).unwrap_or_default();
        if trailing_blanks(line) > 0 {
            found.push(Warning::new(Word::TrailingBlanks, Some(passphrase.line), &[]));
        }
    }
    found.extend(escaped_ends(section));
    found.extend(once_moved(&record, section).into_iter().map(Warning::once_moved));
    found
}

/// The warnings about what is read of a Name and a Domain and cut off by ConnMan, once it has unescaped them.
fn escaped_ends(section: &Section<'_>) -> Vec<Warning> {
    let name = section.setting("Name").filter(|_| section.setting("SSID").is_none());
    let read = [("Name", name), ("Domain", section.setting("Domain"))];
    let cut = read.into_iter().filter_map(|(key, setting)| Some((key, setting?)));
    cut.filter(|(_, setting)| unescaped(setting.value).last().is_some_and(u8::is_ascii_whitespace))
        .map(|(key, setting)| Warning::new(Word::EscapedEnd, Some(setting.line), &[("key", key.to_string())]))
        .collect()
}

/// The warnings about what iwd makes of the service.
fn once_moved(record: &JoinRecord, section: &Section<'_>) -> Vec<Warning> {
    let line = |key: &str| section.setting(key).map(|setting| setting.line);
    let mut found = Vec::new();
    if let (Ipv4::Static(fixed), Some(line)) = (&record.ipv4, line("IPv4")) {
        found.extend(of_mask(fixed.prefix_length, line));
    }
    if let Some(line) = line("Domain") {
        let told = "Domain becomes DomainName, which iwd 2.3 never reads".to_string();
        found.push(Warning::new(Word::DomainUnread, Some(line), &[("key", told)]));
    }
    found.extend(of_network(&record.name, line("SSID").or(line("Name"))));
    for key in ["Passphrase", "Domain"] {
        let setting = section.setting(key).filter(|setting| values::has_noncharacter(setting.value));
        let told = ("key", key.to_string());
        found.extend(setting.map(|setting| Warning::new(Word::Noncharacter, Some(setting.line), &[told])));
    }
    found
}
