//! Refusals 14 and 15: which rule over a service, or over an iwd file, is broken.

use super::{Diagnosis, Subject};
use crate::catalogue::Dialect;
use crate::layout::{sections, Section, Setting};
use crate::messages::Message;
use crate::visible::visible;

/// The keys that only a wifi service has, with the sentence for each.
const WIRELESS: [(&str, Message); 5] = [
    ("Name", Message::EthernetWithName),
    ("SSID", Message::EthernetWithSsid),
    ("Passphrase", Message::EthernetWithPassphrase),
    ("Security", Message::EthernetWithSecurity),
    ("Hidden", Message::EthernetWithHidden),
];

/// What iwd's groups of addresses ask for: the group, a key of it, the key that this needs, and the sentence.
const NEEDED: [(&str, &str, &str, Message); 6] = [
    ("IPv4", "Address", "Gateway", Message::AddressWithoutGateway),
    ("IPv4", "Gateway", "Address", Message::GatewayWithoutAddress),
    ("IPv4", "Netmask", "Address", Message::NetmaskWithoutAddress),
    ("IPv4", "Broadcast", "Address", Message::BroadcastWithoutAddress),
    ("IPv6", "Address", "Gateway", Message::AddressWithoutGateway),
    ("IPv6", "Gateway", "Address", Message::GatewayWithoutAddress),
];

/// 14.
pub fn missing(subject: &Subject<'_>, line: Option<usize>) -> Option<Diagnosis> {
    let sections = sections(Dialect::of(subject.name), subject.file);
    match line {
        Some(line) => missing_in_service(sections.iter().find(|section| section.line == line)?),
        None => missing_in_file(subject.name, &sections),
    }
}

fn missing_in_service(service: &Section<'_>) -> Option<Diagnosis> {
    let has = |key| service.setting(key).is_some();
    let is = |key, word: &str| service.setting(key).is_some_and(|setting| setting.value == word.as_bytes());
    let message = if !has("Type") {
        Message::ServiceWithoutType
    } else if is("Type", "wifi") && !has("Name") && !has("SSID") {
        Message::WifiWithoutName
    } else if is("Security", "psk") && !has("Passphrase") {
        Message::PskWithoutPassphrase
    } else {
        return None;
    };
    Some(named(message, service))
}

fn missing_in_file(name: &[u8], sections: &[Section<'_>]) -> Option<Diagnosis> {
    let setting = |group: &'static str, key: &'static str| setting_of(sections, group, key);
    let has_key = setting("Security", "Passphrase").or(setting("Security", "PreSharedKey")).is_some();
    if name.ends_with(b".psk") && !has_key {
        return Some(Diagnosis::new(Message::PskFileWithoutKey));
    }
    let lone = |(group, key, needed, message)| {
        let setting = Some(setting(group, key)?).filter(|_| setting(group, needed).is_none())?;
        Some(Diagnosis::new(message).with("group", group).with("first", setting.line))
    };
    NEEDED.into_iter().find_map(lone)
}

/// 15.
pub fn contradiction(subject: &Subject<'_>, line: Option<usize>) -> Option<Diagnosis> {
    let sections = sections(Dialect::of(subject.name), subject.file);
    match line {
        Some(line) => contradiction_in_service(sections.iter().find(|section| section.line == line)?),
        None => contradiction_in_file(subject.name, &sections),
    }
}

fn contradiction_in_file(name: &[u8], sections: &[Section<'_>]) -> Option<Diagnosis> {
    let setting = |group, key| setting_of(sections, group, key);
    if name.ends_with(b".open") {
        let passphrase = setting("Security", "Passphrase").map(|setting| (setting.line, Message::OpenFileWithPassphrase));
        let key = setting("Security", "PreSharedKey").map(|setting| (setting.line, Message::OpenFileWithKey));
        if let Some((first, message)) = passphrase.or(key) {
            return Some(Diagnosis::new(message).with("first", first));
        }
    }
    let (enabled, address) = (setting("IPv6", "Enabled")?, setting("IPv6", "Address")?);
    let found = Diagnosis::new(Message::DisabledWithAddress).with("group", "IPv6");
    let found = found.with("found", visible(enabled.value)).with("first", enabled.line);
    Some(found.with("second", address.line))
}

fn contradiction_in_service(service: &Section<'_>) -> Option<Diagnosis> {
    let is = |key, word: &str| service.setting(key).is_some_and(|setting| setting.value == word.as_bytes());
    let (setting, message) = if is("Type", "ethernet") {
        let settings = service.settings.iter();
        settings
            .filter_map(|setting| {
                let wireless = WIRELESS.iter().find(|(key, _)| key.as_bytes() == setting.key);
                wireless.map(|(_, message)| (setting, *message))
            })
            .next()?
    } else if is("Security", "none") {
        (service.setting("Passphrase")?, Message::NoneWithPassphrase)
    } else {
        return None;
    };
    Some(named(message, service).with("first", setting.line))
}

fn named(message: Message, service: &Section<'_>) -> Diagnosis {
    Diagnosis::new(message).with("group", String::from_utf8_lossy(service.name))
}

fn setting_of<'a>(sections: &'a [Section<'_>], group: &str, key: &str) -> Option<&'a Setting<'a>> {
    let section = sections.iter().find(|section| section.name == group.as_bytes())?;
    section.setting(key)
}
