//! Refusal 16: what it is that iwd has no place for.

use super::{told, Blamed, Diagnosis, Finding, Subject};
use crate::layout::{self, Setting};
use crate::messages::Message;
use crate::Refusal;

/// Every line of a service that iwd has no place for, by the service's number in a good ConnMan file. The first is the line that
/// the library names.
pub fn unplaced_lines(subject: &Subject<'_>, service: usize) -> Vec<Finding> {
    let services = layout::services(subject.file);
    let section = service.checked_sub(1).and_then(|place| services.get(place));
    let settings = section.map_or(&[][..], |section| &section.settings);
    let found = settings.iter().filter(|setting| is_unplaced(setting)).filter_map(|setting| {
        let blamed = Blamed::new(subject, setting.line)?;
        let refusal = Refusal::of(16, setting.line)?;
        Some(told(&refusal, &no_place(&blamed)?, Some(&blamed)))
    });
    found.collect()
}

/// Whether a setting of a service is one that iwd has no place for.
fn is_unplaced(setting: &Setting<'_>) -> bool {
    let slashes = setting.value.iter().filter(|byte| **byte == b'/').count();
    match setting.key {
        b"Type" => setting.value == b"ethernet",
        b"Security" => setting.value == b"wep" || setting.value == b"ieee8021x",
        b"IPv4" => setting.value == b"off" || slashes == 1,
        b"IPv6" => slashes == 1,
        key => [&b"MAC"[..], b"IPv6.Privacy", b"SearchDomains", b"Timeservers"].contains(&key),
    }
}

pub fn no_place(blamed: &Blamed<'_>) -> Option<Diagnosis> {
    let (key, value) = blamed.setting()?;
    let text = blamed.line.get(value.clone())?;
    let (message, place) = match (blamed.line.get(key.clone())?, text) {
        (b"Type", _) => (Message::NoPlaceForEthernet, value.start),
        (b"Security", b"wep") => (Message::NoPlaceForWep, value.start),
        (b"Security", _) => (Message::NoPlaceForLogin, value.start),
        (b"IPv4", b"off") => (Message::NoPlaceForIpv4Off, value.start),
        (b"IPv4", _) => (Message::NoPlaceWithoutGateway, value.start),
        (b"IPv6", _) => (Message::NoPlaceWithoutIpv6Gateway, value.start),
        (b"MAC", _) => (Message::NoPlaceForMac, key.start),
        (b"IPv6.Privacy", _) => (Message::NoPlaceForPrivacy, key.start),
        (b"SearchDomains", _) => (Message::NoPlaceForSearchDomains, key.start),
        (b"Timeservers", _) => (Message::NoPlaceForTimeservers, key.start),
        _ => return None,
    };
    let group = String::from_utf8_lossy(blamed.group()?).into_owned();
    Some(Diagnosis::new(message).with("group", group).at(place))
}
