//! The typed settings of the library as rows of key and value, by group.

use super::value::Value;
use crate::addressing::Addressing;
use crate::hex::encoded;
use qewaris::{ipv6_text, IwdIpv6, Privacy, Refusal, Security, ServiceType, Text};
use std::net::Ipv4Addr;

/// A group's name, and each of its keys with its value.
pub struct Group {
    pub name: &'static str,
    pub rows: Vec<(&'static str, Value)>,
}

/// The groups of an iwd file.
pub fn iwd(name: &[u8], file: &[u8]) -> Result<Vec<Group>, Refusal> {
    let found = qewaris::iwd_settings(name, file)?;
    let passphrase = text(qewaris::iwd_passphrase(name, file)?);
    let domain = text(qewaris::iwd_domain_name(name, file)?);
    let general = vec![
        ("AutoConnect", Value::Flag(found.general.auto_connect)),
        ("Hidden", Value::Flag(found.general.hidden)),
        ("AlwaysRandomizeAddress", Value::Flag(found.general.always_randomize_address)),
        ("AddressOverride", Value::Plain(found.general.address_override.map(mac))),
    ];
    let key = found.security.pre_shared_key.map(|key| encoded(&key).into_bytes());
    let security = vec![("Passphrase", Value::Secret(passphrase)), ("PreSharedKey", Value::Secret(key))];
    let ipv4 = vec![
        ("Address", address(found.ipv4.address)),
        ("Gateway", address(found.ipv4.gateway)),
        ("Broadcast", address(found.ipv4.broadcast)),
        ("Netmask", Value::Plain(found.ipv4.netmask_length.map(netmask))),
        ("DNS", addresses(&found.ipv4.dns)),
        ("DomainName", Value::Text(domain)),
        ("SendHostname", Value::Flag(found.ipv4.send_hostname)),
    ];
    let ipv6 = vec![
        ("Enabled", Value::Flag(found.ipv6.enabled)),
        ("Address", Value::Plain(ipv6_address(&found.ipv6))),
        ("Gateway", Value::Plain(found.ipv6.gateway.map(ipv6_text))),
    ];
    let groups = [("Settings", general), ("Security", security), ("IPv4", ipv4), ("IPv6", ipv6)];
    Ok(groups.into_iter().map(|(name, rows)| Group { name, rows }).collect())
}

/// The group `global` of a ConnMan file.
pub fn global(name: &[u8], file: &[u8]) -> Result<Group, Refusal> {
    let rows = vec![
        ("Name", Value::Text(text(qewaris::global_name(name, file)?))),
        ("Description", Value::Text(text(qewaris::global_description(name, file)?))),
    ];
    Ok(Group { name: "global", rows })
}

/// The settings of a ConnMan service, by its number from 1.
pub fn service(name: &[u8], file: &[u8], number: usize) -> Result<Group, Refusal> {
    let found = qewaris::service_settings(name, file, number)?;
    let network = found.network;
    let entries = |places: &[std::ops::Range<usize>]| {
        let texts = places.iter().filter_map(|place| file.get(place.clone()));
        Value::Texts(texts.map(<[u8]>::to_vec).collect())
    };
    let rows = vec![
        ("Type", word(network.service_type.map(type_word))),
        ("IPv4", as_set(found.addresses.ipv4)),
        ("IPv6", as_set(found.addresses.ipv6)),
        ("IPv6.Privacy", word(found.addresses.privacy.map(privacy_word))),
        ("MAC", Value::Plain(found.addresses.mac.map(mac))),
        ("Nameservers", addresses(&found.addresses.nameservers)),
        ("SearchDomains", entries(&found.addresses.search_domains)),
        ("Timeservers", entries(&found.addresses.timeservers)),
        ("Domain", Value::Text(text(qewaris::service_domain(name, file, number)?))),
        ("Name", Value::Name(text(qewaris::service_name(name, file, number)?))),
        ("SSID", Value::Hex(network.ssid)),
        ("Passphrase", Value::Secret(text(qewaris::service_passphrase(name, file, number)?))),
        ("Security", word(network.security.map(security_word))),
        ("Hidden", Value::Flag(network.hidden)),
    ];
    Ok(Group { name: "service", rows })
}

/// A string as it is meant.
fn text(text: Option<Text<'_>>) -> Option<Vec<u8>> {
    text.map(|text| text.unescaped().into_owned())
}

fn word(word: Option<&str>) -> Value {
    Value::Plain(word.map(str::to_string))
}

fn address(address: Option<Ipv4Addr>) -> Value {
    Value::Plain(address.map(|address| address.to_string()))
}

fn addresses(addresses: &[Ipv4Addr]) -> Value {
    Value::List(addresses.iter().map(Ipv4Addr::to_string).collect())
}

fn mac(mac: [u8; 6]) -> String {
    mac.map(|byte| format!("{byte:02x}")).join(":")
}

/// The mask of a length of 1 to 32.
fn netmask(length: u8) -> String {
    let bits = u32::MAX.checked_shl(32 - u32::from(length.min(32))).unwrap_or(0);
    Ipv4Addr::from(bits).to_string()
}

/// The address of iwd's group IPv6 with its length, which is 128 where the file has none.
fn ipv6_address(ipv6: &IwdIpv6) -> Option<String> {
    Some(format!("{}/{}", ipv6_text(ipv6.address?), ipv6.prefix_length?))
}

/// ConnMan's IPv4 or IPv6.
fn as_set(family: Option<impl Into<Addressing>>) -> Value {
    Value::Plain(family.map(|family| family.into().setting()))
}

fn type_word(word: ServiceType) -> &'static str {
    match word {
        ServiceType::Wifi => "wifi",
        ServiceType::Ethernet => "ethernet",
    }
}

fn security_word(word: Security) -> &'static str {
    match word {
        Security::Psk => "psk",
        Security::Ieee8021x => "ieee8021x",
        Security::None => "none",
        Security::Wep => "wep",
    }
}

fn privacy_word(word: Privacy) -> &'static str {
    match word {
        Privacy::Disabled => "disabled",
        Privacy::Enabled => "enabled",
        Privacy::Preferred => "preferred",
    }
}
