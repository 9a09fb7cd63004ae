//! The typed settings of both dialects as the structs of the C boundary. A refused answer is laid out as no settings at all.

use super::{padded, presence, Places};
use crate::reference::groups::Text;
use crate::reference::{connman, iwd, Addressing, Refusal};
use qewaris::raw;

/// A yes/no that may be absent.
fn flag_code(flag: Option<bool>) -> u8 {
    match flag {
        None => 0,
        Some(false) => 1,
        Some(true) => 2,
    }
}

/// The code of a word: its place among the header's words, counted from 1; 0 where it is absent.
fn word_code(word: Option<&str>, words: &[&str]) -> u8 {
    let place = words.iter().position(|listed| Some(*listed) == word);
    place.map_or(0, |place| place as u8 + 1)
}

fn line_of(text: &Option<Text>) -> usize {
    text.as_ref().map_or(0, |text| text.line)
}

/// The number and line of a refusal, or zeros.
fn refusal_of<T>(result: &Result<T, Refusal>) -> (u8, usize) {
    result.as_ref().err().map_or((0, 0), |refusal| (refusal.number(), refusal.line))
}

/// The settings of an iwd file, or the refusal with zeros else.
pub fn iwd_settings(result: Result<&iwd::Settings, Refusal>) -> raw::IwdSettings {
    let (number, line) = refusal_of(&result);
    let none = iwd::Settings::default();
    let settings = result.unwrap_or(&none);
    raw::IwdSettings {
        line,
        number,
        general: iwd_general(settings),
        ipv6: iwd_ipv6(settings),
        reserved: [0; 1],
        security: iwd_security(settings),
        ipv4: iwd_ipv4(settings),
    }
}

fn iwd_general(settings: &iwd::Settings) -> raw::IwdGeneral {
    let (has_address_override, address_override) = presence(settings.address_override);
    raw::IwdGeneral {
        auto_connect: flag_code(settings.auto_connect),
        hidden: flag_code(settings.hidden),
        always_randomize_address: flag_code(settings.always_randomize_address),
        has_address_override,
        address_override,
    }
}

fn iwd_security(settings: &iwd::Settings) -> raw::IwdSecurity {
    let (has_pre_shared_key, pre_shared_key) = presence(settings.pre_shared_key);
    raw::IwdSecurity {
        passphrase_line: line_of(&settings.passphrase),
        has_pre_shared_key,
        pre_shared_key,
        reserved: [0; 7],
    }
}

fn iwd_ipv4(settings: &iwd::Settings) -> raw::IwdIpv4 {
    let (has_address, address) = presence(settings.address);
    let (has_gateway, gateway) = presence(settings.gateway);
    let (has_broadcast, broadcast) = presence(settings.broadcast);
    raw::IwdIpv4 {
        domain_name_line: line_of(&settings.domain_name),
        dns_count: settings.dns.len(),
        dns: padded(&settings.dns.concat()),
        has_address,
        address,
        has_gateway,
        gateway,
        has_broadcast,
        broadcast,
        netmask_length: settings.netmask_length.unwrap_or(0),
        send_hostname: flag_code(settings.send_hostname),
        reserved: [0; 7],
    }
}

/// The length is 128 where the address is there without it, and 0 where there is no address.
fn iwd_ipv6(settings: &iwd::Settings) -> raw::IwdIpv6 {
    let (has_address, address) = presence(settings.ipv6_address.map(|(address, _)| address));
    let (has_gateway, gateway) = presence(settings.ipv6_gateway);
    raw::IwdIpv6 {
        enabled: flag_code(settings.ipv6_enabled),
        has_address,
        address,
        prefix_length: settings.ipv6_address.map_or(0, |(_, length)| length),
        has_gateway,
        gateway,
    }
}

/// The settings of a service, or the refusal with zeros else.
pub fn service_settings(result: Result<&connman::Settings, Refusal>) -> raw::ServiceSettings {
    let (number, line) = refusal_of(&result);
    let none = connman::Settings::default();
    let settings = result.unwrap_or(&none);
    raw::ServiceSettings {
        line,
        number,
        reserved: [0; 7],
        network: service_network(settings),
        addresses: service_addresses(settings),
    }
}

fn service_network(settings: &connman::Settings) -> raw::ServiceNetwork {
    let ssid = settings.ssid.as_deref().unwrap_or(&[]);
    raw::ServiceNetwork {
        name_line: line_of(&settings.name),
        passphrase_line: line_of(&settings.passphrase),
        ssid_len: ssid.len(),
        ssid: padded(ssid),
        service_type: word_code(settings.service_type, &["wifi", "ethernet"]),
        security: word_code(settings.security, &["psk", "ieee8021x", "none", "wep"]),
        hidden: flag_code(settings.hidden),
        reserved: [0; 5],
    }
}

fn service_addresses(settings: &connman::Settings) -> raw::ServiceAddresses {
    let (ipv4, ipv6) = (setting_places(&settings.ipv4), setting_places(&settings.ipv6));
    let (has_mac, mac) = presence(settings.mac);
    raw::ServiceAddresses {
        domain_line: line_of(&settings.domain),
        search_domains: lay_entries(&settings.search_domains),
        timeservers: lay_entries(&settings.timeservers),
        nameserver_count: settings.nameservers.len(),
        nameservers: padded(&settings.nameservers.concat()),
        ipv4: ipv4.code,
        address: ipv4.address,
        prefix_length: ipv4.prefix_length,
        has_gateway: ipv4.has_gateway,
        gateway: ipv4.gateway,
        ipv6: ipv6.code,
        ipv6_address: ipv6.address,
        ipv6_prefix_length: ipv6.prefix_length,
        has_ipv6_gateway: ipv6.has_gateway,
        ipv6_gateway: ipv6.gateway,
        privacy: word_code(settings.privacy, &["disabled", "enabled", "preferred"]),
        has_mac,
        mac,
        reserved: [0; 2],
    }
}

/// The places of a service's IPv4 or IPv6. The codes of settings are one more than those of records: 0 is absent.
fn setting_places<const WIDTH: usize>(addressing: &Option<Addressing<WIDTH>>) -> Places<WIDTH> {
    let places = Places::of(addressing.as_ref().unwrap_or(&Addressing::Auto));
    Places {
        code: addressing.map_or(0, |_| places.code + 1),
        ..places
    }
}

fn lay_entries(places: &[(usize, usize)]) -> raw::Entries {
    let mut entries = raw::Entries {
        count: places.len(),
        start: [0; 4],
        length: [0; 4],
    };
    for (place, (start, length)) in places.iter().enumerate() {
        (entries.start[place], entries.length[place]) = (*start, *length);
    }
    entries
}
