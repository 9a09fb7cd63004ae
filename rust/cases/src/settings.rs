//! Cases of typed settings and lookups.
//!
//! A case is a file name, a service number or `-` for an iwd file, and a file. The answer is `good` or `refused` with the number
//! and the line, each key in document 01's order with its value or `absent`, the name servers, and the seven lookups with
//! number, line and bytes. A refusal whose other places are all zero has the line `nothing` for its keys.

use crate::ask::{read, read_service, zero};
use crate::show::{dotted, grouped, hex_front, is_zero, servers, unused, word, Addressing, Lines};
use crate::written::{decoded, encoded, hex, number, parts};
use qewaris::raw;

/// The answer to a case.
pub fn answer(case: &[u8]) -> Result<Vec<u8>, String> {
    let [name, service, file] = parts(case)?;
    let (name, file) = (decoded(name), decoded(file));
    let mut lines = Lines::default();
    if service == b"-" {
        iwd(&mut lines, &name, &file);
        lookups(&mut lines, &name, &file, 1);
    } else {
        let service = number(service).ok_or("there is no service number")?;
        connman(&mut lines, &name, &file, service);
        lookups(&mut lines, &name, &file, service);
    }
    Ok(lines.into_bytes())
}

/// The settings of an iwd file.
fn iwd(lines: &mut Lines, name: &[u8], file: &[u8]) {
    let found = read(raw::qewaris_iwd_settings_of, name, file);
    let nothing = raw::IwdSettings {
        line: found.line,
        number: found.number,
        ..zero()
    };
    if answered(lines, found.number, found.line, found == nothing) {
        iwd_keys(lines, &found);
    }
    servers(lines, &found.ipv4.dns);
}

fn iwd_keys(lines: &mut Lines, found: &raw::IwdSettings) {
    let (general, security, ipv4, ipv6) = (&found.general, &found.security, &found.ipv4, &found.ipv6);
    lines.key("AutoConnect", &choice(general.auto_connect));
    lines.key("Hidden", &choice(general.hidden));
    lines.key("AlwaysRandomizeAddress", &choice(general.always_randomize_address));
    lines.key(
        "AddressOverride",
        &given(general.has_address_override, &general.address_override, mac),
    );
    lines.key("Passphrase", &string(security.passphrase_line));
    lines.key("PreSharedKey", &given(security.has_pre_shared_key, &security.pre_shared_key, hex));
    lines.key("Address", &given(ipv4.has_address, &ipv4.address, |_| dotted(ipv4.address)));
    lines.key("Gateway", &given(ipv4.has_gateway, &ipv4.gateway, |_| dotted(ipv4.gateway)));
    lines.key("Broadcast", &given(ipv4.has_broadcast, &ipv4.broadcast, |_| dotted(ipv4.broadcast)));
    lines.key("Netmask", &counted(ipv4.netmask_length.into()));
    lines.key("DNS", &counted(ipv4.dns_count));
    lines.key("DomainName", &string(ipv4.domain_name_line));
    lines.key("SendHostname", &choice(ipv4.send_hostname));
    lines.key("Enabled", &choice(ipv6.enabled));
    lines.key("IPv6 Address", &ipv6_address(ipv6));
    lines.key("IPv6 Gateway", &given(ipv6.has_gateway, &ipv6.gateway, |_| grouped(ipv6.gateway)));
}

/// The address of iwd's group IPv6, with its length.
pub(crate) fn ipv6_address(ipv6: &raw::IwdIpv6) -> String {
    match ipv6.has_address {
        1 => format!("{}/{}", grouped(ipv6.address), ipv6.prefix_length),
        has => given(has, &ipv6.address, hex) + unused(ipv6.prefix_length == 0),
    }
}

/// The settings of a ConnMan service.
fn connman(lines: &mut Lines, name: &[u8], file: &[u8], service: usize) {
    let found = read_service(raw::qewaris_service_settings_of, name, file, service);
    let nothing = raw::ServiceSettings {
        line: found.line,
        number: found.number,
        ..zero()
    };
    if answered(lines, found.number, found.line, found == nothing) {
        connman_keys(lines, &found.network, &found.addresses);
    }
    servers(lines, &found.addresses.nameservers);
}

fn connman_keys(lines: &mut Lines, network: &raw::ServiceNetwork, addresses: &raw::ServiceAddresses) {
    lines.key("Type", &word(network.service_type, &["absent", "wifi", "ethernet"]));
    lines.key("IPv4", &ipv4(addresses));
    lines.key("IPv6", &ipv6(addresses));
    lines.key(
        "IPv6.Privacy",
        &word(addresses.privacy, &["absent", "disabled", "enabled", "preferred"]),
    );
    lines.key("MAC", &given(addresses.has_mac, &addresses.mac, mac));
    lines.key("Nameservers", &counted(addresses.nameserver_count));
    lines.key("SearchDomains", &entries(&addresses.search_domains));
    lines.key("Timeservers", &entries(&addresses.timeservers));
    lines.key("Domain", &string(addresses.domain_line));
    lines.key("Name", &string(network.name_line));
    lines.key("SSID", &ssid(network));
    lines.key("Passphrase", &string(network.passphrase_line));
    lines.key("Security", &word(network.security, &["absent", "psk", "ieee8021x", "none", "wep"]));
    lines.key("Hidden", &choice(network.hidden));
}

/// The line of an answer, and whether keys are to be shown: of a good one, and of a refusal that holds something.
fn answered(lines: &mut Lines, number: u8, line: usize, nothing: bool) -> bool {
    if number == 0 {
        lines.say("good");
        return true;
    }
    lines.say(&format!("refused {number} {line}"));
    if nothing {
        lines.say("nothing");
    }
    !nothing
}

fn choice(code: u8) -> String {
    word(code, &["absent", "false", "true"])
}

/// A value in bytes, where there is one.
fn given(has: u8, bytes: &[u8], shown: impl Fn(&[u8]) -> String) -> String {
    match has {
        0 => format!("absent{}", unused(is_zero(bytes))),
        1 => shown(bytes),
        code => format!("code {code}"),
    }
}

fn mac(bytes: &[u8]) -> String {
    bytes.iter().map(|byte| format!("{byte:02x}")).collect::<Vec<_>>().join(":")
}

/// The line of a string.
fn string(line: usize) -> String {
    match line {
        0 => "absent".to_string(),
        line => format!("line {line}"),
    }
}

/// A number that is 0 where the key is absent.
fn counted(number: usize) -> String {
    match number {
        0 => "absent".to_string(),
        number => number.to_string(),
    }
}

fn ssid(network: &raw::ServiceNetwork) -> String {
    match network.ssid_len {
        0 => format!("absent{}", unused(is_zero(&network.ssid))),
        length => hex_front(&network.ssid, length),
    }
}

pub(crate) fn ipv4(addresses: &raw::ServiceAddresses) -> String {
    let ipv4 = Addressing {
        address: addresses.address,
        prefix_length: addresses.prefix_length,
        has_gateway: addresses.has_gateway,
        gateway: addresses.gateway,
    };
    ipv4.of_service(addresses.ipv4)
}

pub(crate) fn ipv6(addresses: &raw::ServiceAddresses) -> String {
    let ipv6 = Addressing {
        address: addresses.ipv6_address,
        prefix_length: addresses.ipv6_prefix_length,
        has_gateway: addresses.has_ipv6_gateway,
        gateway: addresses.ipv6_gateway,
    };
    ipv6.of_service(addresses.ipv6)
}

/// How many entries there are, and where in the file each of them stands.
fn entries(found: &raw::Entries) -> String {
    let places: Vec<(usize, usize)> = found.start.into_iter().zip(found.length).collect();
    let (used, behind) = places.split_at(found.count.min(4));
    let zero = unused(behind.iter().all(|place| *place == (0, 0)));
    if found.count == 0 {
        return format!("absent{zero}");
    }
    let used: Vec<String> = used.iter().map(|(start, length)| format!("{start}-{}", start + length)).collect();
    format!("{} at {}{zero}", found.count, used.join(" "))
}

/// All seven lookups, ConnMan's by the number of a service where they ask for one.
fn lookups(lines: &mut Lines, name: &[u8], file: &[u8], service: usize) {
    let of_file = |lookup| read(lookup, name, file);
    let of_service = |lookup| read_service(lookup, name, file, service);
    let found = [
        ("iwd_passphrase", of_file(raw::qewaris_iwd_passphrase)),
        ("iwd_domain_name", of_file(raw::qewaris_iwd_domain_name)),
        ("global_name", of_file(raw::qewaris_global_name)),
        ("global_description", of_file(raw::qewaris_global_description)),
        ("service_name", of_service(raw::qewaris_service_name)),
        ("service_passphrase", of_service(raw::qewaris_service_passphrase)),
        ("service_domain", of_service(raw::qewaris_service_domain)),
    ];
    for (lookup, text) in found {
        lines.say(&format!("lookup {lookup} {} {}{}", text.number, text.line, bytes_of(text, file)));
    }
}

/// The bytes of a text, where there are some.
fn bytes_of(text: raw::Text, file: &[u8]) -> String {
    let refused = raw::Text {
        line: text.line,
        number: text.number,
        ..zero()
    };
    if text.number != 0 {
        return unused(text == refused).to_string();
    }
    match file.get(text.start..text.start + text.length) {
        Some([]) => String::new(),
        Some(bytes) => format!(" {}", encoded(bytes)),
        None => " no place".to_string(),
    }
}
