//! Drafts of ConnMan files: legal ones, and ones with any keys at all.

use super::draft::{Draft, Piece};
use super::ipv6;
use super::keys::{find, Key, GLOBAL_KEYS, SERVICE_KEYS};
use super::largest;
use super::names::good_connman;
use super::strings::spelled;
use super::values::{good, static_ipv4};
use crate::random::Random;
use crate::reference::file_name::lower_hex;
use crate::reference::kind::mask_of;
use crate::reference::writer::dotted;
use crate::reference::{Credential, Dialect, Ipv4, Ipv6, Record};

/// A legal ConnMan file under a legal name, with 0 to 8 services.
pub fn valid(random: &mut Random) -> Draft {
    draft(random, |random| match random.weighted(&[5, 2, 1]) {
        0 => movable(random),
        1 => wifi(random),
        _ => ethernet(random),
    })
}

/// A ConnMan file whose lines are legal, with any keys in each service.
pub fn loose(random: &mut Random) -> Draft {
    draft(random, |random| {
        if random.percent(70) {
            nearly_legal(random)
        } else {
            movable(random)
        }
    })
}

fn draft(random: &mut Random, service: impl Fn(&mut Random) -> Vec<Piece>) -> Draft {
    let count = random.pick(&[0, 1, 1, 1, 1, 1, 1, 1, 1, 2, 2, 2, 3, 4, 5, 7, 8]);
    let mut groups = Vec::new();
    for number in 0..count {
        let mut pieces = service(random);
        random.shuffle(&mut pieces);
        let name = identifier(random, number);
        groups.push([vec![Piece::header(&name)], pieces].concat());
    }
    if random.once_in(3) {
        let place = random.below(groups.len() + 1);
        groups.insert(place, global(random));
    }
    Draft {
        dialect: Dialect::Connman,
        name: good_connman(random),
        pieces: groups.concat(),
    }
}

/// A service's header, different for each number below ten.
pub fn identifier(random: &mut Random, number: usize) -> String {
    let tail = random.pick(&["", "", "_", "till", "A_b_9", "0123456789012345678901234567890"]);
    format!("service_{number}{tail}")
}

fn global(random: &mut Random) -> Vec<Piece> {
    let keys = GLOBAL_KEYS.iter().filter(|_| random.percent(60)).collect::<Vec<_>>();
    let settings = keys.into_iter().map(|key| good_setting(random, key));
    [vec![Piece::header("global")], settings.collect()].concat()
}

/// A setting of a service with a legal value.
pub fn setting(random: &mut Random, name: &str) -> Piece {
    good_setting(random, &find(SERVICE_KEYS, name))
}

fn good_setting(random: &mut Random, key: &Key) -> Piece {
    Piece::setting(key.name, good(random, Dialect::Connman, key.kind))
}

/// A string setting that stands for the bytes.
fn string(random: &mut Random, name: &str, content: &[u8]) -> Piece {
    Piece::setting(name, spelled(random, Dialect::Connman, content))
}

fn word(name: &str, value: &str) -> Piece {
    Piece::setting(name, value.as_bytes().to_vec())
}

fn settings(random: &mut Random, names: &[&str], percent: usize) -> Vec<Piece> {
    let chosen: Vec<&str> = names.iter().copied().filter(|_| random.percent(percent)).collect();
    chosen.into_iter().map(|name| setting(random, name)).collect()
}

/// A wifi service that iwd has a place for, once in thirty times with a record at the largest or near it.
fn movable(random: &mut Random) -> Vec<Piece> {
    if random.once_in(30) {
        let record = largest::record(random, Dialect::Connman);
        return with_record(random, &record);
    }
    let mut pieces = vec![word("Type", "wifi")];
    pieces.extend(network_name(random));
    match random.below(5) {
        0 => {}
        1 => pieces.push(word("Security", "none")),
        2 => pieces.push(setting(random, "Passphrase")),
        _ => pieces.extend([word("Security", "psk"), setting(random, "Passphrase")]),
    }
    match random.below(3) {
        0 => {}
        1 => pieces.push(word("IPv4", "dhcp")),
        _ => pieces.push(Piece::setting("IPv4", static_ipv4(random, true))),
    }
    if random.once_in(2) {
        pieces.push(Piece::setting("IPv6", ipv6::placed_method(random)));
    }
    pieces.extend(settings(random, &["Nameservers", "Domain", "Hidden"], 35));
    pieces
}

/// A service that has the record, which holds no 32-byte key.
fn with_record(random: &mut Random, record: &Record) -> Vec<Piece> {
    let mut pieces = vec![word("Type", "wifi"), with_ssid(random, &record.ssid)];
    if let Credential::Passphrase(passphrase) = &record.credential {
        pieces.push(string(random, "Passphrase", passphrase));
    }
    if let Ipv4::Static {
        address,
        prefix_length,
        gateway: Some(gateway),
    } = record.ipv4
    {
        let mask = if random.once_in(2) {
            dotted(mask_of(prefix_length))
        } else {
            prefix_length.to_string().into_bytes()
        };
        pieces.push(Piece::setting("IPv4", [dotted(address), mask, dotted(gateway)].join(&b'/')));
    }
    let servers: Vec<Vec<u8>> = record.servers.iter().map(|&server| dotted(server)).collect();
    pieces.push(Piece::setting("Nameservers", servers.join(&b',')));
    pieces.push(string(random, "Domain", &record.domain));
    pieces.push(word("Hidden", if record.hidden { "true" } else { "false" }));
    pieces.push(with_ipv6(random, &record.ipv6));
    pieces
}

fn with_ipv6(random: &mut Random, record: &Ipv6) -> Piece {
    let mut parts = match *record {
        Ipv6::Auto => vec![b"auto".to_vec()],
        Ipv6::Off => vec![b"off".to_vec()],
        Ipv6::Static {
            address, prefix_length, ..
        } => vec![ipv6::text_of(random, address), prefix_length.to_string().into_bytes()],
    };
    if let Ipv6::Static {
        gateway: Some(gateway), ..
    } = *record
    {
        parts.push(ipv6::text_of(random, gateway));
    }
    Piece::setting("IPv6", parts.join(&b'/'))
}

/// The network's name, often as a Name where it can be one.
fn with_ssid(random: &mut Random, ssid: &[u8]) -> Piece {
    let can_be_string = std::str::from_utf8(ssid).is_ok() && !ssid.contains(&0);
    if can_be_string && random.once_in(2) {
        return string(random, "Name", ssid);
    }
    Piece::setting("SSID", lower_hex(ssid))
}

fn network_name(random: &mut Random) -> Vec<Piece> {
    match random.below(5) {
        0 => vec![setting(random, "Name"), setting(random, "SSID")],
        1 => vec![setting(random, "SSID")],
        _ => vec![setting(random, "Name")],
    }
}

/// Any legal wifi service.
fn wifi(random: &mut Random) -> Vec<Piece> {
    let mut pieces = vec![word("Type", "wifi")];
    pieces.extend(network_name(random));
    let security = random.pick(&["", "psk", "none", "wep", "ieee8021x"]);
    if !security.is_empty() {
        pieces.push(word("Security", security));
    }
    if security == "psk" || (security != "none" && random.once_in(2)) {
        pieces.push(setting(random, "Passphrase"));
    }
    pieces.extend(settings(random, &["IPv4", "IPv6", "Nameservers", "Domain", "Hidden"], 35));
    pieces.extend(settings(random, &["IPv6.Privacy", "MAC", "SearchDomains", "Timeservers"], 20));
    pieces
}

fn ethernet(random: &mut Random) -> Vec<Piece> {
    let keys = [
        "IPv4",
        "IPv6",
        "IPv6.Privacy",
        "MAC",
        "Nameservers",
        "SearchDomains",
        "Timeservers",
        "Domain",
    ];
    [vec![word("Type", "ethernet")], settings(random, &keys, 30)].concat()
}

/// A service with any keys, most of them such that one rule at a time is broken.
fn nearly_legal(random: &mut Random) -> Vec<Piece> {
    let wireless = ["Name", "SSID", "Passphrase", "Security", "Hidden"];
    match random.below(4) {
        0 => [ethernet(random), settings(random, &wireless, 25)].concat(),
        1 => [vec![word("Type", "wifi")], settings(random, &wireless, 40)].concat(),
        2 => settings(
            random,
            &["Type", "Name", "SSID", "Passphrase", "Security", "Hidden", "MAC", "IPv4"],
            50,
        ),
        _ => {
            let mut pieces = if random.once_in(2) { wifi(random) } else { movable(random) };
            let place = random.below(pieces.len());
            pieces.remove(place);
            pieces
        }
    }
}
