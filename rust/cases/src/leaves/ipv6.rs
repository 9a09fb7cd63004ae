//! IPv6 addresses and their lengths, and how an address is written. An address is shown as its eight groups, each with four digits.

use super::files::{agreed, shown, IWD_IPV6_ADDRESS, IWD_IPV6_GATEWAY, IWD_IPV6_LENGTH};
use super::files::{SERVICE_IPV6, SERVICE_IPV6_GATEWAY, SERVICE_IPV6_LENGTH};
use super::names;
use crate::settings;
use crate::show::grouped;
use qewaris::raw;

/// ConnMan's IPv6.
pub fn connman(input: &[u8]) -> Vec<u8> {
    shown(SERVICE_IPV6.service_settings(input), |found| settings::ipv6(&found.addresses))
}

/// iwd's Address, with its length.
pub fn iwd_address(input: &[u8]) -> Vec<u8> {
    shown(IWD_IPV6_ADDRESS.iwd_settings(input), |found| settings::ipv6_address(&found.ipv6))
}

/// iwd's Gateway.
pub fn iwd_gateway(input: &[u8]) -> Vec<u8> {
    shown(IWD_IPV6_GATEWAY.iwd_settings(input), |found| grouped(found.ipv6.gateway))
}

/// An address, in each place where one stands: iwd's Address without and with a length, its Gateway, and ConnMan's address and gateway.
pub fn address(input: &[u8]) -> Vec<u8> {
    let with_length = [input, b"/64"].concat();
    let found = [
        IWD_IPV6_ADDRESS.iwd_settings(input).map(|found| found.ipv6.address),
        IWD_IPV6_ADDRESS.iwd_settings(&with_length).map(|found| found.ipv6.address),
        IWD_IPV6_GATEWAY.iwd_settings(input).map(|found| found.ipv6.gateway),
        SERVICE_IPV6
            .service_settings(&with_length)
            .map(|found| found.addresses.ipv6_address),
        SERVICE_IPV6_GATEWAY
            .service_settings(input)
            .map(|found| found.addresses.ipv6_gateway),
    ];
    agreed(found.map(|found| shown(found, grouped)).to_vec())
}

/// A length behind an address, of both formats.
pub fn length(input: &[u8]) -> Vec<u8> {
    let iwd = IWD_IPV6_LENGTH.iwd_settings(input).map(|found| found.ipv6.prefix_length);
    let connman = SERVICE_IPV6_LENGTH.service_settings(input);
    let connman = connman.map(|found| found.addresses.ipv6_prefix_length);
    agreed([iwd, connman].map(|found| shown(found, |length| length.to_string())).to_vec())
}

/// The text that is written for an address, which is given by its eight groups of four digits: that of the address and of the gateway.
pub fn written(input: &[u8]) -> Vec<u8> {
    let Some(address) = sixteen_bytes(input) else {
        return b"no address".to_vec();
    };
    let mut record = raw::Record::ZERO;
    (record.name_len, record.name[0]) = (1, b'n');
    (record.ipv6, record.ipv6_address, record.ipv6_prefix_length) = (2, address, 64);
    (record.has_ipv6_gateway, record.ipv6_gateway) = (1, address);
    match names::written(record) {
        Ok((_, file)) => text_of(&file).map_or_else(|| b"no lines".to_vec(), <[u8]>::to_vec),
        Err(number) => format!("refused {number}").into_bytes(),
    }
}

/// The address that a written file has twice.
fn text_of(file: &[u8]) -> Option<&[u8]> {
    let lines = file.strip_prefix(b"[IPv6]\nAddress=")?.strip_suffix(b"\n")?;
    let end = lines.iter().position(|byte| *byte == b'/')?;
    let (text, behind) = lines.split_at(end);
    (behind.strip_prefix(b"/64\nGateway=")? == text).then_some(text)
}

/// The bytes of eight groups of four digits.
fn sixteen_bytes(groups: &[u8]) -> Option<[u8; 16]> {
    let groups: Vec<&[u8]> = groups.split(|byte| *byte == b':').collect();
    let bytes: Vec<u8> = groups
        .iter()
        .filter(|group| group.len() == 4)
        .filter_map(|group| u16::from_str_radix(std::str::from_utf8(group).ok()?, 16).ok())
        .flat_map(u16::to_be_bytes)
        .collect();
    bytes.try_into().ok()
}
