//! Addresses, masks, and ConnMan's IPv4.

use super::files::{shown, ADDRESS, NETMASK, SERVICE_IPV4, SERVICE_MASK};
use super::names::written;
use crate::settings;
use crate::show::dotted;
use crate::written::number;
use qewaris::raw;

pub fn address(input: &[u8]) -> Vec<u8> {
    shown(ADDRESS.iwd_settings(input), |found| dotted(found.ipv4.address))
}

/// The length of a mask.
pub fn netmask(input: &[u8]) -> Vec<u8> {
    shown(NETMASK.iwd_settings(input), |found| found.ipv4.netmask_length.to_string())
}

/// A length that is written as a number.
pub fn prefix_length(input: &[u8]) -> Vec<u8> {
    shown(SERVICE_MASK.service_settings(input), |found| {
        found.addresses.prefix_length.to_string()
    })
}

/// The mask of a length, as it is written.
pub fn mask_of(input: &[u8]) -> Vec<u8> {
    let Some(length) = number(input).and_then(|length| u8::try_from(length).ok()) else {
        return b"no length".to_vec();
    };
    let mut record = raw::Record::ZERO;
    (record.name_len, record.name[0]) = (1, b'n');
    (record.ipv4, record.prefix_length, record.has_gateway) = (2, length, 1);
    match written(record) {
        Ok((_, file)) => {
            let mask = file.strip_prefix(b"[IPv4]\nAddress=0.0.0.0\nNetmask=");
            let mask = mask.and_then(|rest| rest.strip_suffix(b"\nGateway=0.0.0.0\n"));
            mask.map_or_else(|| b"no line".to_vec(), <[u8]>::to_vec)
        }
        Err(19) => b"broken".to_vec(),
        Err(number) => format!("refused {number}").into_bytes(),
    }
}

pub fn ipv4(input: &[u8]) -> Vec<u8> {
    shown(SERVICE_IPV4.service_settings(input), |found| settings::ipv4(&found.addresses))
}
