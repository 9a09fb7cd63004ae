//! Values in hex: a MAC, a key, a network name.

use super::files::{shown, ADDRESS_OVERRIDE, PRE_SHARED_KEY, SSID};
use crate::show::hex_front;
use crate::written::hex;

pub fn mac(input: &[u8]) -> Vec<u8> {
    shown(ADDRESS_OVERRIDE.iwd_settings(input), |found| hex(&found.general.address_override))
}

pub fn key(input: &[u8]) -> Vec<u8> {
    shown(PRE_SHARED_KEY.iwd_settings(input), |found| hex(&found.security.pre_shared_key))
}

/// A network name's length and its bytes.
pub fn ssid(input: &[u8]) -> Vec<u8> {
    shown(SSID.service_settings(input), |found| {
        let length = found.network.ssid_len;
        format!("{length} {}", hex_front(&found.network.ssid, length))
    })
}
