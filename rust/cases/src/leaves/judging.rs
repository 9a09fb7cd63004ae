//! A value judged by its kind: good, 11 or 12.

use super::files::{self, Place, Told};

/// The places of the kind that a row names: those of a key of that kind, in the dialect that the row names or in both. ConnMan
/// has no key whose kind is a mask or a key of 64 digits by itself: the mask stands behind an address, and 64 digits are the
/// longest SSID.
pub fn places(kind: &str) -> Option<&'static [Place]> {
    Some(match kind {
        "iwd-flag" => &[files::HIDDEN],
        "iwd-key" => &[files::PRE_SHARED_KEY],
        "iwd-mask" => &[files::NETMASK],
        "iwd-address" => &[files::ADDRESS],
        "iwd-dns" => &[files::DNS],
        "iwd-ipv6-address" => &[files::IWD_IPV6_ADDRESS],
        "iwd-ipv6-gateway" => &[files::IWD_IPV6_GATEWAY],
        "connman-flag" => &[files::SERVICE_HIDDEN],
        "connman-key" | "connman-ssid" => &[files::SSID],
        "connman-mask" => &[files::SERVICE_MASK],
        "connman-type" => &[files::TYPE_ALONE],
        "connman-ipv4" => &[files::SERVICE_IPV4],
        "connman-ipv6" => &[files::SERVICE_IPV6],
        "connman-nameservers" => &[files::NAMESERVERS],
        "connman-entries" => &[files::SEARCH_DOMAINS, files::TIMESERVERS],
        "connman-mac" => &[files::MAC],
        _ => return string_places(kind),
    })
}

/// The places of a string's kind.
fn string_places(kind: &str) -> Option<&'static [Place]> {
    Some(match kind {
        "passphrase" => &[files::PASSPHRASE, files::SERVICE_PASSPHRASE],
        "iwd-passphrase" => &[files::PASSPHRASE],
        "connman-passphrase" => &[files::SERVICE_PASSPHRASE],
        "text-1-253" => &[files::DOMAIN_NAME, files::DOMAIN, files::GLOBAL_NAME, files::DESCRIPTION],
        "iwd-text-1-253" => &[files::DOMAIN_NAME],
        "connman-text-1-253" => &[files::DOMAIN, files::GLOBAL_NAME, files::DESCRIPTION],
        "connman-text-1-32" => &[files::NAME],
        _ => return None,
    })
}

/// What the files with this value answer.
pub fn judged(places: &[Place], input: &[u8]) -> Vec<u8> {
    files::alike(places, |place| word(place, input))
}

/// What one of them answers. A good Type alone may be one that asks for a name, which is the service's 14.
fn word(place: Place, input: &[u8]) -> Vec<u8> {
    match place.checked(input) {
        Told(0, 0) => b"good".to_vec(),
        Told(14, 1) if place.before == files::TYPE_ALONE.before => b"good".to_vec(),
        told if told.is_text() => b"11".to_vec(),
        told if told.is_kind() => b"12".to_vec(),
        told => told.shown(),
    }
}
