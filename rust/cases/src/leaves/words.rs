//! Yes/no and the named words.

use super::files::{shown, Place, Told, HIDDEN, PRIVACY, SECURITY, SECURITY_ALONE, SERVICE_HIDDEN, TYPE, TYPE_ALONE};
use crate::show::word;
use qewaris::raw;

pub fn flag_iwd(input: &[u8]) -> Vec<u8> {
    shown(HIDDEN.iwd_settings(input), |found| flag(found.general.hidden))
}

pub fn flag_connman(input: &[u8]) -> Vec<u8> {
    shown(SERVICE_HIDDEN.service_settings(input), |found| flag(found.network.hidden))
}

fn flag(code: u8) -> String {
    word(code, &["absent", "false", "true"])
}

pub fn service_type(input: &[u8]) -> Vec<u8> {
    shown(uncontradicted(TYPE, TYPE_ALONE, input), |found| {
        word(found.network.service_type, &["absent", "wifi", "ethernet"])
    })
}

pub fn privacy(input: &[u8]) -> Vec<u8> {
    shown(PRIVACY.service_settings(input), |found| {
        word(found.addresses.privacy, &["absent", "disabled", "enabled", "preferred"])
    })
}

pub fn security(input: &[u8]) -> Vec<u8> {
    shown(uncontradicted(SECURITY, SECURITY_ALONE, input), |found| {
        word(found.network.security, &["absent", "psk", "ieee8021x", "none", "wep"])
    })
}

/// A service's settings with this word, alone where the rest of the service contradicts it: ethernet takes no Name, and
/// Security none no Passphrase.
fn uncontradicted(place: Place, alone: Place, input: &[u8]) -> Result<raw::ServiceSettings, Told> {
    match place.service_settings(input) {
        Err(Told(15, 1)) => alone.service_settings(input),
        found => found,
    }
}
