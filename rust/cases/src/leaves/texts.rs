//! Value text, record text, and how a string is written.

use super::files::{alike, DOMAIN, DOMAIN_NAME};
use super::names::written;
use qewaris::raw;

/// Whether a value's text is good, in a string of either format: 11 is not given, though 12 may be.
pub fn value_text(input: &[u8]) -> Vec<u8> {
    alike(&[DOMAIN_NAME, DOMAIN], |place| match place.checked(input) {
        told if told.is_text() => b"no".to_vec(),
        told if told.is_kind() || told.0 == 0 => b"yes".to_vec(),
        told => told.shown(),
    })
}

/// A record of an open network with this domain, where it fits.
fn with_domain(input: &[u8]) -> Option<raw::Record> {
    let mut record = raw::Record::ZERO;
    (record.name_len, record.name[0]) = (1, b'n');
    record.domain.get_mut(..input.len())?.copy_from_slice(input);
    record.domain_len = input.len().try_into().ok()?;
    Some(record)
}

/// Whether a text may stand in a record.
pub fn record_text(input: &[u8]) -> Vec<u8> {
    let answer = with_domain(input).map(written);
    match answer {
        Some(Ok(_)) => b"yes".to_vec(),
        Some(Err(19)) => b"no".to_vec(),
        Some(Err(number)) => format!("refused {number}").into_bytes(),
        None => b"too long".to_vec(),
    }
}

/// A string as it is written. One of no bytes has no line.
pub fn escape(input: &[u8]) -> Vec<u8> {
    let Some(Ok((_, file))) = with_domain(input).map(written) else {
        return b"not written".to_vec();
    };
    if file.is_empty() {
        return Vec::new();
    }
    let line = file.strip_prefix(b"[IPv4]\nDomainName=").and_then(|rest| rest.strip_suffix(b"\n"));
    line.map_or_else(|| b"no line".to_vec(), <[u8]>::to_vec)
}
