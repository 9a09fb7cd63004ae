//! Lists of addresses and of entries. A broken list has no entry.

use super::files::{Told, DNS, NAMESERVERS, SEARCH_DOMAINS};
use crate::show::{dotted, four, is_zero, unused};
use qewaris::raw;

/// How many addresses there are, and each of them.
fn list(found: Result<(usize, [u8; 16]), Told>) -> Vec<u8> {
    match found {
        Ok((count, bytes)) => addresses(&bytes, count).into_bytes(),
        Err(told) => told.broken("0"),
    }
}

/// The first `count` of sixteen bytes' addresses; those behind them are not in use.
fn addresses(bytes: &[u8; 16], count: usize) -> String {
    let all = four(bytes);
    let (used, behind) = all.split_at(count.min(4));
    let shown: String = used.iter().map(|address| format!(" {}", dotted(*address))).collect();
    format!("{count}{shown}{}", unused(behind.iter().all(|address| is_zero(address))))
}

pub fn dns(input: &[u8]) -> Vec<u8> {
    let found = DNS.iwd_settings(input);
    list(found.map(|found| (found.ipv4.dns_count, found.ipv4.dns)))
}

pub fn nameservers(input: &[u8]) -> Vec<u8> {
    let found = NAMESERVERS.service_settings(input);
    list(found.map(|found| (found.addresses.nameserver_count, found.addresses.nameservers)))
}

/// How many entries there are, and where in the input each of them stands.
pub fn entries(input: &[u8]) -> Vec<u8> {
    let from = SEARCH_DOMAINS.before.len();
    match SEARCH_DOMAINS.service_settings(input) {
        Ok(found) => places(&found.addresses.search_domains, from).into_bytes(),
        Err(told) => told.broken("0"),
    }
}

/// The entries' places behind a place of the file.
fn places(found: &raw::Entries, from: usize) -> String {
    let places = found.start.iter().zip(&found.length).take(found.count);
    let shown: String = places
        .map(|(start, length)| format!(" {}-{}", start - from, start + length - from))
        .collect();
    format!("{}{shown}", found.count)
}
