//! Cases of the leaves: texts, strings, words, numbers, lists, hex, lines and file names, each tried through a whole file or a
//! written record.
//!
//! A case is a kind, a blank and an input. The input stands as a value of a file that is otherwise good, or in a record that is
//! otherwise good, and the answer is what the library then says of that value: what it was read or written as, or that it is
//! broken. A refusal for anything else is shown with its number and its line, which no row expects.

mod files;
mod hexes;
mod ipv6;
mod judging;
mod lines;
mod lists;
mod names;
mod numbers;
mod strings;
mod texts;
mod words;

use crate::written::{decoded, parts};

/// What answers an input.
type Leaf = fn(&[u8]) -> Vec<u8>;

/// The answer to a case.
pub fn answer(case: &[u8]) -> Result<Vec<u8>, String> {
    let [kind, input] = parts(case)?;
    let kind = String::from_utf8_lossy(kind);
    let input = decoded(input);
    if let Some(leaf) = leaf(&kind) {
        return Ok(leaf(&input));
    }
    match kind.strip_prefix("judge-").and_then(judging::places) {
        Some(places) => Ok(judging::judged(places, &input)),
        None => Err(format!("there is no kind {kind}")),
    }
}

fn leaf(kind: &str) -> Option<Leaf> {
    Some(match kind {
        "value-text" => texts::value_text,
        "record-text" => texts::record_text,
        "string" => strings::string,
        "string-iwd" => strings::string_iwd,
        "string-connman" => strings::string_connman,
        "escape" => texts::escape,
        "flag-iwd" => words::flag_iwd,
        "flag-connman" => words::flag_connman,
        "type" => words::service_type,
        "privacy" => words::privacy,
        "security" => words::security,
        "address" => numbers::address,
        "netmask" => numbers::netmask,
        "prefix-length" => numbers::prefix_length,
        "mask-of" => numbers::mask_of,
        "ipv4" => numbers::ipv4,
        "ipv6" => ipv6::connman,
        "ipv6-address" => ipv6::address,
        "ipv6-length" => ipv6::length,
        "ipv6-written" => ipv6::written,
        "iwd-ipv6-address" => ipv6::iwd_address,
        "iwd-ipv6-gateway" => ipv6::iwd_gateway,
        "dns" => lists::dns,
        "nameservers" => lists::nameservers,
        "entries" => lists::entries,
        "mac" => hexes::mac,
        "key" => hexes::key,
        "ssid" => hexes::ssid,
        "line-iwd" => lines::line_iwd,
        "line-connman" => lines::line_connman,
        "iwd-name" => names::iwd_name,
        "connman-name" => names::connman_name,
        "open-name" => names::open_name,
        "psk-name" => names::psk_name,
        _ => return None,
    })
}
