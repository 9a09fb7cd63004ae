//! The right name of a file whose name is refused.

use crate::hex::{decoded, encoded};
use crate::report::is_telling_name;
use crate::visible::visible;

/// The name that the file should have, where it can be told.
pub fn right_name(name: &[u8]) -> Option<String> {
    let (stem, suffix) = parts(name.trim_ascii_end())?;
    // An editor on Windows puts .txt behind a name, and does not show it.
    let (stem, suffix) = match suffix.as_slice() {
        b".txt" => parts(stem)?,
        _ => (stem, suffix),
    };
    let right = match suffix.as_slice() {
        b".config" | b".conf" => stem.iter().filter(|byte| byte.is_ascii_alphanumeric()).copied().collect(),
        b".psk" | b".open" => iwd_stem(stem)?,
        _ => return None,
    };
    let suffix = if suffix == b".conf" { &b".config"[..] } else { &suffix };
    let right = [&right, suffix].concat();
    let is_right = right != name && !right.starts_with(b".") && !is_telling_name(&right);
    is_right.then(|| visible(&right))
}

/// A name in two parts, before its last dot and from there on; the second in lower case.
fn parts(name: &[u8]) -> Option<(&[u8], Vec<u8>)> {
    let dot = name.iter().rposition(|byte| *byte == b'.')?;
    Some((&name[..dot], name[dot..].to_ascii_lowercase()))
}

/// The stem of a network's file: its name where that may stand plainly, else its hex.
fn iwd_stem(stem: &[u8]) -> Option<Vec<u8>> {
    let network = stem.strip_prefix(b"=").and_then(decoded).unwrap_or_else(|| stem.to_vec());
    if !(1..=32).contains(&network.len()) {
        return None;
    }
    let is_plain = network.iter().all(|byte| byte.is_ascii_alphanumeric() || b" _-".contains(byte));
    Some(if is_plain {
        network
    } else {
        format!("={}", encoded(&network)).into_bytes()
    })
}
