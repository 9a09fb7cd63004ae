//! Drafts of iwd files: legal ones, and ones with any keys at all.

use super::draft::{Draft, Piece};
use super::keys::{find, Key, ENABLED, IWD_GROUPS};
use super::names::good_iwd;
use super::values::good;
use crate::random::Random;
use crate::reference::Dialect;

/// A legal iwd file under a legal name.
pub fn valid(random: &mut Random) -> Draft {
    mostly_legal(random, ipv6)
}

/// An iwd file whose lines are legal, with any keys in the group IPv6.
pub fn loose_ipv6(random: &mut Random) -> Draft {
    mostly_legal(random, |random| {
        let keys = keys_of_group("IPv6").iter().filter(|_| random.percent(65));
        keys.copied().collect()
    })
}

/// An iwd file under a legal name, all of it legal but perhaps its group IPv6.
fn mostly_legal(random: &mut Random, ipv6: fn(&mut Random) -> Vec<Key>) -> Draft {
    let key = random.percent(65);
    let name = good_iwd(random, key);
    draft(random, name, |random, group| match group {
        "Security" if key => Some(security(random)),
        "Security" => Some(Vec::new()).filter(|_| random.once_in(8)),
        "IPv4" if random.once_in(2) => Some(ipv4(random)),
        "IPv6" if random.once_in(2) => Some(ipv6(random)),
        "IPv4" | "IPv6" => None,
        _ => some_keys(random, group),
    })
}

/// An iwd file whose lines are legal, with any keys in each group.
pub fn loose(random: &mut Random) -> Draft {
    let key = random.once_in(2);
    let name = good_iwd(random, key);
    draft(random, name, some_keys)
}

fn draft(random: &mut Random, name: Vec<u8>, keys_of: impl Fn(&mut Random, &'static str) -> Option<Vec<Key>>) -> Draft {
    let mut order = IWD_GROUPS;
    if random.once_in(2) {
        random.shuffle(&mut order);
    }
    let mut pieces = Vec::new();
    for (group, _) in order {
        if let Some(mut keys) = keys_of(random, group) {
            random.shuffle(&mut keys);
            pieces.push(Piece::header(group));
            pieces.extend(
                keys.into_iter()
                    .map(|key| Piece::setting(key.name, good(random, Dialect::Iwd, key.kind))),
            );
        }
    }
    Draft {
        dialect: Dialect::Iwd,
        name,
        pieces,
    }
}

fn keys_of_group(group: &str) -> &'static [Key] {
    IWD_GROUPS.iter().find(|(name, _)| *name == group).map_or(&[], |(_, keys)| keys)
}

/// The keys of these names in a group.
fn named(group: &str, names: &[&str]) -> Vec<Key> {
    names.iter().map(|name| find(keys_of_group(group), name)).collect()
}

/// Any keys of a group, or no group.
fn some_keys(random: &mut Random, group: &'static str) -> Option<Vec<Key>> {
    if random.once_in(2) {
        return None;
    }
    Some(keys_of_group(group).iter().filter(|_| random.percent(40)).copied().collect())
}

fn security(random: &mut Random) -> Vec<Key> {
    let names: &[&str] = match random.below(8) {
        0 => &["Passphrase", "PreSharedKey"],
        1 | 2 => &["PreSharedKey"],
        _ => &["Passphrase"],
    };
    named("Security", names)
}

/// Keys of IPv4 that go together.
fn ipv4(random: &mut Random) -> Vec<Key> {
    let mut names: Vec<&str> = Vec::new();
    if random.percent(70) {
        names.extend(["Address", "Gateway"]);
        names.extend(["Netmask", "Broadcast"].iter().filter(|_| random.once_in(2)));
    }
    names.extend(["DNS", "DomainName", "SendHostname"].iter().filter(|_| random.percent(35)));
    named("IPv4", &names)
}

/// Keys of IPv6 that go together.
fn ipv6(random: &mut Random) -> Vec<Key> {
    match random.weighted(&[6, 2, 3, 1]) {
        0 => named("IPv6", &["Address", "Gateway"]),
        1 => [named("IPv6", &["Address", "Gateway"]), vec![ENABLED]].concat(),
        2 => named("IPv6", &["Enabled"]),
        _ => Vec::new(),
    }
}
