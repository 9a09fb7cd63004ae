//! What only several files can tell.

use super::rows::Row;
use crate::addressing::{address_text, fixed_addresses};
use crate::catalogue::Dialect;
use crate::report::{shown_path, HIDDEN};
use crate::secrets::swallowed_secret;
use crate::visible::quoted_string;
use crate::warnings::{Warning, Word};
use qewaris::Credential;
use std::collections::BTreeMap;
use std::net::IpAddr;
use std::path::{Path, PathBuf};

/// A finding about several files.
pub struct Across {
    pub warning: Warning,
    pub network: Option<Vec<u8>>,
    pub files: Vec<PathBuf>,
}

impl Across {
    /// A folder without a network file.
    pub fn empty(path: PathBuf) -> Across {
        let sentence = format!("{}: {}", shown_path(&path), Word::EmptyFolder.row().sentence);
        Across {
            warning: Warning {
                sentence,
                ..Warning::new(Word::EmptyFolder, None, &[])
            },
            network: None,
            files: vec![path],
        }
    }
}

/// All findings, network by network.
pub fn across(rows: &[Row]) -> Vec<Across> {
    let mut networks: BTreeMap<&[u8], Vec<&Row>> = BTreeMap::new();
    for row in rows {
        if let Some(record) = &row.record {
            networks.entry(&record.name).or_default().push(row);
        }
    }
    let mut found = Vec::new();
    for (network, rows) in networks {
        found.extend(keys(network, &rows));
        found.extend(suffixes(network, &rows));
        found.extend(addresses(network, &rows));
    }
    found
}

fn shown(network: &[u8]) -> String {
    match swallowed_secret(network) {
        Some(_) => HIDDEN.to_string(),
        None => quoted_string(network),
    }
}

/// One network with different passphrases, or different keys: how many have each, and never which.
fn keys(network: &[u8], rows: &[&Row]) -> Vec<Across> {
    let mut passphrases: BTreeMap<&[u8], usize> = BTreeMap::new();
    let mut keys: BTreeMap<&[u8], usize> = BTreeMap::new();
    for row in rows {
        match row.record.as_ref().map(|record| &record.credential) {
            Some(Credential::Passphrase(passphrase)) => *passphrases.entry(passphrase).or_default() += 1,
            Some(Credential::Key(key)) => *keys.entry(key).or_default() += 1,
            _ => {}
        }
    }
    let told = |counts: BTreeMap<&[u8], usize>, kind: &str| {
        let mut counts: Vec<usize> = counts.into_values().collect();
        counts.sort_by(|one, other| other.cmp(one));
        let have = |count: &usize| format!("{count} {}", if *count == 1 { "has" } else { "have" });
        let others = counts.iter().skip(1).map(|count| format!(", {} another", have(count)));
        let found = counts.first().map_or(String::new(), |first| format!("{} one", have(first)));
        let parts = [
            ("network", shown(network)),
            ("count", counts.len().to_string()),
            ("kind", kind.to_string()),
            ("found", found + &others.collect::<String>()),
        ];
        (counts.len() > 1).then(|| Across {
            warning: Warning::new(Word::TwoKeys, None, &parts),
            network: Some(network.to_vec()),
            files: Vec::new(),
        })
    };
    [told(passphrases, "passphrases"), told(keys, "keys")]
        .into_iter()
        .flatten()
        .collect()
}

/// A network that is open in one place and has a key in another.
fn suffixes(network: &[u8], rows: &[&Row]) -> Option<Across> {
    let is_open = |row: &&&Row| row.record.as_ref().is_some_and(|record| record.credential == Credential::None);
    let open: Vec<&Path> = rows.iter().filter(is_open).map(|row| row.path.as_path()).collect();
    let keyed = rows.len() - open.len();
    if open.is_empty() || keyed == 0 {
        return None;
    }
    let names: Vec<String> = open.iter().map(|path| shown_path(path)).collect();
    let found = format!(
        "The network {} has a key in {keyed} and is OPEN in {}: {}",
        shown(network),
        open.len(),
        names.join(", ")
    );
    Some(Across {
        warning: Warning::new(Word::BothSuffixes, None, &[("found", found)]),
        network: Some(network.to_vec()),
        files: open.into_iter().map(Path::to_path_buf).collect(),
    })
}

/// One address in one network, in two files of one kind: an old file and the one that it was moved to are of one till.
fn addresses(network: &[u8], rows: &[&Row]) -> Vec<Across> {
    let mut addresses: BTreeMap<(bool, IpAddr), Vec<&Path>> = BTreeMap::new();
    for row in rows {
        for address in row.record.iter().flat_map(fixed_addresses) {
            let files = addresses.entry((row.dialect() == Dialect::Iwd, address)).or_default();
            if !files.contains(&row.path.as_path()) {
                files.push(&row.path);
            }
        }
    }
    let twice = addresses.into_iter().filter(|(_, files)| files.len() > 1);
    twice
        .map(|((_, address), files)| {
            let names: Vec<String> = files.iter().map(|path| shown_path(path)).collect();
            let parts = [
                ("found", address_text(address)),
                ("count", files.len().to_string()),
                ("network", shown(network)),
                ("files", names.join(", ")),
            ];
            Across {
                warning: Warning::new(Word::OneAddress, None, &parts),
                network: Some(network.to_vec()),
                files: files.into_iter().map(Path::to_path_buf).collect(),
            }
        })
        .collect()
}
