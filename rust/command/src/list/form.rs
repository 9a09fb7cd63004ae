//! The list as JSON.

use super::rows::{Moves, Rank, Row};
use super::Listed;
use crate::addressing::Addressing;
use crate::forms::{self, bytes_members, head, kind, path_members};
use crate::json::{members, number, Json, Members};
use crate::secrets::swallowed_secret;
use std::ffi::OsStr;
use std::os::unix::ffi::OsStrExt;
use std::path::Path;

/// The rows, then what several files tell, then the counts.
pub fn lines(listed: &Listed) -> Vec<String> {
    let rows = listed.rows.iter().map(row);
    let across = listed.across.iter().map(|found| {
        let network = found.network.as_deref().filter(|network| swallowed_secret(network).is_none());
        forms::finding("list", &found.files, &found.warning, network)
    });
    let warnings = listed.tally.warnings + listed.across.len();
    let counts = forms::counts_with("list", &listed.tally, warnings, None);
    rows.chain(across).chain([counts]).map(|form| form.to_string()).collect()
}

fn row(row: &Row) -> Json {
    let mut found = head("row", "list");
    found.extend(path_members("file", Some(&row.path)));
    let service = row.service.as_ref();
    found.extend(members([
        ("kind", kind(&row.path)),
        ("service", number(service.map(|(number, _, _)| *number))),
        ("group", Json::from(service.map(|(_, group, _)| group))),
        ("line", number(service.map(|(_, _, line)| *line))),
        ("state", Json::text(state(row.rank))),
    ]));
    let network = row.network.as_deref();
    found.extend(bytes_members(
        "network",
        network.filter(|network| swallowed_secret(network).is_none()),
    ));
    let record = row.record.as_ref();
    found.extend(members([
        ("credential", Json::from(record.map(|record| record.credential.word()))),
        ("hidden", record.map_or(Json::Null, |record| Json::Bool(record.hidden))),
        ("ipv4", record.map_or(Json::Null, |record| Addressing::from(record.ipv4).json())),
        ("ipv6", record.map_or(Json::Null, |record| Addressing::from(record.ipv6).json())),
    ]));
    found.extend(moves(&row.moves));
    found.extend(members([
        ("refusals", forms::refusals(&row.refusals)),
        ("warnings", Json::List(row.warnings.iter().map(forms::warning).collect())),
        ("remedy", Json::from(row.remedy.as_ref())),
    ]));
    Json::Object(found)
}

/// Whether it moves, and under which name.
fn moves(moves: &Moves) -> Members {
    let (does_move, name) = match moves {
        Moves::Yes(name) => (Json::Bool(true), Some(Path::new(OsStr::from_bytes(name)))),
        Moves::No => (Json::Bool(false), None),
        Moves::IsIwd | Moves::Unknown => (Json::Null, None),
    };
    let mut found = members([("moves", does_move)]);
    found.extend(path_members("iwd_name", name));
    found
}

fn state(rank: Rank) -> &'static str {
    match rank {
        Rank::OpenBySilence => "open-by-silence",
        Rank::Refused => "refused",
        Rank::Unreadable => "unreadable",
        Rank::Warned => "warning",
        Rank::Unmovable => "unmovable",
        Rank::Good => "good",
    }
}
