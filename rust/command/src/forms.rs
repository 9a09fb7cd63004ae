//! The JSON that programs read, one object on each line. The man page tells its form, and `format` is raised when that changes.

use crate::diagnosis::Finding;
use crate::hex::encoded;
use crate::items::Tally;
use crate::json::{members, number, Json, Members};
use crate::report::is_telling_name;
use crate::warnings::Warning;
use qewaris::Counts;
use std::ffi::OsStr;
use std::os::unix::ffi::OsStrExt;
use std::path::{Path, PathBuf};

const FORMAT: usize = 4;

/// How a file came out.
pub enum State<'a> {
    Good(&'a Counts),
    Refused(&'a Finding, Option<String>),
    /// With the reason.
    Unreadable(&'a str),
    Skipped(&'a str),
}

impl State<'_> {
    fn name(&self) -> &'static str {
        match self {
            State::Good(_) => "good",
            State::Refused(..) => "refused",
            State::Unreadable(_) => "unreadable",
            State::Skipped(_) => "skipped",
        }
    }
}

/// What an object of any type begins with.
pub fn head(type_name: &str, command: &str) -> Members {
    members([
        ("format", Json::Number(FORMAT)),
        ("type", Json::text(type_name)),
        ("command", Json::text(command)),
    ])
}

/// A path in two members: as text, null where it is not UTF-8, and its bytes in hex. Both are null where it tells a secret.
pub fn path_members(name: &str, path: Option<&Path>) -> Members {
    let shown = path.filter(|path| !is_telling_name(path.file_name().map(OsStr::as_bytes).unwrap_or_default()));
    let bytes = shown.map(|path| path.as_os_str().as_bytes());
    bytes_members(name, bytes)
}

/// Bytes in two members: as text, null where they are not UTF-8, and in hex.
pub fn bytes_members(name: &str, bytes: Option<&[u8]>) -> Members {
    members([
        (name, Json::from(bytes.and_then(|bytes| std::str::from_utf8(bytes).ok()))),
        (&format!("{name}_hex"), Json::from(bytes.map(encoded))),
    ])
}

/// Whose file it is by its suffix, or null.
pub fn kind(path: &Path) -> Json {
    let name = path.as_os_str().as_bytes();
    if name.ends_with(b".config") {
        Json::text("connman")
    } else if name.ends_with(b".open") || name.ends_with(b".psk") {
        Json::text("iwd")
    } else {
        Json::Null
    }
}

/// What a file holds, by the names of the members; null where it is not shown.
pub struct Contents {
    pub settings: Json,
    pub record: Json,
    pub global: Json,
    pub services: Json,
}

impl Contents {
    pub const NONE: Contents = Contents {
        settings: Json::Null,
        record: Json::Null,
        global: Json::Null,
        services: Json::Null,
    };
}

/// The object of a file that is not shown.
pub fn file(command: &str, path: &Path, state: &State<'_>, warnings: &[Warning]) -> Json {
    file_with(command, path, state, warnings, Contents::NONE)
}

/// The object of a file.
pub fn file_with(command: &str, path: &Path, state: &State<'_>, warnings: &[Warning], contents: Contents) -> Json {
    let (mut counts, mut refused, mut reason) = (None, Json::Null, None);
    match state {
        State::Good(has) => counts = Some(has),
        State::Refused(finding, advice) => refused = refusal(finding, advice.as_deref()),
        State::Unreadable(sentence) | State::Skipped(sentence) => reason = Some(*sentence),
    }
    let mut found = head("file", command);
    found.extend(path_members("file", Some(path)));
    found.extend(members([
        ("kind", kind(path)),
        ("state", Json::text(state.name())),
        ("reason", Json::from(reason)),
        ("refusal", refused),
        ("warnings", Json::List(warnings.iter().map(warning).collect())),
        ("setting_count", number(counts.map(|has| has.settings))),
        ("service_count", number(counts.map(|has| has.services))),
        ("settings", contents.settings),
        ("record", contents.record),
        ("global", contents.global),
        ("services", contents.services),
    ]));
    Json::Object(found)
}

/// A refusal, in words that do not tell the length of a secret.
pub fn refusal(finding: &Finding, advice: Option<&str>) -> Json {
    Json::object([
        ("number", Json::Number(finding.number.into())),
        ("line", number(finding.line)),
        ("sentence", Json::text(&finding.discreet)),
        ("advice", Json::from(advice)),
    ])
}

pub fn refusals(findings: &[Finding]) -> Json {
    Json::List(findings.iter().map(|finding| refusal(finding, None)).collect())
}

pub fn warning(warning: &Warning) -> Json {
    Json::object([
        ("word", Json::text(warning.word.row().name)),
        ("line", number(warning.line)),
        ("service", number(warning.service)),
        ("sentence", Json::text(&warning.sentence)),
    ])
}

/// A finding that is about no single service: its word and sentence, the files that it is about, and the network.
pub fn finding(command: &str, files: &[PathBuf], warning: &Warning, network: Option<&[u8]>) -> Json {
    let mut found = head("finding", command);
    found.extend(members([
        ("word", Json::text(warning.word.row().name)),
        ("sentence", Json::text(&warning.sentence)),
    ]));
    found.extend(bytes_members("network", network));
    let files = files.iter().map(|path| Json::Object(path_members("file", Some(path))));
    found.push(("files".to_string(), Json::List(files.collect())));
    Json::Object(found)
}

/// The object that counts the files, the last line.
pub fn counts(command: &str, tally: &Tally) -> Json {
    counts_with(command, tally, tally.warnings, None)
}

/// The same of a move, with the services that were written and left out.
pub fn counts_with(command: &str, tally: &Tally, warnings: usize, services: Option<(usize, usize)>) -> Json {
    let mut found = head("counts", command);
    found.extend(members([
        ("good", Json::Number(tally.good)),
        ("refused", Json::Number(tally.refused)),
        ("unreadable", Json::Number(tally.unreadable)),
        ("skipped", Json::Number(tally.skipped())),
        ("warnings", Json::Number(warnings)),
        ("written", number(services.map(|(written, _)| written))),
        ("left_out", number(services.map(|(_, left_out)| left_out))),
    ]));
    Json::Object(found)
}
