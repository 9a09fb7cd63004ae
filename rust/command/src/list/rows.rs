//! The rows of a list: one for each service and each iwd file, and one for each file that has neither.

use crate::addressing::Addressing;
use crate::advice::advice;
use crate::catalogue::{counted, Dialect};
use crate::diagnosis::{finding, Finding};
use crate::input::Input;
use crate::layout;
use crate::output::Style;
use crate::report::{shown_path, Told, HIDDEN};
use crate::secrets::swallowed_secret;
use crate::services::Service;
use crate::visible::string;
use crate::warnings::{found_in, Warning, Word};
use qewaris::{Credential, Ipv6, JoinRecord};
use std::path::{Path, PathBuf};

/// How bad it is, the worst first.
#[derive(Clone, Copy, Debug, PartialEq, Eq, PartialOrd, Ord)]
pub enum Rank {
    OpenBySilence,
    Refused,
    Unreadable,
    Warned,
    Unmovable,
    Good,
}

impl Rank {
    pub const ALL: [Rank; 6] = [
        Rank::OpenBySilence,
        Rank::Refused,
        Rank::Unreadable,
        Rank::Warned,
        Rank::Unmovable,
        Rank::Good,
    ];

    /// What a row of this rank is called.
    pub fn name(self) -> &'static str {
        match self {
            Rank::OpenBySilence => "OPEN by silence",
            Rank::Refused => "refused",
            Rank::Unreadable => "unreadable",
            Rank::Warned => "warning",
            Rank::Unmovable => "does not move",
            Rank::Good => "good",
        }
    }

    /// What rows of this rank are counted as.
    pub fn counted_as(self) -> &'static str {
        match self {
            Rank::Warned => "with a warning",
            Rank::Unmovable => "not to be moved",
            rank => rank.name(),
        }
    }
}

/// Whether something moves to iwd.
#[derive(Clone, Debug, PartialEq, Eq)]
pub enum Moves {
    /// Under this name.
    Yes(Vec<u8>),
    No,
    /// It is an iwd file.
    IsIwd,
    /// It could not be read, or is refused.
    Unknown,
}

pub struct Row {
    pub path: PathBuf,
    /// Number, group and line of a service.
    pub service: Option<(usize, String, usize)>,
    /// Whether its file has several services.
    pub is_one_of_several: bool,
    pub rank: Rank,
    pub network: Option<Vec<u8>>,
    /// What the network asks for, in words.
    pub key: &'static str,
    pub record: Option<JoinRecord>,
    pub moves: Moves,
    /// Why the file is refused, or every line that stands in the way of a move.
    pub refusals: Vec<Finding>,
    pub warnings: Vec<Warning>,
    /// What to do, in one sentence; none where there is nothing to do.
    pub remedy: Option<String>,
}

impl Row {
    /// A file of which nothing more is known.
    pub fn unreadable(path: PathBuf, sentence: String) -> Row {
        Row {
            path,
            service: None,
            is_one_of_several: false,
            rank: Rank::Unreadable,
            network: None,
            key: "",
            record: None,
            moves: Moves::Unknown,
            refusals: Vec::new(),
            warnings: Vec::new(),
            remedy: Some(sentence),
        }
    }

    fn refused(input: &Input, found: Finding) -> Row {
        let line = found.line.map_or(String::new(), |line| format!("line {line}: "));
        let more = advice(input, &found).map_or(String::new(), |advice| format!("; {advice}"));
        Row {
            rank: Rank::Refused,
            remedy: Some(format!("{line}{}{more}", found.discreet)),
            refusals: vec![found],
            ..Row::unreadable(input.path.clone(), String::new())
        }
    }

    /// The name of the network as it is shown; hidden where it seems to have swallowed a line.
    pub fn shown_network(&self) -> Option<String> {
        let name = self.network.as_deref()?;
        match swallowed_secret(name) {
            Some(_) => Some(HIDDEN.to_string()),
            None => Some(string(name, &[])),
        }
    }

    pub fn shown_file(&self) -> String {
        match &self.service {
            Some((number, _, _)) if self.is_one_of_several => format!("{}, service {number}", shown_path(&self.path)),
            _ => shown_path(&self.path),
        }
    }

    /// Whether the network is hidden, in words.
    pub fn shown_hidden(&self) -> &'static str {
        match &self.record {
            Some(record) if record.hidden => "hidden",
            _ => "",
        }
    }

    /// The IPv4 address, or how the till gets one, and an IPv6 address that is fixed.
    pub fn shown_address(&self) -> String {
        let Some(record) = &self.record else { return String::new() };
        let ipv4 = Addressing::from(record.ipv4).short();
        match record.ipv6 {
            Ipv6::Static(_) => format!("{ipv4}, {}", Addressing::from(record.ipv6).short()),
            _ => ipv4,
        }
    }

    pub fn shown_moves(&self) -> &'static str {
        match self.moves {
            Moves::Yes(_) => "yes",
            Moves::No => "no",
            Moves::IsIwd => "is iwd",
            Moves::Unknown => "",
        }
    }

    /// Its warnings, and every line that stands in the way of its move.
    pub fn details(&self) -> impl Iterator<Item = Told<'_>> {
        let warnings = self.warnings.iter().map(|warning| Told::warning(&self.path, warning));
        let in_the_way = self.refusals.iter().filter(|_| self.moves == Moves::No);
        warnings.chain(in_the_way.map(|finding| Told {
            path: &self.path,
            line: finding.line,
            style: Style::Warning,
            label: "does not move:",
            sentence: &finding.discreet,
            name: finding.number.to_string(),
        }))
    }

    pub fn dialect(&self) -> Dialect {
        Dialect::of(self.path.as_os_str().as_encoded_bytes())
    }
}

/// The rows of a file that was read.
pub fn rows(input: &Input, with_warnings: bool) -> Vec<Row> {
    let counts = match input.check() {
        Ok(counts) => counts,
        Err(refusal) => return vec![Row::refused(input, finding(&input.subject(), &refusal))],
    };
    let warnings = if with_warnings { found_in(input) } else { Vec::new() };
    match input.dialect() {
        Dialect::Iwd => vec![of_iwd(input, warnings)],
        Dialect::Connman if counts.services == 0 => vec![ranked(Row {
            moves: Moves::No,
            warnings,
            ..Row::unreadable(input.path.clone(), String::new())
        })],
        Dialect::Connman => {
            let services = (1..=counts.services).filter_map(|number| Service::of(input, number).ok());
            services
                .map(|service| of_service(input, service, counts.services > 1, &warnings))
                .collect()
        }
    }
}

fn of_iwd(input: &Input, warnings: Vec<Warning>) -> Row {
    let record = qewaris::iwd_record(&input.name, &input.bytes).ok();
    ranked(Row {
        network: record.as_ref().map(|record| record.name.clone()),
        key: record.as_ref().map_or("", key_of),
        record,
        moves: Moves::IsIwd,
        warnings,
        ..Row::unreadable(input.path.clone(), String::new())
    })
}

fn of_service(input: &Input, service: Service, is_one_of_several: bool, warnings: &[Warning]) -> Row {
    let moves = service.moved.as_ref().map_or(Moves::No, |iwd| Moves::Yes(iwd.name.clone()));
    // What all services of a file share is told with the first.
    let is_own = |warning: &&Warning| warning.service.unwrap_or(1) == service.number;
    let is_due = |warning: &&Warning| !warning.when_moved || moves != Moves::No;
    let record = service.record.ok();
    ranked(Row {
        network: record
            .as_ref()
            .map(|record| record.name.clone())
            .or_else(|| name_of(input, service.number)),
        key: record.as_ref().map_or_else(|| other_key(input, service.number), key_of),
        record,
        refusals: service.moved.err().unwrap_or_default(),
        warnings: warnings.iter().filter(is_own).filter(is_due).cloned().collect(),
        service: Some((service.number, service.group, service.line)),
        is_one_of_several,
        moves,
        ..Row::unreadable(input.path.clone(), String::new())
    })
}

/// The key of a record in words.
fn key_of(record: &JoinRecord) -> &'static str {
    match &record.credential {
        Credential::None => "OPEN",
        other => other.word(),
    }
}

/// What a service without a record asks for.
fn other_key(input: &Input, number: usize) -> &'static str {
    let services = layout::services(&input.bytes);
    let security = services.get(number - 1).and_then(|service| service.setting("Security"));
    match security.map(|security| security.value) {
        Some(b"wep") => "wep",
        Some(b"ieee8021x") => "802.1X",
        _ => "no wireless",
    }
}

/// The network of a service that has no record.
fn name_of(input: &Input, number: usize) -> Option<Vec<u8>> {
    let (name, file) = (input.name.as_slice(), input.bytes.as_slice());
    let ssid = qewaris::service_settings(name, file, number).ok()?.network.ssid;
    ssid.or_else(|| Some(qewaris::service_name(name, file, number).ok()??.unescaped().into_owned()))
}

/// The row with its rank and what to do.
fn ranked(row: Row) -> Row {
    let worst = row.warnings.iter().min_by_key(|warning| warning.word);
    let (rank, remedy) = match (worst, row.refusals.first()) {
        (Some(warning), _) => {
            let rank = if warning.word == Word::OpenBySilence {
                Rank::OpenBySilence
            } else {
                Rank::Warned
            };
            let remedy = warning.word.row().remedy.trim_end_matches('.');
            (rank, Some(more(&at(warning.line, remedy), row.warnings.len() - 1, "warning")))
        }
        (None, Some(first)) => {
            let sentence = at(first.line, &first.discreet);
            (Rank::Unmovable, Some(more(&sentence, row.refusals.len() - 1, "line")))
        }
        (None, None) => (Rank::Good, None),
    };
    Row { rank, remedy, ..row }
}

fn at(line: Option<usize>, sentence: &str) -> String {
    line.map_or(sentence.to_string(), |line| format!("line {line}: {sentence}"))
}

fn more(sentence: &str, count: usize, thing: &str) -> String {
    match count {
        0 => sentence.to_string(),
        count => format!("{sentence} (and {})", counted(count, &format!("more {thing}"))),
    }
}

/// Ranks a row as one with a warning that several files earn together.
pub fn warn(row: &mut Row, word: Word) {
    if row.rank > Rank::Warned {
        row.rank = Rank::Warned;
        row.remedy = Some(word.row().remedy.trim_end_matches('.').to_string());
    }
}

/// The order of a list: the worst first, then by file.
pub fn sort(rows: &mut [Row]) {
    let number = |row: &Row| row.service.as_ref().map_or(0, |(number, _, _)| *number);
    rows.sort_by(|one, other| {
        let key = |row: &Row| (row.rank, natural(&row.path), number(row));
        key(one).cmp(&key(other))
    });
}

/// A path for sorting, with its numbers by their value: till 2 comes before till 10.
fn natural(path: &Path) -> Vec<(u64, Vec<u8>)> {
    let bytes = path.as_os_str().as_encoded_bytes();
    let parts = bytes.chunk_by(|one, other| one.is_ascii_digit() == other.is_ascii_digit());
    parts
        .map(|part| {
            let number = std::str::from_utf8(part).ok().and_then(|text| text.parse().ok());
            (number.unwrap_or(0), part.to_vec())
        })
        .collect()
}
