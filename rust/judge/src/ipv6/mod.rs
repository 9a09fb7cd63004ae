//! What the cases met of fixed IPv6 addresses (request 2026-03), read off the answers: each sort of good and of bad text and length in each
//! setting that has them, each rule over the group IPv6, each way of breaking a record's IPv6, what iwd has no place for, and each form of
//! an address in written files.

mod mending;
mod records;
mod rules;
mod services;
mod texts;
mod values;

use crate::answer::Answer;
use crate::case::{Case, FileCase, RecordCase};
use crate::entry::Entry;
use crate::judged::Answers;
use crate::met::Met;
use crate::own;
use crate::reference::groups::groups;
use crate::reference::Dialect;
use texts::WRITTEN;
use values::Values;

/// What was written, by which entry point.
const WRITERS: [(Entry, [&str; 2]); 2] = [
    (Entry::WriteIwd, ["Address, by the writer", "Gateway, by the writer"]),
    (Entry::MoveService, ["Address, by the move", "Gateway, by the move"]),
];

/// The tables of what was met.
#[derive(Clone, Debug)]
pub struct Addresses {
    values: Values,
    rules: Met,
    services: Met,
    records: Met,
    written: Met,
}

impl Default for Addresses {
    fn default() -> Addresses {
        let places = WRITERS.iter().flat_map(|(_, places)| *places).collect();
        Addresses {
            values: Values::default(),
            rules: Met::events("iwd's group IPv6", &rules::RULES.map(|(name, ..)| name)),
            services: Met::events("IPv6 of services", &services::SERVICES),
            records: Met::events("IPv6 of records", &records::EVENTS.map(|(name, _)| name)),
            written: Met::new("IPv6 addresses written", places, WRITTEN.to_vec()),
        }
    }
}

impl Addresses {
    fn tables(&self) -> Vec<&Met> {
        let others = [&self.rules, &self.services, &self.records, &self.written];
        self.values.tables().into_iter().chain(others).collect()
    }

    /// Counts what the answers to a case show.
    pub fn add(&mut self, case: &Case, answers: &Answers) {
        match case {
            Case::File(case) => self.add_file(case, answers),
            Case::Record(case) => self.add_record(case, answers),
        }
        self.add_written(answers);
    }

    fn add_file(&mut self, case: &FileCase, answers: &Answers) {
        for (dialect, check) in [(Dialect::Iwd, Entry::CheckIwd), (Dialect::Connman, Entry::CheckConnman)] {
            let Some(Answer::Reading(reading)) = own::answer(answers, check) else {
                continue;
            };
            match reading.number {
                12 => self.values.add_refused(dialect, &case.file, reading.line),
                0 | 14 | 15 => self.add_good_lines(dialect, case, reading.number),
                _ => {}
            }
        }
        services::add(&mut self.services, case, answers);
    }

    /// A file whose lines are all good, and which was answered with the number.
    fn add_good_lines(&mut self, dialect: Dialect, case: &FileCase, number: u8) {
        if let Ok(groups) = groups(dialect, &case.file) {
            self.values.add_accepted(&case.file, &groups);
            rules::add(&mut self.rules, case, &groups, number);
        }
    }

    fn add_record(&mut self, case: &RecordCase, answers: &Answers) {
        let number = own::answer(answers, Entry::WriteIwd).map_or(0, Answer::number);
        for (place, (_, holds)) in records::EVENTS.iter().enumerate() {
            if holds(&case.record, number) {
                self.records.add(place, &[]);
            }
        }
    }

    /// The two addresses of what a function wrote.
    fn add_written(&mut self, answers: &Answers) {
        for (writer, (entry, _)) in WRITERS.iter().enumerate() {
            let Some(Answer::Written { written, file, .. }) = own::answer(answers, *entry) else {
                continue;
            };
            if let Some([address, gateway]) = file.get(..written.file_len).and_then(written_addresses) {
                self.written.add(2 * writer, address);
                self.written.add(2 * writer + 1, gateway);
            }
        }
    }

    /// Adds the counts of others.
    pub fn merge(&mut self, other: &Addresses) {
        self.values.merge(&other.values);
        self.rules.merge(&other.rules);
        self.services.merge(&other.services);
        self.records.merge(&other.records);
        self.written.merge(&other.written);
    }

    /// The counts in print, table by table.
    pub fn print(&self) -> String {
        self.tables().into_iter().map(Met::print).collect::<Vec<_>>().join("\n\n")
    }

    /// What was never met.
    pub fn faults(&self) -> Vec<String> {
        self.tables().into_iter().flat_map(Met::faults).collect()
    }
}

/// The texts of the address, without its length, and of the gateway in the group IPv6, which comes last in a written file.
fn written_addresses(file: &[u8]) -> Option<[&[u8]; 2]> {
    let mut lines = file.split(|&byte| byte == b'\n').rev().skip(1);
    let gateway = lines.next()?.strip_prefix(b"Gateway=")?;
    let address = lines.next()?.strip_prefix(b"Address=")?;
    let slash = address.iter().position(|&byte| byte == b'/')?;
    Some([&address[..slash], gateway])
}
