//! What the cases met of the escapes of strings (request 2026-02), read off the answers: each escape and each sort of bad one in each
//! string, what stands before the whitespace that ConnMan drops, backslashes in its lists, which know no escapes, and what escapes
//! brought into services that were moved.

mod signs;

use crate::answer::Answer;
use crate::blamed::blamed;
use crate::case::Case;
use crate::entry::Entry;
use crate::judged::Answers;
use crate::met::Met;
use crate::own;
use crate::reference::dialect::GroupKind;
use crate::reference::lines::is_whitespace;
use crate::reference::text::is_broken;
use crate::reference::{Dialect, Fault};
use qewaris::raw;
use signs::{BAD, BEFORE_DROPPED, ENDS, ESCAPES, MOVED, NO_ESCAPE};

/// The strings, ConnMan's first: the lookup, the dialect, the group and the key.
const STRINGS: [(Entry, Dialect, GroupKind, &str); 7] = [
    (Entry::GlobalName, Dialect::Connman, GroupKind::Global, "Name"),
    (Entry::GlobalDescription, Dialect::Connman, GroupKind::Global, "Description"),
    (Entry::ServiceName, Dialect::Connman, GroupKind::Service, "Name"),
    (Entry::ServicePassphrase, Dialect::Connman, GroupKind::Service, "Passphrase"),
    (Entry::ServiceDomain, Dialect::Connman, GroupKind::Service, "Domain"),
    (Entry::IwdPassphrase, Dialect::Iwd, GroupKind::Security, "Passphrase"),
    (Entry::IwdDomainName, Dialect::Iwd, GroupKind::Ipv4, "DomainName"),
];

/// How many of them are ConnMan's.
const OF_CONNMAN: usize = 5;

/// ConnMan's lists.
const LISTS: [&str; 2] = ["SearchDomains", "Timeservers"];

/// The tables of what was met.
#[derive(Clone, Debug)]
pub struct Escapes {
    accepted: Met,
    refused: Met,
    before_dropped: Met,
    lists: Met,
    moved: Met,
}

impl Default for Escapes {
    fn default() -> Escapes {
        let strings: Vec<&'static str> = STRINGS.iter().map(|(entry, ..)| entry.name()).collect();
        let of_connman = strings[..OF_CONNMAN].to_vec();
        let of_services = own::SERVICE_STRINGS.iter().map(|entry| entry.name()).collect();
        let ordinary = [&ESCAPES[..], &[NO_ESCAPE]].concat();
        Escapes {
            accepted: Met::new("strings accepted with", strings.clone(), [&ESCAPES[..], &ENDS].concat()),
            refused: Met::new("strings refused for \\ and", strings, BAD.to_vec()),
            before_dropped: Met::new("before blanks dropped", of_connman, BEFORE_DROPPED.to_vec()),
            lists: Met::new("lists accepted with", LISTS.to_vec(), ordinary),
            moved: Met::new("services moved with", of_services, MOVED.to_vec()),
        }
    }
}

impl Escapes {
    fn tables(&self) -> [&Met; 5] {
        [&self.accepted, &self.refused, &self.before_dropped, &self.lists, &self.moved]
    }

    /// Counts what the answers to a case show.
    pub fn add(&mut self, case: &Case, answers: &Answers) {
        let Case::File(case) = case else { return };
        for (entry, outcome) in answers {
            match &outcome.answer {
                Answer::Text(text) => self.add_accepted(*entry, &case.file, text),
                Answer::Reading(reading) => self.add_refused(*entry, &case.file, reading),
                Answer::ServiceSettings(settings) => self.add_lists(&case.file, &settings.addresses),
                _ => {}
            }
        }
        self.add_moved(answers);
    }

    fn add_accepted(&mut self, asked: Entry, file: &[u8], text: &raw::Text) {
        let string = STRINGS.iter().position(|(entry, ..)| *entry == asked);
        if let (Some(string), Some(value)) = (string, stretch(file, text.start, text.length)) {
            self.accepted.add(string, value);
            self.add_before_dropped(string, value, &file[text.start + text.length..]);
        }
    }

    /// A string that is refused for an escape, its text being sound otherwise.
    fn add_refused(&mut self, check: Entry, file: &[u8], reading: &raw::Reading) {
        if reading.number != Fault::ValueText.number() {
            return;
        }
        let dialect = if check == Entry::CheckIwd { Dialect::Iwd } else { Dialect::Connman };
        let Some(setting) = blamed(dialect, file, reading.line) else {
            return;
        };
        let group = dialect.group(&setting.group);
        let string = STRINGS
            .iter()
            .position(|&(_, of, kind, key)| of == dialect && Some(kind) == group && key == setting.key);
        let value = stretch(file, setting.start, setting.length).filter(|value| !is_broken(value));
        if let (Some(string), Some(value)) = (string, value) {
            self.refused.add(string, value);
            self.add_before_dropped(string, value, &file[setting.start + setting.length..]);
        }
    }

    fn add_before_dropped(&mut self, string: usize, value: &[u8], behind: &[u8]) {
        if string < OF_CONNMAN && behind.first().is_some_and(|&byte| is_whitespace(byte)) {
            self.before_dropped.add(string, value);
        }
    }

    fn add_lists(&mut self, file: &[u8], addresses: &raw::ServiceAddresses) {
        for (list, entries) in [addresses.search_domains, addresses.timeservers].iter().enumerate() {
            for (&start, &length) in entries.start.iter().zip(&entries.length) {
                if let Some(entry) = stretch(file, start, length) {
                    self.lists.add(list, entry);
                }
            }
        }
    }

    fn add_moved(&mut self, answers: &Answers) {
        let is_moved = own::answer(answers, Entry::MoveService).is_some_and(|moved| moved.number() == 0);
        if let (true, Some(strings)) = (is_moved, own::service_strings(answers)) {
            for (string, bytes) in strings.iter().enumerate() {
                self.moved.add(string, bytes);
            }
        }
    }

    /// Adds the counts of others.
    pub fn merge(&mut self, other: &Escapes) {
        self.accepted.merge(&other.accepted);
        self.refused.merge(&other.refused);
        self.before_dropped.merge(&other.before_dropped);
        self.lists.merge(&other.lists);
        self.moved.merge(&other.moved);
    }

    /// The counts in print, table by table.
    pub fn print(&self) -> String {
        self.tables().map(Met::print).join("\n\n")
    }

    /// What was never met.
    pub fn faults(&self) -> Vec<String> {
        self.tables().into_iter().flat_map(Met::faults).collect()
    }
}

/// The part of a file where an answer says that something stands; none where it says that nothing does.
fn stretch(file: &[u8], start: usize, length: usize) -> Option<&[u8]> {
    file.get(start..start.checked_add(length)?).filter(|value| !value.is_empty())
}
