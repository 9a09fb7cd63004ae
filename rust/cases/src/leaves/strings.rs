//! Strings: what the string settings read a value as.
//!
//! Both formats read a string alike, so a value is asked of every string setting. Only blanks at its end are kept by iwd's and
//! dropped by ConnMan's, for which each format can be asked alone.

use super::files::{self, Place, Told};
use crate::show::hex_front;
use qewaris::raw;
use std::ops::RangeInclusive;

/// The place of a join record that holds a string, and how many of its bytes are in use.
type Held = fn(&raw::Record) -> (&[u8], u8);

/// A string setting.
struct Setting {
    name: &'static str,
    place: Place,
    /// How many bytes the string may have.
    lengths: RangeInclusive<usize>,
    /// The two strings of `global` are in no join record.
    held: Option<Held>,
}

const NAME_LENGTHS: RangeInclusive<usize> = 1..=32;
const PASSPHRASE_LENGTHS: RangeInclusive<usize> = 8..=63;
const TEXT_LENGTHS: RangeInclusive<usize> = 1..=253;

/// Every string setting, iwd's before ConnMan's. The first of each format takes all lengths that another one takes.
static SETTINGS: [Setting; 7] = [
    setting("iwd DomainName", files::DOMAIN_NAME, TEXT_LENGTHS, Some(domain)),
    setting("iwd Passphrase", files::PASSPHRASE, PASSPHRASE_LENGTHS, Some(passphrase)),
    setting("ConnMan Domain", files::DOMAIN, TEXT_LENGTHS, Some(domain)),
    setting("ConnMan Name", files::NAME, NAME_LENGTHS, Some(network_name)),
    setting(
        "ConnMan Passphrase",
        files::SERVICE_PASSPHRASE,
        PASSPHRASE_LENGTHS,
        Some(passphrase),
    ),
    setting("global Name", files::GLOBAL_NAME, TEXT_LENGTHS, None),
    setting("global Description", files::DESCRIPTION, TEXT_LENGTHS, None),
];

/// How many of the settings are iwd's.
const OF_IWD: usize = 2;

const fn setting(name: &'static str, place: Place, lengths: RangeInclusive<usize>, held: Option<Held>) -> Setting {
    Setting {
        name,
        place,
        lengths,
        held,
    }
}

fn domain(record: &raw::Record) -> (&[u8], u8) {
    (&record.domain, record.domain_len)
}

fn passphrase(record: &raw::Record) -> (&[u8], u8) {
    (&record.passphrase, record.passphrase_len)
}

fn network_name(record: &raw::Record) -> (&[u8], u8) {
    (&record.name, record.name_len)
}

/// A string in every setting of both formats.
pub fn string(input: &[u8]) -> Vec<u8> {
    agreed(&SETTINGS, input)
}

pub fn string_iwd(input: &[u8]) -> Vec<u8> {
    agreed(&SETTINGS[..OF_IWD], input)
}

pub fn string_connman(input: &[u8]) -> Vec<u8> {
    agreed(&SETTINGS[OF_IWD..], input)
}

/// What a setting reads a value as.
#[derive(PartialEq)]
enum Read {
    /// A string of so many bytes, and these.
    String(usize, String),
    /// A string that no join record holds.
    Unheld,
    Refused(Told),
}

/// What the first of the settings reads, and behind it each other one that does not agree.
fn agreed(settings: &[Setting], input: &[u8]) -> Vec<u8> {
    let first = settings[0].read(input);
    let mut shown = first.shown();
    for setting in &settings[1..] {
        let read = setting.read(input);
        if !setting.agrees(&read, &first) {
            shown += &format!(" but {} {}", setting.name, read.shown());
        }
    }
    shown.into_bytes()
}

impl Setting {
    fn read(&self, input: &[u8]) -> Read {
        match (self.place.record(input), self.held) {
            (Ok(record), Some(held)) => {
                let (bytes, length) = held(&record);
                Read::String(length.into(), hex_front(bytes, length.into()))
            }
            (Ok(_), None) => Read::Unheld,
            (Err(told), _) => Read::Refused(told),
        }
    }

    /// Whether this setting reads what the first one does, or gives 12 for a string of a length that only the first one takes.
    fn agrees(&self, read: &Read, first: &Read) -> bool {
        match (first, read) {
            (Read::String(length, _), Read::Refused(told)) => told.is_kind() && !self.lengths.contains(length),
            (Read::String(length, _), Read::Unheld) => self.lengths.contains(length),
            (Read::String(length, _), Read::String(..)) => self.lengths.contains(length) && read == first,
            _ => read == first,
        }
    }
}

impl Read {
    /// A string's length and its bytes, 11 as `broken`, and 12 where its length is.
    fn shown(&self) -> String {
        match self {
            Read::String(length, bytes) => format!("{length} {bytes}"),
            Read::Unheld => "good".to_string(),
            Read::Refused(told) if told.is_text() => "broken".to_string(),
            Read::Refused(told) if told.is_kind() => "12".to_string(),
            Read::Refused(told) => String::from_utf8_lossy(&told.shown()).into_owned(),
        }
    }
}
