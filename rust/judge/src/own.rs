//! What the answers to a case say, by entry point: one answer, a record, and the bytes that a service's strings stand for.

use crate::answer::Answer;
use crate::entry::Entry;
use crate::judged::Answers;
use qewaris::raw;

/// The answer of an entry point, none where the case was not put to it.
pub fn answer(answers: &Answers, asked: Entry) -> Option<&Answer> {
    answers
        .iter()
        .find(|(entry, _)| *entry == asked)
        .map(|(_, outcome)| &outcome.answer)
}

/// The record that an entry point gave, none where it refused.
pub fn record(answers: &Answers, asked: Entry) -> Option<raw::Record> {
    match answer(answers, asked) {
        Some(Answer::Record(answer)) if answer.number == 0 => Some(answer.record),
        _ => None,
    }
}

/// The lookups of a service's strings.
pub const SERVICE_STRINGS: [Entry; 3] = [Entry::ServiceName, Entry::ServicePassphrase, Entry::ServiceDomain];

/// The bytes of a service's record that its strings stand for; none where there is no record. Beside an SSID the Name stands for no
/// bytes of it.
pub fn service_strings(answers: &Answers) -> Option<[Vec<u8>; SERVICE_STRINGS.len()]> {
    let record = record(answers, Entry::ServiceRecord)?;
    let has_ssid = match answer(answers, Entry::ServiceSettings)? {
        Answer::ServiceSettings(settings) => settings.network.ssid_len > 0,
        _ => false,
    };
    let front = |bytes: &[u8], length: u8| bytes[..bytes.len().min(length.into())].to_vec();
    Some([
        front(&record.name, if has_ssid { 0 } else { record.name_len }),
        front(&record.passphrase, record.passphrase_len),
        front(&record.domain, record.domain_len),
    ])
}
