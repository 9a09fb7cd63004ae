//! What the reference answers to a case, at every entry point that applies to it.

use crate::answer::{Answer, Outcome};
use crate::case::{Buffers, Case, FileCase, RecordCase};
use crate::entry::Entry;
use crate::layout;
use crate::reference::writer::{write, Room, Written};
use crate::reference::{connman, iwd, moving, Refusal};

/// The answers to a case, each with its entry point.
pub type Answers = Vec<(Entry, Outcome)>;

/// The reference's answers to a case.
pub fn answers(case: &Case) -> Answers {
    let answers = match case {
        Case::File(case) => file_answers(case),
        Case::Record(case) => record_answers(case),
    };
    answers.into_iter().map(|(entry, answer)| (entry, answer.into())).collect()
}

fn room(buffers: &Buffers) -> Room {
    Room {
        name: buffers.name,
        file: buffers.file,
    }
}

fn record_answers(case: &RecordCase) -> Vec<(Entry, Answer)> {
    let result = write(layout::lift_record(&case.record).as_ref(), room(&case.buffers));
    vec![(Entry::WriteIwd, written(&case.buffers, result))]
}

fn file_answers(case: &FileCase) -> Vec<(Entry, Answer)> {
    let iwd = iwd::read(&case.name, &case.file);
    let connman = connman::read(&case.name, &case.file);
    let mut answers = iwd_answers(&iwd);
    answers.extend(connman_answers(&connman));
    answers.extend(service_answers(&connman, case.service));
    let moved = moving::move_service(&connman, case.service, room(&case.buffers));
    answers.push((Entry::MoveService, written(&case.buffers, moved)));
    answers
}

fn iwd_answers(reading: &Result<iwd::File, Refusal>) -> Vec<(Entry, Answer)> {
    let file = || reading.as_ref().map_err(|refusal| *refusal);
    vec![
        (Entry::CheckIwd, Answer::Reading(layout::reading(file().map(|file| file.counts)))),
        (
            Entry::IwdSettings,
            Answer::IwdSettings(layout::iwd_settings(file().map(|file| &file.settings))),
        ),
        (
            Entry::IwdPassphrase,
            Answer::Text(layout::text(file().map(|file| file.settings.passphrase.as_ref()))),
        ),
        (
            Entry::IwdDomainName,
            Answer::Text(layout::text(file().map(|file| file.settings.domain_name.as_ref()))),
        ),
        (
            Entry::IwdRecord,
            Answer::Record(layout::record_answer(file().map(|file| file.record()))),
        ),
    ]
}

fn connman_answers(reading: &Result<connman::File, Refusal>) -> Vec<(Entry, Answer)> {
    let file = || reading.as_ref().map_err(|refusal| *refusal);
    vec![
        (
            Entry::CheckConnman,
            Answer::Reading(layout::reading(file().map(|file| file.counts))),
        ),
        (
            Entry::GlobalName,
            Answer::Text(layout::text(file().map(|file| file.global_name.as_ref()))),
        ),
        (
            Entry::GlobalDescription,
            Answer::Text(layout::text(file().map(|file| file.global_description.as_ref()))),
        ),
    ]
}

/// "The others of ConnMan with one [a service number], 18 coming after the file's own refusals."
fn service_answers(reading: &Result<connman::File, Refusal>, number: usize) -> Vec<(Entry, Answer)> {
    let service = || reading.as_ref().map_err(|refusal| *refusal).and_then(|file| file.service(number));
    let settings = || service().map(|service| &service.settings);
    vec![
        (
            Entry::ServiceSettings,
            Answer::ServiceSettings(layout::service_settings(settings())),
        ),
        (
            Entry::ServiceName,
            Answer::Text(layout::text(settings().map(|settings| settings.name.as_ref()))),
        ),
        (
            Entry::ServicePassphrase,
            Answer::Text(layout::text(settings().map(|settings| settings.passphrase.as_ref()))),
        ),
        (
            Entry::ServiceDomain,
            Answer::Text(layout::text(settings().map(|settings| settings.domain.as_ref()))),
        ),
        (
            Entry::ServiceRecord,
            Answer::Record(layout::record_answer(service().and_then(|service| service.record()))),
        ),
    ]
}

/// "After a success each output buffer holds the new bytes first and its old bytes after them"; a refusal changes nothing.
fn written(buffers: &Buffers, result: Result<Written, Refusal>) -> Answer {
    let (mut name, mut file) = (buffers.old_name(), buffers.old_file());
    let written = layout::written(&result);
    if let Ok(new) = result {
        name[..new.name.len()].copy_from_slice(&new.name);
        file[..new.file.len()].copy_from_slice(&new.file);
    }
    Answer::Written { written, name, file }
}
