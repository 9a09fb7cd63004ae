//! The promises of document 01 and of requests 2026-01 and 2026-02 put to the library's own answers, without the reference's.
//!
//! A well-formed record with a place, written with room, reads back as the same record; the files of a move are accepted and have
//! the service's record; a service that needs a key never becomes one that needs none. Buffers for the largest name and file, and
//! longer ones, are never too short. A string of a ConnMan file stands for the same bytes in an iwd file.

use crate::answer::Answer;
use crate::case::{Buffers, Case, FileCase};
use crate::compare::Difference;
use crate::entry::Entry;
use crate::judged::Answers;
use crate::library::{write_iwd, Input};
use crate::own;
use crate::reference::writer::{FILE_MAX, NAME_MAX};
use crate::reference::Fault;
use qewaris::raw;

/// The promises that the library breaks at this case.
pub fn broken_promises(case: &Case, answers: &Answers) -> Vec<Difference> {
    let room = Buffers {
        name: NAME_MAX,
        file: FILE_MAX,
        dirt: case.buffers().dirt,
    };
    let of_case = match case {
        Case::Record(case) => vec![record_reads_back(&case.record, &room)],
        Case::File(case) => {
            let own = own::record(answers, Entry::IwdRecord);
            vec![
                own.and_then(|record| iwd_record_is_written(&record, &room)),
                service_is_moved(case, answers, &room),
                strings_read_alike(case, answers),
            ]
        }
    };
    let of_buffers = own_buffers_are_enough(case.buffers(), answers);
    of_case.into_iter().flatten().chain(of_buffers).collect()
}

fn broken(promise: &str, number: u8, members: Vec<(&str, String, String)>) -> Option<Difference> {
    let members = members
        .into_iter()
        .map(|(name, judge, library)| (name.to_string(), judge, library))
        .collect();
    Some(Difference {
        place: promise.to_string(),
        numbers: (0, number),
        members,
    })
}

/// The new bytes at the front of each buffer, as many as the answer counts.
fn new_bytes(answer: Answer) -> (raw::Written, Vec<u8>, Vec<u8>) {
    let Answer::Written { written, name, file } = answer else {
        panic!("a writer writes")
    };
    let front = |bytes: Vec<u8>, count: usize| bytes[..count.min(bytes.len())].to_vec();
    (written, front(name, written.name_len), front(file, written.file_len))
}

fn shown(bytes: &[u8]) -> String {
    format!("\"{}\"", bytes.escape_ascii())
}

/// "Buffers of those sizes then never meet refusal 17": the number of an answer with such buffers is another.
fn room_is_enough(number: u8) -> Option<Difference> {
    if number == Fault::ShortBuffer.number() {
        return broken("buffers for the largest name and file are never too short", number, vec![]);
    }
    None
}

/// The case's own buffers, where they have those sizes or are longer, do not meet it either.
fn own_buffers_are_enough(buffers: &Buffers, answers: &Answers) -> Option<Difference> {
    if buffers.name < NAME_MAX || buffers.file < FILE_MAX {
        return None;
    }
    answers.iter().find_map(|(_, outcome)| room_is_enough(outcome.answer.number()))
}

/// "A record so written with room reads back as the same record."
fn record_reads_back(record: &raw::Record, room: &Buffers) -> Option<Difference> {
    let (written, name, file) = new_bytes(write_iwd(record, room).answer);
    if written.number != 0 {
        return room_is_enough(written.number);
    }
    let read = Input::new(&name, &file, false).iwd_record();
    if read.number == 0 && read.record == *record {
        return None;
    }
    broken(
        "a record written with room reads back as itself",
        read.number,
        vec![("file", "the same record".to_string(), shown(&file))],
    )
}

/// Every record of an iwd file has a place in iwd, and reads back.
fn iwd_record_is_written(record: &raw::Record, room: &Buffers) -> Option<Difference> {
    let (written, _, _) = new_bytes(write_iwd(record, room).answer);
    if written.number != 0 {
        return broken("the record of an iwd file can be written with room", written.number, vec![]);
    }
    record_reads_back(record, room)
}

/// A service that is moved with room keeps its record, and becomes what is written of it.
fn service_is_moved(case: &FileCase, answers: &Answers, room: &Buffers) -> Option<Difference> {
    let mut input = Input::new(&case.name, &case.file, room.null());
    let (moved, name, file) = new_bytes(input.move_service(case.service, room).answer);
    if moved.number != 0 {
        return room_is_enough(moved.number);
    }
    let record = own::record(answers, Entry::ServiceRecord)?;
    move_keeps_record(&record, &name, &file).or_else(|| move_is_what_is_written(&record, &name, &file, room))
}

/// "A service needs a key when its credential is not none"; the moved file is accepted and has the service's record.
fn move_keeps_record(record: &raw::Record, name: &[u8], file: &[u8]) -> Option<Difference> {
    let mut input = Input::new(name, file, false);
    let (reading, read) = (input.check_iwd(), input.iwd_record());
    let shown = || vec![("name", String::new(), shown(name)), ("file", String::new(), shown(file))];
    if reading.number != 0 || read.number != 0 {
        return broken("the files of a move are accepted", reading.number.max(read.number), shown());
    }
    if record.credential != 0 && (read.record.credential == 0 || !name.ends_with(b".psk")) {
        return broken("a service that needs a key never becomes one that needs none", 0, shown());
    }
    if read.record != *record {
        return broken("the files of a move have the service's record", 0, shown());
    }
    None
}

/// "A move writes the file name and the file of the service's record."
fn move_is_what_is_written(record: &raw::Record, name: &[u8], file: &[u8], room: &Buffers) -> Option<Difference> {
    let (written, written_name, written_file) = new_bytes(write_iwd(record, room).answer);
    if written.number == 0 && written_name == name && written_file == file {
        return None;
    }
    let members = vec![
        ("name", shown(&written_name), shown(name)),
        ("file", shown(&written_file), shown(file)),
    ];
    broken(
        "a move writes what the writer writes of the service's record",
        written.number,
        members,
    )
}

/// The strings of a ConnMan file, each with the bytes that the record has of it, which are none where it has none.
fn connman_strings(answers: &Answers) -> Vec<(Entry, Vec<u8>)> {
    let unrecorded = [Entry::GlobalName, Entry::GlobalDescription].map(|entry| (entry, Vec::new()));
    let of_service = own::SERVICE_STRINGS
        .into_iter()
        .zip(own::service_strings(answers).unwrap_or_default());
    unrecorded.into_iter().chain(of_service).collect()
}

/// "Strings know `\s`, `\t`, `\r`, `\n` and `\\`" in ConnMan as in iwd, and a lookup hands a string back still escaped: put as it stands
/// behind iwd's DomainName, whose bounds are the widest, it is accepted and stands for the same bytes.
fn strings_read_alike(case: &FileCase, answers: &Answers) -> Option<Difference> {
    connman_strings(answers).into_iter().find_map(|(entry, bytes)| {
        let value = match own::answer(answers, entry)? {
            Answer::Text(text) if text.length > 0 => case.file.get(text.start..)?.get(..text.length)?,
            _ => return None,
        };
        let file = [b"[IPv4]\nDomainName=", value, b"\n"].concat();
        let read = Input::new(b"a.open", &file, false).iwd_record();
        let domain = &read.record.domain[..read.record.domain_len.into()];
        if read.number == 0 && (bytes.is_empty() || domain == bytes) {
            return None;
        }
        let members = vec![(entry.name(), shown(domain), shown(&bytes))];
        broken("a string of a ConnMan file reads alike in an iwd file", read.number, members)
    })
}
