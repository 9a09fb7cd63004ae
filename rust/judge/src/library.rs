//! The library's answers to a case, asked over the C boundary: the one place with unsafe code.
//!
//! Everything lent stands in the middle of a longer stretch, so that a call that writes beside it, or into its input, is seen.

#![allow(unsafe_code)]

use crate::answer::{Answer, Outcome};
use crate::case::{Buffers, Case};
use crate::entry::Entry;
use crate::judged::Answers;
use qewaris::raw;

/// What stands before a lent stretch, and, so that reading too far shows, after it.
const BEFORE: &[u8] = b"\n[Settings]\nHidden=true\nAA=";
const AFTER: &[u8] = b"\n[Settings]\nHidden=x\n.psk\xFF\0";

/// Bytes that are lent to the library.
struct Lent {
    bytes: Vec<u8>,
    length: usize,
    null: bool,
}

impl Lent {
    /// Lends the bytes; empty ones as a null pointer if `null`.
    fn new(content: &[u8], null: bool) -> Lent {
        Lent {
            bytes: [BEFORE, content, AFTER].concat(),
            length: content.len(),
            null: null && content.is_empty(),
        }
    }

    fn pointer(&mut self) -> *mut u8 {
        if self.null {
            return std::ptr::null_mut();
        }
        self.bytes[BEFORE.len()..].as_mut_ptr()
    }

    fn content(&self) -> &[u8] {
        &self.bytes[BEFORE.len()..][..self.length]
    }

    fn guards_stand(&self) -> bool {
        self.bytes.starts_with(BEFORE) && &self.bytes[BEFORE.len() + self.length..] == AFTER
    }
}

/// A file under its name, lent to the functions that read.
pub struct Input<'a> {
    name: Lent,
    file: Lent,
    originals: (&'a [u8], &'a [u8]),
}

type Read<T> = unsafe extern "C" fn(*const u8, usize, *const u8, usize) -> T;
type ReadService<T> = unsafe extern "C" fn(*const u8, usize, *const u8, usize, usize) -> T;

impl<'a> Input<'a> {
    pub fn new(name: &'a [u8], file: &'a [u8], null: bool) -> Input<'a> {
        Input {
            name: Lent::new(name, null),
            file: Lent::new(file, null),
            originals: (name, file),
        }
    }

    fn read<T>(&mut self, function: Read<T>) -> T {
        // SAFETY: both pointers are to as many bytes as the lengths say, lent for the call, or null with length 0.
        unsafe { function(self.name.pointer(), self.name.length, self.file.pointer(), self.file.length) }
    }

    fn read_service<T>(&mut self, function: ReadService<T>, service: usize) -> T {
        // SAFETY: as in `read`.
        unsafe {
            function(
                self.name.pointer(),
                self.name.length,
                self.file.pointer(),
                self.file.length,
                service,
            )
        }
    }

    fn damage(&self) -> Vec<&'static str> {
        let checks = [
            ("the name was changed", self.name.content() == self.originals.0),
            ("the file was changed", self.file.content() == self.originals.1),
            ("bytes beside the name were changed", self.name.guards_stand()),
            ("bytes beside the file were changed", self.file.guards_stand()),
        ];
        checks.into_iter().filter(|(_, sound)| !sound).map(|(what, _)| what).collect()
    }

    fn outcome(&self, answer: Answer) -> Outcome {
        Outcome {
            answer,
            damage: self.damage(),
        }
    }

    fn text(&mut self, function: Read<raw::Text>) -> Outcome {
        let text = self.read(function);
        self.outcome(Answer::Text(text))
    }

    fn service_text(&mut self, function: ReadService<raw::Text>, service: usize) -> Outcome {
        let text = self.read_service(function, service);
        self.outcome(Answer::Text(text))
    }

    pub fn check_iwd(&mut self) -> raw::Reading {
        self.read(raw::qewaris_check_iwd)
    }

    pub fn iwd_record(&mut self) -> raw::RecordAnswer {
        self.read(raw::qewaris_iwd_record)
    }

    pub fn service_record(&mut self, service: usize) -> raw::RecordAnswer {
        self.read_service(raw::qewaris_service_record, service)
    }

    pub fn move_service(&mut self, service: usize, buffers: &Buffers) -> Outcome {
        let (name, file) = (&mut self.name, &mut self.file);
        let mut outcome = Output::new(buffers).written(|name_out, file_out| {
            // SAFETY: every pointer is to as many bytes as its length says, lent for the call, or null with length 0; the four
            // stretches stand in different vectors.
            unsafe {
                raw::qewaris_move_service(
                    name.pointer(),
                    name.length,
                    file.pointer(),
                    file.length,
                    service,
                    name_out.pointer(),
                    name_out.length,
                    file_out.pointer(),
                    file_out.length,
                )
            }
        });
        outcome.damage.extend(self.damage());
        outcome
    }
}

/// The two buffers, lent to the functions that write.
struct Output {
    name: Lent,
    file: Lent,
}

impl Output {
    fn new(buffers: &Buffers) -> Output {
        let null = buffers.null();
        Output {
            name: Lent::new(&buffers.old_name(), null),
            file: Lent::new(&buffers.old_file(), null),
        }
    }

    /// Runs a function that writes, and gives its answer with the buffers' final bytes.
    fn written(mut self, function: impl FnOnce(&mut Lent, &mut Lent) -> raw::Written) -> Outcome {
        let written = function(&mut self.name, &mut self.file);
        let mut damage = Vec::new();
        if !self.name.guards_stand() {
            damage.push("bytes beside the name's buffer were changed");
        }
        if !self.file.guards_stand() {
            damage.push("bytes beside the file's buffer were changed");
        }
        let answer = Answer::Written {
            written,
            name: self.name.content().to_vec(),
            file: self.file.content().to_vec(),
        };
        Outcome { answer, damage }
    }
}

/// Writes a record.
pub fn write_iwd(record: &raw::Record, buffers: &Buffers) -> Outcome {
    Output::new(buffers).written(|name, file| {
        // SAFETY: both pointers are to as many bytes as the lengths say, lent for the call, or null with length 0.
        unsafe { raw::qewaris_write_iwd(*record, name.pointer(), name.length, file.pointer(), file.length) }
    })
}

/// The library's answers to a case, in the order of the reference's.
pub fn answers(case: &Case) -> Answers {
    match case {
        Case::Record(case) => vec![(Entry::WriteIwd, write_iwd(&case.record, &case.buffers))],
        Case::File(case) => {
            let mut input = Input::new(&case.name, &case.file, case.buffers.null());
            let mut answers = iwd_answers(&mut input);
            answers.extend(connman_answers(&mut input));
            answers.extend(service_answers(&mut input, case.service));
            answers.push((Entry::MoveService, input.move_service(case.service, &case.buffers)));
            answers
        }
    }
}

fn iwd_answers(input: &mut Input) -> Answers {
    let check = Answer::Reading(input.check_iwd());
    let check = input.outcome(check);
    let settings = Answer::IwdSettings(input.read(raw::qewaris_iwd_settings_of));
    let settings = input.outcome(settings);
    let passphrase = input.text(raw::qewaris_iwd_passphrase);
    let domain_name = input.text(raw::qewaris_iwd_domain_name);
    let record = Answer::Record(input.iwd_record());
    vec![
        (Entry::CheckIwd, check),
        (Entry::IwdSettings, settings),
        (Entry::IwdPassphrase, passphrase),
        (Entry::IwdDomainName, domain_name),
        (Entry::IwdRecord, input.outcome(record)),
    ]
}

fn connman_answers(input: &mut Input) -> Answers {
    let check = Answer::Reading(input.read(raw::qewaris_check_connman));
    vec![
        (Entry::CheckConnman, input.outcome(check)),
        (Entry::GlobalName, input.text(raw::qewaris_global_name)),
        (Entry::GlobalDescription, input.text(raw::qewaris_global_description)),
    ]
}

fn service_answers(input: &mut Input, service: usize) -> Answers {
    let settings = Answer::ServiceSettings(input.read_service(raw::qewaris_service_settings_of, service));
    let settings = input.outcome(settings);
    let name = input.service_text(raw::qewaris_service_name, service);
    let passphrase = input.service_text(raw::qewaris_service_passphrase, service);
    let domain = input.service_text(raw::qewaris_service_domain, service);
    let record = Answer::Record(input.service_record(service));
    vec![
        (Entry::ServiceSettings, settings),
        (Entry::ServiceName, name),
        (Entry::ServicePassphrase, passphrase),
        (Entry::ServiceDomain, domain),
        (Entry::ServiceRecord, input.outcome(record)),
    ]
}
