//! Cases: the same seed and number give the same case, on any machine and in any order.

mod bad_ipv6;
mod bad_values;
mod bytes;
mod connman_files;
mod draft;
mod ipv6;
mod iwd_files;
mod keys;
mod largest;
mod mutate;
mod names;
mod records;
mod strings;
mod values;

use crate::case::{Buffers, Case, FileCase, RecordCase};
use crate::layout::lift_record;
use crate::random::Random;
use crate::reference::writer::{write, Room, Written, FILE_MAX, NAME_MAX};
use crate::reference::{connman, moving, Dialect, Refusal};
use draft::Draft;

/// Case number `index` of the run of `seed`.
pub fn case(seed: u64, index: u64) -> Case {
    let mut random = Random::of_case(seed, index);
    if random.once_in(8) {
        return record_case(&mut random);
    }
    let (name, file) = named_file(&mut random);
    let reading = connman::read(&name, &file);
    let count = reading.as_ref().map_or(0, |file| file.services.len());
    let service = service_number(&mut random, count);
    let buffers = buffers(&mut random, moving::move_service(&reading, service, AMPLE));
    Case::File(FileCase {
        name,
        file,
        service,
        buffers,
    })
}

/// The text of an IPv6 address, or one near it, with no file around it.
pub fn ipv6_text(random: &mut Random) -> Vec<u8> {
    match random.weighted(&[5, 4, 1]) {
        0 => ipv6::text(random),
        1 => bad_ipv6::near_text(random),
        _ => (0..random.between(1, 4)).fold(ipv6::text(random), |text, _| bad_ipv6::changed(random, text)),
    }
}

/// The bytes of an IPv6 address.
pub fn ipv6_address(random: &mut Random) -> [u8; 16] {
    ipv6::address(random)
}

/// Room for anything.
const AMPLE: Room = Room {
    name: usize::MAX,
    file: usize::MAX,
};

fn record_case(random: &mut Random) -> Case {
    let record = records::record(random);
    let buffers = buffers(random, write(lift_record(&record).as_ref(), AMPLE));
    Case::Record(Box::new(RecordCase { record, buffers }))
}

/// A file under a name.
fn named_file(random: &mut Random) -> (Vec<u8>, Vec<u8>) {
    let iwd = random.percent(38);
    let mut draft = match random.weighted(&[40, 16, 34, 6, 4]) {
        0 => valid(random, iwd),
        1 if iwd && random.once_in(3) => iwd_files::loose_ipv6(random),
        1 if iwd => iwd_files::loose(random),
        1 => connman_files::loose(random),
        2 => mutated(random, iwd),
        3 => {
            let mut draft = if random.once_in(4) {
                mutated(random, iwd)
            } else {
                valid(random, iwd)
            };
            draft.name = names::bad(random);
            draft
        }
        _ => {
            return (
                other_name(random, iwd),
                if random.once_in(5) {
                    bytes::noise(random)
                } else {
                    bytes::soup(random)
                },
            )
        }
    };
    draft.sprinkle(random);
    let mut file = draft.lay_down(random);
    if random.once_in(10) {
        for _ in 0..random.between(1, 3) {
            bytes::mutate(random, &mut file);
        }
    }
    if random.once_in(250) {
        bytes::grow_to_limit(random, &mut file);
    }
    (draft.name, file)
}

fn valid(random: &mut Random, iwd: bool) -> Draft {
    if iwd {
        iwd_files::valid(random)
    } else {
        connman_files::valid(random)
    }
}

fn mutated(random: &mut Random, iwd: bool) -> Draft {
    let mut draft = valid(random, iwd);
    for _ in 0..random.pick(&[1, 1, 1, 2, 3]) {
        mutate::mutate(random, &mut draft);
    }
    debug_assert!(draft.dialect == if iwd { Dialect::Iwd } else { Dialect::Connman });
    draft
}

fn other_name(random: &mut Random, iwd: bool) -> Vec<u8> {
    let key = random.once_in(2);
    match (random.once_in(20), iwd) {
        (true, _) => names::bad(random),
        (_, true) => names::good_iwd(random, key),
        _ => names::good_connman(random),
    }
}

/// Most often a service that is there; else 0, one too many, or a number that is such a one in fewer bits.
fn service_number(random: &mut Random, count: usize) -> usize {
    if count > 0 && random.percent(80) {
        return random.between(1, count);
    }
    let wraps = [1 << 8, 1 << 16, 1 << 31, 1 << 32, 1 << 63];
    match random.below(6) {
        0 => 0,
        1 | 2 => count + 1,
        3 => random.pick(&[1, 8, 9, 10, 100, 999]),
        4 => random.pick(&wraps) + random.between(0, count),
        _ => usize::MAX - random.below(3),
    }
}

/// Buffers around what must be written, or of any length where nothing is; some for the largest name and file, or a byte shorter.
fn buffers(random: &mut Random, needed: Result<Written, Refusal>) -> Buffers {
    let (name, file) = needed.map_or((NAME_MAX, FILE_MAX), |written| (written.name.len(), written.file.len()));
    let short = |random: &mut Random, length: usize| match length {
        0 => 0,
        _ if random.once_in(2) => length - 1,
        _ => random.below(length),
    };
    let longer = |random: &mut Random, length: usize| length + random.pick(&[0, 0, 1, 2, 7, 64, 500]);
    let (name, file) = match random.weighted(&[40, 32, 6, 6, 4, 2, 2, 8]) {
        0 => (name, file),
        1 => (longer(random, name), longer(random, file)),
        2 => (short(random, name), longer(random, file)),
        3 => (longer(random, name), short(random, file)),
        4 => (short(random, name), short(random, file)),
        5 => (0, longer(random, file)),
        6 => (random.below(100), 0),
        _ => (NAME_MAX - random.below(2), FILE_MAX - random.below(2)),
    };
    Buffers {
        name,
        file,
        dirt: random.byte(),
    }
}
