//! What the generators reach, by the reference alone: every answer that can occur, every escape, every sort of IPv6 address, and every key
//! in every way.

use judge::blamed::blamed;
use judge::case::Case;
use judge::coverage::Table;
use judge::generate;
use judge::judged;
use judge::reference::dialect::{kind_of, GroupKind};
use judge::reference::groups::groups;
use judge::reference::kind::Kind;
use judge::reference::text::unescape;
use judge::reference::writer::{FILE_MAX, NAME_MAX};
use judge::reference::Dialect;
use std::collections::BTreeMap;

const SEED: u64 = 11;
const CASES: u64 = 150_000;

#[test]
fn every_answer_escape_and_address_that_can_occur_does() {
    let mut table = Table::default();
    for index in 0..CASES {
        let case = generate::case(SEED, index);
        table.add(&case, &judged::answers(&case));
    }
    println!("{}", table.print());
    assert_eq!(table.faults(), Vec::<String>::new());
}

#[test]
fn files_at_the_limit_are_accepted_and_refused() {
    let mut lengths: BTreeMap<(usize, u8), u64> = BTreeMap::new();
    for index in 0..CASES {
        match generate::case(SEED, index) {
            Case::File(case) if case.file.len() >= 16_384 => {
                let answers = judged::answers(&Case::File(case.clone()));
                answers
                    .iter()
                    .for_each(|(_, outcome)| *lengths.entry((case.file.len(), outcome.answer.number())).or_default() += 1);
            }
            _ => {}
        }
    }
    assert!(lengths[&(16_384, 0)] > 100 && lengths[&(16_385, 1)] > 100, "{lengths:?}");
    assert!(
        lengths.keys().all(|(length, number)| (*length > 16_384) == (*number == 1)),
        "{lengths:?}"
    );
}

#[test]
fn buffers_for_the_largest_are_enough_and_a_byte_less_is_not() {
    let mut numbers: BTreeMap<(usize, usize, u8), u64> = BTreeMap::new();
    for index in 0..CASES {
        let case = generate::case(SEED, index);
        let buffers = case.buffers();
        if [NAME_MAX - 1, NAME_MAX].contains(&buffers.name) && [FILE_MAX - 1, FILE_MAX].contains(&buffers.file) {
            let (_, written) = judged::answers(&case).pop().expect("the writer or the move comes last");
            *numbers.entry((buffers.name, buffers.file, written.answer.number())).or_default() += 1;
        }
    }
    let count = |name: usize, file: usize, number: u8| numbers.get(&(name, file, number)).copied().unwrap_or(0);
    assert!(count(NAME_MAX, FILE_MAX, 0) > 100, "{numbers:?}");
    assert_eq!(count(NAME_MAX, FILE_MAX, 17), 0);
    assert!(
        count(NAME_MAX - 1, FILE_MAX, 17).min(count(NAME_MAX, FILE_MAX - 1, 17)) >= 15,
        "{numbers:?}"
    );
}

/// How often a key was accepted, and how often its line was refused with 10, 11 and 12.
#[derive(Default, Debug)]
struct Reached {
    accepted: u64,
    repeated: u64,
    text: u64,
    kind: u64,
}

#[test]
fn every_key_is_accepted_and_refused_in_every_way() {
    let mut keys = Keys::new();
    for index in 0..CASES {
        if let Case::File(case) = generate::case(SEED, index) {
            note_keys(Dialect::Iwd, &case.file, &mut keys);
            note_keys(Dialect::Connman, &case.file, &mut keys);
        }
    }
    keys.iter().for_each(|(key, reached)| println!("{key:?}: {reached:?}"));
    assert_eq!(keys.len(), 16 + 2 + 14);
    for (key, reached) in keys {
        let least = reached.accepted.min(reached.repeated).min(reached.text).min(reached.kind);
        assert!(least >= 15, "{key:?} is met too seldom: {reached:?}");
    }
}

type Keys = BTreeMap<(&'static str, String), Reached>;

/// What is known of a key in a group; all services are one group.
fn reached<'a>(keys: &'a mut Keys, group: &str, key: &str) -> &'a mut Reached {
    let group = ["Settings", "Security", "IPv4", "IPv6", "global"]
        .into_iter()
        .find(|known| *known == group)
        .unwrap_or("service");
    keys.entry((group, key.to_string())).or_default()
}

fn note_keys(dialect: Dialect, file: &[u8], keys: &mut Keys) {
    match groups(dialect, file) {
        Ok(groups) => groups.iter().for_each(|group| {
            group
                .settings
                .iter()
                .for_each(|setting| reached(keys, &group.name, &setting.key).accepted += 1);
        }),
        Err(refusal) if (10..=12).contains(&refusal.number()) => {
            let setting = blamed(dialect, file, refusal.line).expect("a setting is to blame");
            let reached = reached(keys, &setting.group, &setting.key);
            match refusal.number() {
                10 => reached.repeated += 1,
                11 => reached.text += 1,
                _ => reached.kind += 1,
            }
        }
        Err(_) => {}
    }
}

/// How often a string stood for the most bytes in a value that is longer, for a byte too many, and for a byte too few in a value that
/// is not too short.
#[derive(Default, Debug)]
struct Lengths {
    most: u64,
    long: u64,
    short: u64,
}

#[test]
fn strings_are_met_where_only_unescaping_tells_their_length() {
    let mut strings: BTreeMap<(String, String), Lengths> = BTreeMap::new();
    for index in 0..CASES {
        if let Case::File(case) = generate::case(SEED, index) {
            let values = [Dialect::Iwd, Dialect::Connman].map(|dialect| judged_values(dialect, &case.file));
            for (group, key, value) in values.concat() {
                if let Some(Kind::Text { min, max }) = kind_of(group, &key) {
                    let lengths = strings.entry((format!("{group:?}"), key)).or_default();
                    note_length(lengths, value, min, max);
                }
            }
        }
    }
    strings.iter().for_each(|(string, lengths)| println!("{string:?}: {lengths:?}"));
    assert_eq!(strings.len(), 2 + 2 + 3);
    for ((group, key), lengths) in strings {
        let short = if key == "Passphrase" { lengths.short } else { u64::MAX };
        let least = lengths.most.min(lengths.long).min(short);
        assert!(least >= 15, "{group} {key} is met too seldom: {lengths:?}");
    }
}

/// The values of an accepted file, or the one that is refused with 12; each with its group and key.
fn judged_values(dialect: Dialect, file: &[u8]) -> Vec<(GroupKind, String, &[u8])> {
    let value = |start: usize, length: usize| &file[start..start + length];
    match groups(dialect, file) {
        Ok(groups) => {
            let settings = groups
                .iter()
                .flat_map(|group| group.settings.iter().map(|setting| (group.kind, setting)));
            settings
                .map(|(group, setting)| (group, setting.key.clone(), value(setting.start, setting.length)))
                .collect()
        }
        Err(refusal) if refusal.number() == 12 => {
            let setting = blamed(dialect, file, refusal.line).expect("a setting is to blame");
            let group = dialect.group(&setting.group).expect("a group that is known");
            vec![(group, setting.key, value(setting.start, setting.length))]
        }
        Err(_) => Vec::new(),
    }
}

fn note_length(lengths: &mut Lengths, value: &[u8], min: usize, max: usize) {
    let bytes = unescape(value).expect("no bad escape").len();
    lengths.most += u64::from(bytes == max && value.len() > max);
    lengths.long += u64::from(bytes == max + 1);
    lengths.short += u64::from(bytes + 1 == min && value.len() >= min);
}
