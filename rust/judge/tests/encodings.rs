//! Cases as bytes: what is encoded is decoded, every byte string is some case, and the fuzzer's seeds are good ones.

use judge::answer::Answer;
use judge::case::{Buffers, Case, FileCase};
use judge::encoding::{decode, encode, record_bytes, record_of_bytes, LONGEST_BUFFER};
use judge::entry::Entry;
use judge::layout::{lay_record, lift_record};
use judge::random::Random;
use judge::reference::writer::{FILE_MAX, NAME_MAX};
use judge::{generate, judged, one, own};
use std::fs;

/// Where the fuzzer's seeds are.
const SEEDS: &str = concat!(env!("CARGO_MANIFEST_DIR"), "/../../fuzz/seeds");

#[test]
fn a_case_is_decoded_from_its_bytes() {
    for index in 0..20_000 {
        let case = generate::case(5, index);
        assert!(decode(&encode(&case)) == case, "case {index}");
    }
}

/// The bytes of a seed file, and the name, file, service and buffers that they stand for.
type Row = (&'static [u8], &'static [u8], &'static [u8], usize, Buffers);

#[test]
fn seed_files_can_be_written_by_hand() {
    let buffers = |name, file, dirt| Buffers { name, file, dirt };
    let rows: [Row; 6] = [
        (
            b"file 2 10 167 7\nshop.config\n[global]\n",
            b"shop.config",
            b"[global]\n",
            2,
            buffers(10, 167, 7),
        ),
        (b"file\nDesk.open\n", b"Desk.open", b"", 1, buffers(NAME_MAX, FILE_MAX, 0)),
        (
            b"file x 9999999 -1\nDesk.open\n\n",
            b"Desk.open",
            b"\n",
            1,
            buffers(LONGEST_BUFFER, FILE_MAX, 0),
        ),
        (
            b"file 18446744073709551615\na\\nb\\\\c\\d\n",
            b"a\nb\\c\\d",
            b"",
            usize::MAX,
            buffers(NAME_MAX, FILE_MAX, 0),
        ),
        (b"", b"", b"", 1, buffers(NAME_MAX, FILE_MAX, 0)),
        (b"\n\n\n", b"", b"\n", 1, buffers(NAME_MAX, FILE_MAX, 0)),
    ];
    for (bytes, name, file, service, buffers) in rows {
        let expected = Case::File(FileCase {
            name: name.to_vec(),
            file: file.to_vec(),
            service,
            buffers,
        });
        assert!(decode(bytes) == expected, "{}", bytes.escape_ascii());
    }
}

#[test]
fn a_record_is_its_448_bytes() {
    let bytes: Vec<u8> = Random::new(1).bytes(448);
    assert_eq!(record_bytes(&record_of_bytes(&bytes)), bytes);
    assert_eq!(record_bytes(&record_of_bytes(&[7])), [&[7][..], &[0; 447]].concat());
    let Case::Record(case) = decode(&[b"record 1 2 3\n", &bytes[..], b"more"].concat()) else {
        panic!("a record")
    };
    assert_eq!(
        (record_bytes(&case.record), case.buffers),
        (bytes, Buffers { name: 1, file: 2, dirt: 3 })
    );
}

#[test]
fn a_lifted_record_is_laid_out_as_it_was() {
    let mut lifted = 0;
    for index in 0..20_000 {
        if let Case::Record(case) = generate::case(6, index) {
            if let Some(record) = lift_record(&case.record) {
                lifted += 1;
                assert!(lay_record(&record) == case.record, "case {index}");
            }
        }
    }
    assert!(lifted > 1_000);
}

#[test]
fn the_library_agrees_at_seeds_and_at_any_bytes() {
    one(b"");
    one(b"file 1 10 167 1\nshop.config\n[service_till]\nType = wifi\nName = Desk 4\n");
    one(b"record 70 944 0\n\x01a");
    let mut random = Random::new(9);
    for _ in 0..500 {
        let length = random.below(600);
        one(&random.bytes(length));
    }
}

#[test]
fn the_library_agrees_at_every_seed_of_the_fuzzer() {
    let seeds = fs::read_dir(SEEDS).expect("seeds").map(|entry| entry.expect("a seed").path());
    assert!(seeds.map(|path| one(&fs::read(path).expect("bytes"))).count() > 0);
}

/// The case of a seed of the fuzzer.
fn seed(name: &str) -> Case {
    decode(&fs::read(format!("{SEEDS}/{name}")).expect("a seed"))
}

/// The name and the file that the case of a seed has written.
fn written_of(name: &str) -> (Vec<u8>, Vec<u8>) {
    match judged::answers(&seed(name))
        .pop()
        .expect("the writer or the move comes last")
        .1
        .answer
    {
        Answer::Written { written, name, file } => (name[..written.name_len].to_vec(), file[..written.file_len].to_vec()),
        _ => panic!("nothing is written"),
    }
}

#[test]
fn seeds_reach_the_largest_file_and_the_largest_name() {
    let lengths = |seed: &str| {
        let (name, file) = written_of(seed);
        (name.len(), file.len())
    };
    assert_eq!(lengths("record-largest-file"), (NAME_MAX - 1, FILE_MAX));
    assert_eq!(lengths("connman-largest-file"), (NAME_MAX - 1, FILE_MAX));
    assert_eq!(lengths("record-largest-name").0, NAME_MAX);
}

#[test]
fn seeds_of_the_worked_move_are_one_another() {
    let Case::File(desk) = seed("iwd-worked") else { panic!("a file") };
    let expected = (desk.name, desk.file);
    assert_eq!(written_of("connman-worked"), expected);
    assert_eq!(written_of("record-worked"), expected);
}

#[test]
fn seeds_write_addresses_as_they_are_to_be_written() {
    let rows: [(&str, &[u8]); 4] = [
        (
            "connman-static-ipv6",
            b"[IPv6]\nAddress=2001:db8::1:0:0:14/64\nGateway=fe80::c000:201\n",
        ),
        (
            "connman-ipv6-forms",
            b"[IPv6]\nAddress=::ffff:c000:201/128\nGateway=::ffff:8190:3426\n",
        ),
        ("record-static-ipv6", b"[IPv6]\nAddress=2001:db8::14/64\nGateway=fe80::1\n"),
        (
            "record-equal-runs",
            b"[IPv6]\nAddress=2001:db8::1:0:0:1/128\nGateway=::ffff:c000:201\n",
        ),
    ];
    for (name, end) in rows {
        assert!(written_of(name).1.ends_with(end), "{name}");
    }
}

#[test]
fn seeds_have_the_answers_that_their_names_say() {
    let rows = [
        ("connman-every-key", Entry::CheckConnman, (0, 0)),
        ("connman-every-escape", Entry::MoveService, (0, 0)),
        ("connman-blanks-kept", Entry::MoveService, (0, 0)),
        ("connman-bad-escape", Entry::CheckConnman, (11, 4)),
        ("connman-lists-with-backslashes", Entry::CheckConnman, (0, 0)),
        ("connman-short-passphrase", Entry::CheckConnman, (12, 4)),
        ("connman-static-ipv6", Entry::MoveService, (0, 0)),
        ("connman-ipv6-forms", Entry::MoveService, (0, 0)),
        ("connman-ipv6-without-gateway", Entry::CheckConnman, (0, 0)),
        ("connman-ipv6-without-gateway", Entry::MoveService, (16, 4)),
        ("connman-bad-ipv6", Entry::CheckConnman, (12, 4)),
        ("connman-bad-ipv6-length", Entry::CheckConnman, (12, 4)),
        ("iwd-static-ipv6", Entry::CheckIwd, (0, 0)),
        ("iwd-ipv6-length-left-off", Entry::CheckIwd, (0, 0)),
        ("iwd-bad-ipv6", Entry::CheckIwd, (12, 3)),
        ("iwd-bad-dotted-tail", Entry::CheckIwd, (12, 2)),
        ("iwd-ipv6-gateway-alone", Entry::CheckIwd, (14, 0)),
        ("iwd-ipv6-off-beside-address", Entry::CheckIwd, (15, 0)),
        ("record-static-ipv6", Entry::WriteIwd, (0, 0)),
        ("record-equal-runs", Entry::WriteIwd, (0, 0)),
        ("record-ipv6-without-gateway", Entry::WriteIwd, (16, 0)),
        ("record-ipv6-of-length-129", Entry::WriteIwd, (19, 0)),
        ("record-ipv6-off-with-address", Entry::WriteIwd, (19, 0)),
        ("iwd-empty", Entry::CheckIwd, (0, 0)),
        ("iwd-every-key", Entry::CheckIwd, (0, 0)),
        ("buffers-one-short", Entry::MoveService, (17, 0)),
    ];
    for (name, entry, expected) in rows {
        let answers = judged::answers(&seed(name));
        let answer = match own::answer(&answers, entry) {
            Some(Answer::Reading(reading)) => (reading.number, reading.line),
            Some(Answer::Written { written, .. }) => (written.number, written.line),
            _ => panic!("{name} is put to a check, to the writer or to the move"),
        };
        assert_eq!(answer, expected, "{name}");
    }
}

#[test]
fn a_seed_has_every_escape_in_every_string() {
    let case = seed("connman-every-escape");
    let answers = judged::answers(&case);
    let Case::File(case) = case else { panic!("a file") };
    let file = String::from_utf8(case.file).expect("plain bytes");
    let strings = answers.iter().filter_map(|(_, outcome)| match &outcome.answer {
        Answer::Text(text) if text.number == 0 => Some(&file[text.start..][..text.length]),
        _ => None,
    });
    let has_all = |value: &&str| ["\\s", "\\t", "\\r", "\\n", "\\\\"].iter().all(|escape| value.contains(escape));
    assert_eq!(strings.filter(has_all).count(), 5);
}
