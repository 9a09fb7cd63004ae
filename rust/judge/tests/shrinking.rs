//! The shrinker against references that are wrong on purpose: what differs is made small and stays different, and is printed readably.

use judge::answer::Answer;
use judge::case::{Case, FileCase};
use judge::compare::differences;
use judge::entry::Entry;
use judge::judged::{answers, Answers};
use judge::show::report;
use judge::shrink::shrink;
use judge::{encoding, generate};

/// A reference that reads the mask 255.255.254.0 as 24 ones.
fn wrong_mask(case: &Case) -> Answers {
    changed(case, |_, answer| match answer {
        Answer::IwdSettings(settings) if settings.ipv4.netmask_length == 23 => settings.ipv4.netmask_length = 24,
        _ => {}
    })
}

/// A reference that blames the line after the one to blame for a repeated key.
fn wrong_line(case: &Case) -> Answers {
    changed(case, |entry, answer| match answer {
        Answer::Reading(reading) if entry == Entry::CheckConnman && reading.number == 10 => reading.line += 1,
        _ => {}
    })
}

/// A reference that writes into a buffer although another is short.
fn wrong_buffer(case: &Case) -> Answers {
    changed(case, |entry, answer| match answer {
        Answer::Written { written, name, .. } if entry == Entry::MoveService && written.number == 17 && !name.is_empty() => name[0] ^= 1,
        _ => {}
    })
}

/// A reference that refuses records with three name servers.
fn wrong_servers(case: &Case) -> Answers {
    let three = matches!(case, Case::Record(case) if case.record.server_count == 3);
    changed(case, |_, answer| match answer {
        Answer::Written { written, .. } if three && written.number == 0 => written.number = 19,
        _ => {}
    })
}

fn changed(case: &Case, change: impl Fn(Entry, &mut Answer)) -> Answers {
    let mut answers = answers(case);
    answers.iter_mut().for_each(|(entry, outcome)| change(*entry, &mut outcome.answer));
    answers
}

/// A generated case of some size at which the wrong reference differs, made small.
fn smallest(wrong: fn(&Case) -> Answers, least: usize) -> Case {
    let differs = |case: &Case| !differences(&answers(case), &wrong(case)).is_empty();
    let mut cases = (0..).map(|index| generate::case(3, index));
    let found = cases
        .find(|case| encoding::encode(case).len() >= least && differs(case))
        .expect("cases do not end");
    let small = shrink(&found, &differs);
    assert!(differs(&small));
    small
}

fn file_of(case: Case) -> FileCase {
    match case {
        Case::File(case) => case,
        Case::Record(_) => panic!("a file case stays one"),
    }
}

#[test]
fn a_misread_mask_is_left_with_what_an_accepted_file_needs() {
    let case = file_of(smallest(wrong_mask, 300));
    let text = String::from_utf8(case.file).expect("plain bytes");
    let mut lines: Vec<&str> = text.lines().collect();
    lines.sort_unstable();
    assert_eq!(lines.len(), 4, "{text}");
    assert!(lines.contains(&"[IPv4]") && lines.contains(&"Netmask=255.255.254.0"), "{text}");
    assert!(
        lines.iter().any(|line| line.starts_with("Gateway=")) && lines.iter().any(|line| line.starts_with("Address=")),
        "{text}"
    );
    assert_eq!((&case.name[..], case.buffers.name, case.buffers.file), (&b"a.open"[..], 0, 0));
}

#[test]
fn a_wrong_line_is_left_with_the_group_and_the_two_settings() {
    let case = file_of(smallest(wrong_line, 400));
    let lines: Vec<&[u8]> = case.file.split(|&byte| byte == b'\n').filter(|line| !line.is_empty()).collect();
    assert_eq!(lines.len(), 3, "{}", case.file.escape_ascii());
    let longest = "[service_a]\nIPv6.Privacy=enabled\nIPv6.Privacy=".len();
    assert!(
        case.file.len() <= longest && case.name == b"a.config",
        "{}",
        case.file.escape_ascii()
    );
}

#[test]
fn a_wrong_buffer_is_left_with_one_byte_of_buffer() {
    let case = file_of(smallest(wrong_buffer, 300));
    assert_eq!((case.buffers.name, case.buffers.file, case.service), (1, 0, 1));
    assert!(
        case.file.len() <= "[service_a]\nType=wifi\nName=a\n".len(),
        "{}",
        case.file.escape_ascii()
    );
}

#[test]
fn a_refused_record_is_left_with_zeros_where_it_can_be() {
    let Case::Record(case) = smallest(wrong_servers, 448) else {
        panic!("a record case stays one")
    };
    assert_eq!(
        (case.record.server_count, case.record.servers, case.record.name_len),
        (3, [0; 16], 1)
    );
    assert_eq!(
        (case.record.domain_len, case.record.credential, case.record.ipv4, case.record.hidden),
        (0, 0, 0, 0)
    );
    assert_eq!(
        (case.record.ipv6, case.record.ipv6_address, case.record.ipv6_gateway),
        (0, [0; 16], [0; 16])
    );
}

#[test]
fn a_small_case_is_printed_line_by_line() {
    let file = b"[IPv4]\nAddress=1.2.3.4\n\tGateway=1.2.3.1\nNetmask=255.255.254.0".to_vec();
    let buffers = judge::case::Buffers { name: 3, file: 0, dirt: 0 };
    let case = Case::File(FileCase {
        name: b"Desk\xFF.open".to_vec(),
        file,
        service: 2,
        buffers,
    });
    let printed = report(&case, &[]);
    let expected =
        "name \"Desk\\xff.open\", service 2, buffers of 3 and 0 bytes, dirt 0\nfile of 61 bytes, 4 lines:\n    1  [IPv4]\\n\n    \
        2  Address=1.2.3.4\\n\n    3  \\tGateway=1.2.3.1\\n\n    4  Netmask=255.255.254.0 (no newline)\n";
    assert_eq!(printed, expected);
}

#[test]
fn differences_are_printed_member_by_member() {
    let file = b"[IPv4]\nAddress=1.2.3.4\nGateway=1.2.3.1\nNetmask=255.255.254.0\n".to_vec();
    let buffers = judge::case::Buffers { name: 0, file: 0, dirt: 0 };
    let case = Case::File(FileCase {
        name: b"a.open".to_vec(),
        file,
        service: 0,
        buffers,
    });
    let printed = report(&case, &differences(&answers(&case), &wrong_mask(&case)));
    let tail = "qewaris_iwd_settings_of: 0 by the judge, 0 by the library\n    netmask_length\n        judge    23\n        library  24\n";
    assert!(printed.ends_with(tail), "{printed}");
}
