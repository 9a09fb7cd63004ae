//! Every sentence of the table is earned by a file, and says what it should.

mod carets;
mod cases;
mod slips;

use super::kinds::message_of;
use super::*;
use crate::catalogue::{all_keys, GLOBAL, IWD, SERVICE};
use crate::messages::TABLE;
use cases::{checks, MOVES};

/// The sentences that stand in where nothing more is known.
fn is_general(message: Message) -> bool {
    (1..=19).any(|number| general(number) == message)
}

fn check(name: &str, file: &[u8]) -> Refusal {
    let counts = match Dialect::of(name.as_bytes()) {
        Dialect::Iwd => crate::check_iwd(name.as_bytes(), file),
        Dialect::Connman => crate::check_connman(name.as_bytes(), file),
    };
    counts.expect_err("the file is broken")
}

#[test]
fn each_file_is_told_with_its_sentence() {
    for (message, name, file, sentence) in checks() {
        let refusal = check(name, file);
        let found = finding(&Subject::new(name.as_bytes(), file), &refusal);
        assert_eq!(found.sentence, *sentence, "{message:?} of {name}");
        assert_eq!(refusal.number(), message.number(), "{message:?} of {name}");
    }
}

#[test]
fn each_move_is_told_with_its_sentence() {
    for (message, name, file, service, sentence) in MOVES {
        let refusal = crate::move_service(name.as_bytes(), file, *service).expect_err("it cannot move");
        let subject = Subject {
            service: Some(*service),
            for_move: true,
            ..Subject::new(name.as_bytes(), file)
        };
        assert_eq!(finding(&subject, &refusal).sentence, *sentence, "{message:?}");
        assert_eq!(refusal.number(), message.number(), "{message:?}");
    }
}

#[test]
fn the_first_of_the_lines_in_the_way_is_the_librarys() {
    let found = |file: &[u8], service: usize| -> Vec<Option<usize>> {
        let lines = unplaced_lines(&Subject::new(b"a.config", file), service);
        lines.iter().map(|line| line.line).collect()
    };
    for (_, name, file, service, _) in MOVES {
        let refusal = crate::move_service(name.as_bytes(), file, *service).expect_err("it cannot move");
        let first = found(file, *service).first().copied();
        assert_eq!(first, Some(refusal.line()).filter(|_| refusal.number() == 16), "{name}");
    }
    let all = b"[service_a]\nType = ethernet\nIPv4 = off\nMAC = 02:00:5e:10:00:01\nIPv6.Privacy = enabled\nSearchDomains = a\n\
                Timeservers = b\nIPv6 = ::1/128\n";
    assert_eq!(found(all, 1), (2..=8).map(Some).collect::<Vec<Option<usize>>>());
    let wireless = b"[service_a]\nType = wifi\nName = a\nSecurity = wep\nIPv4 = 10.0.0.2/255.0.0.0\n[service_b]\nType = wifi\nName = b\n\
                     IPv4 = 10.0.0.2/24/10.0.0.1\nIPv6 = 2001:db8::14/64/2001:db8::1\nSecurity = none\n";
    assert_eq!((found(wireless, 1), found(wireless, 2)), (vec![Some(4), Some(5)], Vec::new()));
    assert_eq!((found(wireless, 0), found(wireless, 3)), (Vec::new(), Vec::new()));
}

#[test]
fn a_short_buffer_is_told_with_the_sizes_that_are_enough() {
    let sizes = format!("{} bytes for the name and {} for the file", crate::NAME_MAX, crate::FILE_MAX);
    let sentence = Message::AnyShortBuffer.text(&[]).unwrap();
    assert!(sentence.contains(&sizes), "{sentence}");
}

#[test]
fn every_sentence_is_earned() {
    let moves = MOVES.iter().map(|case| case.0);
    let earned: Vec<Message> = checks().map(|case| case.0).chain(moves).collect();
    for (message, _, _) in TABLE {
        let is_size = *message == Message::Size;
        assert!(
            earned.contains(message) || is_general(*message) || is_size,
            "{message:?} is never said"
        );
    }
}

#[test]
fn the_size_is_told_where_it_is_known() {
    let file = vec![b'#'; 16_385];
    let refusal = check("shop.config", &file);
    let subject = Subject {
        size: Some(1_234_567),
        ..Subject::new(b"shop.config", &file)
    };
    let told = "The file has 1,234,567 bytes; at most 16,384 are allowed";
    assert_eq!(finding(&subject, &refusal).sentence, told);
    let general = "The file has more than 16,384 bytes; at most 16,384 are allowed";
    assert_eq!(finding(&Subject::new(b"shop.config", &file), &refusal).sentence, general);
}

#[test]
fn every_number_has_a_general_sentence() {
    for number in 1..=19 {
        assert_eq!(general(number).number(), number);
        let text = general(number).text(&[]).unwrap();
        assert!(!text.is_empty());
    }
}

#[test]
fn every_kind_has_a_sentence_in_both_dialects() {
    let groups = IWD.iter().map(|(_, keys)| (Dialect::Iwd, *keys));
    let all = groups.chain([(Dialect::Connman, GLOBAL), (Dialect::Connman, SERVICE)]);
    let mut count = 0;
    for (dialect, keys) in all {
        for (key, kind) in keys {
            for text in [&b""[..], b"?"] {
                assert_eq!(message_of(dialect, *kind, text).number(), 12, "{key}");
            }
            count += 1;
        }
    }
    assert_eq!(count, all_keys().count());
    assert_eq!(count, 32);
}

#[test]
fn each_sentence_is_one_and_says_what_is_allowed() {
    for (message, number, text) in TABLE {
        assert!((1..=19).contains(number), "{message:?}");
        assert!(text.contains("; "), "{message:?} says no two things");
        assert!(!text.contains('!') && !text.ends_with('.') && !text.contains('\n'), "{message:?}");
        assert!(!text.contains(". "), "{message:?} is more than one sentence");
    }
}

#[test]
fn a_part_that_is_missing_gives_no_text() {
    assert_eq!(Message::Passphrase.text(&[]), None);
    let parts = [("key", "Passphrase".to_string()), ("found", "7 bytes".to_string())];
    assert_eq!(
        Message::Passphrase.text(&parts).as_deref(),
        Some("Passphrase has 7 bytes; it needs 8 to 63")
    );
}

#[test]
fn the_rules_of_01_each_have_a_sentence() {
    let count = |number: u8| {
        TABLE
            .iter()
            .filter(|(message, of, _)| *of == number && !is_general(*message))
            .count()
    };
    // ConnMan 14 has three rules and iwd 14 five, of which two are those of both groups of addresses; ConnMan 15 has six and iwd 15
    // three; the move's list has ten things.
    assert_eq!((count(14), count(15), count(16)), (8, 9, 10));
}
