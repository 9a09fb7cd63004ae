//! The reader of tables: what it takes for a case, and that it lets no row pass unseen.

use cases::table::{cases, run, Answer, Case};
use cases::written::decoded;
use cases::{leaves, moving, records, settings, writing};

/// Answers a case with its own text, and takes no case that begins with `?`.
fn echo(case: &[u8]) -> Result<Vec<u8>, String> {
    match case.first() {
        Some(b'?') => Err("it begins with ?".to_string()),
        _ => Ok(case.to_vec()),
    }
}

#[test]
fn what_is_expected_stands_behind_or_below() {
    let table = b"# first\n\na = b\na = b = c\nd = e\n  f\n  \n# last\n  g\n";
    let case = |line, input: &[u8], expected: &[u8]| Case {
        line,
        input: input.to_vec(),
        expected: expected.to_vec(),
    };
    let expected = vec![case(3, b"a", b"b"), case(4, b"a = b", b"c"), case(5, b"d = e", b"f\n\ng")];
    assert_eq!(cases(table), Ok(expected));
}

#[test]
fn a_table_of_right_rows_is_counted() {
    assert_eq!(run(b"a = a\n\nb\n  b\n", echo), Ok(2));
}

#[test]
fn a_table_without_cases_is_an_error() {
    assert!(run(b"", echo).is_err());
    assert!(run(b"# only a comment\n\n", echo).is_err());
}

#[test]
fn a_case_without_an_expectation_is_an_error() {
    assert!(run(b"a = a\nb\nc = c\n", echo).is_err());
    assert!(run(b"  a\nb = b\n", echo).is_err());
}

#[test]
fn every_wrong_row_is_named() {
    let wrong = run(b"a = a\nb = c\n? = ?\nd\n  e\n", echo).unwrap_err();
    assert!(
        wrong.starts_with("3 of 4 cases are wrong\nline 2: b\nexpected:\nc\nanswered:\nb\n"),
        "{wrong}"
    );
    assert!(wrong.contains("line 3: ?"), "{wrong}");
    assert!(wrong.contains("line 4: d\nexpected:\ne\nanswered:\nd"), "{wrong}");
}

#[test]
fn a_case_of_another_form_is_an_error() {
    let forms: [(Answer, &[&str]); 5] = [
        (
            leaves::answer,
            &["escapes a", "judge-iwd-words a", "judge-connman-address a", "line"],
        ),
        (settings::answer, &["Desk.open", "shop.config one [service_a]", "shop.config -1"]),
        (records::answer, &["Desk.open", "shop.config +1", "shop.config"]),
        (
            writing::answer,
            &[
                "Desk.open 9",
                "Desk.open 9 x",
                "!new 9 0",
                "!ipv6-auto+ipv6-length-256 9 0",
                "Desk.psk 9 0",
            ],
        ),
        (moving::answer, &["shop.config 1 10", "shop.config 1 10 x", "shop.config - 10 167"]),
    ];
    for (answer, rows) in forms {
        for row in rows {
            assert!(answer(row.as_bytes()).is_err(), "{row}");
        }
    }
}

#[test]
fn bytes_stand_as_they_are_or_behind_a_percent_sign() {
    assert_eq!(decoded(b"a%0Ab%ff"), b"a\nb\xff");
    assert_eq!(decoded(b"%*00003x%*00002%0a%*00000y"), b"xxx\n\n");
    assert_eq!(decoded(b"100% %4 %zz%"), b"100% %4 %zz%");
    assert_eq!(decoded(b"%*0003x"), b"%*0003x");
}
