//! The table holds together, and each example earns its word.

use super::*;

#[test]
fn each_example_earns_its_word() {
    for row in TABLE {
        if let Some((name, file)) = row.example {
            let found = found_in(&Input::held(name, file));
            assert_eq!(
                found.iter().map(|warning| warning.word).collect::<Vec<Word>>(),
                [row.word],
                "{}",
                row.name
            );
        }
    }
}

#[test]
fn the_table_is_in_the_order_of_its_words() {
    for row in TABLE {
        assert_eq!(row.word.row().name, row.name);
        assert_eq!(by_name(row.name), Some(row.word));
        assert!(
            row.name
                .bytes()
                .all(|byte| byte.is_ascii_lowercase() || byte == b'-' || byte == b'8'),
            "{}",
            row.name
        );
        assert!(!row.sentence.ends_with('.') && row.remedy.ends_with('.'), "{}", row.name);
        assert!(row.meaning.ends_with('.') && row.source.ends_with('.'), "{}", row.name);
    }
}

#[test]
fn noncharacters_are_those_of_unicode() {
    for code in [0xfdd0, 0xfdef, 0xfffe, 0xffff, 0x1fffe, 0x10ffff] {
        let text = char::from_u32(code).unwrap().to_string();
        assert!(values::has_noncharacter(text.as_bytes()), "{code:x}");
    }
    for code in [0x20, 0xfdcf, 0xfdf0, 0xfffd, 0x1fffd, 0x10000] {
        let text = char::from_u32(code).unwrap().to_string();
        assert!(!values::has_noncharacter(text.as_bytes()), "{code:x}");
    }
}
