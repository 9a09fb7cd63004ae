//! What one line is, told by the files in which it stands.

use super::files::Told;
use crate::ask::{read, read_service};
use crate::written::encoded;
use qewaris::raw;

/// A dialect: how its files are read, and the group and key whose value is looked up.
struct Dialect {
    check: unsafe extern "C" fn(*const u8, usize, *const u8, usize) -> raw::Reading,
    name: &'static str,
    group: &'static str,
    key: &'static str,
}

pub fn line_iwd(input: &[u8]) -> Vec<u8> {
    let iwd = Dialect {
        check: raw::qewaris_check_iwd,
        name: "Desk.open",
        group: "[IPv4]\n",
        key: "DomainName",
    };
    form(&iwd, input, |name, file| read(raw::qewaris_iwd_domain_name, name, file))
}

pub fn line_connman(input: &[u8]) -> Vec<u8> {
    let connman = Dialect {
        check: raw::qewaris_check_connman,
        name: "shop.config",
        group: "[service_a]\nType=wifi\nName=n\n",
        key: "Domain",
    };
    form(&connman, input, |name, file| {
        read_service(raw::qewaris_service_domain, name, file, 1)
    })
}

/// What a line is: `passed over` where it stands twice and is accepted; `header`, with 6 where its group is unknown; `setting`
/// with what its group makes of it; or `broken` with its number.
fn form(dialect: &Dialect, line: &[u8], lookup: impl Fn(&[u8], &[u8]) -> raw::Text) -> Vec<u8> {
    let twice = [line, b"\n", line, b"\n"].concat();
    let told = match checked(dialect, &twice) {
        Told(0, 0) => "passed over".to_string(),
        Told(7, 2) => "header".to_string(),
        Told(6, 1) => "header 6".to_string(),
        Told(number @ 3..=5, 1) => format!("broken {number}"),
        Told(8, 1) => setting(dialect, line, lookup),
        told => return told.shown(),
    };
    told.into_bytes()
}

/// A setting: the looked-up key and its value where it is that key's, else the number that is given for it in its group.
fn setting(dialect: &Dialect, line: &[u8], lookup: impl Fn(&[u8], &[u8]) -> raw::Text) -> String {
    let file = [dialect.group.as_bytes(), line].concat();
    let text = lookup(dialect.name.as_bytes(), &file);
    match file.get(text.start..text.start + text.length) {
        Some(value) if text.number == 0 && text.line > 0 => format!("setting {}|{}", dialect.key, encoded(value)),
        _ => format!("setting {}", checked(dialect, &file).0),
    }
}

fn checked(dialect: &Dialect, file: &[u8]) -> Told {
    let reading = read(dialect.check, dialect.name.as_bytes(), file);
    Told(reading.number, reading.line)
}
