//! A case and its differences as a person reads them.

use crate::answer::record_fields;
use crate::case::{Case, FileCase, RecordCase};
use crate::compare::Difference;
use std::fmt::Write;

/// The case, and below it each difference member by member.
pub fn report(case: &Case, differences: &[Difference]) -> String {
    let mut report = match case {
        Case::File(case) => file_case(case),
        Case::Record(case) => record_case(case),
    };
    for difference in differences {
        let _ = writeln!(
            report,
            "{}: {} by the judge, {} by the library",
            difference.place, difference.numbers.0, difference.numbers.1
        );
        for (member, judge, library) in &difference.members {
            let _ = writeln!(report, "    {member}\n        judge    {judge}\n        library  {library}");
        }
    }
    report
}

/// Bytes in print, backslashes doubled and other bytes by their code.
pub fn printed(bytes: &[u8]) -> String {
    let print = |&byte: &u8| match byte {
        b'\\' => "\\\\".to_string(),
        b'\t' => "\\t".to_string(),
        b'\r' => "\\r".to_string(),
        b'\n' => "\\n".to_string(),
        32..=126 => char::from(byte).to_string(),
        _ => format!("\\x{byte:02x}"),
    };
    bytes.iter().map(print).collect()
}

fn file_case(case: &FileCase) -> String {
    let lines: Vec<&[u8]> = case.file.split_inclusive(|&byte| byte == b'\n').collect();
    let mut text = format!("name \"{}\", service {}, ", printed(&case.name), case.service);
    let _ = writeln!(
        text,
        "buffers of {} and {} bytes, dirt {}",
        case.buffers.name, case.buffers.file, case.buffers.dirt
    );
    let _ = writeln!(text, "file of {} bytes, {} lines:", case.file.len(), lines.len());
    for (place, line) in lines.iter().enumerate() {
        let ending = if line.ends_with(b"\n") { "" } else { " (no newline)" };
        let _ = writeln!(text, "{:>5}  {}{ending}", place + 1, printed(line));
    }
    text
}

fn record_case(case: &RecordCase) -> String {
    let mut text = String::from("record, ");
    let _ = writeln!(
        text,
        "buffers of {} and {} bytes, dirt {}",
        case.buffers.name, case.buffers.file, case.buffers.dirt
    );
    for (member, value) in record_fields(&case.record) {
        let _ = writeln!(text, "    {member:<14}  {value}");
    }
    text
}
