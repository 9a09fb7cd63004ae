//! What to do about a refusal, where more can be told than the sentence tells: the right name, the key or group that was meant, or the
//! command that mends the file.

mod bytes;
mod names;

use crate::catalogue::{keys_of, Dialect, IWD};
use crate::diagnosis::Finding;
use crate::input::Input;
use crate::layout::{self, Form};
use crate::secrets::nearest;

/// One sentence, or none where there is nothing to add.
pub fn advice(input: &Input, finding: &Finding) -> Option<String> {
    if finding.number == 2 {
        let right = names::right_name(&input.name)?;
        return Some(format!("The right name is {right}"));
    }
    let line = layout::line(&input.bytes, finding.line?)?;
    if let Some(mending) = bytes::mending(input, line) {
        return Some(mending);
    }
    match finding.number {
        6 => group(input.dialect(), line),
        9 => key(input, finding.line?, line),
        _ => None,
    }
}

/// The group that was meant.
fn group(dialect: Dialect, line: &[u8]) -> Option<String> {
    let Form::Header(name) = layout::form(dialect, line) else {
        return None;
    };
    let found = &line[name];
    if dialect == Dialect::Iwd && found == b"Network" {
        return Some("iwd has a group [Network], and it is not taken here".to_string());
    }
    let meant = match dialect {
        Dialect::Iwd => nearest(found, IWD.iter().map(|(name, _)| *name)),
        Dialect::Connman => nearest(found, ["global"].into_iter()),
    };
    meant.map(|meant| format!("Did you mean [{meant}]?"))
}

/// The key of its group that was meant.
fn key(input: &Input, number: usize, line: &[u8]) -> Option<String> {
    let dialect = input.dialect();
    let Form::Setting { key, .. } = layout::form(dialect, line) else {
        return None;
    };
    let sections = layout::sections(dialect, &input.bytes);
    let section = sections.iter().rev().find(|section| section.line < number)?;
    let keys = keys_of(dialect, section.name)?;
    let meant = nearest(&line[key], keys.iter().map(|(name, _)| *name))?;
    Some(format!("Did you mean {meant}?"))
}
