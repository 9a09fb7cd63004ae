//! Cases of whole files.
//!
//! A case is a file name and a file. The answer is `accepted` with the numbers of settings and services, or `refused` with the
//! number and the line. A name that ends in `.config` is read as ConnMan's.

use crate::ask::{read, zero};
use crate::show::unused;
use crate::written::{decoded, parts};
use qewaris::raw;

/// The answer to a case.
pub fn answer(case: &[u8]) -> Result<Vec<u8>, String> {
    let [name, file] = parts(case)?;
    let (name, file) = (decoded(name), decoded(file));
    let check = match name.ends_with(b".config") {
        true => raw::qewaris_check_connman,
        false => raw::qewaris_check_iwd,
    };
    let reading = read(check, &name, &file);
    let refused = raw::Reading {
        line: reading.line,
        number: reading.number,
        ..zero()
    };
    let answer = match reading.number {
        0 => format!("accepted {} {}{}", reading.settings, reading.services, unused(reading.line == 0)),
        number => format!("refused {number} {}{}", reading.line, unused(reading == refused)),
    };
    Ok(answer.into_bytes())
}
