//! The words of a command line: options, options with a value, and the rest.

use crate::visible::visible;
use std::ffi::{OsStr, OsString};
use std::os::unix::ffi::{OsStrExt, OsStringExt};

/// The options that every command takes.
const EVERYWHERE: [&str; 4] = ["--help", "-h", "--version", "-V"];

/// The option with a value that every command takes.
pub const COLOR: &str = "--color";

pub struct Words {
    flags: Vec<String>,
    values: Vec<(String, OsString)>,
    pub rest: Vec<OsString>,
}

impl Words {
    pub fn split(words: &[OsString], flags: &[&str], valued: &[&str]) -> Result<Words, String> {
        let mut found = Words {
            flags: Vec::new(),
            values: Vec::new(),
            rest: Vec::new(),
        };
        let mut words = words.iter();
        while let Some(word) = words.next() {
            let bytes = word.as_bytes();
            if bytes == b"--" {
                found.rest.extend(words.cloned());
                break;
            }
            if !bytes.starts_with(b"-") || bytes == b"-" {
                found.rest.push(word.clone());
                continue;
            }
            let (name, value) = name_and_value(bytes);
            if valued.contains(&name.as_str()) || name == COLOR {
                let next = value.or_else(|| words.next().cloned());
                found.values.push((name.clone(), next.ok_or(format!("{name} needs a value"))?));
            } else if value.is_none() && (flags.contains(&name.as_str()) || EVERYWHERE.contains(&name.as_str())) {
                found.flags.push(name);
            } else {
                return Err(format!("There is no option {}", visible(bytes)));
            }
        }
        Ok(found)
    }

    /// Whether one of these options was given.
    pub fn has(&self, flags: &[&str]) -> bool {
        self.flags.iter().any(|found| flags.contains(&found.as_str()))
    }

    /// The value of an option that may be given once.
    pub fn value(&self, name: &str) -> Result<Option<&OsStr>, String> {
        match self.values(name).as_slice() {
            [] => Ok(None),
            [value] => Ok(Some(value)),
            _ => Err(format!("{name} is given twice")),
        }
    }

    /// The values of an option that may be given more than once.
    pub fn values(&self, name: &str) -> Vec<&OsStr> {
        let given = self.values.iter().filter(|(of, _)| of == name);
        given.map(|(_, value)| value.as_os_str()).collect()
    }
}

/// The two parts of `--name=value`; an option by itself has no value.
fn name_and_value(bytes: &[u8]) -> (String, Option<OsString>) {
    let split = bytes
        .starts_with(b"--")
        .then(|| bytes.iter().position(|byte| *byte == b'='))
        .flatten();
    match split {
        Some(place) => (visible(&bytes[..place]), Some(OsString::from_vec(bytes[place + 1..].to_vec()))),
        None => (visible(bytes), None),
    }
}
