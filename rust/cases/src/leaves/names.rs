//! File names, read and written.

use crate::ask::{read, write};
use crate::show::hex_front;
use qewaris::{raw, FILE_MAX, NAME_MAX};

/// The network name of an iwd file name, behind the kind of file. Of the two kinds only .psk needs a key.
pub fn iwd_name(input: &[u8]) -> Vec<u8> {
    let (kind, file): (_, &[u8]) = match read(raw::qewaris_check_iwd, input, b"").number {
        0 => ("open", b""),
        14 => ("psk", b"[Security]\nPassphrase=12345678\n"),
        2 => return b"refused".to_vec(),
        number => return format!("refused {number}").into_bytes(),
    };
    let found = read(raw::qewaris_iwd_record, input, file);
    match found.number {
        0 => format!("{kind} {}", hex_front(&found.record.name, found.record.name_len.into())).into_bytes(),
        number => format!("refused {number}").into_bytes(),
    }
}

pub fn connman_name(input: &[u8]) -> Vec<u8> {
    match read(raw::qewaris_check_connman, input, b"").number {
        0 => b"yes".to_vec(),
        2 => b"no".to_vec(),
        number => format!("refused {number}").into_bytes(),
    }
}

/// The file name of a network under this credential.
fn file_name(input: &[u8], credential: u8) -> Vec<u8> {
    let mut record = raw::Record::ZERO;
    let Some(name) = record.name.get_mut(..input.len()) else {
        return b"too long".to_vec();
    };
    name.copy_from_slice(input);
    record.name_len = input.len() as u8;
    record.credential = credential;
    match written(record) {
        Ok((name, _)) => name,
        Err(number) => format!("refused {number}").into_bytes(),
    }
}

/// The file name of an open network.
pub fn open_name(input: &[u8]) -> Vec<u8> {
    file_name(input, 0)
}

/// The file name of a network with a key.
pub fn psk_name(input: &[u8]) -> Vec<u8> {
    file_name(input, 2)
}

/// The name and the file that are written for a record, or the number of the refusal.
pub fn written(record: raw::Record) -> Result<(Vec<u8>, Vec<u8>), u8> {
    let (mut name, mut file) = ([0; NAME_MAX], [0; FILE_MAX]);
    let told = write(record, &mut name, &mut file);
    match told.number {
        0 => Ok((name[..told.name_len].to_vec(), file[..told.file_len].to_vec())),
        number => Err(number),
    }
}
