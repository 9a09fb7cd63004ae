//! Files that were saved in another way than they should be, and the command that mends each.

use crate::input::Input;
use std::os::unix::ffi::OsStrExt;

/// What was done to the file, and what mends it.
pub fn mending(input: &Input, line: &[u8]) -> Option<String> {
    let file = quoted(input);
    let bytes = input.bytes.as_slice();
    if let Some(encoding) = utf16(bytes) {
        // Line ends are mended with it, and no copy is left that others could read.
        let command = format!("text=$(iconv -f {encoding} -t UTF-8 {file}) && printf '%s\\n' \"$text\" | tr -d '\\r' > {file}");
        return Some(format!("The file is UTF-16, and this mends it: {command}"));
    }
    let (mark, returns) = ("begins with a byte order mark", "has Windows line ends");
    let (without_mark, without_returns) = ("1s/^\\xEF\\xBB\\xBF//", "s/\\r$//");
    let has_returns = line.ends_with(b"\r") || input.bytes.windows(2).filter(|pair| pair == b"\r\n").count() > 1;
    let (found, edit) = match (bytes.starts_with(b"\xef\xbb\xbf"), has_returns) {
        (true, true) => (format!("{mark} and {returns}"), format!("{without_mark}; {without_returns}")),
        (true, false) => (mark.to_string(), without_mark.to_string()),
        (false, true) => (returns.to_string(), without_returns.to_string()),
        (false, false) => return None,
    };
    Some(format!("The file {found}, and this mends it: sed -i '{edit}' {file}"))
}

/// How text of two bytes for each letter is called: by its byte order mark, or by the zeros of its first two letters.
fn utf16(bytes: &[u8]) -> Option<&'static str> {
    match bytes {
        [0xff, 0xfe, ..] | [0xfe, 0xff, ..] => Some("UTF-16"),
        [1..=255, 0, 1..=255, 0, ..] => Some("UTF-16LE"),
        [0, 1..=255, 0, 1..=255, ..] => Some("UTF-16BE"),
        _ => None,
    }
}

/// The path as a shell takes it; `FILE` where that cannot be printed plainly.
fn quoted(input: &Input) -> String {
    let bytes = input.path.as_os_str().as_bytes();
    let plain = |byte: &u8| byte.is_ascii_alphanumeric() || b"._/+-".contains(byte);
    match std::str::from_utf8(bytes) {
        Ok(path) if bytes.iter().all(plain) && !path.starts_with('-') => path.to_string(),
        Ok(path) if bytes.iter().all(|byte| (b' '..=b'~').contains(byte) && *byte != b'\'') && !path.starts_with('-') => {
            format!("'{path}'")
        }
        _ => "FILE".to_string(),
    }
}
