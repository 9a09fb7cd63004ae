//! Value text: when it is broken (11), and the escapes of strings, alike in both dialects.

/// "Value text is broken (11) if it is not UTF-8, holds byte 0 or byte 13" - asked of every kind.
pub fn is_broken(value: &[u8]) -> bool {
    std::str::from_utf8(value).is_err() || value.contains(&0) || value.contains(&13)
}

/// The bytes that a string stands for: "strings know `\s`, `\t`, `\r`, `\n` and `\\`" (request 2026-02, of ConnMan too). None if it
/// "has a backslash not beginning one of the five escapes".
pub fn unescape(value: &[u8]) -> Option<Vec<u8>> {
    let mut bytes = Vec::with_capacity(value.len());
    let mut rest = value.iter();
    while let Some(&byte) = rest.next() {
        if byte != b'\\' {
            bytes.push(byte);
            continue;
        }
        bytes.push(match rest.next()? {
            b's' => b' ',
            b't' => b'\t',
            b'r' => b'\r',
            b'n' => b'\n',
            b'\\' => b'\\',
            _ => return None,
        });
    }
    Some(bytes)
}

/// "In strings byte 10, byte 13 and backslash are always escaped, space and tab only in first place; nothing else is."
pub fn escape(bytes: &[u8]) -> Vec<u8> {
    let mut value = Vec::with_capacity(bytes.len());
    for (place, &byte) in bytes.iter().enumerate() {
        match (byte, place) {
            (b'\n', _) => value.extend(b"\\n"),
            (b'\r', _) => value.extend(b"\\r"),
            (b'\\', _) => value.extend(b"\\\\"),
            (b' ', 0) => value.extend(b"\\s"),
            (b'\t', 0) => value.extend(b"\\t"),
            _ => value.push(byte),
        }
    }
    value
}
