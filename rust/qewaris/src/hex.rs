//! Bytes as hex digits, and back.

/// Two lower-case digits for each byte.
pub fn encoded(bytes: &[u8]) -> String {
    bytes.iter().map(|byte| format!("{byte:02x}")).collect()
}

/// The bytes of digits in either case; none where one is no digit, or stands alone.
pub fn decoded(digits: &[u8]) -> Option<Vec<u8>> {
    let digit = |byte: u8| char::from(byte).to_digit(16).and_then(|digit| u8::try_from(digit).ok());
    let byte = |pair: &[u8]| match pair {
        [high, low] => Some(digit(*high)? * 16 + digit(*low)?),
        _ => None,
    };
    digits.chunks(2).map(byte).collect()
}

#[cfg(test)]
mod tests {
    use super::*;

    #[test]
    fn both_ways() {
        assert_eq!(encoded(b"Caf\xc3\xa9"), "436166c3a9");
        assert_eq!(decoded(b"436166C3a9").as_deref(), Some(&b"Caf\xc3\xa9"[..]));
        assert_eq!((decoded(b"4"), decoded(b"4g"), decoded(b"")), (None, None, Some(Vec::new())));
    }
}
