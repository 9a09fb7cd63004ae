//! How bytes are written in a table.
//!
//! `%` and two hex digits stand for a byte, `%*` and five decimal digits for that many times the byte written behind them; any
//! other byte stands as it is.

/// The bytes that a table's text stands for.
pub fn decoded(text: &[u8]) -> Vec<u8> {
    let mut bytes = Vec::new();
    let mut rest = text;
    while !rest.is_empty() {
        let (byte, count, behind) = run(rest);
        bytes.extend(std::iter::repeat_n(byte, count));
        rest = behind;
    }
    bytes
}

/// The first byte that a text stands for, how often it is repeated, and the text behind it.
fn run(text: &[u8]) -> (u8, usize, &[u8]) {
    if let [b'%', b'*', digits @ .., _] = text.get(..8).unwrap_or_default() {
        if let Some(count) = number(digits) {
            let (byte, behind) = one(&text[7..]);
            return (byte, count, behind);
        }
    }
    let (byte, behind) = one(text);
    (byte, 1, behind)
}

/// The byte at the front of a text that is not empty, and the text behind it.
fn one(text: &[u8]) -> (u8, &[u8]) {
    if let [b'%', high, low, behind @ ..] = text {
        if let (Some(high), Some(low)) = (digit(*high), digit(*low)) {
            return (high * 16 + low, behind);
        }
    }
    (text[0], &text[1..])
}

fn digit(byte: u8) -> Option<u8> {
    char::from(byte).to_digit(16).and_then(|digit| u8::try_from(digit).ok())
}

/// The number that decimal digits write.
pub(crate) fn number(digits: &[u8]) -> Option<usize> {
    let all_digits = digits.iter().all(u8::is_ascii_digit);
    std::str::from_utf8(digits).ok().filter(|_| all_digits)?.parse().ok()
}

/// Bytes as they are shown in an answer: `%` and two hex digits for a blank, a `%` or a byte that cannot be printed.
pub(crate) fn encoded(bytes: &[u8]) -> String {
    let shown = |byte: &u8| match byte {
        b'%' => "%25".to_string(),
        33..=126 => char::from(*byte).to_string(),
        _ => format!("%{byte:02x}"),
    };
    bytes.iter().map(shown).collect()
}

/// Bytes as two hex digits each.
pub(crate) fn hex(bytes: &[u8]) -> String {
    bytes.iter().map(|byte| format!("{byte:02x}")).collect()
}

/// The parts of a case, with a single blank between them; the last one may have blanks, and is empty where it is missing.
pub(crate) fn parts<const N: usize>(case: &[u8]) -> Result<[&[u8]; N], String> {
    let mut parts: Vec<&[u8]> = case.splitn(N, |byte| *byte == b' ').collect();
    if parts.len() == N - 1 {
        parts.push(b"");
    }
    parts.try_into().map_err(|_| format!("it has fewer than {} parts", N - 1))
}
