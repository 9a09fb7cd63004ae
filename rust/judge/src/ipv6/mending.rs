//! Texts of IPv6 addresses without one fault: of each sort of fault, the texts that are left of a text that has it.

use crate::reference::ipv6_text::read;

/// Whether one of the texts without a fault, if there is any, is that of an address.
pub fn mends<T: IntoIterator<Item = String>>(text: &[u8], mend: fn(&str) -> T) -> bool {
    let text = std::str::from_utf8(text).unwrap_or("");
    mend(text).into_iter().any(|mended| read(mended.as_bytes()).is_some())
}

/// A group of five digits without its first.
pub fn shorter_groups(text: &str) -> Vec<String> {
    let pieces: Vec<&str> = text.split(':').collect();
    let long = (0..pieces.len()).filter(|place| pieces[*place].len() == 5);
    long.map(|place| {
        let mut mended = pieces.clone();
        mended[place] = mended[place].get(1..).unwrap_or("");
        mended.join(":")
    })
    .collect()
}

/// A 0 for the one byte that no text of an address has, and that is none of those of the other faults.
pub fn other_digit(text: &str) -> Option<String> {
    let is_strange = |byte: char| !byte.is_ascii_hexdigit() && !":.%[]/ \t".contains(byte);
    (text.chars().filter(|byte| is_strange(*byte)).count() == 1).then(|| text.replace(is_strange, "0"))
}

/// A group more, where there is no `::`.
pub fn one_more(text: &str) -> Option<String> {
    (!text.contains("::")).then(|| format!("0:{text}"))
}

/// A group fewer, where there is no `::`.
pub fn one_fewer(text: &str) -> Option<String> {
    let (first, rest) = text.split_once(':').filter(|_| !text.contains("::"))?;
    (!first.is_empty()).then(|| rest.to_string())
}

/// The first `::` taken out, the groups beside it with one colon between.
fn without_gap(text: &str) -> Option<String> {
    let (before, after) = text.split_once("::").filter(|_| !text.contains(":::"))?;
    Some(match (before, after) {
        ("", rest) | (rest, "") => rest.to_string(),
        _ => format!("{before}:{after}"),
    })
}

/// The only `::` taken out.
pub fn without_only_gap(text: &str) -> Option<String> {
    without_gap(text).filter(|rest| !rest.contains("::"))
}

/// One of two `::` taken out.
pub fn without_second_gap(text: &str) -> Option<String> {
    without_gap(text).filter(|rest| rest.contains("::"))
}

/// Two colons for three.
pub fn without_third_colon(text: &str) -> Option<String> {
    text.contains(":::").then(|| text.replacen(":::", "::", 1))
}

/// The lone colon at the front taken out.
pub fn without_first_colon(text: &str) -> Option<String> {
    text.strip_prefix(':').filter(|rest| !rest.starts_with(':')).map(str::to_string)
}

/// The lone colon at the end taken out.
pub fn without_last_colon(text: &str) -> Option<String> {
    text.strip_suffix(':').filter(|rest| !rest.ends_with(':')).map(str::to_string)
}

/// What stands before `%`.
pub fn without_zone(text: &str) -> Option<String> {
    text.split_once('%').map(|(address, _)| address.to_string())
}

/// What stands in brackets.
pub fn without_brackets(text: &str) -> Option<String> {
    text.strip_prefix('[')?.strip_suffix(']').map(str::to_string)
}

/// Without the blanks that it has.
pub fn without_blanks(text: &str) -> Option<String> {
    text.contains([' ', '\t']).then(|| text.replace([' ', '\t'], ""))
}

/// One number of a dotted tail changed.
fn with_number(text: &str, change: fn(&str) -> Option<String>) -> Vec<String> {
    let (front, tail) = text.rsplit_once(':').unwrap_or(("", text));
    let numbers: Vec<&str> = tail.split('.').collect();
    let changed = |place: usize| {
        let number = change(numbers[place])?;
        let tail = [&numbers[..place], &[&number], &numbers[place + 1..]].concat().join(".");
        Some(format!("{front}:{tail}"))
    };
    (0..numbers.len()).filter_map(changed).collect()
}

/// A number of a tail without a leading zero.
pub fn without_leading_zero(text: &str) -> Vec<String> {
    with_number(text, |number| {
        number.strip_prefix('0').filter(|rest| !rest.is_empty()).map(str::to_string)
    })
}

/// 255 for a number of a tail that is greater.
pub fn smaller_number(text: &str) -> Vec<String> {
    with_number(text, |number| {
        number.parse::<u32>().ok().filter(|number| *number > 255).map(|_| "255".to_string())
    })
}

/// A number more in a tail.
pub fn one_number_more(text: &str) -> Option<String> {
    text.contains('.').then(|| format!("{text}.0"))
}

/// A number fewer in a tail.
pub fn one_number_fewer(text: &str) -> Option<String> {
    text.rsplit_once('.')
        .map(|(rest, _)| rest.to_string())
        .filter(|rest| rest.contains('.'))
}

/// Two groups for a dotted part that other groups or `::` follow.
pub fn tail_as_groups(text: &str) -> Option<String> {
    let pieces: Vec<&str> = text.split(':').collect();
    let (last, before) = pieces.split_last()?;
    let place = before.iter().position(|piece| piece.split('.').count() == 4)?;
    Some([&before[..place], &["1", "1"], &before[place + 1..], &[*last]].concat().join(":"))
}

/// One group for a tail that is itself good.
pub fn tail_as_group(text: &str) -> Option<String> {
    let (front, tail) = text.rsplit_once(':')?;
    mends(tail.as_bytes(), behind_gap).then(|| format!("{front}:0"))
}

/// `::` before a dotted tail that stands alone.
pub fn behind_gap(text: &str) -> Option<String> {
    (text.contains('.') && !text.contains(':')).then(|| format!("::{text}"))
}
