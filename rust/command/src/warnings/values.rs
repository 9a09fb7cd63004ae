//! What can be said of a single value, in either dialect.

use super::{Warning, Word};
use crate::catalogue::{kind_in, Dialect, Keys, Kind};
use crate::escapes::unescaped;
use crate::layout::{self, is_blank, Form, Section, Setting};
use crate::secrets::{swallowed, swallowed_secret};
use crate::visible::visible;

/// The warnings about the texts of a group.
pub fn warnings(keys: Keys, section: &Section<'_>) -> Vec<Warning> {
    let kind = |setting: &Setting<'_>| kind_in(keys, setting.key);
    let is_text = |kind: Kind| kind.lengths().is_some() || kind == Kind::Entries;
    let texts = section
        .settings
        .iter()
        .filter_map(|setting| Some((setting, kind(setting).filter(|kind| is_text(*kind))?)));
    // The texts of `global` describe the file, and no till reads them.
    let is_read = section.name != b"global";
    texts.filter_map(|(setting, kind)| about(setting, kind, is_read)).collect()
}

/// The first of the things that can be wrong with a text.
fn about(setting: &Setting<'_>, kind: Kind, is_read: bool) -> Option<Warning> {
    let key = ("key", visible(setting.key));
    let warning = |word, parts: &[(&str, String)]| Some(Warning::new(word, Some(setting.line), parts));
    let meant = match kind {
        Kind::Entries => setting.value.into(),
        _ => unescaped(setting.value),
    };
    if let Some(inner) = swallowed_in(&meant, kind) {
        return warning(Word::SwallowedLine, &[key, ("found", inner.to_string())]);
    }
    if !is_read {
        return None;
    }
    if is_quoted(&meant) {
        return warning(Word::QuotedValue, &[key]);
    }
    let mark = comment_mark(setting.value)?;
    warning(Word::CommentBehindValue, &[key, ("found", mark.to_string())])
}

/// What of the next line a text seems to have swallowed. What is hidden for it is told; a passphrase is hidden anyway, and may say
/// what it likes beside the listed keys.
fn swallowed_in(value: &[u8], kind: Kind) -> Option<&'static str> {
    let is_telling = kind != Kind::Passphrase && swallowed_secret(value).is_some();
    swallowed(value).or(is_telling.then_some("a word for a passphrase"))
}

fn is_quoted(value: &[u8]) -> bool {
    [b'"', b'\'']
        .iter()
        .any(|mark| value.len() > 1 && value.first() == Some(mark) && value.last() == Some(mark))
}

/// The mark that seems to begin a comment behind a value as it stands: behind an escaped blank none does.
fn comment_mark(value: &[u8]) -> Option<char> {
    let pair = value.windows(2).find(|pair| is_blank(pair[0]) && b"#;".contains(&pair[1]));
    pair.map(|pair| char::from(pair[1]))
}

/// Whether text has a code point that Unicode sets aside as no character.
pub fn has_noncharacter(text: &[u8]) -> bool {
    let is_none = |code: u32| (0xfdd0..=0xfdef).contains(&code) || code & 0xfffe == 0xfffe;
    String::from_utf8_lossy(text).chars().any(|character| is_none(character.into()))
}

/// The lines from one to another, both counted, that are a Passphrase behind a `#`.
pub fn commented_out(dialect: Dialect, file: &[u8], lines: std::ops::Range<usize>) -> Vec<Warning> {
    let numbered = layout::lines(file).enumerate().map(|(place, line)| (place + 1, line));
    let within = numbered.filter(|(number, line)| lines.contains(number) && is_commented_passphrase(dialect, line));
    within
        .map(|(number, _)| Warning::new(Word::CommentedOutPassphrase, Some(number), &[]))
        .collect()
}

fn is_commented_passphrase(dialect: Dialect, line: &[u8]) -> bool {
    let body = layout::trimmed(line);
    let Some(rest) = body.strip_prefix(b"#") else { return false };
    let rest = &rest[rest.iter().take_while(|byte| **byte == b'#').count()..];
    match layout::form(dialect, rest) {
        Form::Setting { key, .. } => [&b"Passphrase"[..], b"PreSharedKey"]
            .iter()
            .any(|name| rest[key.clone()].eq_ignore_ascii_case(name)),
        _ => false,
    }
}
