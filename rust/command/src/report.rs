//! A finding as it is printed: file, line, sentence and number, then the line itself with a caret under the place. A warning is
//! printed in the same form, with its word, and without the line.

use crate::advice::advice;
use crate::diagnosis::{Excerpt, Finding};
use crate::hex::decoded;
use crate::input::Input;
use crate::output::{Output, Style};
use crate::secrets::swallowed_secret;
use crate::visible::{visible, Piece};
use crate::warnings::Warning;
use std::ffi::OsStr;
use std::io;
use std::os::unix::ffi::OsStrExt;
use std::path::Path;

/// How many columns of a long line are shown, with the place in the middle.
const COLUMNS: usize = 120;

/// Stands for what is cut off a long line.
const CUT: &str = "[cut]";

/// Stands for what is hidden, where its length is not to be told either.
pub const HIDDEN: &str = "[hidden]";

/// A path as it is printed. A file name whose hex is a text that swallowed a passphrase is hidden.
pub fn shown_path(path: &Path) -> String {
    let name = path.file_name().map(OsStr::as_bytes).unwrap_or_default();
    match (is_telling_name(name), path.parent()) {
        (true, Some(folder)) => visible(folder.join(HIDDEN).as_os_str().as_bytes()),
        _ => visible(path.as_os_str().as_bytes()),
    }
}

/// Whether a file name is the hex of a text that seems to have swallowed a line.
pub fn is_telling_name(name: &[u8]) -> bool {
    let stem = name.split(|byte| *byte == b'.').next().unwrap_or_default();
    let hex = stem.strip_prefix(b"=").unwrap_or_default();
    // A digit too many at its end does not make it less telling.
    let pairs = hex.get(..hex.len() / 2 * 2).unwrap_or_default();
    decoded(pairs).is_some_and(|text| swallowed_secret(&text).is_some())
}

/// A file and a line of it, as they stand before what is found there.
pub fn place(path: &Path, line: Option<usize>) -> String {
    match line {
        Some(line) => format!("{}:{line}:", shown_path(path)),
        None => format!("{}:", shown_path(path)),
    }
}

/// Prints why a file is refused, and what to do about it where there is more to tell.
pub fn print_refused(output: &mut Output, input: &Input, finding: &Finding) -> io::Result<()> {
    print_finding(output, &input.path, finding)?;
    match advice(input, finding) {
        Some(advice) => output.line(&format!("    {advice}")),
        None => Ok(()),
    }
}

/// Prints a finding about a file.
pub fn print_finding(output: &mut Output, path: &Path, finding: &Finding) -> io::Result<()> {
    print_labelled(output, path, finding, "error:")
}

/// Prints a finding under a label of its own.
pub fn print_labelled(output: &mut Output, path: &Path, finding: &Finding, label: &str) -> io::Result<()> {
    let told = Told {
        path,
        line: finding.line,
        style: Style::Error,
        label,
        sentence: &finding.sentence,
        name: finding.number.to_string(),
    };
    told.print(output)?;
    match &finding.excerpt {
        Some(excerpt) => print_excerpt(output, excerpt),
        None => Ok(()),
    }
}

/// Prints a warning about a file.
pub fn print_warning(output: &mut Output, path: &Path, warning: &Warning) -> io::Result<()> {
    Told::warning(path, warning).print(output)
}

/// What is told of a place in a file, on one line.
pub struct Told<'a> {
    pub path: &'a Path,
    pub line: Option<usize>,
    pub style: Style,
    pub label: &'a str,
    pub sentence: &'a str,
    /// The number or the word that `qewaris explain` takes.
    pub name: String,
}

impl Told<'_> {
    pub fn warning<'a>(path: &'a Path, warning: &'a Warning) -> Told<'a> {
        Told {
            path,
            line: warning.line,
            style: Style::Warning,
            label: "warning:",
            sentence: &warning.sentence,
            name: warning.word.row().name.to_string(),
        }
    }

    /// What stands behind the label.
    pub fn text(&self) -> String {
        format!("{} [{}]", self.sentence, self.name)
    }

    pub fn print(&self, output: &mut Output) -> io::Result<()> {
        let head = output.styled(Style::Bold, &place(self.path, self.line));
        let label = output.styled(self.style, self.label);
        output.line(&format!("{head} {label} {}", self.text()))
    }
}

fn print_excerpt(output: &mut Output, excerpt: &Excerpt) -> io::Result<()> {
    let (text, column) = window(excerpt);
    output.line(&format!("    {text}"))?;
    let caret = output.styled(Style::Caret, "^");
    output.line(&format!("    {}{caret}", " ".repeat(column)))
}

/// What of a line is shown, and the column of the place in it.
fn window(excerpt: &Excerpt) -> (String, usize) {
    let pieces = &excerpt.pieces;
    let at = pieces.iter().position(|piece| piece.start >= excerpt.place);
    let at = at.unwrap_or(pieces.len());
    let (first, last) = bounds(pieces, at);
    let columns = |part: &[Piece]| part.iter().map(|piece| piece.columns).sum::<usize>();
    let texts: String = pieces[first..last].iter().map(|piece| piece.text.as_str()).collect();
    let front = if first > 0 { CUT } else { "" };
    let back = if last < pieces.len() { CUT } else { "" };
    (format!("{front}{texts}{back}"), front.len() + columns(&pieces[first..at]))
}

/// The pieces that are shown: all of a short line, else those around the place.
fn bounds(pieces: &[Piece], at: usize) -> (usize, usize) {
    let width: usize = pieces.iter().map(|piece| piece.columns).sum();
    if width <= COLUMNS {
        return (0, pieces.len());
    }
    let reach = |part: &mut dyn Iterator<Item = &Piece>| {
        let mut columns = 0;
        part.take_while(|piece| {
            columns += piece.columns;
            columns <= COLUMNS / 2
        })
        .count()
    };
    let before = reach(&mut pieces[..at].iter().rev());
    let after = reach(&mut pieces[at..].iter());
    (at - before, at + after)
}
