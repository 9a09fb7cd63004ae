//! `qewaris list`: all files at a glance, the worst first, and what only several of them can tell.

mod across;
mod form;
mod html;
mod rows;
mod table;

use crate::arguments::{List, Warnings};
use crate::items::{Item, Tally};
use crate::output::Output;
use crate::placing::{may_place, place, Failure, NewFile};
use crate::report::{shown_path, Told};
use crate::walk;
use crate::Outcome;
use across::{across, Across};
use rows::{Rank, Row};
use std::ffi::OsStr;
use std::io;
use std::os::unix::ffi::OsStrExt;
use std::path::Path;

/// All that a list tells.
pub struct Listed {
    rows: Vec<Row>,
    across: Vec<Across>,
    tally: Tally,
}

impl Listed {
    /// The rows in their order, those that several files warn of together among the others with a warning.
    fn of(mut rows: Vec<Row>, across: Vec<Across>, tally: Tally) -> Listed {
        for found in &across {
            let named = rows.iter_mut().filter(|row| found.files.contains(&row.path));
            named.for_each(|row| rows::warn(row, found.warning.word));
        }
        rows::sort(&mut rows);
        Listed { rows, across, tally }
    }

    /// What is told below the rows: their warnings as the other commands tell them, and every line that stands in the way of a move.
    fn details(&self) -> Vec<Told<'_>> {
        self.rows.iter().flat_map(Row::details).collect()
    }

    /// How many rows there are of each rank that there is.
    fn ranks(&self) -> Vec<(Rank, usize)> {
        let count = |rank: Rank| self.rows.iter().filter(|row| row.rank == rank).count();
        let ranks = Rank::ALL.into_iter().map(|rank| (rank, count(rank)));
        ranks.filter(|(_, count)| *count > 0).collect()
    }
}

pub fn run(request: &List, output: &mut Output) -> io::Result<Outcome> {
    if request.quiet {
        output.hush();
    }
    let listed = gathered(request, output)?;
    if request.json {
        form::lines(&listed).iter().try_for_each(|line| output.line(line))?;
    } else if request.html.is_none() {
        table::print(&listed, output)?;
    }
    let written = match &request.html {
        Some(path) => page(path, request, &listed, output)?,
        None => Outcome::Good,
    };
    listed.tally.name_failed(output)?;
    let is_warned = request.warnings == Warnings::Strict && !listed.across.is_empty();
    let strict = if is_warned { Outcome::Refused } else { Outcome::Good };
    Ok(listed.tally.outcome().max(strict).max(written))
}

fn gathered(request: &List, output: &mut Output) -> io::Result<Listed> {
    let is_told = request.warnings != Warnings::Silent;
    let (mut found, mut empty, mut tally) = (Vec::new(), Vec::new(), Tally::default());
    for item in walk::found(&request.sources) {
        match Item::of(item, "list") {
            Item::Read(input) => {
                let rows = rows::rows(&input, is_told);
                match rows.iter().any(|row| row.rank == Rank::Refused) {
                    true => tally.refuse(&input.path),
                    false => tally.good += 1,
                }
                let warnings = rows.iter().map(|row| row.warnings.len()).sum();
                tally.warn(&input.path, warnings, request.warnings == Warnings::Strict);
                found.extend(rows);
            }
            Item::Skipped(_, reason) => tally.skip(reason),
            Item::Failed(path, sentence) => {
                tally.lose(&path);
                output.error(&sentence)?;
                found.push(Row::unreadable(path, sentence));
            }
            Item::Empty(path, sentence) => {
                tally.lose(&path);
                output.error(&sentence)?;
                empty.push(Across::empty(path));
            }
        }
    }
    if is_told {
        empty.extend(across(&found));
    }
    Ok(Listed::of(found, empty, tally))
}

/// Writes the page, which only its owner can read, and never over a file unless that is asked for.
fn page(path: &Path, request: &List, listed: &Listed, output: &mut Output) -> io::Result<Outcome> {
    let text = html::page(&request.sources.paths, listed);
    let folder = path.parent().filter(|folder| !folder.as_os_str().is_empty());
    let folder = folder.unwrap_or(Path::new("."));
    let files = [NewFile {
        name: path.file_name().map(OsStr::as_bytes).unwrap_or_default(),
        contents: text.as_bytes(),
    }];
    let done = may_place(folder, &files, request.force).and_then(|_| place(folder, &files, request.force));
    let (sentence, outcome) = match done {
        Ok(()) if request.json => return Ok(Outcome::Good),
        Ok(()) => return output.line(&format!("{}: written", shown_path(path))).map(|()| Outcome::Good),
        Err(Failure::InTheWay(_)) => (
            format!("{} is there already; --force overwrites it", shown_path(path)),
            Outcome::Refused,
        ),
        Err(Failure::NotWritten(sentence) | Failure::LeftBehind(sentence)) => (sentence, Outcome::Unreadable),
    };
    output.error(&sentence)?;
    Ok(outcome)
}
