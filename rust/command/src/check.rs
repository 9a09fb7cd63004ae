//! `qewaris check`: which files are good, and what is wrong with the others.

use crate::advice::advice;
use crate::arguments::{Check, Warnings};
use crate::catalogue::{counted, Dialect};
use crate::diagnosis::finding;
use crate::forms::{self, State};
use crate::input::Input;
use crate::items::{Item, Tally};
use crate::output::Output;
use crate::report::{print_refused, print_warning, shown_path};
use crate::walk;
use crate::warnings::{self, Warning};
use crate::Outcome;
use std::io;
use std::path::Path;
use std::time::{Duration, Instant};

/// From so many files on, progress is shown and the summary comes in any case, both on a terminal only.
const MANY: usize = 1000;

pub fn run(request: &Check, output: &mut Output) -> io::Result<Outcome> {
    if request.quiet {
        output.hush();
    }
    let found = walk::found(&request.sources);
    let (count, is_one_file) = (found.len(), is_one_file(request, &found));
    let mut tally = Tally::default();
    let mut progress = Progress::new(count);
    for item in found {
        progress.step(output)?;
        judge(Item::of(item, "check"), request, &mut tally, output)?;
    }
    if request.json {
        output.line(&forms::counts("check", &tally).to_string())?;
    } else if !is_one_file && tally.files() > 0 {
        let is_watched = output.is_terminal() && count >= MANY;
        summarize(&tally, request.verbose || is_watched, request.verbose, output)?;
    }
    tally.name_failed(output)?;
    Ok(tally.outcome())
}

/// Whether a single file was named, or a folder that has none, so that no summary is needed.
fn is_one_file(request: &Check, found: &[walk::Found]) -> bool {
    match (request.sources.paths.as_slice(), found) {
        ([_], [walk::Found::Empty(_)]) => true,
        ([path], [_]) => !path.is_dir(),
        _ => false,
    }
}

fn judge(item: Item, request: &Check, tally: &mut Tally, output: &mut Output) -> io::Result<()> {
    match item {
        Item::Read(input) => match input.check() {
            Ok(has) => good(&input, &has, request, tally, output),
            Err(refusal) => {
                tally.refuse(&input.path);
                let found = finding(&input.subject(), &refusal);
                if request.json {
                    return print_form(State::Refused(&found, advice(&input, &found)), &input.path, output);
                }
                print_refused(output, &input, &found)
            }
        },
        Item::Skipped(path, reason) => {
            tally.skip(reason);
            if request.json {
                print_form(State::Skipped(reason.sentence()), &path, output)
            } else if request.verbose {
                output.line(&format!("{}: skipped: {}", shown_path(&path), reason.sentence()))
            } else {
                Ok(())
            }
        }
        Item::Failed(path, sentence) | Item::Empty(path, sentence) => {
            tally.lose(&path);
            if request.json {
                print_form(State::Unreadable(&sentence), &path, output)?;
            }
            output.error(&sentence)
        }
    }
}

fn print_form(state: State<'_>, path: &Path, output: &mut Output) -> io::Result<()> {
    output.line(&forms::file("check", path, &state, &[]).to_string())
}

fn good(input: &Input, has: &qewaris::Counts, request: &Check, tally: &mut Tally, output: &mut Output) -> io::Result<()> {
    let warnings = told(input, request.warnings);
    tally.good += 1;
    tally.warn(&input.path, warnings.len(), request.warnings == Warnings::Strict);
    if request.json {
        return output.line(&forms::file("check", &input.path, &State::Good(has), &warnings).to_string());
    }
    for warning in &warnings {
        print_warning(output, &input.path, warning)?;
    }
    if request.verbose {
        output.line(&format!("{}: good, {}", shown_path(&input.path), counts_of(has, input)))?;
    }
    Ok(())
}

/// The warnings about a file as it stands that are to be told.
pub fn told(input: &Input, warnings: Warnings) -> Vec<Warning> {
    match warnings {
        Warnings::Silent => Vec::new(),
        Warnings::Told | Warnings::Strict => warnings::of_file(input),
    }
}

/// What an accepted file has, in words.
fn counts_of(has: &qewaris::Counts, input: &Input) -> String {
    let settings = counted(has.settings, "setting");
    match input.dialect() {
        Dialect::Iwd => settings,
        Dialect::Connman => format!("{settings}, {}", counted(has.services, "service")),
    }
}

/// Prints what came of all files, where something is to be told.
fn summarize(tally: &Tally, always: bool, verbose: bool, output: &mut Output) -> io::Result<()> {
    if tally.skipped() > 0 && !verbose {
        output.line(&tally.skipped_line())?;
    }
    if tally.warnings > 0 {
        let (warnings, files) = (counted(tally.warnings, "warning"), counted(tally.warned, "file"));
        output.line(&format!("{warnings}, in {files}; qewaris explain WORD tells more"))?;
    }
    let has_more = tally.good < tally.files() || tally.skipped() > 0 || tally.warnings > 0;
    if always || has_more {
        output.line(&tally.summary())?;
    }
    Ok(())
}

/// Tells how far the check is, where there are many files, a few times in a second.
struct Progress {
    done: usize,
    total: usize,
    told: Instant,
}

impl Progress {
    fn new(total: usize) -> Progress {
        Progress {
            done: 0,
            total,
            told: Instant::now(),
        }
    }

    fn step(&mut self, output: &mut Output) -> io::Result<()> {
        let is_due = self.done == 0 || self.told.elapsed() >= Duration::from_millis(200);
        if self.total >= MANY && is_due {
            self.told = Instant::now();
            output.progress(self.done, self.total)?;
        }
        self.done += 1;
        Ok(())
    }
}
