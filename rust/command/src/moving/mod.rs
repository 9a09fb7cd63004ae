//! `qewaris move`: the iwd files of ConnMan files' services, all of them or none.

mod form;
mod plan;
mod telling;

use crate::arguments::{Move, Warnings};
use crate::items::{Item, Tally};
use crate::output::Output;
use crate::placing::{may_place, place, Failure, NewFile};
use crate::report::print_warning;
use crate::walk::{self, Found, Reason};
use crate::warnings::{Warning, Word};
use crate::Outcome;
use plan::Plan;
use std::io;
use std::os::unix::ffi::OsStrExt;

pub fn run(request: &Move, output: &mut Output) -> io::Result<Outcome> {
    if request.quiet {
        output.hush();
    }
    let mut plan = Plan::default();
    let mut tally = Tally::default();
    for found in sources(request) {
        match Item::of(found, "move") {
            Item::Read(input) => {
                if let Some(sentence) = plan.add(request, &input, &mut tally, output)? {
                    output.error(&sentence)?;
                    return Ok(Outcome::Usage);
                }
            }
            Item::Skipped(_, reason) => tally.skip(reason),
            Item::Failed(path, sentence) | Item::Empty(path, sentence) => {
                tally.lose(&path);
                if request.json {
                    output.line(&form::unreadable(&path, &sentence))?;
                }
                output.error(&sentence)?;
            }
        }
    }
    let outcome = settled(request, &mut plan, &tally, output)?;
    if request.json {
        plan.forms(request, outcome == Outcome::Good)
            .try_for_each(|form| output.line(&form))?;
        output.line(&form::counts(&plan, &tally, outcome == Outcome::Good && !request.dry_run))?;
    }
    Ok(outcome)
}

/// The files that are asked for. The iwd files of a folder stay where they are.
fn sources(request: &Move) -> impl Iterator<Item = Found> + '_ {
    let named = |path: &std::path::Path| request.sources.paths.iter().any(|given| given == path);
    walk::found(&request.sources).into_iter().map(move |found| match found {
        Found::File(path) if !named(&path) && !path.as_os_str().as_bytes().to_ascii_lowercase().ends_with(b".config") => {
            Found::Skipped(path, Reason::Iwd)
        }
        found => found,
    })
}

/// What comes of the plan: its files are written, or shown, or it is told why they are not.
fn settled(request: &Move, plan: &mut Plan, tally: &Tally, output: &mut Output) -> io::Result<Outcome> {
    let is_clash = plan.tell_clashes(output)?;
    if tally.outcome() != Outcome::Good || is_clash {
        // A file that could not be read has no services, and of a refused one it is plain that nothing came.
        if is_clash || plan.has_refused || tally.files() > 1 {
            output.error("nothing was written")?;
        }
        tally.name_failed(output)?;
        return Ok(tally.outcome().max(if is_clash { Outcome::Refused } else { Outcome::Good }));
    }
    if plan.moved.is_empty() {
        output.error("there is nothing to move: nothing was written")?;
        return Ok(if plan.left_out.is_empty() {
            Outcome::Unreadable
        } else {
            Outcome::Refused
        });
    }
    placed(request, plan, tally, output)
}

/// Writes the files, or shows them.
fn placed(request: &Move, plan: &mut Plan, tally: &Tally, output: &mut Output) -> io::Result<Outcome> {
    plan.look_around(&request.to);
    let files: Vec<NewFile<'_>> = plan.files().collect();
    let footing = may_place(&request.to, &files, request.force);
    if let Ok(false) = footing {
        let warning = Warning::new(Word::ReadableByOthers, None, &[]);
        plan.warnings.push((request.to.clone(), warning));
    }
    if request.warnings == Warnings::Silent {
        plan.warnings.clear();
    }
    if !request.json {
        for (path, warning) in &plan.warnings {
            print_warning(output, path, warning)?;
        }
    }
    if request.warnings == Warnings::Strict && !plan.warnings.is_empty() {
        output.error("nothing was written: with --strict a warning stands in the way")?;
        return Ok(Outcome::Refused);
    }
    if request.dry_run && !request.json {
        plan.moved
            .iter()
            .try_for_each(|service| telling::print_dry(request, service, plan.is_several(), output))?;
    }
    let files: Vec<NewFile<'_>> = plan.files().collect();
    let done = footing.and_then(|_| {
        if request.dry_run {
            Ok(())
        } else {
            place(&request.to, &files, request.force)
        }
    });
    match done {
        Ok(()) => telling::print_done(request, plan, tally, output).map(|()| Outcome::Good),
        Err(failure) => print_failure(&failure, output),
    }
}

fn print_failure(failure: &Failure, output: &mut Output) -> io::Result<Outcome> {
    let outcome = match failure {
        Failure::InTheWay(there) => {
            for path in there {
                let path = crate::report::shown_path(path);
                output.error(&format!("{path} is there already; --force overwrites it"))?;
            }
            Outcome::Refused
        }
        Failure::NotWritten(sentence) => {
            output.error(sentence)?;
            Outcome::Unreadable
        }
        Failure::LeftBehind(sentence) => {
            output.error(sentence)?;
            return Ok(Outcome::Unreadable);
        }
    };
    output.error("nothing was written")?;
    Ok(outcome)
}
