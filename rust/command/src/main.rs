//! The command `qewaris`: checks, shows, lists, moves and explains the network files of iwd and ConnMan.
//!
//! What is good and what is not the library says; this is the tool around it.

mod addressing;
mod advice;
mod arguments;
mod check;
mod explain;
mod forms;
mod help;
mod input;
mod items;
mod json;
mod list;
mod moving;
mod output;
mod placing;
mod report;
mod services;
mod show;
mod walk;
mod warnings;

use arguments::{Color, Request, Topic};
use output::Output;
// What tells a fault stands in the library's crate; here it goes by the same names.
use qewaris::{catalogue, diagnosis, escapes, hex, layout, secrets, visible};
use std::env;
use std::ffi::OsString;
use std::io::{self, Write};
use std::process::ExitCode;

/// How a run ends; the numbers are the exit statuses.
#[derive(Clone, Copy, Debug, PartialEq, Eq, PartialOrd, Ord)]
pub enum Outcome {
    Good = 0,
    /// A file was refused, or a move was.
    Refused = 1,
    /// A file could not be read or written.
    Unreadable = 2,
    /// The command was not used as it is meant.
    Usage = 3,
}

fn main() -> ExitCode {
    let words: Vec<OsString> = env::args_os().skip(1).collect();
    let parsed = arguments::parse(&words);
    let color = parsed.as_ref().map_or(Color::Auto, |(_, color)| *color);
    let mut output = Output::standard(color);
    let done = run(parsed, &mut output).and_then(|outcome| output.flush().map(|()| outcome));
    match done {
        Ok(outcome) => ExitCode::from(outcome as u8),
        Err(error) => {
            let _ = writeln!(io::stderr(), "qewaris: the output cannot be written: {}", input::plainly(&error));
            ExitCode::from(Outcome::Unreadable as u8)
        }
    }
}

fn run(parsed: Result<(Request, Color), (String, Topic)>, output: &mut Output) -> io::Result<Outcome> {
    match parsed.map(|(request, _)| request) {
        Ok(Request::Help(topic)) => output.line(help::help(topic).trim_end()).map(|()| Outcome::Good),
        Ok(Request::Version) => output.line(help::VERSION).map(|()| Outcome::Good),
        Ok(Request::Check(request)) => check::run(&request, output),
        Ok(Request::Show(request)) => show::run(&request, output),
        Ok(Request::List(request)) => list::run(&request, output),
        Ok(Request::Move(request)) => moving::run(&request, output),
        Ok(Request::Explain(request)) => explain::run(&request, output),
        Err((sentence, topic)) => {
            output.error(&format!("{sentence}. Try {}", help::asks_for(topic)))?;
            Ok(Outcome::Usage)
        }
    }
}
