//! What the user asks for, from the words of the command line.

mod words;

use crate::visible::visible;
use crate::warnings::{by_name, Word};
use std::ffi::{OsStr, OsString};
use std::os::unix::ffi::OsStrExt;
use std::path::PathBuf;
use words::{Words, COLOR};

/// What is asked for.
#[derive(Debug, PartialEq, Eq)]
pub enum Request {
    Help(Topic),
    Version,
    Check(Check),
    Show(Show),
    List(List),
    Move(Move),
    Explain(Explain),
}

/// What help is about.
#[derive(Clone, Copy, Debug, PartialEq, Eq)]
pub enum Topic {
    All,
    Check,
    Show,
    List,
    Move,
    Explain,
}

/// When the output is coloured.
#[derive(Clone, Copy, Debug, PartialEq, Eq)]
pub enum Color {
    Auto,
    Always,
    Never,
}

/// The files that are asked about.
#[derive(Debug, PartialEq, Eq)]
pub struct Sources {
    /// Files and folders; `-` is standard input.
    pub paths: Vec<PathBuf>,
    /// The name of standard input.
    pub stdin_name: Option<PathBuf>,
}

/// What is done about warnings.
#[derive(Clone, Copy, Debug, PartialEq, Eq)]
pub enum Warnings {
    Told,
    Silent,
    /// Told, and as bad as a refusal.
    Strict,
}

#[derive(Debug, PartialEq, Eq)]
pub struct Check {
    pub sources: Sources,
    pub warnings: Warnings,
    pub verbose: bool,
    pub quiet: bool,
    pub json: bool,
}

#[derive(Debug, PartialEq, Eq)]
pub struct Show {
    pub sources: Sources,
    pub warnings: Warnings,
    /// The services that are shown; all, where none is named.
    pub services: Vec<Number>,
    pub json: bool,
    pub secrets: bool,
}

#[derive(Debug, PartialEq, Eq)]
pub struct List {
    pub sources: Sources,
    pub warnings: Warnings,
    pub json: bool,
    pub html: Option<PathBuf>,
    pub force: bool,
    pub quiet: bool,
}

#[derive(Debug, PartialEq, Eq)]
pub struct Move {
    pub sources: Sources,
    pub warnings: Warnings,
    pub services: Services,
    pub to: PathBuf,
    pub force: bool,
    pub dry_run: bool,
    pub skip_unplaced: bool,
    pub quiet: bool,
    pub json: bool,
}

/// Which services are moved.
#[derive(Clone, Debug, PartialEq, Eq)]
pub enum Services {
    /// The only one that there is.
    Only,
    These(Vec<Number>),
    All,
}

/// A number of a service, and how it was given.
#[derive(Clone, Debug, PartialEq, Eq)]
pub struct Number {
    /// The greatest number that there is, where it was given a greater one.
    pub value: usize,
    pub text: String,
}

#[derive(Debug, PartialEq, Eq)]
pub struct Explain {
    pub about: About,
    pub json: bool,
}

/// What is explained.
#[derive(Clone, Copy, Debug, PartialEq, Eq)]
pub enum About {
    All,
    Refusal(u8),
    Warning(Word),
}

/// The request, or a sentence that says what is wrong with the words and which help tells more.
pub fn parse(words: &[OsString]) -> Result<(Request, Color), (String, Topic)> {
    let Some((first, rest)) = words.split_first() else {
        return Err(("A command is needed: check, show, list, move or explain".to_string(), Topic::All));
    };
    let topic = match first.as_bytes() {
        b"--version" | b"-V" => return Ok((Request::Version, Color::Auto)),
        b"--help" | b"-h" | b"help" => return help(rest).map(|topic| (Request::Help(topic), Color::Auto)),
        other => topic(other).ok_or_else(|| (unknown(other), Topic::All))?,
    };
    asked(topic, rest).map_err(|sentence| (sentence, topic))
}

fn topic(word: &[u8]) -> Option<Topic> {
    match word {
        b"check" => Some(Topic::Check),
        b"show" => Some(Topic::Show),
        b"list" => Some(Topic::List),
        b"move" => Some(Topic::Move),
        b"explain" => Some(Topic::Explain),
        _ => None,
    }
}

fn unknown(word: &[u8]) -> String {
    format!(
        "There is no command {}; there are check, show, list, move and explain",
        visible(word)
    )
}

/// What `help` is asked about: all, or the command that it names.
fn help(words: &[OsString]) -> Result<Topic, (String, Topic)> {
    let Some(word) = words.first() else { return Ok(Topic::All) };
    topic(word.as_bytes()).ok_or_else(|| (unknown(word.as_bytes()), Topic::All))
}

/// The options of a command, without a value and with one.
fn options(topic: Topic) -> (&'static [&'static str], &'static [&'static str]) {
    match topic {
        Topic::Check => (
            &["-v", "--verbose", "-q", "--quiet", "--strict", "--no-warnings", "--json"],
            &["--stdin-name"],
        ),
        Topic::Show => (
            &["--json", "--secrets", "--strict", "--no-warnings"],
            &["--service", "--stdin-name"],
        ),
        Topic::List => (
            &["-q", "--quiet", "--strict", "--no-warnings", "--json", "--force"],
            &["--html", "--stdin-name"],
        ),
        Topic::Move => (
            &[
                "--all",
                "--force",
                "--dry-run",
                "--skip-unplaced",
                "-q",
                "--quiet",
                "--strict",
                "--no-warnings",
                "--json",
            ],
            &["--service", "--to", "--stdin-name"],
        ),
        Topic::Explain => (&["--json"], &[]),
        Topic::All => (&[], &[]),
    }
}

fn asked(topic: Topic, words: &[OsString]) -> Result<(Request, Color), String> {
    let (flags, valued) = options(topic);
    let found = Words::split(words, flags, valued)?;
    if found.has(&["--help", "-h"]) {
        return Ok((Request::Help(topic), Color::Auto));
    }
    if found.has(&["--version", "-V"]) {
        return Ok((Request::Version, Color::Auto));
    }
    let color = color(&found)?;
    let request = match topic {
        Topic::Check => check(&found),
        Topic::Show => show(&found),
        Topic::List => list(&found),
        Topic::Move => move_request(&found),
        Topic::Explain | Topic::All => explain(&found),
    };
    Ok((request?, color))
}

fn color(found: &Words) -> Result<Color, String> {
    match found.value(COLOR)?.map(OsStr::as_bytes) {
        None | Some(b"auto") => Ok(Color::Auto),
        Some(b"always") => Ok(Color::Always),
        Some(b"never") => Ok(Color::Never),
        Some(other) => Err(format!("--color is auto, always or never, and not {}", visible(other))),
    }
}

/// The files that are asked about; there is at least one.
fn sources(found: &Words, paths: &[OsString]) -> Result<Sources, String> {
    if paths.is_empty() {
        return Err("A file or a folder is needed".to_string());
    }
    let standard = paths.iter().filter(|path| path.as_bytes() == b"-").count();
    let name = found.value("--stdin-name")?;
    match (standard, name) {
        (0, Some(_)) => return Err("--stdin-name names standard input, which is read where - stands for a file".to_string()),
        (1, None) => return Err("- is standard input; --stdin-name NAME says how the file is called".to_string()),
        (2.., _) => return Err("- can be given once only".to_string()),
        _ => {}
    }
    if name.is_some_and(|name| name.is_empty() || name.as_bytes().contains(&b'/')) {
        return Err("--stdin-name is the name of a file without a folder".to_string());
    }
    Ok(Sources {
        paths: paths.iter().map(PathBuf::from).collect(),
        stdin_name: name.map(PathBuf::from),
    })
}

fn warnings(found: &Words) -> Result<Warnings, String> {
    match (found.has(&["--strict"]), found.has(&["--no-warnings"])) {
        (true, true) => Err("Only one of --strict and --no-warnings can be given".to_string()),
        (true, false) => Ok(Warnings::Strict),
        (false, true) => Ok(Warnings::Silent),
        (false, false) => Ok(Warnings::Told),
    }
}

fn check(found: &Words) -> Result<Request, String> {
    Ok(Request::Check(Check {
        sources: sources(found, &found.rest)?,
        warnings: warnings(found)?,
        verbose: found.has(&["-v", "--verbose"]),
        quiet: found.has(&["-q", "--quiet"]),
        json: found.has(&["--json"]),
    }))
}

fn show(found: &Words) -> Result<Request, String> {
    let mut services = numbers(found)?;
    // A number behind a single file is a service of it.
    let paths = match found.rest.as_slice() {
        [file, service] if is_number(service) => {
            services.push(number(service, "A service")?);
            std::slice::from_ref(file)
        }
        all => all,
    };
    Ok(Request::Show(Show {
        sources: sources(found, paths)?,
        warnings: warnings(found)?,
        services,
        json: found.has(&["--json"]),
        secrets: found.has(&["--secrets"]),
    }))
}

fn list(found: &Words) -> Result<Request, String> {
    let html = found.value("--html")?.map(PathBuf::from);
    if html
        .as_ref()
        .is_some_and(|path| path.file_name().is_none() || path.as_os_str().as_bytes().ends_with(b"/"))
    {
        return Err("--html needs the name of a file".to_string());
    }
    Ok(Request::List(List {
        sources: sources(found, &found.rest)?,
        warnings: warnings(found)?,
        json: found.has(&["--json"]),
        html,
        force: found.has(&["--force"]),
        quiet: found.has(&["-q", "--quiet"]),
    }))
}

fn move_request(found: &Words) -> Result<Request, String> {
    let numbers = numbers(found)?;
    let services = match (numbers.is_empty(), found.has(&["--all"])) {
        (true, false) => Services::Only,
        (true, true) => Services::All,
        (false, false) => Services::These(numbers),
        (false, true) => return Err("Only one of --service and --all can be given".to_string()),
    };
    let to = found.value("--to")?;
    if let (None, [_, .., last]) = (to, found.rest.as_slice()) {
        let path = PathBuf::from(last);
        if path.is_dir() || last.as_bytes().ends_with(b"/") {
            let folder = visible(last.as_bytes());
            return Err(format!("{folder} names a folder; --to {folder} says that the iwd files go there"));
        }
    }
    let to = to.unwrap_or(OsStr::new("."));
    if to.is_empty() {
        return Err("--to needs a folder".to_string());
    }
    Ok(Request::Move(Move {
        sources: sources(found, &found.rest)?,
        warnings: warnings(found)?,
        services,
        to: PathBuf::from(to),
        force: found.has(&["--force"]),
        dry_run: found.has(&["--dry-run"]),
        skip_unplaced: found.has(&["--skip-unplaced"]),
        quiet: found.has(&["-q", "--quiet"]),
        json: found.has(&["--json"]),
    }))
}

fn explain(found: &Words) -> Result<Request, String> {
    let about = match found.rest.as_slice() {
        [] => About::All,
        [word] => about(word)?,
        _ => return Err("One number or word is taken".to_string()),
    };
    Ok(Request::Explain(Explain {
        about,
        json: found.has(&["--json"]),
    }))
}

fn about(word: &OsStr) -> Result<About, String> {
    if is_number(word) {
        let number = number(word, "A refusal")?;
        let refusal = u8::try_from(number.value).ok().filter(|number| (1..=19).contains(number));
        return refusal
            .map(About::Refusal)
            .ok_or(format!("There is no refusal {}; they are 1 to 19", number.text));
    }
    let warning = word.to_str().and_then(by_name);
    let sentence = format!("There is no refusal and no warning {}", visible(word.as_bytes()));
    warning.map(About::Warning).ok_or(sentence)
}

/// The numbers of services that are given by `--service`.
fn numbers(found: &Words) -> Result<Vec<Number>, String> {
    found
        .values("--service")
        .into_iter()
        .map(|word| number(word, "--service"))
        .collect()
}

fn is_number(word: &OsStr) -> bool {
    !word.is_empty() && word.as_bytes().iter().all(u8::is_ascii_digit)
}

/// A number in decimal digits.
fn number(word: &OsStr, what: &str) -> Result<Number, String> {
    let text = visible(word.as_bytes());
    if !is_number(word) {
        return Err(format!("{what} is given by its number, and {text} is none"));
    }
    Ok(Number {
        value: text.parse().unwrap_or(usize::MAX),
        text,
    })
}
