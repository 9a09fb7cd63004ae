//! What is to be moved: the services of all files, what is left out, and the warnings about them.

use super::form;
use crate::advice::advice;
use crate::arguments::{Move, Number, Services};
use crate::diagnosis::{finding, Finding, Subject};
use crate::forms::{self, State};
use crate::input::Input;
use crate::items::Tally;
use crate::output::Output;
use crate::placing::{path_in, NewFile};
use crate::report::{print_finding, print_labelled, print_refused, shown_path};
use crate::services::Service;
use crate::show::of_service;
use crate::visible::visible;
use crate::warnings::{found_in, Warning, Word};
use qewaris::{check_connman, IwdFile, Refusal};
use std::ffi::OsStr;
use std::fs;
use std::io;
use std::os::unix::ffi::OsStrExt;
use std::path::{Path, PathBuf};

/// A service that moves.
pub struct Moved {
    pub path: PathBuf,
    pub number: usize,
    pub group: String,
    /// The line of its header.
    pub line: usize,
    pub iwd: IwdFile,
    /// The secrets of the file that it comes from.
    pub secrets: Vec<Vec<u8>>,
    pub warnings: Vec<Warning>,
}

/// A service that stays where it is, with every line that stands in the way.
pub struct Staying {
    pub path: PathBuf,
    pub number: usize,
    pub group: String,
    pub line: usize,
    pub refusals: Vec<Finding>,
}

impl Moved {
    /// A service by its number, group and line, with those of the file's warnings that are about it.
    fn of(input: &Input, (number, group, line): (usize, String, usize), iwd: IwdFile, warnings: &[Warning]) -> Moved {
        let own = warnings.iter().filter(|warning| warning.service == Some(number));
        Moved {
            path: input.path.clone(),
            number,
            group,
            line,
            iwd,
            secrets: crate::secrets::secrets_of(&input.bytes),
            warnings: own.cloned().collect(),
        }
    }
}

impl Staying {
    fn of(input: &Input, (number, group, line): (usize, String, usize), refusals: Vec<Finding>) -> Staying {
        Staying {
            path: input.path.clone(),
            number,
            group,
            line,
            refusals,
        }
    }
}

#[derive(Default)]
pub struct Plan {
    pub moved: Vec<Moved>,
    pub left_out: Vec<Staying>,
    pub refused: Vec<Staying>,
    pub warnings: Vec<(PathBuf, Warning)>,
    /// Whether a service was refused, of a file that is good.
    pub has_refused: bool,
    /// The files that services come from.
    sources: usize,
}

impl Plan {
    /// Adds the services of a file that are asked for, and tells what is refused. A sentence is given where the command was not used as
    /// it is meant.
    pub fn add(&mut self, request: &Move, input: &Input, tally: &mut Tally, output: &mut Output) -> io::Result<Option<String>> {
        let count = match check_connman(&input.name, &input.bytes) {
            Ok(counts) => counts.services,
            Err(refusal) => {
                tally.refuse(&input.path);
                return tell_refused(request, input, &refusal, output).map(|()| None);
            }
        };
        let Some(numbers) = numbers(&request.services, count) else {
            let found = format!("{} has {count} services", shown_path(&input.path));
            let sentence = format!("{found}; --service N or --all says which are to move. Try qewaris move --help");
            return Ok(Some(sentence));
        };
        self.sources += 1;
        let warnings = found_in(input);
        let before = self.refused.len();
        for number in &numbers {
            self.add_service(request, input, number, &warnings, output)?;
        }
        let of_file = warnings.into_iter().filter(|warning| warning.service.is_none());
        self.warnings.extend(of_file.map(|warning| (input.path.clone(), warning)));
        if self.refused.len() > before {
            self.has_refused = true;
            tally.refuse(&input.path);
        } else {
            tally.good += 1;
        }
        Ok(None)
    }

    fn add_service(&mut self, request: &Move, input: &Input, number: &Number, warnings: &[Warning], output: &mut Output) -> io::Result<()> {
        let service = match Service::of(input, number.value) {
            Ok(service) => service,
            Err(refusal) => {
                let refusals = vec![of_service(input, Some(number), &refusal)];
                self.refused.push(Staying::of(input, (number.value, String::new(), 0), refusals));
                return tell(request, self.refused.last(), "error:", output);
            }
        };
        let about = (service.number, service.group, service.line);
        match service.moved {
            Ok(iwd) => {
                let moved = Moved::of(input, about, iwd, warnings);
                let own = moved.warnings.iter().map(|warning| (input.path.clone(), warning.clone()));
                self.warnings.extend(own);
                self.moved.push(moved);
                Ok(())
            }
            Err(refusals) if request.skip_unplaced => {
                self.left_out.push(Staying::of(input, about, refusals));
                tell(request, self.left_out.last(), "left out:", output)
            }
            Err(refusals) => {
                self.refused.push(Staying::of(input, about, refusals));
                tell(request, self.refused.last(), "error:", output)
            }
        }
    }

    /// Whether two services have one file name; tells which.
    pub fn tell_clashes(&self, output: &mut Output) -> io::Result<bool> {
        let mut found = false;
        for (place, later) in self.moved.iter().enumerate() {
            let first = self.moved[..place].iter().find(|first| first.iwd.name == later.iwd.name);
            let Some(first) = first else { continue };
            found = true;
            let of = |service: &Moved| format!("{}: [{}] on line {}", shown_path(&service.path), service.group, service.line);
            let (second, remedy) = match first.path == later.path {
                true => (format!("[{}] on line {}", later.group, later.line), "--service picks one of them"),
                false => (of(later), "the files of two tills go into two folders"),
            };
            let name = shown_path(Path::new(OsStr::from_bytes(&later.iwd.name)));
            output.error(&format!("{} and {second} would both be {name}; {remedy}", of(first)))?;
        }
        Ok(found)
    }

    /// Looks for the same networks with the other suffix, in the folder and among the new files.
    pub fn look_around(&mut self, folder: &Path) {
        let mut found = Vec::new();
        for service in &self.moved {
            let Some((other, is_open)) = other_suffix(&service.iwd.name) else {
                continue;
            };
            let is_new = self.moved.iter().any(|service| service.iwd.name == other);
            let path = path_in(folder, &other);
            // Of two new files the open one is told of.
            if (is_new && is_open) || (!is_new && fs::symlink_metadata(&path).is_ok()) {
                found.push((path, suffixes(&service.iwd.name, is_open)));
            }
        }
        self.warnings.extend(found);
    }

    pub fn files(&self) -> impl Iterator<Item = NewFile<'_>> {
        self.moved.iter().map(|service| NewFile {
            name: &service.iwd.name,
            contents: &service.iwd.file,
        })
    }

    /// Whether the services come from several files.
    pub fn is_several(&self) -> bool {
        self.sources > 1
    }

    /// Whether a new file is open although nothing says so.
    pub fn open_by_silence(&self) -> impl Iterator<Item = &Moved> {
        let is_silent = |service: &&Moved| service.warnings.iter().any(|warning| warning.word == Word::OpenBySilence);
        self.moved.iter().filter(is_silent)
    }

    /// The objects of all services, as JSON.
    pub fn forms<'a>(&'a self, request: &'a Move, is_good: bool) -> impl Iterator<Item = String> + 'a {
        let moved = self.moved.iter().map(move |service| form::moved(request, service, is_good));
        let left_out = self.left_out.iter().map(|service| form::staying(service, "left-out"));
        let refused = self.refused.iter().map(|service| form::staying(service, "refused"));
        let around = self.warnings.iter().filter(|(_, warning)| warning.service.is_none());
        moved
            .chain(left_out)
            .chain(refused)
            .chain(around.map(|(path, warning)| form::finding(path, warning)))
    }
}

/// The numbers of the services that are asked for; none where it is not said which of several.
fn numbers(services: &Services, count: usize) -> Option<Vec<Number>> {
    let number = |value: usize| Number {
        value,
        text: value.to_string(),
    };
    match services {
        Services::These(numbers) => {
            let mut found = numbers.clone();
            found.sort_by_key(|number| number.value);
            found.dedup_by_key(|number| number.value);
            Some(found)
        }
        // Without a service there is nothing to move: number 1 earns the refusal.
        Services::All => Some((1..=count.max(1)).map(number).collect()),
        Services::Only => (count <= 1).then(|| vec![number(1)]),
    }
}

/// Tells why a whole file is refused.
fn tell_refused(request: &Move, input: &Input, refusal: &Refusal, output: &mut Output) -> io::Result<()> {
    let subject = Subject {
        for_move: true,
        ..input.subject()
    };
    let found = finding(&subject, refusal);
    if !request.json {
        return print_refused(output, input, &found);
    }
    let state = State::Refused(&found, advice(input, &found));
    output.line(&forms::file("move", &input.path, &state, &[]).to_string())
}

/// Tells of a service that stays, with every line that stands in the way.
fn tell(request: &Move, service: Option<&Staying>, label: &str, output: &mut Output) -> io::Result<()> {
    let Some(service) = service.filter(|_| !request.json) else {
        return Ok(());
    };
    for refusal in &service.refusals {
        match label {
            "error:" => print_finding(output, &service.path, refusal)?,
            label => print_labelled(output, &service.path, refusal, label)?,
        }
    }
    Ok(())
}

/// The name with the other suffix, and whether that is the open one.
fn other_suffix(name: &[u8]) -> Option<(Vec<u8>, bool)> {
    let (stem, other) = match (name.strip_suffix(b".psk"), name.strip_suffix(b".open")) {
        (Some(stem), _) => (stem, &b".open"[..]),
        (_, Some(stem)) => (stem, &b".psk"[..]),
        _ => return None,
    };
    Some(([stem, other].concat(), other == b".open"))
}

/// The warning about the file with the other suffix.
fn suffixes(name: &[u8], is_open: bool) -> Warning {
    let name = match crate::report::is_telling_name(name) {
        true => "the new file".to_string(),
        false => visible(name),
    };
    let told = match is_open {
        true => format!("The network has a key in {name}, and this file joins one of the same name without"),
        false => format!("The network has a key in this file, and {name} joins one of the same name without"),
    };
    Warning::new(Word::BothSuffixes, None, &[("found", told)])
}
