//! `qewaris explain`: what a refusal or a warning means, an example that earns it, and what to do.

mod explanations;
mod form;
#[cfg(test)]
mod tests;

use crate::arguments::{About, Explain};
use crate::diagnosis::{finding, Subject};
use crate::input::Input;
use crate::output::{Output, Style};
use crate::visible::visible;
use crate::warnings::{found_in, Row, TABLE};
use crate::Outcome;
use explanations::EXPLANATIONS;
use qewaris::{JoinRecord, Refusal};
use std::io;

/// A refusal explained.
pub struct Explanation {
    pub title: &'static str,
    pub meaning: &'static str,
    pub example: Example,
    pub remedy: &'static str,
}

/// Something that earns a refusal.
pub enum Example {
    /// A file under a name.
    File(&'static str, &'static [u8]),
    /// A comment line so often under this name, a file that is too long.
    Long(&'static str, &'static [u8], usize),
    /// A ConnMan file whose service with this number is moved.
    Move(&'static str, &'static [u8], usize),
    /// The same, by a program with a buffer of so many bytes for the file.
    Buffer(&'static str, &'static [u8], usize),
    /// A record with this network name, handed to the writer by a program.
    Record(&'static [u8]),
}

impl Example {
    /// What the library answers, which is the refusal that is explained.
    pub fn refusal(&self) -> Option<Refusal> {
        match self {
            Example::File(name, file) if name.ends_with(".config") => qewaris::check_connman(name.as_bytes(), file).err(),
            Example::File(name, file) => qewaris::check_iwd(name.as_bytes(), file).err(),
            Example::Long(name, line, count) => qewaris::check_connman(name.as_bytes(), &line.repeat(*count)).err(),
            Example::Move(name, file, service) => qewaris::move_service(name.as_bytes(), file, *service).err(),
            Example::Buffer(name, file, room) => {
                let mut buffer = vec![0; *room];
                qewaris::move_service_into(name.as_bytes(), file, 1, &mut [0; qewaris::NAME_MAX], &mut buffer).err()
            }
            Example::Record(name) => qewaris::write_iwd(&JoinRecord::open(name)).err(),
        }
    }
}

pub fn run(request: &Explain, output: &mut Output) -> io::Result<Outcome> {
    let numbered = || (1..).zip(&EXPLANATIONS);
    match request.about {
        About::All if request.json => {
            numbered().try_for_each(|(number, explanation)| output.line(&form::refusal(number, explanation)))?;
            TABLE.iter().try_for_each(|row| output.line(&form::warning(row)))?;
        }
        About::All => {
            numbered().try_for_each(|(number, explanation)| output.line(&format!("{number:>2}  {}", explanation.title)))?;
            TABLE
                .iter()
                .try_for_each(|row| output.line(&format!("{:26}{}", row.name, row.title)))?;
        }
        About::Refusal(number) => {
            if let Some(explanation) = EXPLANATIONS.get(usize::from(number).wrapping_sub(1)) {
                match request.json {
                    true => output.line(&form::refusal(number, explanation))?,
                    false => print(number, explanation, output)?,
                }
            }
        }
        About::Warning(word) if request.json => output.line(&form::warning(word.row()))?,
        About::Warning(word) => print_warning(word.row(), output)?,
    }
    Ok(Outcome::Good)
}

/// Explains a warning: what it means, a file that earns it where one does, what to do, and where the fact comes from.
fn print_warning(row: &Row, output: &mut Output) -> io::Result<()> {
    let title = output.styled(Style::Bold, &format!("{}: {}", row.name, row.title));
    output.line(&format!("{title}\n\n{}\n", wrapped(row.meaning)))?;
    if let Some((name, file)) = row.example {
        print_file(name, file, &format!("{name}:"), output)?;
        for warning in found_in(&Input::held(name, file)) {
            let line = warning.line.map_or(String::new(), |line| format!("line {line}: "));
            output.line(&wrapped(&format!("This is warned of: {line}{} [{}]", warning.sentence, row.name)))?;
        }
        output.line("")?;
    }
    for (heading, text) in [("What to do", row.remedy), ("Where this comes from", row.source)] {
        let heading = output.styled(Style::Bold, heading);
        output.line(&format!("{heading}\n{}", wrapped(text)))?;
    }
    Ok(())
}

/// Prints a file of an example.
fn print_file(name: &str, file: &[u8], told: &str, output: &mut Output) -> io::Result<()> {
    let heading = output.styled(Style::Bold, "Example");
    let told = if file.is_empty() && !name.is_empty() {
        format!("{name}, a file of no bytes:")
    } else {
        told.to_string()
    };
    output.line(&format!("{heading}\n{told}"))?;
    crate::layout::lines(file).try_for_each(|line| output.line(&format!("    {}", visible(line))))
}

fn print(number: u8, explanation: &Explanation, output: &mut Output) -> io::Result<()> {
    let title = output.styled(Style::Bold, &format!("{number}: {}", explanation.title));
    output.line(&format!("{title}\n\n{}\n", wrapped(explanation.meaning)))?;
    print_example(&explanation.example, output)?;
    let remedy = output.styled(Style::Bold, "What to do");
    output.line(&format!("{remedy}\n{}", wrapped(explanation.remedy)))
}

/// A text in lines of at most 80 columns.
fn wrapped(text: &str) -> String {
    let mut lines = String::new();
    let mut columns = 0;
    for word in text.split_whitespace() {
        if columns > 0 && columns + 1 + word.len() > 80 {
            lines.push('\n');
            columns = 0;
        } else if columns > 0 {
            lines.push(' ');
            columns += 1;
        }
        lines.push_str(word);
        columns += word.len();
    }
    lines
}

fn print_example(example: &Example, output: &mut Output) -> io::Result<()> {
    let (name, file, told) = match example {
        Example::File(name, file) => (*name, *file, format!("{name}:")),
        Example::Long(name, line, count) => (*name, *line, format!("{name}, a file with this line {count} times:")),
        Example::Move(name, file, service) => (*name, *file, format!("{name}, of which service {service} is to move:")),
        Example::Buffer(name, file, room) => (
            *name,
            *file,
            format!("{name}, moved by a program that lends {room} bytes for the new file:"),
        ),
        Example::Record(name) => {
            let told = format!(
                "a record whose network name has {} bytes, handed to the writer by a program",
                name.len()
            );
            ("", &b""[..], told)
        }
    };
    print_file(name, file, &told, output)?;
    if let Some(refusal) = example.refusal() {
        let subject = Subject {
            service: if let Example::Move(_, _, service) = example {
                Some(*service)
            } else {
                None
            },
            ..Subject::new(name.as_bytes(), file)
        };
        let found = finding(&subject, &refusal);
        let line = found.line.map_or(String::new(), |line| format!("line {line}: "));
        output.line(&format!("This is refused: {line}{} [{}]\n", found.sentence, found.number))?;
    }
    Ok(())
}
