//! `qewaris show`: the settings of files and their join records, as tables or as JSON.

pub mod form;
mod settings;
mod table;
mod value;

use crate::advice::advice;
use crate::arguments::{Number, Show, Warnings};
use crate::catalogue::Dialect;
use crate::check::told;
use crate::diagnosis::{finding, Finding, Subject};
use crate::forms::{self, State};
use crate::input::Input;
use crate::items::{Item, Tally};
use crate::output::Output;
use crate::report::{print_refused, print_warning};
use crate::secrets;
use crate::services::Service;
use crate::walk;
use crate::warnings::Warning;
use crate::Outcome;
use qewaris::{Counts, JoinRecord, Refusal};
use settings::Group;
use std::io;
use std::path::Path;
use value::Hiding;

/// A file that is shown: its groups, and for ConnMan its services.
pub struct Shown<'a> {
    path: &'a Path,
    dialect: Dialect,
    counts: Counts,
    /// iwd's groups, or ConnMan's `global`.
    groups: Vec<Group>,
    /// iwd's record.
    record: Option<JoinRecord>,
    services: Vec<ShownService>,
    warnings: Vec<Warning>,
    hiding: Hiding,
}

/// A service that is shown, with its settings.
pub struct ShownService {
    service: Service,
    settings: Group,
}

pub fn run(request: &Show, output: &mut Output) -> io::Result<Outcome> {
    let mut tally = Tally::default();
    for item in walk::found(&request.sources) {
        let is_first = tally.files() == 0;
        match Item::of(item, "show") {
            Item::Read(input) => {
                if !is_first && !request.json {
                    output.line("")?;
                }
                if let Some(outcome) = show(request, &input, &mut tally, output)? {
                    return Ok(outcome);
                }
            }
            Item::Skipped(_, reason) => tally.skip(reason),
            Item::Failed(path, sentence) | Item::Empty(path, sentence) => {
                tally.lose(&path);
                if request.json {
                    output.line(&forms::file("show", &path, &State::Unreadable(&sentence), &[]).to_string())?;
                }
                output.error(&sentence)?;
            }
        }
    }
    tally.name_failed(output)?;
    Ok(tally.outcome())
}

/// Shows a file, or tells why it is refused. The outcome is given where the command was not used as it is meant.
fn show(request: &Show, input: &Input, tally: &mut Tally, output: &mut Output) -> io::Result<Option<Outcome>> {
    if let (Some(_), Dialect::Iwd, Ok(_)) = (request.services.first(), input.dialect(), input.check()) {
        output.error("An iwd file has no services, so no number of one can be given. Try qewaris show --help")?;
        return Ok(Some(Outcome::Usage));
    }
    match gathered(request, input) {
        Ok(shown) => {
            tally.good += 1;
            tally.warn(shown.path, shown.warnings.len(), request.warnings == Warnings::Strict);
            if request.json {
                output.line(&form::json(&shown).to_string())?;
            } else {
                table::print(&shown, output)?;
                shown
                    .warnings
                    .iter()
                    .try_for_each(|warning| print_warning(output, shown.path, warning))?;
            }
        }
        Err((refusal, number)) => {
            tally.refuse(&input.path);
            refused(request, input, &of_service(input, number, &refusal), output)?;
        }
    }
    Ok(None)
}

/// The finding of a refusal of a service, with its number as it was given.
pub fn of_service(input: &Input, number: Option<&Number>, refusal: &Refusal) -> Finding {
    let subject = Subject {
        service: number.map(|number| number.value),
        ..input.subject()
    };
    let found = finding(&subject, refusal);
    let Some(number) = number.filter(|number| refusal.number() == 18 && number.value == usize::MAX) else {
        return found;
    };
    let sentence = found.sentence.replacen(&number.value.to_string(), &number.text, 1);
    Finding {
        discreet: sentence.clone(),
        sentence,
        ..found
    }
}

fn refused(request: &Show, input: &Input, finding: &Finding, output: &mut Output) -> io::Result<()> {
    if !request.json {
        return print_refused(output, input, finding);
    }
    let state = State::Refused(finding, advice(input, finding));
    output.line(&forms::file("show", &input.path, &state, &[]).to_string())
}

/// All that is shown of a file, or the library's refusal, with the number of the service that was asked for.
fn gathered<'a>(request: &'a Show, input: &'a Input) -> Result<Shown<'a>, (Refusal, Option<&'a Number>)> {
    let plain = |refusal| (refusal, None);
    let counts = input.check().map_err(plain)?;
    let (name, file) = (input.name.as_slice(), input.bytes.as_slice());
    let hiding = if request.secrets {
        Hiding::None
    } else {
        Hiding::Secrets(secrets::secrets_of(file))
    };
    let (mut groups, mut record, mut services) = (Vec::new(), None, Vec::new());
    match input.dialect() {
        Dialect::Iwd => {
            groups = settings::iwd(name, file).map_err(plain)?;
            record = Some(qewaris::iwd_record(name, file).map_err(plain)?);
        }
        Dialect::Connman => {
            groups.push(settings::global(name, file).map_err(plain)?);
            for number in &request.services {
                services.push(service(input, number.value).map_err(|refusal| (refusal, Some(number)))?);
            }
            if request.services.is_empty() {
                let all = (1..=counts.services).map(|number| service(input, number));
                services = all.collect::<Result<Vec<ShownService>, Refusal>>().map_err(plain)?;
            }
        }
    }
    Ok(Shown {
        path: &input.path,
        dialect: input.dialect(),
        counts,
        groups,
        record,
        services,
        warnings: warnings(request, input),
        hiding,
    })
}

/// The warnings about what is shown.
fn warnings(request: &Show, input: &Input) -> Vec<Warning> {
    let is_asked = |number: usize| request.services.is_empty() || request.services.iter().any(|asked| asked.value == number);
    let found = told(input, request.warnings).into_iter();
    found.filter(|warning| warning.service.is_none_or(is_asked)).collect()
}

fn service(input: &Input, number: usize) -> Result<ShownService, Refusal> {
    Ok(ShownService {
        settings: settings::service(&input.name, &input.bytes, number)?,
        service: Service::of(input, number)?,
    })
}
