//! A service of a ConnMan file that the library accepts: its record, and the iwd file that it becomes or what stands in the way.

use crate::diagnosis::{finding, unplaced_lines, Finding, Subject};
use crate::input::Input;
use crate::layout;
use crate::visible::visible;
use qewaris::{IwdFile, JoinRecord, Refusal};

pub struct Service {
    pub number: usize,
    pub group: String,
    /// The line of its header.
    pub line: usize,
    pub record: Result<JoinRecord, Finding>,
    /// Its iwd file, or every line that iwd has no place for.
    pub moved: Result<IwdFile, Vec<Finding>>,
}

impl Service {
    /// A service by its number; the refusal is that there is none of this number, or the file's own.
    pub fn of(input: &Input, number: usize) -> Result<Service, Refusal> {
        let (name, file) = (input.name.as_slice(), input.bytes.as_slice());
        qewaris::service_settings(name, file, number)?;
        let subject = Subject {
            service: Some(number),
            ..input.subject()
        };
        let moved = qewaris::move_service(name, file, number);
        let services = layout::services(file);
        let section = number.checked_sub(1).and_then(|place| services.get(place));
        Ok(Service {
            number,
            group: section.map_or(String::new(), |section| visible(section.name)),
            line: section.map_or(0, |section| section.line),
            record: qewaris::service_record(name, file, number).map_err(|refusal| finding(&subject, &refusal)),
            moved: moved.map_err(|refusal| in_the_way(&subject, number, &refusal)),
        })
    }
}

/// Every line that stands in the way, the library's own first.
fn in_the_way(subject: &Subject<'_>, number: usize, refusal: &Refusal) -> Vec<Finding> {
    let mut found = vec![finding(subject, refusal)];
    let others = unplaced_lines(subject, number).into_iter();
    found.extend(others.filter(|line| line.line != refusal.line()));
    found
}
