//! What a move tells of the files that it writes.

use super::plan::{Moved, Plan};
use crate::arguments::Move;
use crate::catalogue::counted;
use crate::items::Tally;
use crate::layout;
use crate::output::{Output, Style};
use crate::placing::path_in;
use crate::report::shown_path;
use crate::secrets::mark;
use crate::visible::pieces;
use std::io;

/// Where a file comes from, with the name of the file where there are several.
fn origin(service: &Moved, is_several: bool) -> String {
    let service_of = format!("service {}, [{}]", service.number, service.group);
    if is_several {
        format!("{}, {service_of}", shown_path(&service.path))
    } else {
        service_of
    }
}

/// Tells what was written, and the summary where there is more to it.
pub fn print_done(request: &Move, plan: &Plan, tally: &Tally, output: &mut Output) -> io::Result<()> {
    if request.json {
        return Ok(());
    }
    if !request.dry_run {
        for service in &plan.moved {
            let path = shown_path(&path_in(&request.to, &service.iwd.name));
            output.line(&format!("{path}: written from {}", origin(service, plan.is_several())))?;
        }
    }
    if !plan.is_several() && plan.warnings.is_empty() && plan.left_out.is_empty() && tally.skipped() == 0 {
        return Ok(());
    }
    let verb = if request.dry_run { "would be written" } else { "written" };
    let mut summary = format!("{} {verb}", plan.moved.len());
    if !plan.left_out.is_empty() {
        summary.push_str(&format!(", {} left out", plan.left_out.len()));
    }
    if tally.skipped() > 0 {
        summary.push_str(&format!(", {} skipped", counted(tally.skipped(), "file")));
    }
    let silent: Vec<String> = plan
        .open_by_silence()
        .map(|service| shown_path(&path_in(&request.to, &service.iwd.name)))
        .collect();
    if !silent.is_empty() && !plan.warnings.is_empty() {
        summary.push_str(&format!(", {} of them OPEN by silence: {}", silent.len(), silent.join(", ")));
    }
    output.line(&summary)
}

/// Shows a file that would be written, with its secrets hidden.
pub fn print_dry(request: &Move, service: &Moved, is_several: bool, output: &mut Output) -> io::Result<()> {
    let path = shown_path(&path_in(&request.to, &service.iwd.name));
    let title = output.styled(Style::Bold, &path);
    let size = service.iwd.file.len();
    output.line(&format!("{title}: {size} bytes from {}", origin(service, is_several)))?;
    for line in layout::lines(&service.iwd.file) {
        let mut marks = vec![false; line.len()];
        mark(line, &service.secrets, &mut marks);
        hide_secret(line, &mut marks);
        let text: String = pieces(line, &marks).into_iter().map(|piece| piece.text).collect();
        output.line(&format!("    {text}"))?;
    }
    Ok(())
}

/// Marks the value of a line of a written file that is a passphrase or a key.
fn hide_secret(line: &[u8], marks: &mut [bool]) {
    for key in [&b"Passphrase="[..], b"PreSharedKey="] {
        if line.starts_with(key) {
            marks[key.len()..].fill(true);
        }
    }
}
