//! What a move tells, as JSON.

use super::plan::{Moved, Plan, Staying};
use crate::arguments::Move;
use crate::forms::{self, head, path_members, State};
use crate::items::Tally;
use crate::json::{members, Json, Members};
use crate::placing::path_in;
use crate::warnings::Warning;
use std::path::Path;

/// A service that moves.
pub fn moved(request: &Move, service: &Moved, is_good: bool) -> String {
    let state = match (is_good, request.dry_run) {
        (true, true) => "would-be-written",
        (true, false) => "written",
        (false, _) => "not-written",
    };
    let mut found = service_head(&service.path, service.number, &service.group, service.line, state);
    found.extend(path_members("to", Some(&path_in(&request.to, &service.iwd.name))));
    found.extend(members([
        ("refusals", Json::List(Vec::new())),
        ("warnings", Json::List(service.warnings.iter().map(forms::warning).collect())),
    ]));
    Json::Object(found).to_string()
}

/// A service that stays where it is.
pub fn staying(service: &Staying, state: &str) -> String {
    let mut found = service_head(&service.path, service.number, &service.group, service.line, state);
    found.extend(path_members("to", None));
    found.extend(members([
        ("refusals", forms::refusals(&service.refusals)),
        ("warnings", Json::List(Vec::new())),
    ]));
    Json::Object(found).to_string()
}

fn service_head(path: &Path, number: usize, group: &str, line: usize, state: &str) -> Members {
    let mut found = head("move", "move");
    found.extend(path_members("file", Some(path)));
    found.extend(members([
        ("service", Json::Number(number)),
        ("group", Json::from(Some(group).filter(|group| !group.is_empty()))),
        ("line", crate::json::number(Some(line).filter(|line| *line > 0))),
        ("state", Json::text(state)),
    ]));
    found
}

/// A warning that is about no service.
pub fn finding(path: &Path, warning: &Warning) -> String {
    forms::finding("move", &[path.to_path_buf()], warning, None).to_string()
}

/// A file that could not be read.
pub fn unreadable(path: &Path, sentence: &str) -> String {
    forms::file("move", path, &State::Unreadable(sentence), &[]).to_string()
}

/// How many services were written, and how many files came out how.
pub fn counts(plan: &Plan, tally: &Tally, is_written: bool) -> String {
    let written = if is_written { plan.moved.len() } else { 0 };
    forms::counts_with("move", tally, plan.warnings.len(), Some((written, plan.left_out.len()))).to_string()
}
