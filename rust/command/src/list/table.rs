//! The list that a person reads on a terminal.

use super::rows::{Rank, Row};
use super::Listed;
use crate::catalogue::counted;
use crate::output::{Output, Style};
use crate::visible::columns;
use std::io;

const TITLES: [&str; 8] = ["STATE", "FILE", "NETWORK", "KEY", "HIDDEN", "ADDRESS", "MOVES", "WHAT TO DO"];

pub fn print(listed: &Listed, output: &mut Output) -> io::Result<()> {
    counts(listed).iter().try_for_each(|line| output.line(line))?;
    if !listed.across.is_empty() {
        output.line("")?;
    }
    for found in &listed.across {
        let label = output.styled(Style::Warning, "warning:");
        output.line(&format!("{label} {} [{}]", found.warning.sentence, found.warning.word.row().name))?;
    }
    if listed.rows.is_empty() {
        return Ok(());
    }
    output.line("")?;
    let cells: Vec<[String; 8]> = listed.rows.iter().map(cells).collect();
    let titles = TITLES.map(str::to_string);
    let widths: [usize; 8] = std::array::from_fn(|place| {
        let all = cells.iter().chain([&titles]).map(|row| columns(&row[place]));
        all.max().unwrap_or(0)
    });
    let title = output.styled(Style::Bold, &aligned(&titles, &widths));
    output.line(&title)?;
    for (row, cells) in listed.rows.iter().zip(&cells) {
        let line = aligned(cells, &widths);
        let state = row.rank.name();
        let rest = line.strip_prefix(state).unwrap_or(&line).to_string();
        let state = match row.rank {
            Rank::OpenBySilence | Rank::Refused | Rank::Unreadable => output.styled(Style::Error, state),
            Rank::Warned | Rank::Unmovable => output.styled(Style::Warning, state),
            Rank::Good => state.to_string(),
        };
        output.line(&format!("{state}{rest}"))?;
    }
    let details = listed.details();
    if !details.is_empty() {
        output.line("")?;
    }
    details.iter().try_for_each(|told| told.print(output))
}

/// The lines that count.
pub fn counts(listed: &Listed) -> Vec<String> {
    let ranks: Vec<String> = listed
        .ranks()
        .iter()
        .map(|(rank, count)| format!("{count} {}", rank.counted_as()))
        .collect();
    let mut lines = vec![format!("{}: {}", counted(listed.tally.files(), "file"), listed.tally.summary())];
    if !ranks.is_empty() {
        lines.push(format!("{}: {}", counted(listed.rows.len(), "row"), ranks.join(", ")));
    }
    lines
}

/// What stands in the columns of a row; a dash where there is nothing to tell.
pub fn cells(row: &Row) -> [String; 8] {
    let texts = [
        row.rank.name().to_string(),
        row.shown_file(),
        row.shown_network().unwrap_or_default(),
        row.key.to_string(),
        row.shown_hidden().to_string(),
        row.shown_address(),
        row.shown_moves().to_string(),
        row.remedy.clone().unwrap_or_default(),
    ];
    texts.map(|text| if text.is_empty() { "-".to_string() } else { text })
}

fn aligned(cells: &[String; 8], widths: &[usize; 8]) -> String {
    let mut line = String::new();
    for (cell, width) in cells.iter().zip(widths) {
        line.push_str(cell);
        line.push_str(&" ".repeat(width + 2 - columns(cell)));
    }
    line.trim_end().to_string()
}
