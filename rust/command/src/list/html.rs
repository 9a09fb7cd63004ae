//! The list as a page of its own, to print or to mail: no script, nothing from outside, and every byte of a file escaped.

use super::rows::{Rank, Row};
use super::table::{cells, counts};
use super::Listed;
use crate::report::{place, shown_path, Told};
use std::fmt::Write;
use std::path::PathBuf;

const TITLES: [&str; 8] = ["State", "File", "Network", "Key", "Hidden", "Address", "Moves to iwd", "What to do"];

/// How many paths stand in the title.
const NAMED: usize = 3;

/// What the page looks like: a table at the width of a desk and on paper, cards at that of a phone.
const STYLE: &str = "\
:root{color-scheme:light}
body{font:15px/1.45 system-ui,sans-serif;margin:1.5rem auto;max-width:82rem;padding:0 1rem;color:#1a1a1a;background:#fff}
h1{font-size:1.4rem;margin:0 0 .3rem}
p{margin:.2rem 0}
.note{color:#555}
h2{font-size:1.1rem;margin:1.2rem 0 .3rem}
ul{margin:1rem 0;padding:.6rem 1rem .6rem 2rem}
.across{background:#fff4d6;border-left:.3rem solid #b26a00}
.full{margin:0;padding-top:0}
table{border-collapse:collapse;width:100%;margin:1rem 0}
th,td{text-align:left;vertical-align:top;padding:.35rem .6rem;border-bottom:1px solid #ccc;overflow-wrap:break-word}
li{overflow-wrap:anywhere}
th{border-bottom:2px solid #444;white-space:nowrap}
td:nth-child(1){white-space:nowrap;font-weight:600}
td:nth-child(4),td:nth-child(5){white-space:nowrap}
td:nth-child(2),td:nth-child(3){overflow-wrap:anywhere}
td:nth-child(2){min-width:13em}
td:nth-child(3){min-width:8em}
td:nth-child(8){min-width:15em}
.worst td:nth-child(1),.open{color:#a30000;font-weight:700}
.warned td:nth-child(1){color:#8a4b00}
.worst{background:#ffecec}
.warned{background:#fff9e8}
@media screen and (max-width:76rem){
thead{display:none}
table,tbody,tr,td{display:block;width:auto}
tr{border:1px solid #999;border-radius:.4rem;margin:.7rem 0;padding:.3rem 0}
td{border:0;padding:.15rem .7rem .15rem 8rem;position:relative;white-space:normal!important;min-width:0!important;\
overflow-wrap:anywhere}
td::before{content:attr(data-label);position:absolute;left:.7rem;width:7rem;color:#555;font-weight:400}
td.none{display:none}
}
@media print{
@page{size:A4 landscape;margin:12mm}
body{font-size:10px;margin:0;max-width:none;padding:0}
tr{break-inside:avoid}
thead{display:table-header-group}
.across,.worst,.warned{background:none}
}
";

/// The page of a list of these paths.
pub fn page(paths: &[PathBuf], listed: &Listed) -> String {
    let mut page = format!(
        "<!DOCTYPE html>\n<html lang=\"en\">\n<head>\n<meta charset=\"utf-8\">\n\
         <meta http-equiv=\"Content-Security-Policy\" content=\"default-src 'none'; style-src 'unsafe-inline'\">\n\
         <meta name=\"viewport\" content=\"width=device-width, initial-scale=1\">\n\
         <title>{title}</title>\n<style>\n{STYLE}</style>\n</head>\n<body>\n<h1>{title}</h1>\n",
        title = title(paths)
    );
    for line in counts(listed) {
        let _ = writeln!(page, "<p>{}</p>", escaped(&line));
    }
    if !listed.across.is_empty() {
        let across = listed.across.iter().map(|found| escaped(&found.warning.sentence));
        page.push_str(&items("across", across));
    }
    if !listed.rows.is_empty() {
        page.push_str(&table(&listed.rows));
    }
    let details = listed.details();
    if !details.is_empty() {
        page.push_str("<h2>In full</h2>\n");
        page.push_str(&items("full", details.iter().map(detail)));
    }
    page.push_str("<p class=\"note\">No passphrase and no key stands on this page. Made by qewaris ");
    page.push_str(concat!(env!("CARGO_PKG_VERSION"), ".</p>\n</body>\n</html>\n"));
    page
}

/// What the page is called: for the paths, and for the first of many.
fn title(paths: &[PathBuf]) -> String {
    let names: Vec<String> = paths.iter().take(NAMED).map(|path| escaped(&shown_path(path))).collect();
    let more = match paths.len().saturating_sub(NAMED) {
        0 => String::new(),
        count => format!(" and {count} more"),
    };
    format!("Network files of {}{more}", names.join(", "))
}

fn table(rows: &[Row]) -> String {
    let titles: String = TITLES.iter().map(|title| format!("<th>{title}</th>")).collect();
    let rows: String = rows.iter().map(row).collect();
    format!("<table>\n<thead><tr>{titles}</tr></thead>\n<tbody>\n{rows}</tbody>\n</table>\n")
}

/// A list of texts that are escaped already.
fn items(class: &str, texts: impl Iterator<Item = String>) -> String {
    let items: String = texts.map(|text| format!("<li>{text}</li>\n")).collect();
    format!("<ul class=\"{class}\">\n{items}</ul>\n")
}

fn detail(told: &Told<'_>) -> String {
    let head = escaped(&place(told.path, told.line));
    format!("<strong>{head}</strong> {} {}", told.label, escaped(&told.text()))
}

fn row(row: &Row) -> String {
    let class = match row.rank {
        Rank::OpenBySilence | Rank::Refused | Rank::Unreadable => " class=\"worst\"",
        Rank::Warned | Rank::Unmovable => " class=\"warned\"",
        Rank::Good => "",
    };
    let mut text = format!("<tr{class}>");
    for (title, cell) in TITLES.iter().zip(cells(row)) {
        let class = match cell.as_str() {
            "-" => " class=\"none\"",
            "OPEN" => " class=\"open\"",
            _ => "",
        };
        let _ = write!(text, "<td data-label=\"{title}\"{class}>{}</td>", escaped(&cell));
    }
    text.push_str("</tr>\n");
    text
}

/// Text that a browser takes for nothing but text.
fn escaped(text: &str) -> String {
    let mut found = String::new();
    for character in text.chars() {
        match character {
            '&' => found.push_str("&amp;"),
            '<' => found.push_str("&lt;"),
            '>' => found.push_str("&gt;"),
            '"' => found.push_str("&quot;"),
            '\'' => found.push_str("&#39;"),
            plain => found.push(plain),
        }
    }
    found
}
