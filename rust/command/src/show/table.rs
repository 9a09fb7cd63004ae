//! The table that a person reads.

use super::settings::Group;
use super::value::Hiding;
use super::{Shown, ShownService};
use crate::addressing::Addressing;
use crate::catalogue::{counted, Dialect};
use crate::hex::encoded;
use crate::output::{Output, Style};
use crate::report::shown_path;
use qewaris::{Credential, JoinRecord};
use std::io;

/// How wide the column of the keys is: the longest key and two blanks.
const KEYS: usize = 24;

pub fn print(shown: &Shown<'_>, output: &mut Output) -> io::Result<()> {
    let counts = &shown.counts;
    let what = match shown.dialect {
        Dialect::Iwd => format!("iwd, {}", counted(counts.settings, "setting")),
        Dialect::Connman => {
            let services = counted(counts.services, "service");
            format!("ConnMan, {}, {services}", counted(counts.settings, "setting"))
        }
    };
    let title = output.styled(Style::Bold, &shown_path(shown.path));
    output.line(&format!("{title} ({what})"))?;
    for group in &shown.groups {
        print_group(group, group.name, &shown.hiding, output)?;
    }
    if let Some(record) = &shown.record {
        print_record(record, &shown.hiding, output)?;
    }
    shown.services.iter().try_for_each(|service| print_service(service, shown, output))
}

/// A group, if it has a setting.
fn print_group(group: &Group, title: &str, hiding: &Hiding, output: &mut Output) -> io::Result<()> {
    let rows: Vec<(&str, String)> = group
        .rows
        .iter()
        .filter_map(|(key, value)| Some((*key, value.shown(hiding)?)))
        .collect();
    if rows.is_empty() {
        return Ok(());
    }
    print_rows(title, &rows, output)
}

fn print_rows(title: &str, rows: &[(&str, String)], output: &mut Output) -> io::Result<()> {
    let title = output.styled(Style::Bold, title);
    output.line(&format!("\n  {title}"))?;
    for (key, value) in rows {
        output.line(&format!("    {key:KEYS$}{value}"))?;
    }
    Ok(())
}

fn print_service(shown_service: &ShownService, shown: &Shown<'_>, output: &mut Output) -> io::Result<()> {
    let service = &shown_service.service;
    let title = format!("service {}, [{}] on line {}", service.number, service.group, service.line);
    print_group(&shown_service.settings, &title, &shown.hiding, output)?;
    match &service.record {
        Ok(record) => print_record(record, &shown.hiding, output),
        Err(finding) => {
            let line = finding.line.map_or(String::new(), |line| format!("line {line}: "));
            let reason = format!("{line}{} [{}]", finding.sentence, finding.number);
            print_rows("join record", &[("none", reason)], output)
        }
    }
}

fn print_record(record: &JoinRecord, hiding: &Hiding, output: &mut Output) -> io::Result<()> {
    let servers: Vec<String> = record.name_servers.iter().map(ToString::to_string).collect();
    let mut rows = vec![("network name", hiding.name(&record.name))];
    match &record.credential {
        Credential::Passphrase(passphrase) => rows.push(("passphrase", hiding.secret(passphrase))),
        Credential::Key(key) => rows.push(("key", hiding.secret(encoded(key).as_bytes()))),
        Credential::None => rows.push(("credential", "none, the network is open".to_string())),
        other => rows.push(("credential", other.word().to_string())),
    }
    rows.extend([
        ("hidden", if record.hidden { "yes" } else { "no" }.to_string()),
        ("IPv4", Addressing::from(record.ipv4).told()),
        ("name servers", or_none(servers.join(", "))),
        ("domain", or_none(hiding.text(&record.domain))),
        ("IPv6", Addressing::from(record.ipv6).told()),
    ]);
    print_rows("join record", &rows, output)
}

fn or_none(text: String) -> String {
    if text.is_empty() {
        "none".to_string()
    } else {
        text
    }
}
