//! What a file holds, as JSON.

use super::settings::Group;
use super::value::Hiding;
use super::{Shown, ShownService};
use crate::addressing::Addressing;
use crate::catalogue::Dialect;
use crate::forms::{self, bytes_members, path_members, Contents, State};
use crate::hex::encoded;
use crate::json::{members, Json};
use qewaris::{Credential, JoinRecord};
use std::ffi::OsStr;
use std::os::unix::ffi::OsStrExt;
use std::path::Path;

pub fn json(shown: &Shown<'_>) -> Json {
    let hiding = &shown.hiding;
    let contents = match shown.dialect {
        Dialect::Iwd => {
            let groups = shown.groups.iter().map(|group| (group.name.to_string(), rows(group, hiding)));
            Contents {
                settings: Json::Object(groups.collect()),
                record: shown.record.as_ref().map_or(Json::Null, |found| record(found, hiding)),
                ..Contents::NONE
            }
        }
        Dialect::Connman => Contents {
            global: shown.groups.first().map_or(Json::Null, |group| rows(group, hiding)),
            services: Json::List(shown.services.iter().map(|found| service(found, hiding)).collect()),
            ..Contents::NONE
        },
    };
    forms::file_with("show", shown.path, &State::Good(&shown.counts), &shown.warnings, contents)
}

fn rows(group: &Group, hiding: &Hiding) -> Json {
    Json::Object(group.rows.iter().flat_map(|(key, value)| value.members(key, hiding)).collect())
}

fn service(shown: &ShownService, hiding: &Hiding) -> Json {
    let service = &shown.service;
    let (found, refused) = match &service.record {
        Ok(found) => (record(found, hiding), Json::Null),
        Err(finding) => (Json::Null, forms::refusal(finding, None)),
    };
    let mut form = members([
        ("number", Json::Number(service.number)),
        ("group", Json::text(&service.group)),
        ("line", Json::Number(service.line)),
        ("settings", rows(&shown.settings, hiding)),
        ("record", found),
        ("record_refusal", refused),
        ("moves", Json::Bool(service.moved.is_ok())),
        (
            "move_refusals",
            forms::refusals(service.moved.as_ref().err().map_or(&[], Vec::as_slice)),
        ),
    ]);
    let name = service.moved.as_ref().ok().map(|iwd| Path::new(OsStr::from_bytes(&iwd.name)));
    form.extend(path_members("iwd_name", name));
    Json::Object(form)
}

fn record(record: &JoinRecord, hiding: &Hiding) -> Json {
    let credential = record.credential.word();
    let (passphrase, key) = match &record.credential {
        Credential::Passphrase(passphrase) => (Some(passphrase.clone()), None),
        Credential::Key(key) => (None, Some(encoded(key).into_bytes())),
        _ => (None, None),
    };
    let is_hidden = hiding.hides(&record.name);
    let mut found = bytes_members("name", Some(record.name.as_slice()).filter(|_| !is_hidden));
    found.extend(members([
        ("name_hidden", Json::Bool(is_hidden)),
        ("credential", Json::text(credential)),
    ]));
    found.extend(hiding.secret_members("passphrase", passphrase.as_deref()));
    found.extend(hiding.secret_members("key", key.as_deref()));
    let servers = record.name_servers.iter().map(Json::text).collect();
    let domain = (!record.domain.is_empty()).then(|| hiding.masked(&record.domain));
    found.extend(members([
        ("hidden", Json::Bool(record.hidden)),
        ("ipv4", Addressing::from(record.ipv4).json()),
        ("name_servers", Json::List(servers)),
        ("domain", Json::from(domain)),
        ("ipv6", Addressing::from(record.ipv6).json()),
    ]));
    Json::Object(found)
}
