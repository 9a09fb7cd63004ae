//! Reading a ConnMan file under its name: the first fault, or the file with its services, their settings and join records.

use super::addressing::{Ipv4, Ipv6};
use super::dialect::{Dialect, GroupKind};
use super::file_name::is_connman;
use super::groups::{groups, Group, Text};
use super::record::{Credential, Record};
use super::refusal::{Fault, Refusal};
use super::{Counts, LONGEST_FILE};

/// The settings of a service; what is absent is none, an absent list is empty.
#[derive(Clone, Debug, Default, PartialEq, Eq)]
pub struct Settings {
    /// Every accepted service has one.
    pub service_type: Option<&'static str>,
    pub ipv4: Option<Ipv4>,
    pub ipv6: Option<Ipv6>,
    pub privacy: Option<&'static str>,
    pub mac: Option<[u8; 6]>,
    pub nameservers: Vec<[u8; 4]>,
    /// Start in the file, and length, of each entry.
    pub search_domains: Vec<(usize, usize)>,
    pub timeservers: Vec<(usize, usize)>,
    pub domain: Option<Text>,
    pub name: Option<Text>,
    pub ssid: Option<Vec<u8>>,
    pub passphrase: Option<Text>,
    pub security: Option<&'static str>,
    pub hidden: Option<bool>,
}

/// A service of an accepted file: its group as it stands in the file, and its settings.
#[derive(Clone, Debug, PartialEq, Eq)]
pub struct Service {
    group: Group,
    pub settings: Settings,
}

/// An accepted ConnMan file.
#[derive(Clone, Debug, PartialEq, Eq)]
pub struct File {
    pub counts: Counts,
    pub global_name: Option<Text>,
    pub global_description: Option<Text>,
    pub services: Vec<Service>,
}

/// Reads a ConnMan file: "1, 2; then the first faulty line; then each service in file order, 14 before 15 within it".
pub fn read(name: &[u8], file: &[u8]) -> Result<File, Refusal> {
    if file.len() > LONGEST_FILE {
        return Err(Fault::Size.without_line());
    }
    if !is_connman(name) {
        return Err(Fault::FileName.without_line());
    }
    let groups = groups(Dialect::Connman, file)?;
    let setting_lines = groups.iter().map(|group| group.settings.len()).sum();
    let global = groups.iter().find(|group| group.kind == GroupKind::Global);
    let global_name = global.and_then(|group| group.text("Name"));
    let global_description = global.and_then(|group| group.text("Description"));
    let mut services = Vec::new();
    for group in groups.into_iter().filter(|group| group.kind == GroupKind::Service) {
        services.push(Service::of(group)?);
    }
    let counts = Counts {
        settings: setting_lines,
        services: services.len(),
    };
    Ok(File {
        counts,
        global_name,
        global_description,
        services,
    })
}

impl File {
    /// Service number `number`, counted from 1; 18 if it "is 0 or above the count".
    pub fn service(&self, number: usize) -> Result<&Service, Refusal> {
        let place = number.checked_sub(1).ok_or(Fault::NoService.without_line())?;
        self.services.get(place).ok_or(Fault::NoService.without_line())
    }
}

impl Service {
    /// The service of a group that obeys the rules over a group; a refusal names the service header.
    fn of(group: Group) -> Result<Service, Refusal> {
        let service_type = judge_group(&group).map_err(|fault| fault.at(group.line))?;
        let settings = Settings {
            service_type: Some(service_type),
            ipv4: group.ipv4("IPv4"),
            ipv6: group.ipv6("IPv6"),
            privacy: group.word("IPv6.Privacy"),
            mac: group.mac("MAC"),
            nameservers: group.servers("Nameservers"),
            search_domains: group.entries("SearchDomains"),
            timeservers: group.entries("Timeservers"),
            domain: group.text("Domain"),
            name: group.text("Name"),
            ssid: group.hex("SSID"),
            passphrase: group.text("Passphrase"),
            security: group.word("Security"),
            hidden: group.flag("Hidden"),
        };
        Ok(Service { group, settings })
    }

    fn line_of(&self, key: &str) -> Option<usize> {
        self.group.setting(key).map(|setting| setting.line)
    }

    /// The join record. "Asking the record of an ethernet, wep or ieee8021x service is 16", at the line that says so.
    pub fn record(&self) -> Result<Record, Refusal> {
        if let Some(line) = self.foreign_line() {
            return Err(Fault::NoPlace.at(line));
        }
        let settings = &self.settings;
        let ssid = settings.ssid.clone().or(settings.name.as_ref().map(|name| name.bytes.clone()));
        Ok(Record {
            ssid: ssid.expect("a wifi service has Name or SSID"),
            credential: self.credential(),
            hidden: settings.hidden.unwrap_or(false),
            ipv4: settings.ipv4.unwrap_or(Ipv4::Auto),
            servers: settings.nameservers.clone(),
            domain: settings.domain.as_ref().map_or(Vec::new(), |domain| domain.bytes.clone()),
            ipv6: settings.ipv6.unwrap_or(Ipv6::Auto),
        })
    }

    /// "Security absent means psk with a Passphrase, none without."
    fn credential(&self) -> Credential {
        match (self.settings.security, &self.settings.passphrase) {
            (Some("none"), _) | (_, None) => Credential::None,
            (_, Some(passphrase)) => Credential::Passphrase(passphrase.bytes.clone()),
        }
    }

    /// The line that makes it an ethernet, wep or ieee8021x service.
    fn foreign_line(&self) -> Option<usize> {
        match (self.settings.service_type, self.settings.security) {
            (Some("ethernet"), _) => self.line_of("Type"),
            (_, Some("wep" | "ieee8021x")) => self.line_of("Security"),
            _ => None,
        }
    }

    /// "No place in iwd, for a move": the earliest line of the service that is such a line.
    pub fn earliest_without_place(&self) -> Option<usize> {
        let (ipv4, ipv6) = (self.settings.ipv4, self.settings.ipv6);
        let unplaced = [
            ("IPv4", ipv4.is_some_and(|ipv4| ipv4 == Ipv4::Off || ipv4.lacks_gateway())),
            ("IPv6", ipv6.is_some_and(|ipv6| ipv6.lacks_gateway())),
            ("MAC", true),
            ("IPv6.Privacy", true),
            ("SearchDomains", true),
            ("Timeservers", true),
        ];
        let lines = unplaced.iter().filter(|(_, holds)| *holds).map(|(key, _)| self.line_of(key));
        lines.chain([self.foreign_line()]).flatten().min()
    }
}

/// "ConnMan 14: Type missing; wifi with neither Name nor SSID; Security psk without Passphrase. ConnMan 15: ethernet with Name, SSID,
/// Passphrase, Security or Hidden; Security none with Passphrase." Gives the Type.
fn judge_group(group: &Group) -> Result<&'static str, Fault> {
    let service_type = group.word("Type").ok_or(Fault::Missing)?;
    let security = group.word("Security");
    let has_passphrase = group.has_any(&["Passphrase"]);
    if service_type == "wifi" && !group.has_any(&["Name", "SSID"]) {
        return Err(Fault::Missing);
    }
    if security == Some("psk") && !has_passphrase {
        return Err(Fault::Missing);
    }
    if service_type == "ethernet" && group.has_any(&["Name", "SSID", "Passphrase", "Security", "Hidden"]) {
        return Err(Fault::Contradiction);
    }
    if security == Some("none") && has_passphrase {
        return Err(Fault::Contradiction);
    }
    Ok(service_type)
}
