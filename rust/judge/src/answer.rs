//! An answer of an entry point, whole: every member of the struct, and the final bytes of the buffers.

use qewaris::raw;
use std::fmt::Debug;

/// What an entry point answered.
#[derive(Clone, PartialEq, Eq)]
pub enum Answer {
    Reading(raw::Reading),
    IwdSettings(raw::IwdSettings),
    ServiceSettings(raw::ServiceSettings),
    Text(raw::Text),
    Record(raw::RecordAnswer),
    Written {
        written: raw::Written,
        name: Vec<u8>,
        file: Vec<u8>,
    },
}

/// An answer, and what the call damaged that it had no right to: input bytes, or bytes beside a lent stretch.
#[derive(Clone, PartialEq, Eq)]
pub struct Outcome {
    pub answer: Answer,
    pub damage: Vec<&'static str>,
}

impl From<Answer> for Outcome {
    /// The outcome that damages nothing.
    fn from(answer: Answer) -> Outcome {
        Outcome {
            answer,
            damage: Vec::new(),
        }
    }
}

/// A member's name and what it holds, to be read by a person.
pub type Field = (String, String);

impl Outcome {
    /// Every member by name.
    pub fn fields(&self) -> Vec<Field> {
        let mut fields = self.answer.fields();
        fields.push(field("damage", &self.damage));
        fields
    }
}

fn field(name: &str, value: &impl Debug) -> Field {
    (name.to_string(), format!("{value:?}"))
}

/// The members of a struct by their names.
macro_rules! members {
    ($of:expr, $($member:ident),+ $(,)?) => { vec![$(field(stringify!($member), &$of.$member)),+] };
}

impl Answer {
    /// The number of the answer.
    pub fn number(&self) -> u8 {
        match self {
            Answer::Reading(reading) => reading.number,
            Answer::IwdSettings(settings) => settings.number,
            Answer::ServiceSettings(settings) => settings.number,
            Answer::Text(text) => text.number,
            Answer::Record(record) => record.number,
            Answer::Written { written, .. } => written.number,
        }
    }

    fn fields(&self) -> Vec<Field> {
        match self {
            Answer::Reading(reading) => members!(reading, number, line, settings, services, reserved),
            Answer::IwdSettings(settings) => iwd_settings_fields(settings),
            Answer::ServiceSettings(settings) => service_settings_fields(settings),
            Answer::Text(text) => members!(text, number, line, start, length, reserved),
            Answer::Record(answer) => [members!(answer, number, line, reserved), record_fields(&answer.record)].concat(),
            Answer::Written { written, name, file } => {
                let buffers = vec![text_field("name buffer", name), text_field("file buffer", file)];
                [members!(written, number, line, name_len, file_len, reserved), buffers].concat()
            }
        }
    }
}

fn text_field(name: &str, bytes: &[u8]) -> Field {
    (name.to_string(), format!("\"{}\"", bytes.escape_ascii()))
}

/// Bytes, with the zeros at their end counted.
fn padded_field(name: &str, bytes: &[u8]) -> Field {
    let used = bytes.iter().rposition(|&byte| byte != 0).map_or(0, |last| last + 1);
    let zeros = bytes.len() - used;
    (name.to_string(), format!("\"{}\" and {zeros} zeros", bytes[..used].escape_ascii()))
}

fn iwd_settings_fields(settings: &raw::IwdSettings) -> Vec<Field> {
    let raw::IwdSettings {
        general,
        security,
        ipv4,
        ipv6,
        ..
    } = settings;
    [
        members!(settings, number, line),
        members!(
            general,
            auto_connect,
            hidden,
            always_randomize_address,
            has_address_override,
            address_override
        ),
        members!(security, passphrase_line, has_pre_shared_key, pre_shared_key, reserved),
        members!(ipv4, domain_name_line, dns_count, dns, has_address, address, has_gateway, gateway),
        members!(ipv4, has_broadcast, broadcast, netmask_length, send_hostname, reserved),
        members!(ipv6, enabled, has_address, address, prefix_length, has_gateway, gateway),
        members!(settings, reserved),
    ]
    .concat()
}

fn service_settings_fields(settings: &raw::ServiceSettings) -> Vec<Field> {
    let raw::ServiceSettings { network, addresses, .. } = settings;
    [
        members!(settings, number, line),
        members!(
            network,
            name_line,
            passphrase_line,
            ssid_len,
            ssid,
            service_type,
            security,
            hidden,
            reserved
        ),
        members!(addresses, domain_line, search_domains, timeservers, nameserver_count, nameservers),
        members!(addresses, ipv4, address, prefix_length, has_gateway, gateway),
        members!(
            addresses,
            ipv6,
            ipv6_address,
            ipv6_prefix_length,
            has_ipv6_gateway,
            ipv6_gateway,
            privacy,
            has_mac,
            mac,
            reserved
        ),
    ]
    .concat()
}

/// The members of a record by name; strings with escapes.
pub fn record_fields(record: &raw::Record) -> Vec<Field> {
    let mut fields = members!(
        record,
        name_len,
        credential,
        passphrase_len,
        key,
        hidden,
        ipv4,
        address,
        prefix_length,
        has_gateway,
        gateway,
        server_count,
        servers,
        domain_len,
        ipv6,
        ipv6_address,
        ipv6_prefix_length,
        has_ipv6_gateway,
        ipv6_gateway,
    );
    fields.push(padded_field("name", &record.name));
    fields.push(padded_field("passphrase", &record.passphrase));
    fields.push(padded_field("domain", &record.domain));
    fields
}
