//! Cases of join records.
//!
//! A case is a file name, a service number or `-` for an iwd file, and a file. The answer is `good` or `refused` with the number
//! and the line, each place of the record in document 01's order, and the name servers. A refusal whose record is all zero has
//! the line `nothing` for its places.

use crate::ask::{read, read_service};
use crate::show::{flag, hex_front, is_zero, servers, text_front, unused, word, Addressing, Lines};
use crate::written::{decoded, hex, number, parts};
use qewaris::raw;

/// The answer to a case.
pub fn answer(case: &[u8]) -> Result<Vec<u8>, String> {
    let [name, service, file] = parts(case)?;
    let (name, file) = (decoded(name), decoded(file));
    let found = if service == b"-" {
        read(raw::qewaris_iwd_record, &name, &file)
    } else {
        let service = number(service).ok_or("there is no service number")?;
        read_service(raw::qewaris_service_record, &name, &file, service)
    };
    let mut lines = Lines::default();
    if found.number == 0 {
        lines.say("good");
        places(&mut lines, &found.record);
    } else {
        lines.say(&format!("refused {} {}", found.number, found.line));
        let nothing = found.record == raw::Record::ZERO;
        lines.say(if nothing { "nothing" } else { "not zero" });
    }
    servers(&mut lines, &found.record.servers);
    Ok(lines.into_bytes())
}

/// Every place but the name servers.
fn places(lines: &mut Lines, record: &raw::Record) {
    let passphrase = text_front(&record.passphrase, record.passphrase_len.into());
    let ipv4 = Addressing {
        address: record.address,
        prefix_length: record.prefix_length,
        has_gateway: record.has_gateway,
        gateway: record.gateway,
    };
    let ipv6 = Addressing {
        address: record.ipv6_address,
        prefix_length: record.ipv6_prefix_length,
        has_gateway: record.has_ipv6_gateway,
        gateway: record.ipv6_gateway,
    };
    let domain = text_front(&record.domain, record.domain_len.into());
    lines.key("name", &hex_front(&record.name, record.name_len.into()));
    lines.key("credential", &(credential(record) + &passphrase));
    lines.key("hidden", &flag(record.hidden));
    lines.key("IPv4", &ipv4.of_record(record.ipv4));
    lines.key("name servers", &record.server_count.to_string());
    lines.key(
        "domain",
        &(if record.domain_len == 0 {
            "absent".to_string() + &domain
        } else {
            domain
        }),
    );
    lines.key("IPv6", &ipv6.of_record(record.ipv6));
}

/// The credential and its key; a key that is not in use is zero.
fn credential(record: &raw::Record) -> String {
    match record.credential {
        2 => format!("key {}", hex(&record.key)),
        code => word(code, &["none", "passphrase "]) + unused(is_zero(&record.key)),
    }
}
