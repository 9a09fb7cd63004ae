//! The reference on the decisions about what document 01 leaves open: a table for each family, with the decision's number.

use judge::layout::{lay_record, lift_record};
use judge::reference::writer::{write, Room, ENOUGH};
use judge::reference::{connman, iwd, moving, Credential, Ipv4, Ipv6, Record, Refusal};
use qewaris::raw;

/// An answer as the checking program prints it.
fn printed(result: Result<usize, Refusal>) -> String {
    match result {
        Ok(settings) => format!("accepted {settings}"),
        Err(refusal) => format!("refused {} {}", refusal.number(), refusal.line),
    }
}

fn check_iwd(name: &[u8], file: &[u8]) -> String {
    printed(iwd::read(name, file).map(|file| file.counts.settings))
}

fn check_connman(name: &[u8], file: &[u8]) -> String {
    printed(connman::read(name, file).map(|file| file.counts.settings))
}

#[test]
fn iwd_names() {
    let rows: [(u8, &[u8], &str); 20] = [
        (2, b"Desk.8021x", "refused 2 0"),
        (2, b"shop.config", "refused 2 0"),
        (2, b"", "refused 2 0"),
        (3, b" .open", "accepted 0"),
        (3, b" Desk .open", "accepted 0"),
        (3, b"-_.open", "accepted 0"),
        (3, b".open", "refused 2 0"),
        (3, b"=.open", "refused 2 0"),
        (4, b"=c3A9.open", "refused 2 0"),
        (4, b"=c3a9.open", "accepted 0"),
        (4, b"=00.open", "accepted 0"),
        (4, b"=0a0d.open", "accepted 0"),
        (4, b"=c3a.open", "refused 2 0"),
        (4, b"=20.open", "refused 2 0"),
        (5, b"./Desk.open", "refused 2 0"),
        (5, b"Desk.OPEN", "refused 2 0"),
        (5, b"Desk.open ", "refused 2 0"),
        (5, b"Desk.open.open", "refused 2 0"),
        (5, b"De.sk.open", "refused 2 0"),
        (6, b"Caf\xC3\xA9.open", "refused 2 0"),
    ];
    for (decision, name, expected) in rows {
        assert_eq!(check_iwd(name, b""), expected, "decision {decision}: {}", name.escape_ascii());
    }
}

#[test]
fn connman_names() {
    let long = [&[b'a'; 20_000][..], b".config"].concat();
    let rows: [(u8, &[u8], &str); 9] = [
        (2, b"Desk.open", "refused 2 0"),
        (5, &long, "accepted 0"),
        (5, b"A0.config", "accepted 0"),
        (5, b".config", "refused 2 0"),
        (5, b"a b.config", "refused 2 0"),
        (5, b"a_b.config", "refused 2 0"),
        (5, b"a-b.config", "refused 2 0"),
        (5, b"a.Config", "refused 2 0"),
        (6, b"\xC3\xA9.config", "refused 2 0"),
    ];
    for (decision, name, expected) in rows {
        assert_eq!(check_connman(name, b""), expected, "decision {decision}: {}", name.escape_ascii());
    }
    assert_eq!(check_connman(b"", &[b'x'; 16_385]), "refused 1 0", "decision 1");
}

/// The decision, the file, and what is printed of it.
fn check_iwd_rows(rows: &[(u8, &[u8], &str)]) {
    for (decision, file, expected) in rows {
        assert_eq!(
            check_iwd(b"Desk.open", file),
            *expected,
            "decision {decision}: {}",
            file.escape_ascii()
        );
    }
}

#[test]
fn iwd_lines() {
    check_iwd_rows(&[
        (6, b"\r\n", "refused 3 1"),
        (6, b"\x0C", "refused 3 1"),
        (6, b"\xC2\xA0", "refused 3 1"),
        (6, b"\xEF\xBB\xBF[Settings]\n", "refused 3 1"),
        (6, b"[Settings]\r\n", "refused 5 1"),
        (7, b" \t[Settings]\n", "accepted 0"),
        (7, b" [@pem@x]\n", "refused 4 1"),
        (7, b"\n[@", "refused 4 2"),
        (7, b"[@]", "refused 4 1"),
        (7, b"[]", "refused 5 1"),
        (8, b"[ IPv4 ]", "refused 6 1"),
        (8, b"[Network]", "refused 6 1"),
        (8, b"[Settings]\nTransitionDisable=true", "refused 9 2"),
        (9, b"[settings]", "refused 6 1"),
        (9, b"[Settings]\nhidden=true", "refused 9 2"),
        (9, b"[Settings]\nHidden=True", "refused 12 2"),
        (10, b"=x", "refused 3 1"),
        (10, b"abc", "refused 3 1"),
        (10, b"Hid\x0Bden=true", "refused 3 1"),
        (10, b"Hidden \r=true", "refused 3 1"),
        (10, b"IPv6.Privacy=x", "refused 3 1"),
        (10, b"Hidden=true", "refused 8 1"),
        (10, b"Nothing=\xFF", "refused 8 1"),
    ]);
}

#[test]
fn iwd_values() {
    check_iwd_rows(&[
        (11, b"[IPv4]\nDomainName= \t ab\n", "accepted 1"),
        (11, b"[IPv4]\nDomainName=\n", "refused 12 2"),
        (11, b"[IPv4]\nDomainName=   \n", "refused 12 2"),
        (11, b"[Settings]\nHidden=", "refused 12 2"),
        (12, b"#\xFF\0\r\n \t# x\n", "accepted 0"),
        (12, b";x\n", "refused 3 1"),
        (13, b"[Settings]\nHidden=true \n", "refused 12 2"),
        (13, b"[Settings]\nHidden = 1\n", "accepted 1"),
        (13, b"[IPv4]\nDNS=1.2.3.4  5.6.7.8 \n", "accepted 1"),
        (13, b"[IPv4]\nDNS=1.2.3.4\t5.6.7.8\n", "refused 12 2"),
        (13, b"[IPv4]\nDNS=1.2.3.4\t\n", "refused 12 2"),
        (13, b"[IPv4]\nDNS=1.1.1.1 2.2.2.2 3.3.3.3 4.4.4.4\n", "accepted 1"),
        (13, b"[IPv4]\nDNS=1.1.1.1 2.2.2.2 3.3.3.3 4.4.4.4 5.5.5.5\n", "refused 12 2"),
        (14, b"[IPv6]\n[Settings]\n[IPv4]\n[Security]\n", "accepted 0"),
        (15, b"[Settings]\nHidden=true\r\n", "refused 11 2"),
        (15, b"[Settings]\nHidden=x\0\n", "refused 11 2"),
        (15, b"[Security]\nPreSharedKey=\\\n", "refused 12 2"),
        (16, b"[IPv4]\nDomainName=\\\\\\s\n", "accepted 1"),
        (16, b"[IPv4]\nDomainName=\\\xC3\xA9\n", "refused 11 2"),
    ]);
}

#[test]
fn connman_lines() {
    let rows: [(u8, &[u8], &str); 14] = [
        (7, b"[@pem@x]", "refused 6 1"),
        (7, b"[@", "refused 5 1"),
        (8, b"[service_]", "refused 6 1"),
        (8, b"[service_a-b]", "refused 6 1"),
        (8, b"[service_012345678901234567890123456789012]", "refused 6 1"),
        (8, b"[service_01234567890123456789012345678901]", "refused 14 1"),
        (8, b"[Global]", "refused 6 1"),
        (10, b"A.B=", "refused 8 1"),
        (11, b"[global]\nName = \t\n", "refused 12 2"),
        (13, b"[service_a]\nType=ethernet\nNameservers = 1.2.3.4,5.6.7.8 \t\n", "accepted 2"),
        (13, b"[service_a]\nType=ethernet\nNameservers = 1.2.3.4, 5.6.7.8\n", "refused 12 3"),
        (13, b"[service_a]\nType=ethernet\nNameservers = 1.2.3.4,\n", "refused 12 3"),
        (13, b"[service_a]\nType=ethernet\nSearchDomains = a,,b\n", "refused 12 3"),
        (15, b"[service_a]\nType=ethernet\r\n", "refused 11 2"),
    ];
    for (decision, file, expected) in rows {
        assert_eq!(
            check_connman(b"a.config", file),
            expected,
            "decision {decision}: {}",
            file.escape_ascii()
        );
    }
}

#[test]
fn connman_services() {
    let rows: [(u8, &str, &str); 23] = [
        (17, "Type=ethernet\nIPv4=0.0.0.0/1/0.0.0.0", "accepted 2"),
        (17, "Type=ethernet\nIPv4=1.2.3.4", "refused 12 3"),
        (17, "Type=ethernet\nIPv4=1.2.3.4/0", "refused 12 3"),
        (17, "Type=ethernet\nIPv4=1.2.3.4/32", "accepted 2"),
        (17, "Type=ethernet\nIPv4=1.2.3.4/33", "refused 12 3"),
        (17, "Type=ethernet\nIPv4=1.2.3.4/08", "refused 12 3"),
        (17, "Type=ethernet\nIPv4=1.2.3.4/0.0.0.0", "refused 12 3"),
        (17, "Type=ethernet\nIPv4=1.2.3.4/24/", "refused 12 3"),
        (17, "Type=ethernet\nIPv4=auto", "refused 12 3"),
        (18, "Type=ethernet\nTimeservers=\\x,\\", "accepted 2"),
        (19, "Type=wifi\nName=a\nSecurity=wep\nPassphrase=12345", "refused 12 5"),
        (20, "Type=ethernet\nHidden=false", "refused 15 1"),
        (21, "Type=ethernet\nSecurity=psk", "refused 14 1"),
        (21, "Type=ethernet\nSecurity=psk\nPassphrase=12345678", "refused 15 1"),
        (21, "Type=ethernet\nName=a\n[service_b]", "refused 15 1"),
        (21, "[service_b]\nHidden=x", "refused 12 3"),
        (22, "Type=ethernet\n[global]\nName=a\nDescription=b", "accepted 3"),
        (25, "Type=wifi\nName=a\nSecurity=wep", "accepted 3"),
        (25, "Type=wifi\nName=a\nSecurity=ieee8021x\nPassphrase=12345678", "accepted 4"),
        (25, "Type=wifi\nName=a\n[service_b]\nType=wifi\nName=a", "accepted 4"),
        (0, "Type=wifi\nName=a\nSecurity=none\nPassphrase=12345678", "refused 15 1"),
        (0, "Type=wifi\nHidden=true", "refused 14 1"),
        (0, "Name=a", "refused 14 1"),
    ];
    for (decision, service, expected) in rows {
        let file = format!("[service_a]\n{service}\n");
        assert_eq!(
            check_connman(b"a.config", file.as_bytes()),
            expected,
            "decision {decision}: {service}"
        );
    }
}

#[test]
fn iwd_group_rules() {
    let rows: [(&str, &str, &str); 8] = [
        ("Desk.open", "[IPv4]\nAddress=1.2.3.4", "refused 14 0"),
        ("Desk.open", "[IPv4]\nGateway=1.2.3.4", "refused 14 0"),
        ("Desk.open", "[IPv4]\nNetmask=255.0.0.0", "refused 14 0"),
        ("Desk.open", "[IPv4]\nBroadcast=1.2.3.4", "refused 14 0"),
        ("Desk.open", "[IPv4]\nAddress=1.2.3.4\nGateway=1.2.3.4", "accepted 2"),
        ("Desk.open", "[Security]\nPassphrase=12345678", "refused 15 0"),
        (
            "Desk.open",
            "[Security]\nPassphrase=12345678\n[IPv4]\nAddress=1.2.3.4",
            "refused 14 0",
        ),
        ("Desk.psk", "[Security]\n", "refused 14 0"),
    ];
    for (name, file, expected) in rows {
        assert_eq!(check_iwd(name.as_bytes(), file.as_bytes()), expected, "{file}");
    }
}

/// The answers of the record and of the move of service 1.
fn record_and_move(service: &str) -> ((u8, usize), (u8, usize)) {
    let file = format!("[service_a]\n{service}\n");
    let reading = connman::read(b"a.config", file.as_bytes());
    let answer = |refusal: Refusal| (refusal.number(), refusal.line);
    let record = reading.as_ref().expect("accepted").service(1).expect("a service").record();
    let moved = moving::move_service(&reading, 1, ENOUGH);
    (record.err().map_or((0, 0), answer), moved.err().map_or((0, 0), answer))
}

#[test]
fn what_iwd_has_no_place_for() {
    let rows = [
        ("Type=ethernet\nMAC=00:11:22:33:44:55", (16, 2), (16, 2)),
        ("MAC=00:11:22:33:44:55\nType=ethernet", (16, 3), (16, 2)),
        ("Type=wifi\nName=a\nSecurity=wep", (16, 4), (16, 4)),
        ("Timeservers=a\nType=wifi\nName=a\nSecurity=ieee8021x", (16, 5), (16, 2)),
        ("Type=wifi\nName=a\nIPv6.Privacy=disabled", (0, 0), (16, 4)),
        ("Type=wifi\nName=a\nSearchDomains=x\nIPv4=off", (0, 0), (16, 4)),
        ("Type=wifi\nName=a\nIPv4=off", (0, 0), (16, 4)),
        ("Type=wifi\nName=a\nIPv4=1.2.3.4/8", (0, 0), (16, 4)),
        ("Type=wifi\nName=a\nIPv4=1.2.3.4/8/1.2.3.1", (0, 0), (0, 0)),
    ];
    for (service, record, moved) in rows {
        assert_eq!(record_and_move(service), (record, moved), "decisions 20 and 23: {service}");
    }
}

#[test]
fn service_numbers_are_full_width() {
    let reading = connman::read(b"a.config", b"[service_a]\nType=wifi\nName=a\n");
    let answer = |number| {
        moving::move_service(&reading, number, ENOUGH)
            .err()
            .map(|refusal| (refusal.number(), refusal.line))
    };
    assert_eq!(answer(1), None);
    for number in [0, 2, 9, 257, 65_537, 4_294_967_297, usize::MAX] {
        assert_eq!(answer(number), Some((18, 0)), "decision 29: {number}");
    }
}

fn plain_record() -> Record {
    Record {
        ssid: b"a".to_vec(),
        credential: Credential::None,
        hidden: false,
        ipv4: Ipv4::Auto,
        servers: vec![],
        domain: vec![],
        ipv6: Ipv6::Auto,
    }
}

fn write_raw(record: &raw::Record, room: Room) -> (u8, usize) {
    match write(lift_record(record).as_ref(), room) {
        Ok(written) => (0, written.file.len()),
        Err(refusal) => (refusal.number(), refusal.line),
    }
}

type Change = fn(&mut raw::Record);

#[test]
fn malformed_records() {
    let plain = lay_record(&plain_record());
    let with = |change: Change| {
        let mut record = plain;
        change(&mut record);
        write_raw(&record, ENOUGH).0
    };
    let rows: [(&str, Change, u8); 22] = [
        ("nothing", |_| {}, 0),
        ("name of 0 bytes", |record| record.name_len = 0, 19),
        ("name of 33 bytes", |record| record.name_len = 33, 19),
        ("name behind its length", |record| record.name[31] = 1, 19),
        ("name with a zero byte", |record| record.name_len = 2, 0),
        ("credential 3", |record| record.credential = 3, 19),
        ("passphrase of 0 bytes", |record| record.credential = 1, 19),
        ("key of zeros", |record| record.credential = 2, 0),
        ("key without credential", |record| record.key[0] = 1, 19),
        ("passphrase length without credential", |record| record.passphrase_len = 8, 19),
        ("hidden 2", |record| record.hidden = 2, 19),
        ("ipv4 off", |record| record.ipv4 = 1, 16),
        ("ipv4 3", |record| record.ipv4 = 3, 19),
        ("static of length 0", |record| record.ipv4 = 2, 19),
        ("static without gateway", |record| (record.ipv4, record.prefix_length) = (2, 32), 16),
        ("gateway without static", |record| record.has_gateway = 1, 19),
        ("prefix length without static", |record| record.prefix_length = 1, 19),
        ("server behind the count", |record| record.servers[0] = 1, 19),
        ("five servers", |record| record.server_count = 5, 19),
        ("domain of zero bytes that are zero", |record| record.domain_len = 1, 19),
        ("domain of 254 bytes", |record| record.domain_len = 254, 19),
        ("ipv6 3", |record| record.ipv6 = 3, 19),
    ];
    for (what, change, expected) in rows {
        assert_eq!(with(change), expected, "decision 27: {what}");
    }
    assert_eq!(write_raw(&raw::Record::ZERO, ENOUGH), (19, 0), "decision 28");
    assert_eq!(write_raw(&plain, Room { name: 6, file: 0 }), (0, 0), "decision 30");
    assert_eq!(write_raw(&plain, Room { name: 5, file: 0 }), (17, 0), "decision 30");
}

#[test]
fn texts_of_records() {
    let rows: [(&[u8], u8); 7] = [
        (b"1234567", 19),
        (b"12345678", 0),
        (b"123\n\r678", 0),
        (b"123\0 678", 19),
        (b"1234567\xC3", 19),
        (b"123456\xC3\xA9", 0),
        (b" \t\\\x01\x7F 78", 0),
    ];
    for (passphrase, expected) in rows {
        let record = Record {
            credential: Credential::Passphrase(passphrase.to_vec()),
            ..plain_record()
        };
        assert_eq!(
            write_raw(&lay_record(&record), ENOUGH).0,
            expected,
            "decision 27: {}",
            passphrase.escape_ascii()
        );
    }
}
