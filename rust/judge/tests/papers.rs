//! The reference on document 01's own examples: the twelve cases of the one table, the worked move as request 2026-02 has it, and what
//! 01 leaves to tests; and on the two largest records of request 2026-01, its file figure as request 2026-03 has it.

use judge::reference::file_name::{write_iwd, Suffix};
use judge::reference::kind::Kind;
use judge::reference::text::{escape, unescape};
use judge::reference::writer::{write, Room, ENOUGH, FILE_MAX, NAME_MAX};
use judge::reference::{connman, iwd, moving, Credential, Ipv4, Ipv6, Record, Refusal};

/// The number and line of an answer; 0 and 0 when it is accepted.
fn answer<T>(result: Result<T, Refusal>) -> (u8, usize) {
    result.err().map_or((0, 0), |refusal| (refusal.number(), refusal.line))
}

fn read_iwd(name: &str, file: &[u8]) -> (u8, usize) {
    answer(iwd::read(name.as_bytes(), file))
}

fn read_connman(file: &[u8]) -> (u8, usize) {
    answer(connman::read(b"shop.config", file))
}

fn moved(file: &[u8], service: usize) -> (u8, usize) {
    answer(moving::move_service(&connman::read(b"shop.config", file), service, ENOUGH))
}

#[test]
fn case_1_an_empty_open_file_is_accepted() {
    let record = iwd::read(b"Desk.open", b"").expect("accepted").record();
    assert_eq!((record.credential, record.ipv4), (Credential::None, Ipv4::Auto));
}

#[test]
fn case_2_an_empty_psk_file_lacks_its_key() {
    assert_eq!(read_iwd("Desk.psk", b""), (14, 0));
}

#[test]
fn case_3_a_leading_space_is_escaped_both_ways() {
    assert_eq!(unescape(b"\\sab"), Some(b" ab".to_vec()));
    assert_eq!(escape(b" ab"), b"\\sab");
}

#[test]
fn case_4_a_backslash_at_the_end_is_broken_text() {
    assert_eq!(read_iwd("Desk.open", b"[IPv4]\nDomainName=a\\\n"), (11, 2));
}

#[test]
fn cases_5_and_6_one_network_has_one_file_name() {
    assert_eq!(write_iwd(b"Caf\xC3\xA9", Suffix::Psk), b"=436166c3a9.psk");
    assert_eq!(read_iwd("=436166c3a9.open", b""), (0, 0));
    assert_eq!(read_iwd("=4465736b.psk", b""), (2, 0));
}

#[test]
fn cases_7_and_8_masks() {
    let mask = |value: &str| {
        read_iwd(
            "Desk.open",
            format!("[IPv4]\nAddress=1.2.3.4\nGateway=1.2.3.1\nNetmask={value}\n").as_bytes(),
        )
    };
    assert_eq!(mask("255.0.255.0"), (12, 4));
    let file = b"[IPv4]\nAddress=1.2.3.4\nGateway=1.2.3.1\nNetmask=255.255.254.0\n";
    assert_eq!(iwd::read(b"Desk.open", file).expect("accepted").settings.netmask_length, Some(23));
}

#[test]
fn case_9_a_static_address_without_gateway_is_read_and_not_moved() {
    let file = b"[service_a]\nType = wifi\nName = Desk\nIPv4 = 10.0.0.2/24\n";
    assert_eq!((read_connman(file), moved(file, 1)), ((0, 0), (16, 4)));
}

#[test]
fn case_10_addresses() {
    for value in ["01.2.3.4", "256.1.1.1"] {
        assert_eq!(read_iwd("Desk.open", format!("[IPv4]\nAddress={value}\n").as_bytes()), (12, 2));
    }
}

#[test]
fn cases_11_and_12_passphrases_of_seven_and_eight_bytes() {
    let iwd_file = |passphrase: &str| read_iwd("Desk.psk", format!("[Security]\nPassphrase={passphrase}\n").as_bytes());
    let connman_file = |passphrase: &str| {
        let file = format!("[service_a]\nType=wifi\nName=Desk\nPassphrase={passphrase}\n");
        read_connman(file.as_bytes())
    };
    assert_eq!((iwd_file("1234567"), iwd_file("12345678")), ((12, 2), (0, 0)));
    assert_eq!((connman_file("1234567"), connman_file("12345678")), ((12, 4), (0, 0)));
    assert_eq!((iwd_file("1234567 "), connman_file("1234567 ")), ((0, 0), (12, 4)));
}

const SHOP: &[u8] = b"[service_till]\nType = wifi\nName = Desk 4\nPassphrase = low\\tide 88\nIPv4 = 10.20.0.14/24/10.20.0.1\n\
    Nameservers = 10.20.0.2,10.20.0.3\nHidden = true\nIPv6 = off\n";

const DESK: &[u8] = b"[Settings]\nHidden=true\n[Security]\nPassphrase=low\tide 88\n[IPv4]\nAddress=10.20.0.14\nNetmask=255.255.255.0\n\
    Gateway=10.20.0.1\nDNS=10.20.0.2 10.20.0.3\n[IPv6]\nEnabled=false\n";

/// The lengths of what the worked move writes.
const DESK_ROOM: Room = Room { name: 10, file: 167 };

/// "In 01's worked move the passphrase now holds a tab, is 10 bytes long and is written with that tab raw" (request 2026-02).
#[test]
fn the_worked_move() {
    let reading = connman::read(b"shop.config", SHOP);
    assert_eq!(reading.as_ref().map(|file| file.counts.settings), Ok(7));
    let written = moving::move_service(&reading, 1, DESK_ROOM).expect("moved");
    assert_eq!(
        (&written.name[..], &written.file[..], written.file.len()),
        (&b"Desk 4.psk"[..], DESK, DESK_ROOM.file)
    );
    for room in [
        Room { name: 9, ..DESK_ROOM },
        Room { file: 166, ..DESK_ROOM },
        Room { name: 0, file: 0 },
    ] {
        assert_eq!(answer(moving::move_service(&reading, 1, room)), (17, 0));
    }
    let record = reading.expect("accepted").services[0].record().expect("a record");
    assert_eq!(record, desk());
    assert!(matches!(&record.credential, Credential::Passphrase(passphrase) if passphrase.len() == 10));
    assert_eq!(iwd::read(b"Desk 4.psk", DESK).expect("accepted").record(), record);
}

fn desk() -> Record {
    Record {
        ssid: b"Desk 4".to_vec(),
        credential: Credential::Passphrase(b"low\tide 88".to_vec()),
        hidden: true,
        ipv4: Ipv4::Static {
            address: [10, 20, 0, 14],
            prefix_length: 24,
            gateway: Some([10, 20, 0, 1]),
        },
        servers: vec![[10, 20, 0, 2], [10, 20, 0, 3]],
        domain: vec![],
        ipv6: Ipv6::Off,
    }
}

#[test]
fn sixteen_thousand_three_hundred_eighty_four_bytes_are_allowed() {
    assert_eq!(read_iwd("Desk.open", &[b'\n'; 16_384]), (0, 0));
    assert_eq!(read_iwd("Desk.open", &[b'\n'; 16_385]), (1, 0));
    assert_eq!(read_connman(&[b'\n'; 16_384]), (0, 0));
    assert_eq!(read_connman(&[b'\n'; 16_385]), (1, 0));
}

#[test]
fn names_of_32_and_33_bytes() {
    assert_eq!(
        (
            read_iwd(&format!("{}.open", "a".repeat(32)), b""),
            read_iwd(&format!("{}.open", "a".repeat(33)), b"")
        ),
        ((0, 0), (2, 0))
    );
    assert_eq!(
        (
            read_iwd(&format!("={}.open", "c3".repeat(32)), b""),
            read_iwd(&format!("={}.open", "c3".repeat(33)), b"")
        ),
        ((0, 0), (2, 0))
    );
}

#[test]
fn eight_and_nine_services() {
    let services = |count: usize| {
        (1..=count)
            .map(|number| format!("[service_{number}]\nType=ethernet\n"))
            .collect::<String>()
    };
    assert_eq!(
        (read_connman(services(8).as_bytes()), read_connman(services(9).as_bytes())),
        ((0, 0), (13, 17))
    );
    let repeated = format!("{}[service_3]\n", services(8));
    assert_eq!(read_connman(repeated.as_bytes()), (7, 17));
    let with_global = format!("[global]\n{}", services(8));
    assert_eq!(
        connman::read(b"a.config", with_global.as_bytes()).map(|file| file.counts.services),
        Ok(8)
    );
}

/// The record of the largest file: every line of it has its greatest length.
fn largest_file() -> Record {
    let wide = [255, 255, 255, 255];
    Record {
        ssid: vec![0xFF; 32],
        credential: Credential::Passphrase(vec![b'\\'; 63]),
        hidden: true,
        ipv4: Ipv4::Static {
            address: wide,
            prefix_length: 32,
            gateway: Some(wide),
        },
        servers: vec![wide; 4],
        domain: vec![b'\\'; 253],
        ipv6: Ipv6::Static {
            address: [255; 16],
            prefix_length: 128,
            gateway: Some([255; 16]),
        },
    }
}

/// The record of the largest name: `.open` is longer than `.psk`.
fn largest_name() -> Record {
    Record {
        credential: Credential::None,
        ..largest_file()
    }
}

#[test]
fn the_largest_file_and_the_largest_name_fill_their_buffers() {
    assert_eq!((NAME_MAX, FILE_MAX), (70, 944));
    let security_group = b"[Security]\nPassphrase=\n".len() + 2 * 63;
    let rows = [
        (largest_file(), NAME_MAX - 1, FILE_MAX),
        (largest_name(), NAME_MAX, FILE_MAX - security_group),
    ];
    for (record, name, file) in rows {
        let written = write(Some(&record), Room { name, file }).expect("written");
        assert_eq!((written.name.len(), written.file.len()), (name, file));
        for room in [Room { name: name - 1, ..ENOUGH }, Room { file: file - 1, ..ENOUGH }] {
            assert_eq!(answer(write(Some(&record), room)), (17, 0));
        }
    }
}

#[test]
fn slips_we_have_seen_or_fear() {
    let broken = b"[service_a]\nType=wifi\nName=Desk\nPassphrase=1234567\n";
    assert_eq!(moved(broken, 1), (12, 4), "a faulty Passphrase line is not an absent one");
    let mac = b"[service_a]\nType=wifi\nName=Desk\nMAC=01:02:03:04:05:06\n";
    assert_eq!(moved(mac, 1), (16, 4), "ConnMan's MAC is not AddressOverride");
    let blank = iwd::read(b"Desk.psk", b"[Security]\nPassphrase=12345678 \t\n")
        .expect("accepted")
        .record();
    assert_eq!(
        blank.credential,
        Credential::Passphrase(b"12345678 \t".to_vec()),
        "iwd values are not trimmed at the end"
    );
    let tab = Record {
        credential: Credential::Passphrase(b"\t1234567".to_vec()),
        ..desk()
    };
    let written = write(Some(&tab), ENOUGH).expect("written");
    assert_eq!(
        iwd::read(&written.name, &written.file).expect("accepted").record(),
        tab,
        "a leading tab is not lost"
    );
}

#[test]
fn every_mask_length_is_the_count_of_leading_ones() {
    for length in 1..=32 {
        let bits = (u32::MAX << (32 - length)).to_be_bytes();
        let text = format!("{}.{}.{}.{}", bits[0], bits[1], bits[2], bits[3]);
        assert_eq!(
            Kind::Mask.judge(text.as_bytes()),
            Ok(judge::reference::kind::Value::Mask(length as u8))
        );
    }
}
