//! How much room a written file can take: the record with the largest file and the one with the largest name, written, and moved
//! from services that have these records; and what docs/USING.md tells of it.

use qewaris::*;
use std::net::{Ipv4Addr, Ipv6Addr};

/// A network by its record, and by the ConnMan file whose only service has that record; and how long its name and file are.
struct Network {
    record: JoinRecord,
    service: String,
    name_len: usize,
    file_len: usize,
}

/// An open network whose name has 32 bytes that do not stand plainly, with every other part at its default.
fn with_largest_name() -> Network {
    Network {
        record: JoinRecord::open(&[0xff; 32]),
        service: format!("[service_till]\nType = wifi\nSSID = {}\n", "f".repeat(64)),
        name_len: NAME_MAX,
        file_len: 0,
    }
}

/// A network of the same name with everything that has a line: IPv4 addresses of 15 characters and IPv6 addresses of 39, four name
/// servers, and a passphrase of as many backslashes and a domain of as many bytes 10 as they may have, each of which is escaped and so
/// two bytes in both files.
fn with_largest_file() -> Network {
    let open = with_largest_name();
    let all = Ipv4Addr::BROADCAST;
    let all_six = Ipv6Addr::from([0xff; 16]);
    let (passphrase, domain) = ("\\".repeat(63), "\n".repeat(253));
    let lines = format!(
        "Passphrase = {}\nDomain = {}\nIPv4 = {all}/32/{all}\nNameservers = {all},{all},{all},{all}\n",
        "\\\\".repeat(passphrase.len()),
        "\\n".repeat(domain.len())
    );
    Network {
        service: open.service + &lines + &format!("Hidden = true\nIPv6 = {all_six}/128/{all_six}\n"),
        record: JoinRecord {
            credential: Credential::Passphrase(passphrase.into()),
            hidden: true,
            ipv4: Ipv4::Static(StaticIpv4 {
                address: all,
                prefix_length: 32,
                gateway: Some(all),
            }),
            name_servers: vec![all; 4],
            domain: domain.into(),
            ipv6: Ipv6::Static(StaticIpv6 {
                address: all_six,
                prefix_length: 128,
                gateway: Some(all_six),
            }),
            ..open.record
        },
        name_len: "=.psk".len() + 64,
        file_len: FILE_MAX,
    }
}

impl Network {
    /// Writes it and moves it, each into buffers of so many sevens, and gives what is answered and what the buffers are then.
    fn answers(&self, name_len: usize, file_len: usize) -> [(Result<Written, Refusal>, Vec<u8>, Vec<u8>); 2] {
        let into = |ask: &dyn Fn(&mut [u8], &mut [u8]) -> Result<Written, Refusal>| {
            let (mut name, mut file) = (vec![7; name_len], vec![7; file_len]);
            (ask(&mut name, &mut file), name, file)
        };
        [
            into(&|name, file| write_iwd_into(&self.record, name, file)),
            into(&|name, file| move_service_into(b"till.config", self.service.as_bytes(), 1, name, file)),
        ]
    }
}

#[test]
fn each_greatest_length_is_reached_and_reads_back() {
    for network in [with_largest_file(), with_largest_name()] {
        let written = write_iwd(&network.record).unwrap();
        assert_eq!((written.name.len(), written.file.len()), (network.name_len, network.file_len));
        assert_eq!(iwd_record(&written.name, &written.file).as_ref(), Ok(&network.record));
        let service = network.service.as_bytes();
        assert_eq!(service_record(b"till.config", service, 1), Ok(network.record));
        assert_eq!(move_service(b"till.config", service, 1), Ok(written));
    }
}

#[test]
fn vectors_have_room_for_what_is_written_and_no_more() {
    for network in [with_largest_file(), with_largest_name()] {
        for made in [
            write_iwd(&network.record).unwrap(),
            move_service(b"till.config", network.service.as_bytes(), 1).unwrap(),
        ] {
            assert_eq!((made.name.capacity(), made.file.capacity()), (network.name_len, network.file_len));
        }
    }
}

#[test]
fn buffers_of_the_greatest_lengths_are_enough_and_so_are_the_lengths_that_are_needed() {
    for network in [with_largest_file(), with_largest_name()] {
        let (name_len, file_len) = (network.name_len, network.file_len);
        for lent in [(NAME_MAX, FILE_MAX), (name_len, file_len)] {
            for (answer, name, file) in network.answers(lent.0, lent.1) {
                assert_eq!(answer, Ok(Written { name_len, file_len }));
                assert_eq!(iwd_record(&name[..name_len], &file[..file_len]).as_ref(), Ok(&network.record));
                assert!(name[name_len..].iter().chain(&file[file_len..]).all(|byte| *byte == 7));
            }
        }
    }
}

#[test]
fn a_byte_less_is_refused_and_changes_nothing() {
    let (file, name) = (with_largest_file(), with_largest_name());
    for (network, name_len, file_len) in [
        (&file, NAME_MAX, FILE_MAX - 1),
        (&file, file.name_len - 1, FILE_MAX),
        (&name, NAME_MAX - 1, FILE_MAX),
    ] {
        for (answer, name, file) in network.answers(name_len, file_len) {
            let refusal = answer.unwrap_err();
            assert_eq!((refusal.number(), refusal.line()), (17, None));
            assert_eq!((name, file), (vec![7; name_len], vec![7; file_len]));
        }
    }
}

#[test]
fn the_example_reaches_both() {
    let example = include_bytes!("../../../examples/good/largest.config");
    let lengths = [1, 2].map(|service| {
        let moved = move_service(b"largest.config", example, service).unwrap();
        (moved.name.len(), moved.file.len())
    });
    assert_eq!(lengths, [(with_largest_file().name_len, FILE_MAX), (NAME_MAX, 0)]);
}

/// A row of the page's table of lines: how the line begins, and its length with the byte that ends it.
fn row_of_line(row: &'static str) -> Option<(&'static str, usize)> {
    let (front, behind) = row.strip_prefix("| `")?.split_once("` | ")?;
    Some((front, behind.split(' ').next()?.parse().ok()?))
}

#[test]
fn the_page_tells_how_long_each_line_of_the_largest_file_is() {
    let page = include_str!("../../../docs/USING.md");
    let (_, part) = page.split_once("## How much room a file can take\n").unwrap();
    let (part, _) = part.split_once("\n## ").unwrap();
    let file = write_iwd(&with_largest_file().record).unwrap().file;
    let lines: Vec<&[u8]> = file.split_inclusive(|byte| *byte == b'\n').collect();
    let rows: Vec<(&str, usize)> = part.lines().filter_map(row_of_line).collect();
    assert_eq!(rows.len(), lines.len());
    for ((front, length), line) in rows.iter().zip(lines) {
        assert!(line.starts_with(front.as_bytes()) && line.len() == *length, "{front}");
    }
    for told in [
        format!("| all of them | {FILE_MAX} |"),
        format!("set aside {FILE_MAX} bytes for the file and {NAME_MAX} for the name"),
        format!("A name of {NAME_MAX} bytes"),
    ] {
        assert!(part.contains(&told), "{told}");
    }
}
