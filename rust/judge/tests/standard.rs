//! Reading and writing of IPv6 addresses compared with Rust's standard library, `std::net::Ipv6Addr`: the reference's on a million texts
//! and a million addresses, and on all short texts of few bytes, and the library's own, in each of the three settings.
//!
//! Of reading no difference is known: the same texts are accepted, and read as the same bytes. Of writing there is one: the standard
//! library writes an address with an IPv4 address mapped into it (`::ffff:0:0/96`) with a dotted tail, as RFC 5952 section 5 recommends,
//! and here no address is written so ("never with a dotted tail (house)", request 2026-03).

use judge::answer::Answer;
use judge::case::Buffers;
use judge::generate::{ipv6_address, ipv6_text};
use judge::library::{write_iwd, Input};
use judge::random::Random;
use judge::reference::ipv6_text::{read, write};
use judge::reference::writer::{FILE_MAX, NAME_MAX};
use qewaris::raw;
use std::net::Ipv6Addr;

/// What the standard library reads.
fn standard_read(text: &[u8]) -> Option<[u8; 16]> {
    let address: Ipv6Addr = std::str::from_utf8(text).ok()?.parse().ok()?;
    Some(address.octets())
}

/// What the standard library writes, with groups for a dotted tail, and whether there was one.
fn standard_write(address: [u8; 16]) -> (String, bool) {
    let text = Ipv6Addr::from(address).to_string();
    let Some((front, _)) = text.rsplit_once(':').filter(|(_, tail)| tail.contains('.')) else {
        return (text, false);
    };
    let [a, b, c, d] = [address[12], address[13], address[14], address[15]].map(u16::from);
    (format!("{front}:{:x}:{:x}", a * 256 + b, c * 256 + d), true)
}

fn is_mapped(address: &[u8; 16]) -> bool {
    address.starts_with(&[0, 0, 0, 0, 0, 0, 0, 0, 0, 0, 0xFF, 0xFF])
}

#[test]
fn the_reference_reads_a_million_texts_alike() {
    let mut random = Random::new(202_603);
    let mut accepted = 0;
    for _ in 0..1_000_000 {
        let text = ipv6_text(&mut random);
        let address = read(&text);
        assert_eq!(address, standard_read(&text), "{}", text.escape_ascii());
        accepted += u32::from(address.is_some());
    }
    println!("{accepted} of a million texts are accepted");
    assert!((300_000..800_000).contains(&accepted), "{accepted}");
}

/// Every text of at most so many of these bytes.
fn every_text(alphabet: &[u8], longest: usize, check: fn(&[u8])) {
    let mut texts: Vec<Vec<u8>> = vec![Vec::new()];
    for _ in 0..=longest {
        texts.iter().for_each(|text| check(text));
        let longer = |text: &Vec<u8>| alphabet.iter().map(|byte| [&text[..], &[*byte]].concat()).collect::<Vec<_>>();
        texts = texts.iter().flat_map(longer).collect();
    }
}

#[test]
fn the_reference_reads_all_short_texts_alike() {
    let check = |text: &[u8]| assert_eq!(read(text), standard_read(text), "{}", text.escape_ascii());
    every_text(b":1", 17, check);
    every_text(b":1.", 11, check);
    every_text(b":0f.%g", 6, check);
}

#[test]
fn the_reference_writes_a_million_addresses_alike() {
    let mut random = Random::new(202_603);
    let mut mapped = 0;
    for _ in 0..1_000_000 {
        let address = ipv6_address(&mut random);
        let (text, is_dotted) = standard_write(address);
        assert_eq!(write(address), text.as_bytes(), "{address:?}");
        assert_eq!(is_dotted, is_mapped(&address), "{address:?}");
        mapped += u32::from(is_dotted);
    }
    assert!(mapped > 1_000, "{mapped}");
}

/// Every pattern of zero groups.
#[test]
fn the_reference_writes_every_pattern_of_zeros_alike() {
    for pattern in 0..256_u16 {
        for group in [1, 0x10, 0x100, 0xFFFF_u16] {
            let byte = |place: usize| {
                if pattern >> (place / 2) & 1 == 1 {
                    group.to_be_bytes()[place % 2]
                } else {
                    0
                }
            };
            let address = std::array::from_fn(byte);
            assert_eq!(write(address), standard_write(address).0.as_bytes(), "{address:?}");
        }
    }
}

/// What the library reads of a file with a text in one of the places where an address stands: the address, or none where it is
/// refused for that line.
type Place = (&'static str, fn(&str) -> Option<[u8; 16]>);

const PLACES: [Place; 5] = [
    ("iwd's Address", |text| {
        let answer = iwd_record(&format!("[IPv6]\nAddress={text}\nGateway=::1\n"), 2);
        answer.map(|record| record.ipv6_address)
    }),
    ("iwd's Address with a length", |text| {
        let answer = iwd_record(&format!("[IPv6]\nGateway=::1\nAddress={text}/64\n"), 3);
        answer.map(|record| record.ipv6_address)
    }),
    ("iwd's Gateway", |text| {
        let answer = iwd_record(&format!("[IPv6]\nAddress=::1\nGateway={text}\n"), 3);
        answer.map(|record| record.ipv6_gateway)
    }),
    ("ConnMan's IPv6, address", |text| {
        service_record(&format!("{text}/64/::1")).map(|record| record.ipv6_address)
    }),
    ("ConnMan's IPv6, gateway", |text| {
        service_record(&format!("::1/64/{text}")).map(|record| record.ipv6_gateway)
    }),
];

fn iwd_record(file: &str, line: usize) -> Option<raw::Record> {
    accepted(Input::new(b"a.open", file.as_bytes(), false).iwd_record(), line)
}

fn service_record(value: &str) -> Option<raw::Record> {
    let file = format!("[service_a]\nType=wifi\nName=a\nIPv6={value}\n");
    accepted(Input::new(b"a.config", file.as_bytes(), false).service_record(1), 4)
}

/// The record, or none where the answer is 12 at the line.
fn accepted(answer: raw::RecordAnswer, line: usize) -> Option<raw::Record> {
    if answer.number == 0 {
        return Some(answer.record);
    }
    assert_eq!((answer.number, answer.line), (12, line));
    None
}

/// Whether a text can stand in a file as a part of a value: the lines and the values around it end elsewhere.
fn can_stand(text: &str) -> bool {
    let is_blank = |byte: &u8| matches!(byte, b' ' | b'\t');
    let bytes = text.as_bytes();
    !bytes.contains(&b'/') && !bytes.first().is_some_and(is_blank) && !bytes.last().is_some_and(is_blank)
}

#[test]
fn the_library_reads_texts_alike_in_every_setting() {
    let mut random = Random::new(32_026);
    let mut counts = [0; 2];
    for _ in 0..200_000 {
        let text = String::from_utf8(ipv6_text(&mut random)).expect("UTF-8");
        if can_stand(&text) {
            let expected = standard_read(text.as_bytes());
            counts[usize::from(expected.is_some())] += 1;
            for (place, of_library) in PLACES {
                assert_eq!(of_library(&text), expected, "{place}: {text}");
            }
        }
    }
    println!(
        "{} texts are refused and {} accepted, in {} places",
        counts[0],
        counts[1],
        PLACES.len()
    );
    assert!(counts.iter().all(|count| *count > 50_000), "{counts:?}");
}

#[test]
fn the_library_writes_addresses_alike() {
    let mut random = Random::new(32_026);
    let buffers = Buffers {
        name: NAME_MAX,
        file: FILE_MAX,
        dirt: 0,
    };
    for _ in 0..200_000 {
        let (address, gateway) = (ipv6_address(&mut random), ipv6_address(&mut random));
        let record = raw::Record {
            name_len: 1,
            name: std::array::from_fn(|place| if place == 0 { b'a' } else { 0 }),
            ipv6: raw::IPV6_STATIC,
            ipv6_address: address,
            ipv6_prefix_length: random.between(1, 128) as u8,
            has_ipv6_gateway: 1,
            ipv6_gateway: gateway,
            ..raw::Record::ZERO
        };
        let Answer::Written { written, file, .. } = write_iwd(&record, &buffers).answer else {
            panic!("a writer writes")
        };
        let (address, gateway) = (standard_write(address).0, standard_write(gateway).0);
        let expected = format!("[IPv6]\nAddress={address}/{}\nGateway={gateway}\n", record.ipv6_prefix_length);
        assert_eq!(written.number, 0, "{expected}");
        assert_eq!(String::from_utf8_lossy(&file[..written.file_len]), expected);
    }
}
