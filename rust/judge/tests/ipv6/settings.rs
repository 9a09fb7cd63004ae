//! The three settings that have addresses: which values they take, and the rules over iwd's groups.

use crate::{bytes, fixed};
use judge::reference::ipv6_text::read;
use judge::reference::{connman, iwd, Ipv6, Refusal};

/// What is no text of an address.
const BAD_TEXTS: [&str; 58] = [
    "",
    ":",
    ":::",
    "::::",
    "1",
    "1:",
    ":1",
    "1:2:3:4:5:6:7",
    "1:2:3:4:5:6:7:8:9",
    "1:2:3:4:5:6:7:",
    ":1:2:3:4:5:6:7",
    ":1:2:3:4:5:6:7:8",
    "1:2:3:4:5:6:7:8:",
    "::1:",
    ":1::",
    "1:::2",
    ":::1",
    "1:::",
    "1::2::3",
    "::1::",
    "1:2:3:4::5:6:7:8",
    "::1:2:3:4:5:6:7:8",
    "1:2:3:4:5:6:7:8::",
    "1::2:3:4:5:6:7:8",
    "1:2:3:4:5:6:7::8",
    "::12345",
    "::00001",
    "12345::",
    "::g",
    "::-1",
    "::+1",
    "::1 ",
    "2001:db8::1%eth0",
    "fe80::1%1",
    "fe80::1%",
    "[::1]",
    "[::1",
    "::1]",
    "1.2.3.4",
    "::1.2.3",
    "::1.2.3.4.5",
    "::1.2.3.",
    "::.1.2.3",
    "::1..2.3",
    "::1.2.3.256",
    "::01.2.3.4",
    "::1.2.3.00",
    "::1.2.3.a",
    "::f.2.3.4",
    "::1.2.3.4:5",
    "1.2.3.4::",
    "1:2:3:4:5:1.2.3.4",
    "1:2:3:4:5:6:7:1.2.3.4",
    "1:2:3:4:5:6::1.2.3.4",
    "::1:2:3:4:5:6:1.2.3.4",
    "::1.2.3.4::",
    "0x1::",
    "\u{ff11}::",
];

/// What is, and the groups that it stands for.
const GOOD_TEXTS: [(&str, [u16; 8]); 14] = [
    ("::", [0; 8]),
    ("::1", [0, 0, 0, 0, 0, 0, 0, 1]),
    ("1::", [1, 0, 0, 0, 0, 0, 0, 0]),
    ("1:2:3:4:5:6:7:8", [1, 2, 3, 4, 5, 6, 7, 8]),
    ("::2:3:4:5:6:7:8", [0, 2, 3, 4, 5, 6, 7, 8]),
    ("1:2:3:4::6:7:8", [1, 2, 3, 4, 0, 6, 7, 8]),
    ("1:2:3:4:5:6:7::", [1, 2, 3, 4, 5, 6, 7, 0]),
    ("0001:0002::0", [1, 2, 0, 0, 0, 0, 0, 0]),
    ("aBcD::Ef", [0xABCD, 0, 0, 0, 0, 0, 0, 0xEF]),
    ("1:2:3:4:5:6:7.8.9.10", [1, 2, 3, 4, 5, 6, 0x0708, 0x090A]),
    ("1::3:4:5:6:7.8.9.10", [1, 0, 3, 4, 5, 6, 0x0708, 0x090A]),
    ("1:2:3:4:5::7.8.9.10", [1, 2, 3, 4, 5, 0, 0x0708, 0x090A]),
    ("::255.255.255.255", [0, 0, 0, 0, 0, 0, 0xFFFF, 0xFFFF]),
    ("::0.0.0.0", [0; 8]),
];

/// The address and the length of an iwd file whose group IPv6 has this Address, or the refusal's number.
fn iwd_address(value: &str) -> Result<([u8; 16], u8), u8> {
    let file = format!("[IPv6]\nGateway=::1\nAddress={value}\n");
    match iwd::read(b"Desk.open", file.as_bytes()) {
        Ok(file) => Ok(file.settings.ipv6_address.expect("an address")),
        Err(refusal) => Err(refused(refusal, 3)),
    }
}

/// The gateway of an iwd file whose group IPv6 has this one.
fn iwd_gateway(value: &str) -> Result<[u8; 16], u8> {
    let file = format!("[IPv6]\nGateway={value}\nAddress=::1\n");
    match iwd::read(b"Desk.open", file.as_bytes()) {
        Ok(file) => Ok(file.settings.ipv6_gateway.expect("a gateway")),
        Err(refusal) => Err(refused(refusal, 2)),
    }
}

/// The IPv6 of a ConnMan service.
fn connman_ipv6(value: &str) -> Result<Ipv6, u8> {
    let file = format!("[service_a]\nType=wifi\nName=a\nIPv6={value}\n");
    match connman::read(b"shop.config", file.as_bytes()) {
        Ok(file) => Ok(file.services[0].settings.ipv6.expect("an IPv6")),
        Err(refusal) => Err(refused(refusal, 4)),
    }
}

fn refused(refusal: Refusal, line: usize) -> u8 {
    assert_eq!(refusal.line, line);
    refusal.number()
}

/// RFC 4291 section 2.3: a prefix is an address, `/` and a length, and what is no text of an address is none of a prefix either.
#[test]
fn rfc_4291_prefixes() {
    let front = bytes([0x2001, 0xDB8, 0, 0xCD30, 0, 0, 0, 0]);
    let rows = [
        ("2001:0DB8:0000:CD30:0000:0000:0000:0000/60", Ok((front, 60))),
        ("2001:0DB8::CD30:0:0:0:0/60", Ok((front, 60))),
        ("2001:0DB8:0:CD30::/60", Ok((front, 60))),
        (
            "2001:0DB8:0:CD30:123:4567:89AB:CDEF/60",
            Ok((bytes([0x2001, 0xDB8, 0, 0xCD30, 0x123, 0x4567, 0x89AB, 0xCDEF]), 60)),
        ),
        ("2001:0DB8:0:CD3/60", Err(12)),
        ("2001:0DB8::CD30/60", Ok((bytes([0x2001, 0xDB8, 0, 0, 0, 0, 0, 0xCD30]), 60))),
        ("2001:0DB8::CD3/60", Ok((bytes([0x2001, 0xDB8, 0, 0, 0, 0, 0, 0xCD3]), 60))),
    ];
    for (value, expected) in rows {
        assert_eq!(iwd_address(value), expected, "{value}");
    }
}

/// "Bad text 12", in each place of each setting.
#[test]
fn texts_in_every_place() {
    let one = bytes([0, 0, 0, 0, 0, 0, 0, 1]);
    for (text, groups) in GOOD_TEXTS {
        let address = bytes(groups);
        assert_eq!(iwd_address(text), Ok((address, 128)), "{text}");
        assert_eq!(iwd_address(&format!("{text}/64")), Ok((address, 64)), "{text}");
        assert_eq!(iwd_gateway(text), Ok(address), "{text}");
        assert_eq!(connman_ipv6(&format!("{text}/64")), Ok(fixed(address, 64, None)), "{text}");
        assert_eq!(connman_ipv6(&format!("{text}/64/::1")), Ok(fixed(address, 64, Some(one))), "{text}");
        assert_eq!(connman_ipv6(&format!("::1/64/{text}")), Ok(fixed(one, 64, Some(address))), "{text}");
    }
    for text in BAD_TEXTS {
        assert_eq!(read(text.as_bytes()), None, "{text}");
        assert_eq!(iwd_address(text), Err(12), "{text}");
        assert_eq!(iwd_address(&format!("{text}/64")), Err(12), "{text}");
        assert_eq!(iwd_gateway(text), Err(12), "{text}");
        assert_eq!(connman_ipv6(&format!("{text}/64")), Err(12), "{text}");
        assert_eq!(connman_ipv6(&format!("{text}/64/::1")), Err(12), "{text}");
        if !text.ends_with(' ') {
            assert_eq!(connman_ipv6(&format!("::1/64/{text}")), Err(12), "{text}");
        }
    }
}

/// "Lengths run from 1 to 128 without leading zero", and only iwd may leave one off.
#[test]
fn lengths() {
    let one = bytes([0, 0, 0, 0, 0, 0, 0, 1]);
    for length in 1..=128 {
        assert_eq!(iwd_address(&format!("::1/{length}")), Ok((one, length)));
        assert_eq!(connman_ipv6(&format!("::1/{length}")), Ok(fixed(one, length, None)));
        assert_eq!(connman_ipv6(&format!("::1/{length}/::1")), Ok(fixed(one, length, Some(one))));
    }
    let bad = [
        "0",
        "129",
        "130",
        "199",
        "200",
        "255",
        "256",
        "257",
        "384",
        "999",
        "1000",
        "1280",
        "01",
        "064",
        "0128",
        "00",
        "+1",
        "-1",
        "",
        " 64",
        "6 4",
        "64.",
        "0x40",
        "ff",
        "::",
        "1e1",
        "18446744073709551617",
    ];
    for length in bad {
        assert_eq!(iwd_address(&format!("::1/{length}")), Err(12), "{length}");
        assert_eq!(connman_ipv6(&format!("::1/{length}")), Err(12), "{length}");
        assert_eq!(connman_ipv6(&format!("::1/{length}/::1")), Err(12), "{length}");
    }
    assert_eq!(iwd_address("::1"), Ok((one, 128)));
}

/// No length behind a gateway, no gateway behind iwd's Address, no part missing, and no words but ConnMan's two.
#[test]
fn other_shapes() {
    for value in [
        "::1",
        "::1/::1",
        "::1/64/",
        "::1/64/::1/64",
        "::1/64/::1/",
        "/64",
        "/64/::1",
        "/",
        "//",
        "::1/",
        "::1//::1",
    ] {
        assert_eq!(connman_ipv6(value), Err(12), "{value}");
    }
    for value in [
        "",
        "Off",
        "AUTO",
        "dhcp",
        "off/64",
        "auto/64",
        "off ::1",
        "1.2.3.4/24",
        "1.2.3.4/24/1.2.3.1",
    ] {
        assert_eq!(connman_ipv6(value), Err(12), "{value}");
    }
    for value in ["::1/64/::1", "::1/64/64", "::1/::1", "::1/", "/64", "off", "auto", "1.2.3.4"] {
        assert_eq!(iwd_address(value), Err(12), "{value}");
    }
    for value in ["::1/64", "::1/128", "::1/", "auto", "1.2.3.4", "::1,::2", "::1 ::2"] {
        assert_eq!(iwd_gateway(value), Err(12), "{value}");
    }
    assert_eq!((connman_ipv6("off"), connman_ipv6("auto")), (Ok(Ipv6::Off), Ok(Ipv6::Auto)));
    assert_eq!(
        connman_ipv6("::1/64 \t"),
        connman_ipv6("::1/64"),
        "ConnMan's trailing whitespace is dropped"
    );
    assert_eq!((iwd_address("::1/64 "), iwd_gateway("::1\t")), (Err(12), Err(12)), "iwd's is kept");
    assert_eq!(
        (iwd_address("::1\r"), iwd_gateway("::\0")),
        (Err(11), Err(11)),
        "broken text comes first"
    );
}

fn read_iwd(name: &str, file: &str) -> (u8, usize) {
    let read = iwd::read(name.as_bytes(), file.as_bytes());
    read.err().map_or((0, 0), |refusal| (refusal.number(), refusal.line))
}

/// "iwd Gateway without Address or the reverse 14; iwd Enabled false beside Address 15", 14 before 15, each group by itself.
#[test]
fn rules_over_iwd_groups() {
    let rows = [
        ("[IPv6]\nAddress=::1\n", 14),
        ("[IPv6]\nGateway=::1\n", 14),
        ("[IPv6]\nAddress=::1\nGateway=::2\n", 0),
        ("[IPv6]\nGateway=::2\nAddress=::1/64\n", 0),
        ("[IPv6]\nEnabled=true\nAddress=::1\nGateway=::2\n", 0),
        ("[IPv6]\nAddress=::1\nGateway=::2\nEnabled=1\n", 0),
        ("[IPv6]\nEnabled=false\nAddress=::1\nGateway=::2\n", 15),
        ("[IPv6]\nAddress=::1\nGateway=::2\nEnabled=0\n", 15),
        ("[IPv6]\nEnabled=false\nAddress=::1\n", 14),
        ("[IPv6]\nEnabled=false\nGateway=::1\n", 14),
        ("[IPv6]\nEnabled=false\n", 0),
        ("[IPv4]\nAddress=1.2.3.4\nGateway=1.2.3.1\n[IPv6]\nGateway=::1\n", 14),
        ("[IPv4]\nAddress=1.2.3.4\nGateway=1.2.3.1\n[IPv6]\nAddress=::1\n", 14),
        ("[IPv6]\nAddress=::1\nGateway=::2\n[IPv4]\nGateway=1.2.3.1\n", 14),
        ("[IPv6]\nAddress=::1\nGateway=::2\n[IPv4]\nAddress=1.2.3.4\n", 14),
        ("[IPv6]\nAddress=::1\nGateway=::2\n[IPv4]\nAddress=1.2.3.4\nGateway=1.2.3.1\n", 0),
        ("[Security]\nPassphrase=12345678\n[IPv6]\nAddress=::1\n", 14),
        ("[Security]\nPassphrase=12345678\n[IPv6]\nAddress=::1\nGateway=::2\n", 15),
    ];
    for (file, number) in rows {
        assert_eq!(read_iwd("Desk.open", file), (number, 0), "{file}");
    }
    let psk = "[IPv6]\nEnabled=false\nAddress=::1\nGateway=::2\n";
    assert_eq!(read_iwd("Desk.psk", psk), (14, 0), "the key that is missing comes before 15");
}

/// The keys stand in their groups: an IPv4 address in the group IPv6 is 12, and the reverse; each key once in each group.
#[test]
fn keys_of_the_groups() {
    let rows = [
        ("[IPv6]\nAddress=1.2.3.4\n", (12, 2)),
        ("[IPv6]\nGateway=1.2.3.4\n", (12, 2)),
        ("[IPv4]\nAddress=::1\n", (12, 2)),
        ("[IPv4]\nGateway=::1\n", (12, 2)),
        ("[IPv6]\nNetmask=255.0.0.0\n", (9, 2)),
        ("[IPv6]\nDNS=::1\n", (9, 2)),
        ("[IPv6]\naddress=::1\n", (9, 2)),
        ("[IPv4]\nEnabled=true\n", (9, 2)),
        ("[IPv6]\nAddress=::1\nGateway=::2\nAddress=::1\n", (10, 4)),
        ("[IPv6]\nAddress=::1\nGateway=::2\nGateway=g\n", (10, 4)),
    ];
    for (file, expected) in rows {
        assert_eq!(read_iwd("Desk.open", file), expected, "{file}");
    }
}
