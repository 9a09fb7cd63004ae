//! The text of an address: RFC 4291 section 2.2 and RFC 5952, example by example.

use crate::bytes;
use judge::reference::ipv6_text::{read, write};

/// What the text of an address is written as; none where it is no text of one.
fn rewritten(text: &str) -> Option<String> {
    let address = read(text.as_bytes())?;
    let written = write(address);
    assert_eq!(read(&written), Some(address), "{text}");
    Some(String::from_utf8(written).expect("plain bytes"))
}

/// RFC 4291 section 2.2: the examples of its three forms, and the groups that they stand for.
#[test]
fn rfc_4291_forms() {
    let rows: [(&str, [u16; 8]); 15] = [
        (
            "ABCD:EF01:2345:6789:ABCD:EF01:2345:6789",
            [0xABCD, 0xEF01, 0x2345, 0x6789, 0xABCD, 0xEF01, 0x2345, 0x6789],
        ),
        ("2001:DB8:0:0:8:800:200C:417A", [0x2001, 0xDB8, 0, 0, 8, 0x800, 0x200C, 0x417A]),
        ("2001:DB8::8:800:200C:417A", [0x2001, 0xDB8, 0, 0, 8, 0x800, 0x200C, 0x417A]),
        ("FF01:0:0:0:0:0:0:101", [0xFF01, 0, 0, 0, 0, 0, 0, 0x101]),
        ("FF01::101", [0xFF01, 0, 0, 0, 0, 0, 0, 0x101]),
        ("0:0:0:0:0:0:0:1", [0, 0, 0, 0, 0, 0, 0, 1]),
        ("::1", [0, 0, 0, 0, 0, 0, 0, 1]),
        ("0:0:0:0:0:0:0:0", [0; 8]),
        ("::", [0; 8]),
        ("0:0:0:0:0:0:13.1.68.3", [0, 0, 0, 0, 0, 0, 0x0D01, 0x4403]),
        ("::13.1.68.3", [0, 0, 0, 0, 0, 0, 0x0D01, 0x4403]),
        ("0:0:0:0:0:FFFF:129.144.52.38", [0, 0, 0, 0, 0, 0xFFFF, 0x8190, 0x3426]),
        ("::FFFF:129.144.52.38", [0, 0, 0, 0, 0, 0xFFFF, 0x8190, 0x3426]),
        ("1::", [1, 0, 0, 0, 0, 0, 0, 0]),
        ("1:2:3:4:5:6:7::", [1, 2, 3, 4, 5, 6, 7, 0]),
    ];
    for (text, groups) in rows {
        assert_eq!(read(text.as_bytes()), Some(bytes(groups)), "{text}");
        assert_eq!(read(text.to_lowercase().as_bytes()), Some(bytes(groups)), "{text} in lower case");
    }
}

/// RFC 5952 sections 1 and 2: the texts of one address that differ, and the one in which it is written.
#[test]
fn rfc_5952_flexibility() {
    let rows: [(&str, &[&str]); 6] = [
        (
            "2001:db8::1:0:0:1",
            &[
                "2001:db8:0:0:1:0:0:1",
                "2001:0db8:0:0:1:0:0:1",
                "2001:db8::1:0:0:1",
                "2001:db8::0:1:0:0:1",
                "2001:0db8::1:0:0:1",
                "2001:db8:0:0:1::1",
                "2001:db8:0000:0:1::1",
                "2001:DB8:0:0:1::1",
            ],
        ),
        (
            "2001:db8:aaaa:bbbb:cccc:dddd:eeee:1",
            &[
                "2001:db8:aaaa:bbbb:cccc:dddd:eeee:0001",
                "2001:db8:aaaa:bbbb:cccc:dddd:eeee:001",
                "2001:db8:aaaa:bbbb:cccc:dddd:eeee:01",
                "2001:db8:aaaa:bbbb:cccc:dddd:eeee:1",
            ],
        ),
        (
            "2001:db8:aaaa:bbbb:cccc:dddd:0:1",
            &["2001:db8:aaaa:bbbb:cccc:dddd::1", "2001:db8:aaaa:bbbb:cccc:dddd:0:1"],
        ),
        (
            "2001:db8::1",
            &["2001:db8:0:0:0::1", "2001:db8:0:0::1", "2001:db8:0::1", "2001:db8::1"],
        ),
        ("2001:db8::aaaa:0:0:1", &["2001:db8::aaaa:0:0:1", "2001:db8:0:0:aaaa::1"]),
        (
            "2001:db8:aaaa:bbbb:cccc:dddd:eeee:aaaa",
            &[
                "2001:db8:aaaa:bbbb:cccc:dddd:eeee:aaaa",
                "2001:db8:aaaa:bbbb:cccc:dddd:eeee:AAAA",
                "2001:db8:aaaa:bbbb:cccc:dddd:eeee:AaAa",
            ],
        ),
    ];
    for (written, texts) in rows {
        for text in texts {
            assert_eq!(rewritten(text).as_deref(), Some(written), "{text}");
        }
    }
}

/// RFC 5952 section 4, rule by rule, and section 5 with the house's rule: a dotted tail is read and never written.
#[test]
fn rfc_5952_recommendation() {
    let rows = [
        ("4.1", "2001:0db8::0001", "2001:db8::1"),
        ("4.1", "1:0000:2:3:4:5:6:7", "1:0:2:3:4:5:6:7"),
        ("4.2.1", "2001:db8:0:0:0:0:2:1", "2001:db8::2:1"),
        ("4.2.1", "2001:db8::0:1", "2001:db8::1"),
        ("4.2.2", "2001:db8:0:1:1:1:1:1", "2001:db8:0:1:1:1:1:1"),
        ("4.2.2", "2001:db8::1:1:1:1:1", "2001:db8:0:1:1:1:1:1"),
        ("4.2.3", "2001:0:0:1:0:0:0:1", "2001:0:0:1::1"),
        ("4.2.3", "2001:db8:0:0:1:0:0:1", "2001:db8::1:0:0:1"),
        ("4.3", "2001:DB8::ABCD:EF", "2001:db8::abcd:ef"),
        ("5", "::ffff:192.0.2.1", "::ffff:c000:201"),
        ("5", "0:0:0:0:0:ffff:192.0.2.1", "::ffff:c000:201"),
        ("5", "::192.0.2.1", "::c000:201"),
        ("5", "64:ff9b::192.0.2.33", "64:ff9b::c000:221"),
        ("5", "fe80::5efe:192.0.2.1", "fe80::5efe:c000:201"),
    ];
    for (section, text, written) in rows {
        assert_eq!(rewritten(text).as_deref(), Some(written), "section {section}: {text}");
    }
}

/// RFC 5952 section 6: none of the texts with a port is that of an address, but for the one that is also that of another address.
#[test]
fn rfc_5952_ports() {
    let rows = [
        ("[2001:db8::1]:80", None),
        ("2001:db8::1:80", Some("2001:db8::1:80")),
        ("2001:db8::1.80", None),
        ("2001:db8::1 port 80", None),
        ("2001:db8::1p80", None),
        ("2001:db8::1#80", None),
    ];
    for (text, written) in rows {
        assert_eq!(rewritten(text).as_deref(), written, "{text}");
    }
}

/// Where the runs of zeros are: at the ends, equal, of one group, of all.
#[test]
fn runs_of_zeros() {
    let rows = [
        ("0:0:0:0:0:0:0:0", "::"),
        ("0:0:0:0:0:0:0:1", "::1"),
        ("1:0:0:0:0:0:0:0", "1::"),
        ("1:0:0:0:0:0:0:1", "1::1"),
        ("0:0:0:1:1:0:0:0", "::1:1:0:0:0"),
        ("0:0:1:1:1:0:0:0", "0:0:1:1:1::"),
        ("0:0:0:1:1:1:0:0", "::1:1:1:0:0"),
        ("0:0:1:0:0:1:0:0", "::1:0:0:1:0:0"),
        ("1:0:0:1:0:0:1:1", "1::1:0:0:1:1"),
        ("0:1:0:1:0:1:0:1", "0:1:0:1:0:1:0:1"),
        ("1:0:1:0:1:0:1:0", "1:0:1:0:1:0:1:0"),
        ("0:1:1:1:1:1:1:1", "0:1:1:1:1:1:1:1"),
        ("1:1:1:1:1:1:1:0", "1:1:1:1:1:1:1:0"),
        ("0:0:1:1:1:1:1:1", "::1:1:1:1:1:1"),
        ("1:1:1:1:1:1:0:0", "1:1:1:1:1:1::"),
        ("0:1:0:0:1:0:0:0", "0:1:0:0:1::"),
        ("::1:1:1:1:1:1:1", "0:1:1:1:1:1:1:1"),
        ("1:1:1:1:1:1:1::", "1:1:1:1:1:1:1:0"),
        ("0:0:0:0::1", "::1"),
    ];
    for (text, written) in rows {
        assert_eq!(rewritten(text).as_deref(), Some(written), "{text}");
    }
}
