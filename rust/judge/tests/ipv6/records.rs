//! Join records with a static IPv6, what is written of them, and services that are moved.

use crate::{bytes, fixed, record, ADDRESS, GATEWAY};
use judge::reference::writer::{write, ENOUGH};
use judge::reference::{connman, iwd, moving, Ipv4, Ipv6, Record};

fn iwd_record(file: &str) -> Ipv6 {
    iwd::read(b"Desk.open", file.as_bytes()).expect("accepted").record().ipv6
}

/// "The join record gains the static case."
#[test]
fn records() {
    let rows = [
        ("", Ipv6::Auto),
        ("[IPv6]\n", Ipv6::Auto),
        ("[IPv6]\nEnabled=true\n", Ipv6::Auto),
        ("[IPv6]\nEnabled=false\n", Ipv6::Off),
        (
            "[IPv6]\nAddress=2001:db8::14\nGateway=fe80::1\n",
            fixed(ADDRESS, 128, Some(GATEWAY)),
        ),
        (
            "[IPv6]\nAddress=2001:db8::14/64\nGateway=fe80::1\n",
            fixed(ADDRESS, 64, Some(GATEWAY)),
        ),
        (
            "[IPv6]\nEnabled=true\nAddress=2001:DB8::14/1\nGateway=FE80::1\n",
            fixed(ADDRESS, 1, Some(GATEWAY)),
        ),
    ];
    for (file, expected) in rows {
        assert_eq!(iwd_record(file), expected, "{file}");
    }
    let rows = [
        ("", Ipv6::Auto),
        ("IPv6=auto\n", Ipv6::Auto),
        ("IPv6=off\n", Ipv6::Off),
        ("IPv6=2001:db8::14/64\n", fixed(ADDRESS, 64, None)),
        ("IPv6=2001:db8::14/64/fe80::1\n", fixed(ADDRESS, 64, Some(GATEWAY))),
    ];
    for (line, expected) in rows {
        let file = format!("[service_a]\nType=wifi\nName=a\n{line}");
        let read = connman::read(b"shop.config", file.as_bytes()).expect("accepted");
        assert_eq!(read.services[0].record().expect("a record").ipv6, expected, "{line}");
    }
}

fn written(record: &Record) -> Result<String, u8> {
    let written = write(Some(record), ENOUGH).map_err(|refusal| refusal.number())?;
    Ok(String::from_utf8(written.file).expect("plain bytes"))
}

const IPV4: Ipv4 = Ipv4::Static {
    address: [1, 2, 3, 4],
    prefix_length: 8,
    gateway: Some([1, 2, 3, 1]),
};

const IPV4_ALONE: Ipv4 = Ipv4::Static {
    address: [1, 2, 3, 4],
    prefix_length: 8,
    gateway: None,
};

/// "iwd's Address is written always with its length, then Gateway"; "static without gateway 16, .. in the writer".
#[test]
fn written_files() {
    let ipv4 = "[IPv4]\nAddress=1.2.3.4\nNetmask=255.0.0.0\nGateway=1.2.3.1\n";
    let both = format!("{ipv4}[IPv6]\nAddress=2001:db8::14/64\nGateway=fe80::1\n");
    let mapped = bytes([0, 0, 0, 0, 0, 0xFFFF, 0x0102, 0x0304]);
    let rows = [
        (record(Ipv4::Auto, Ipv6::Auto), Ok("")),
        (record(Ipv4::Auto, Ipv6::Off), Ok("[IPv6]\nEnabled=false\n")),
        (
            record(Ipv4::Auto, fixed(ADDRESS, 128, Some(GATEWAY))),
            Ok("[IPv6]\nAddress=2001:db8::14/128\nGateway=fe80::1\n"),
        ),
        (
            record(Ipv4::Auto, fixed([0; 16], 1, Some([0; 16]))),
            Ok("[IPv6]\nAddress=::/1\nGateway=::\n"),
        ),
        (
            record(Ipv4::Auto, fixed(mapped, 96, Some(mapped))),
            Ok("[IPv6]\nAddress=::ffff:102:304/96\nGateway=::ffff:102:304\n"),
        ),
        (record(IPV4, fixed(ADDRESS, 64, Some(GATEWAY))), Ok(&both)),
        (record(IPV4, fixed(ADDRESS, 64, None)), Err(16)),
        (record(IPV4_ALONE, fixed(ADDRESS, 64, Some(GATEWAY))), Err(16)),
        (record(IPV4_ALONE, fixed(ADDRESS, 64, None)), Err(16)),
        (record(Ipv4::Off, fixed(ADDRESS, 64, None)), Err(16)),
        (record(IPV4, fixed(ADDRESS, 0, Some(GATEWAY))), Err(19)),
        (record(IPV4, fixed(ADDRESS, 129, Some(GATEWAY))), Err(19)),
        (record(IPV4, fixed(ADDRESS, 0, None)), Err(19)),
        (record(Ipv4::Off, fixed(ADDRESS, 255, None)), Err(19)),
    ];
    for (record, expected) in rows {
        let file = written(&record);
        assert_eq!(file.as_deref().map_err(|number| *number), expected, "{record:?}");
        if let Ok(file) = file {
            assert_eq!(iwd::read(b"a.open", file.as_bytes()).expect("accepted").record(), record);
        }
    }
}

/// "Static without gateway 16, .. in a move", at "the earliest such line of the service".
#[test]
fn moves() {
    let rows = [
        ("Type=wifi\nName=a\nIPv6=2001:db8::14/64/fe80::1", (0, 0)),
        ("Type=wifi\nName=a\nIPv6=off", (0, 0)),
        ("Type=wifi\nName=a\nIPv6=auto", (0, 0)),
        ("Type=wifi\nName=a\nIPv6=2001:db8::14/64", (16, 4)),
        ("IPv6=2001:db8::14/64\nType=wifi\nName=a", (16, 2)),
        ("Type=wifi\nIPv6=2001:db8::14/64\nName=a\nIPv4=off", (16, 3)),
        ("Type=wifi\nIPv4=1.2.3.4/8\nName=a\nIPv6=2001:db8::14/64", (16, 3)),
        ("Type=wifi\nName=a\nMAC=00:11:22:33:44:55\nIPv6=::1/128", (16, 4)),
        ("Type=wifi\nName=a\nIPv6=::1/128\nMAC=00:11:22:33:44:55", (16, 4)),
        ("Type=wifi\nName=a\nIPv6=::1/128/::2\nIPv6.Privacy=enabled", (16, 5)),
        ("IPv6=::1/128\nType=ethernet", (16, 2)),
        ("Type=ethernet\nIPv6=::1/128", (16, 2)),
    ];
    for (service, expected) in rows {
        let file = format!("[service_a]\n{service}\n");
        let moved = moving::move_service(&connman::read(b"shop.config", file.as_bytes()), 1, ENOUGH);
        let answer = moved.as_ref().err().map_or((0, 0), |refusal| (refusal.number(), refusal.line));
        assert_eq!(answer, expected, "{service}");
    }
    let file = b"[service_a]\nType=wifi\nName=a\nIPv6=2001:0DB8:0:0::0014/64/FE80:0:0:0:0:0:0.0.0.1\n";
    let moved = moving::move_service(&connman::read(b"shop.config", file), 1, ENOUGH).expect("moved");
    assert_eq!(moved.file, b"[IPv6]\nAddress=2001:db8::14/64\nGateway=fe80::1\n");
}
