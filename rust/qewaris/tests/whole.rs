//! The crate as its users see it: document 01's worked move as request 2026-02 has it, request 2026-03's addresses, refusals, and that
//! no secret is shown.

use qewaris::*;
use std::net::Ipv6Addr;

const SHOP: &[u8] = b"[service_till]\nType = wifi\nName = Desk 4\nPassphrase = low\\tide 88\nIPv4 = 10.20.0.14/24/10.20.0.1\n\
Nameservers = 10.20.0.2,10.20.0.3\nHidden = true\nIPv6 = off\n";

const DESK: &[u8] = b"[Settings]\nHidden=true\n[Security]\nPassphrase=low\tide 88\n[IPv4]\nAddress=10.20.0.14\nNetmask=255.255.255.0\n\
Gateway=10.20.0.1\nDNS=10.20.0.2 10.20.0.3\n[IPv6]\nEnabled=false\n";

#[test]
fn the_worked_file_moves_as_it_is_printed() {
    assert_eq!(check_connman(b"shop.config", SHOP), Ok(Counts { settings: 7, services: 1 }));
    let moved = move_service(b"shop.config", SHOP, 1).unwrap();
    assert_eq!(moved.name, b"Desk 4.psk");
    assert_eq!(moved.file, DESK);
    assert_eq!(DESK.len(), 167);
    let record = service_record(b"shop.config", SHOP, 1).unwrap();
    assert_eq!(record.credential, Credential::Passphrase(b"low\tide 88".to_vec()));
    assert_eq!(iwd_record(&moved.name, &moved.file), Ok(record));
}

#[test]
fn settings_of_both_kinds_are_typed() {
    let service = service_settings(b"shop.config", SHOP, 1).unwrap();
    assert_eq!(service.network.service_type, Some(ServiceType::Wifi));
    assert_eq!((service.network.name_line, service.network.passphrase_line), (Some(3), Some(4)));
    let Some(Ipv4::Static(fixed)) = service.addresses.ipv4 else {
        panic!("the address is fixed")
    };
    assert_eq!((fixed.prefix_length, fixed.gateway), (24, Some([10, 20, 0, 1].into())));
    assert_eq!(service.addresses.ipv6, Some(Ipv6::Off));

    let iwd = iwd_settings(b"Desk 4.psk", DESK).unwrap();
    assert_eq!(iwd.general.hidden, Some(true));
    assert_eq!(iwd.ipv4.netmask_length, Some(24));
    assert_eq!(
        (iwd.ipv6.enabled, iwd.ipv6.address, iwd.ipv6.prefix_length),
        (Some(false), None, None)
    );
}

/// A service with an IPv6 address and a gateway, what it becomes, and its address.
const SIX: &[u8] = b"[service_six]\nType = wifi\nName = six\nIPv6 = 2001:DB8:0:0:0::14/64/2001:db8::192.0.2.1\n";
const SIX_OPEN: &[u8] = b"[IPv6]\nAddress=2001:db8::14/64\nGateway=2001:db8::c000:201\n";
const SIX_ADDRESS: StaticIpv6 = StaticIpv6 {
    address: Ipv6Addr::new(0x2001, 0xdb8, 0, 0, 0, 0, 0, 0x14),
    prefix_length: 64,
    gateway: Some(Ipv6Addr::new(0x2001, 0xdb8, 0, 0, 0, 0, 0xc000, 0x201)),
};

#[test]
fn an_ipv6_address_is_read_moved_and_read_back() {
    let record = JoinRecord {
        ipv6: Ipv6::Static(SIX_ADDRESS),
        ..JoinRecord::open(b"six")
    };
    let service = service_settings(b"six.config", SIX, 1).unwrap();
    assert_eq!(service.addresses.ipv6, Some(record.ipv6));
    assert_eq!(service_record(b"six.config", SIX, 1).as_ref(), Ok(&record));
    let moved = move_service(b"six.config", SIX, 1).unwrap();
    assert_eq!((&moved.name[..], &moved.file[..]), (&b"six.open"[..], SIX_OPEN));
    assert_eq!(write_iwd(&record), Ok(moved));
    assert_eq!(iwd_record(b"six.open", SIX_OPEN), Ok(record));
    let found = iwd_settings(b"six.open", SIX_OPEN).unwrap().ipv6;
    let expected = IwdIpv6 {
        enabled: None,
        address: Some(SIX_ADDRESS.address),
        prefix_length: Some(64),
        gateway: SIX_ADDRESS.gateway,
    };
    assert_eq!(found, expected);
}

#[test]
fn an_ipv6_address_without_a_length_has_128_in_iwd() {
    let file = b"[IPv6]\nEnabled=true\nAddress=::1\nGateway=::\n";
    let found = iwd_settings(b"six.open", file).unwrap().ipv6;
    assert_eq!(
        (found.enabled, found.prefix_length, found.gateway),
        (Some(true), Some(128), Some(Ipv6Addr::UNSPECIFIED))
    );
    let Ipv6::Static(fixed) = iwd_record(b"six.open", file).unwrap().ipv6 else {
        panic!("the address is fixed")
    };
    assert_eq!((fixed.address, fixed.prefix_length), (Ipv6Addr::LOCALHOST, 128));
    let service = b"[service_six]\nType = wifi\nName = six\nIPv6 = ::1\n";
    assert_eq!(
        check_connman(b"six.config", service).unwrap_err().to_string(),
        "line 4: the value is not of its key's kind [12]"
    );
}

#[test]
fn an_ipv6_address_without_a_gateway_has_no_place_in_iwd() {
    let file = b"[service_six]\nType = wifi\nIPv6 = ::2/127\nName = six\nIPv4 = off\n";
    let record = service_record(b"six.config", file, 1).unwrap();
    let refused = [write_iwd(&record).unwrap_err(), move_service(b"six.config", file, 1).unwrap_err()];
    assert_eq!(
        refused.map(|refusal| (refusal.number(), refusal.line())),
        [(16, None), (16, Some(3))]
    );
}

#[test]
fn entries_and_strings_are_parts_of_the_file() {
    let file = b"[global]\nName = a\n[service_a]\nType = wifi\nName = b\nTimeservers = one,two\n";
    let service = service_settings(b"a.config", file, 1).unwrap();
    let entries: Vec<&[u8]> = service.addresses.timeservers.iter().map(|place| &file[place.clone()]).collect();
    assert_eq!(entries, [b"one", b"two"]);
    assert_eq!(global_name(b"a.config", file).unwrap().unwrap().bytes, b"a");
    assert_eq!(service_name(b"a.config", file, 1).unwrap().unwrap().bytes, b"b");
    assert_eq!(service_domain(b"a.config", file, 1), Ok(None));
    assert_eq!(service_name(b"a.config", file, 2).unwrap_err().reason(), Reason::NoService);
}

/// An open network whose IPv6 address has this length.
fn with_length(prefix_length: u8) -> JoinRecord {
    JoinRecord {
        ipv6: Ipv6::Static(StaticIpv6 {
            prefix_length,
            ..SIX_ADDRESS
        }),
        ..JoinRecord::open(b"a")
    }
}

#[test]
fn a_record_that_does_not_fit_is_malformed() {
    for record in [
        JoinRecord::open(&[b'a'; 33]),
        JoinRecord::open(b""),
        JoinRecord {
            credential: Credential::Passphrase(vec![b'a'; 64]),
            ..JoinRecord::open(b"a")
        },
        JoinRecord {
            domain: vec![b'a'; 254],
            ..JoinRecord::open(b"a")
        },
        JoinRecord {
            name_servers: vec![[0, 0, 0, 0].into(); 5],
            ..JoinRecord::open(b"a")
        },
        with_length(0),
        with_length(129),
    ] {
        assert_eq!(write_iwd(&record).unwrap_err().number(), 19);
    }
}

#[test]
fn a_short_buffer_is_refused_and_left_as_it_was() {
    let (mut name, mut file) = ([7; NAME_MAX], [7; DESK.len() - 1]);
    assert_eq!(
        move_service_into(b"shop.config", SHOP, 1, &mut name, &mut file)
            .unwrap_err()
            .reason(),
        Reason::ShortBuffer
    );
    assert_eq!((name, file), ([7; NAME_MAX], [7; DESK.len() - 1]));
}

#[test]
fn no_secret_is_shown() {
    let key = [0x5a; 32];
    let psk = [b"[Security]\nPreSharedKey=".to_vec(), b"5a".repeat(32)].concat();
    let shown = [
        format!("{:?}", service_record(b"shop.config", SHOP, 1)),
        format!("{:?}", move_service(b"shop.config", SHOP, 1)),
        format!("{:?}", service_passphrase(b"shop.config", SHOP, 1)),
        format!("{:?}", iwd_settings(b"a.psk", &psk)),
        format!("{:?}", iwd_record(b"a.psk", &psk)),
    ];
    assert_eq!(iwd_record(b"a.psk", &psk).unwrap().credential, Credential::Key(key));
    for text in shown {
        assert!(text.contains("not shown"), "{text}");
        assert!(
            !text.contains("tide") && !text.contains("90, 90") && !text.contains("5a5a"),
            "{text}"
        );
    }
    let longer = String::from_utf8_lossy(SHOP).replace("tide 88", "tide 88 and 89");
    for file in [SHOP, longer.as_bytes()] {
        let passphrase = service_passphrase(b"shop.config", file, 1);
        assert_eq!(
            format!("{:?}", (service_record(b"shop.config", file, 1).unwrap().credential, passphrase)),
            "(Passphrase(<not shown>), Ok(Some(Text { line: 4, start: 54, bytes: <not shown> })))",
            "nor is its length"
        );
    }
}
