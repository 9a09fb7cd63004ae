//! IPv6 in the structs of the C boundary: its places, and what makes a record malformed.

use crate::{fixed, record, ADDRESS, GATEWAY};
use judge::layout::{iwd_settings, lay_record, lift_record, service_settings};
use judge::reference::writer::{write, ENOUGH};
use judge::reference::{connman, iwd, Ipv4, Ipv6};
use qewaris::raw;

type Change = fn(&mut raw::Record);

/// "Places not in use are zero": what the boundary makes of a record's IPv6, place by place.
#[test]
fn malformed_records() {
    let rows: [(Ipv6, Change, u8); 24] = [
        (Ipv6::Auto, |_| {}, 0),
        (Ipv6::Auto, |record| record.ipv6 = 1, 0),
        (Ipv6::Auto, |record| record.ipv6 = 2, 19),
        (Ipv6::Auto, |record| record.ipv6 = 3, 19),
        (Ipv6::Auto, |record| record.ipv6 = 255, 19),
        (Ipv6::Auto, |record| record.ipv6_address[15] = 1, 19),
        (Ipv6::Auto, |record| record.ipv6_prefix_length = 64, 19),
        (Ipv6::Auto, |record| record.has_ipv6_gateway = 1, 19),
        (Ipv6::Auto, |record| record.ipv6_gateway[0] = 1, 19),
        (Ipv6::Off, |record| record.ipv6_address[0] = 1, 19),
        (Ipv6::Off, |record| record.ipv6_prefix_length = 128, 19),
        (Ipv6::Off, |record| record.has_ipv6_gateway = 1, 19),
        (Ipv6::Off, |record| record.ipv6_gateway[15] = 255, 19),
        (fixed(ADDRESS, 64, Some(GATEWAY)), |_| {}, 0),
        (fixed(ADDRESS, 64, Some(GATEWAY)), |record| record.ipv6_prefix_length = 0, 19),
        (fixed(ADDRESS, 64, Some(GATEWAY)), |record| record.ipv6_prefix_length = 1, 0),
        (fixed(ADDRESS, 64, Some(GATEWAY)), |record| record.ipv6_prefix_length = 128, 0),
        (fixed(ADDRESS, 64, Some(GATEWAY)), |record| record.ipv6_prefix_length = 129, 19),
        (fixed(ADDRESS, 64, Some(GATEWAY)), |record| record.ipv6_address = [0; 16], 0),
        (fixed(ADDRESS, 64, Some(GATEWAY)), |record| record.has_ipv6_gateway = 2, 19),
        (fixed(ADDRESS, 64, Some(GATEWAY)), |record| record.has_ipv6_gateway = 0, 19),
        (fixed(ADDRESS, 64, Some(GATEWAY)), |record| record.ipv6 = 0, 19),
        (fixed(ADDRESS, 64, None), |record| record.ipv6_gateway[7] = 1, 19),
        (fixed(ADDRESS, 64, None), |record| record.has_ipv6_gateway = 1, 0),
    ];
    for (place, (ipv6, change, expected)) in rows.into_iter().enumerate() {
        let mut laid = lay_record(&record(Ipv4::Auto, ipv6));
        change(&mut laid);
        let answer = write(lift_record(&laid).as_ref(), ENOUGH);
        assert_eq!(answer.err().map_or(0, |refusal| refusal.number()), expected, "row {place}");
    }
}

/// The places of IPv6 in the structs of the boundary.
#[test]
fn places_of_the_boundary() {
    let laid = lay_record(&record(Ipv4::Auto, fixed(ADDRESS, 64, Some(GATEWAY))));
    assert_eq!(
        (laid.ipv6, laid.ipv6_address, laid.ipv6_prefix_length),
        (raw::IPV6_STATIC, ADDRESS, 64)
    );
    assert_eq!((laid.has_ipv6_gateway, laid.ipv6_gateway), (1, GATEWAY));
    let file = "[IPv6]\nAddress=2001:db8::14\nGateway=fe80::1\n";
    let read = iwd::read(b"a.open", file.as_bytes()).expect("accepted");
    let ipv6 = iwd_settings(Ok(&read.settings)).ipv6;
    assert_eq!(
        (ipv6.enabled, ipv6.has_address, ipv6.address, ipv6.prefix_length),
        (raw::ABSENT, 1, ADDRESS, 128)
    );
    assert_eq!((ipv6.has_gateway, ipv6.gateway), (1, GATEWAY));
    let none = iwd_settings(Ok(&iwd::Settings::default())).ipv6;
    assert_eq!((none.has_address, none.prefix_length, none.has_gateway), (0, 0, 0));
    let rows = [
        ("", (0, [0; 16], 0, 0, [0; 16])),
        ("IPv6=auto\n", (raw::SETTING_IPV6_AUTO, [0; 16], 0, 0, [0; 16])),
        ("IPv6=off\n", (raw::SETTING_IPV6_OFF, [0; 16], 0, 0, [0; 16])),
        ("IPv6=2001:db8::14/64\n", (raw::SETTING_IPV6_STATIC, ADDRESS, 64, 0, [0; 16])),
        (
            "IPv6=2001:db8::14/64/fe80::1\n",
            (raw::SETTING_IPV6_STATIC, ADDRESS, 64, 1, GATEWAY),
        ),
    ];
    for (line, expected) in rows {
        let file = format!("[service_a]\nType=ethernet\n{line}");
        let read = connman::read(b"a.config", file.as_bytes()).expect("accepted");
        let laid = service_settings(Ok(&read.services[0].settings)).addresses;
        let ipv6 = (
            laid.ipv6,
            laid.ipv6_address,
            laid.ipv6_prefix_length,
            laid.has_ipv6_gateway,
            laid.ipv6_gateway,
        );
        assert_eq!(ipv6, expected, "{line}");
    }
}
