//! What is looked for in the IPv6 of a record that is put to the writer: that it is written or has no place, and each place whose bytes
//! make the record malformed, all of the record being well formed with other bytes there.

use crate::layout::lift_record;
use crate::reference::Fault;
use qewaris::raw;

/// What is looked for in a record and in the number that the writer answered.
pub type Event = (&'static str, fn(&raw::Record, u8) -> bool);

const AUTO: u8 = raw::IPV6_AUTO;
const OFF: u8 = raw::IPV6_OFF;
const STATIC: u8 = raw::IPV6_STATIC;
const NO_PLACE: u8 = raw::NO_PLACE;

pub const EVENTS: [Event; 20] = [
    ("written, auto", |record, number| number == 0 && record.ipv6 == AUTO),
    ("written, off", |record, number| number == 0 && record.ipv6 == OFF),
    ("written, static", |record, number| number == 0 && record.ipv6 == STATIC),
    ("16, IPv6 without gateway", |record, number| {
        number == NO_PLACE && lacks_gateway(record) && has_ipv4_place(record)
    }),
    ("16, IPv4 beside static IPv6", |record, number| {
        number == NO_PLACE && !lacks_gateway(record) && record.ipv6 == STATIC
    }),
    ("16, IPv4 and IPv6", |record, number| {
        number == NO_PLACE && lacks_gateway(record) && !has_ipv4_place(record)
    }),
    ("19, code above 2", |record, number| {
        mends(record, number, record.ipv6 > 2, |record| record.ipv6 = STATIC)
    }),
    ("19, static of length 0", |record, number| {
        mends_length(record, number, record.ipv6_prefix_length == 0)
    }),
    ("19, static of 129", |record, number| {
        mends_length(record, number, record.ipv6_prefix_length == 129)
    }),
    ("19, static above 129", |record, number| {
        mends_length(record, number, record.ipv6_prefix_length > 129)
    }),
    ("19, address in auto", |record, number| {
        mends(record, number, record.ipv6 == AUTO, |record| record.ipv6_address = [0; 16])
    }),
    ("19, address in off", |record, number| {
        mends(record, number, record.ipv6 == OFF, |record| record.ipv6_address = [0; 16])
    }),
    ("19, length in auto", |record, number| {
        mends(record, number, record.ipv6 == AUTO, |record| record.ipv6_prefix_length = 0)
    }),
    ("19, length in off", |record, number| {
        mends(record, number, record.ipv6 == OFF, |record| record.ipv6_prefix_length = 0)
    }),
    ("19, has_gateway in auto", |record, number| {
        mends(record, number, record.ipv6 == AUTO, |record| record.has_ipv6_gateway = 0)
    }),
    ("19, has_gateway in off", |record, number| {
        mends(record, number, record.ipv6 == OFF, |record| record.has_ipv6_gateway = 0)
    }),
    ("19, has_gateway above 1", |record, number| {
        mends(record, number, record.has_ipv6_gateway > 1, |record| record.has_ipv6_gateway = 1)
    }),
    ("19, gateway in auto", |record, number| {
        mends(record, number, record.ipv6 == AUTO, |record| record.ipv6_gateway = [0; 16])
    }),
    ("19, gateway in off", |record, number| {
        mends(record, number, record.ipv6 == OFF, |record| record.ipv6_gateway = [0; 16])
    }),
    ("19, gateway that is not had", |record, number| {
        mends(record, number, record.ipv6 == STATIC, |record| record.ipv6_gateway = [0; 16])
    }),
];

fn lacks_gateway(record: &raw::Record) -> bool {
    record.ipv6 == STATIC && record.has_ipv6_gateway == 0
}

fn has_ipv4_place(record: &raw::Record) -> bool {
    record.ipv4 == raw::IPV4_DHCP || record.has_gateway == 1
}

fn mends_length(record: &raw::Record, number: u8, holds: bool) -> bool {
    mends(record, number, record.ipv6 == STATIC && holds, |record| {
        record.ipv6_prefix_length = 128
    })
}

/// Whether the record is malformed, and well formed with the change.
fn mends(record: &raw::Record, number: u8, holds: bool, change: fn(&mut raw::Record)) -> bool {
    if number != Fault::Malformed.number() || !holds {
        return false;
    }
    let mut mended = *record;
    change(&mut mended);
    lift_record(&mended).is_some_and(|record| record.is_well_formed())
}
