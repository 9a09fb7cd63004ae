//! How an IPv6 address is written.

use std::net::Ipv6Addr;
use std::ops::Range;

/// An address as it is written in an iwd file: RFC 5952's form, never with the dotted tail that `Display` gives a mapped address.
///
/// ```
/// let mapped: std::net::Ipv6Addr = "0:0:0:0:0:FFFF:192.0.2.1".parse()?;
/// assert_eq!(qewaris::ipv6_text(mapped), "::ffff:c000:201");
/// assert_eq!(mapped.to_string(), "::ffff:192.0.2.1");
/// # Ok::<(), std::net::AddrParseError>(())
/// ```
pub fn ipv6_text(address: Ipv6Addr) -> String {
    let groups = address.segments();
    let zeros = longest_zeros(&groups);
    match zeros.len() {
        0 | 1 => joined(&groups),
        _ => joined(&groups[..zeros.start]) + "::" + &joined(&groups[zeros.end..]),
    }
}

/// The longest run of groups that are zero, the first of equal ones.
fn longest_zeros(groups: &[u16]) -> Range<usize> {
    let mut longest = 0..0;
    for start in 0..groups.len() {
        let length = groups[start..].iter().take_while(|group| **group == 0).count();
        if length > longest.len() {
            longest = start..start + length;
        }
    }
    longest
}

fn joined(groups: &[u16]) -> String {
    groups.iter().map(|group| format!("{group:x}")).collect::<Vec<_>>().join(":")
}

#[cfg(test)]
mod tests {
    use super::*;
    use crate::{iwd_record, write_iwd, Ipv6, JoinRecord, StaticIpv6};

    /// Sixteen bytes by their groups, and RFC 5952's form: its sections 4 and 5 and RFC 4291's 2.2, and each place of a run.
    const TEXTS: &[([u16; 8], &str)] = &[
        ([0x2001, 0xdb8, 0, 0, 1, 0, 0, 1], "2001:db8::1:0:0:1"),
        ([0x2001, 0xdb8, 0, 0, 0, 0, 0, 1], "2001:db8::1"),
        ([0x2001, 0xdb8, 0, 0, 0, 0, 2, 1], "2001:db8::2:1"),
        ([0x2001, 0xdb8, 0, 1, 1, 1, 1, 1], "2001:db8:0:1:1:1:1:1"),
        ([0x2001, 0, 0, 1, 0, 0, 0, 1], "2001:0:0:1::1"),
        (
            [0xabcd, 0xef01, 0x2345, 0x6789, 0xabcd, 0xef01, 0x2345, 0x6789],
            "abcd:ef01:2345:6789:abcd:ef01:2345:6789",
        ),
        ([0x2001, 0xdb8, 0, 0, 8, 0x800, 0x200c, 0x417a], "2001:db8::8:800:200c:417a"),
        ([0xff01, 0, 0, 0, 0, 0, 0, 0x101], "ff01::101"),
        ([0, 0, 0, 0, 0, 0, 0, 0], "::"),
        ([0, 0, 0, 0, 0, 0, 0, 1], "::1"),
        ([1, 0, 0, 0, 0, 0, 0, 0], "1::"),
        ([0, 0, 0, 0, 0, 0, 0xd01, 0x4403], "::d01:4403"),
        ([0, 0, 0, 0, 0, 0xffff, 0x8190, 0x3426], "::ffff:8190:3426"),
        ([0, 0, 0, 0, 0, 0xffff, 0, 0], "::ffff:0:0"),
        ([0, 0, 1, 1, 1, 1, 0, 0], "::1:1:1:1:0:0"),
        ([0, 1, 1, 1, 1, 1, 0, 0], "0:1:1:1:1:1::"),
        ([0, 1, 0, 1, 0, 1, 0, 1], "0:1:0:1:0:1:0:1"),
        ([1, 0x10, 0x100, 0x1000, 0, 1, 0x10, 0x100], "1:10:100:1000:0:1:10:100"),
        ([0xffff; 8], "ffff:ffff:ffff:ffff:ffff:ffff:ffff:ffff"),
    ];

    /// A record with this address.
    fn with(address: Ipv6Addr) -> JoinRecord {
        JoinRecord {
            ipv6: Ipv6::Static(StaticIpv6 {
                address,
                prefix_length: 64,
                gateway: Some(address),
            }),
            ..JoinRecord::open(b"a")
        }
    }

    /// Sees that the writer writes the same text, which is read as the same address, here and by the standard library.
    #[track_caller]
    fn expect_written(address: Ipv6Addr, text: &str) {
        let written = write_iwd(&with(address)).unwrap();
        assert_eq!(
            String::from_utf8_lossy(&written.file),
            format!("[IPv6]\nAddress={text}/64\nGateway={text}\n")
        );
        assert_eq!(iwd_record(&written.name, &written.file), Ok(with(address)));
        assert_eq!(text.parse(), Ok(address));
    }

    #[test]
    fn addresses_are_written_in_the_form_of_rfc_5952() {
        for (groups, text) in TEXTS {
            assert_eq!(ipv6_text((*groups).into()), *text);
            expect_written((*groups).into(), text);
        }
    }

    #[test]
    fn the_writer_writes_the_same_wherever_zeros_stand() {
        for zeros in 0..=u8::MAX {
            for other in [1, 0x10, 0xabc, 0xffff] {
                let groups: [u16; 8] = std::array::from_fn(|place| if zeros >> place & 1 == 1 { 0 } else { other });
                expect_written(groups.into(), &ipv6_text(groups.into()));
            }
        }
    }
}
