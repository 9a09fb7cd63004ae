//! IPv6 values with a slip: a fault is found of those that the library refuses, and of no others.

use super::*;
use crate::diagnosis::kinds::fault;

/// What is written before a value of each kind, in a file that is good with a good value.
const FILES: [(Kind, &str, &str); 3] = [
    (Kind::Ipv6, "a.config", "[service_a]\nType = ethernet\nIPv6 = "),
    (Kind::Ipv6Address, "a.open", "[IPv6]\nGateway=::1\nAddress="),
    (Kind::Ipv6Gateway, "a.open", "[IPv6]\nAddress=::1\nGateway="),
];

const VALUES: [&str; 14] = [
    "",
    "off",
    "::",
    "::1",
    "1::",
    "2001:db8::14/64",
    "2001:DB8::14/64/2001:db8::1",
    "1:2:3:4:5:6:7:8/128",
    "1:2:3:4:5:6:7::/9",
    "::2:3:4:5:6:7:8",
    "fe80::2:3:0:0:6:7",
    "::ffff:10.20.0.255/96",
    "1:2:3:4:5:6:10.20.0.14",
    "1::4:5:6:10.20.0.14/1/::",
];

/// What is put into a value, or for a byte of it.
const BYTES: &[u8] = b"019fG:./% [";

/// A value with each slip of one byte: left out, changed, put in, or given twice.
fn slips(value: &[u8]) -> Vec<Vec<u8>> {
    let mut found = vec![value.to_vec()];
    for place in 0..=value.len() {
        let (front, rest) = value.split_at(place);
        found.extend(BYTES.iter().map(|byte| [front, &[*byte], rest].concat()));
        if let Some((first, behind)) = rest.split_first() {
            found.push([front, behind].concat());
            found.push([front, &[*first], rest].concat());
            found.extend(BYTES.iter().map(|byte| [front, &[*byte], behind].concat()));
        }
    }
    found
}

#[test]
fn a_fault_is_found_exactly_where_the_library_refuses() {
    let mut answers = [0; 2];
    for (kind, name, front) in FILES {
        let dialect = Dialect::of(name.as_bytes());
        for value in VALUES.iter().flat_map(|value| slips(value.as_bytes())) {
            if value.first() == Some(&b' ') || value.last() == Some(&b' ') {
                continue;
            }
            let file = [front.as_bytes(), &value, b"\n"].concat();
            let refused = match dialect {
                Dialect::Iwd => crate::check_iwd(name.as_bytes(), &file),
                Dialect::Connman => crate::check_connman(name.as_bytes(), &file),
            };
            let shown = String::from_utf8_lossy(&file);
            assert_eq!(fault(dialect, kind, &value).is_some(), refused.is_err(), "{shown}");
            answers[usize::from(refused.is_err())] += 1;
            if let Err(refusal) = refused {
                assert_eq!((refusal.number(), refusal.line()), (12, Some(3)), "{shown}");
                let told = finding(&Subject::new(name.as_bytes(), &file), &refusal).sentence;
                assert_ne!(told, general(12).text(&[]).unwrap(), "{shown}");
            }
        }
    }
    assert!(answers[0] > 1000 && answers[1] > 5000, "{answers:?}");
}
