//! Lines with secrets in likely and in odd places, and what is shown of them.

use super::*;
use crate::visible::pieces;

const KEY: &str = "00112233445566778899aabbccddeeff00112233445566778899aabbccddeeff";

fn shown(file: &[u8], number: usize) -> String {
    let line = line(file, number).unwrap();
    pieces(line, &hidden(file, number)).into_iter().map(|piece| piece.text).collect()
}

/// Lines, and what is shown of them.
const HIDDEN: &[(&str, &str)] = &[
    ("Passphrase=low tide 88", "Passphrase=..........."),
    ("  Passphrase \t=  low tide 88  ", "  Passphrase \\t=  ............."),
    ("passphrase = low tide 88", "passphrase = ..........."),
    ("PASSPHRASE=low=tide=88", "PASSPHRASE=..........."),
    ("Pasphrase=low tide 88", "Pasphrase=..........."),
    ("Pass phrase = low tide 88", "Pass phrase = ..........."),
    ("Passphrase: low tide 88", "Passphrase............."),
    ("Passphrase low tide 88", "Passphrase............"),
    ("Passphrase low tide=88", "Passphrase............"),
    ("Passphraselow tide 88", "....................."),
    ("PreSharedKey=0011", "PreSharedKey=...."),
    ("PSK=low tide 88", "PSK=..........."),
    ("Password=low tide 88", "Password=..........."),
    ("wep_key0=low tide 88", "...................."),
    ("SAE-PT-Group19=0011223344", "SAE-PT-Group19=.........."),
    ("EAP-Password=low tide 88", "EAP-Password=..........."),
    ("PrivateKeyPassphrase = low tide 88", "PrivateKeyPassphrase = ..........."),
    ("low tide 88 = Passphrase", "........................"),
    ("my passphrase is low tide 88", "............................"),
    ("low tide 88", "..........."),
    ("Password1", "........."),
    ("key", "..."),
    ("; Passphrase = low tide 88", "; Passphrase = ..........."),
    ("# Passphrase = low tide 88", ".........................."),
    ("[Passphrase=low tide 88]", "[......................."),
    ("[low tide 88]", "[............"),
    ("[Security] Passphrase=low tide 88", "[Security]......................."),
    ("[@low tide 88", "[@..........."),
    ("[service_low tide 88]", "[service_............"),
    ("Security = low tide 88", "Security = ..........."),
    ("Hidden = low tide 88", "Hidden = ..........."),
    ("Address=low tide 88", "Address=..........."),
    ("DNS=1234567890", "DNS=.........."),
    ("MAC=001122334455667788", "MAC=.................."),
    ("IPv6 = low tide 88", "IPv6 = ..........."),
    ("IPv6 = 20010db800000014", "IPv6 = ................"),
    ("Address=tide::88", "Address=........"),
    ("Address=low:tide:and:88", "Address=..............."),
    ("Gateway=2001:db8a", "Gateway=........."),
    (
        "Address=00:11:22:33:44:55:66:77:88:99:aa:bb:cc",
        "Address=......................................",
    ),
    (
        "Gateway=0011:2233:4455:6677:8899:aabb:ccdd:eeff:0011:2233:4455",
        "Gateway=......................................................",
    ),
    (
        "Description = the passphrase is low tide 88",
        "Description = .............................",
    ),
    ("lowtide=88", ".........."),
    ("Lowtide=", "........"),
    ("\u{feff}Passphrase=low tide 88", "\\u{feff}Passphrase=..........."),
];

#[test]
fn a_secret_is_dots_whatever_its_key_looks_like() {
    for (line, expected) in HIDDEN {
        assert_eq!(shown(line.as_bytes(), 1), *expected, "{line}");
    }
}

#[test]
fn what_is_sure_to_be_no_secret_is_shown() {
    for line in [
        "[Settings]",
        "[service_till] ",
        "[settings]",
        "[Securty]",
        "[Network]",
        "Hidden=yes",
        "Netmask=255.0.255.0",
        "DNS=10.0.0.2,10.0.0.3",
        "Security = wpa2-psk",
        "Type = ethernt",
        "MAC = 02-00-5e-10-00-01",
        "IPv4 = 10.20.0.14/24/10.20.0.1/1",
        "IPv4 = 2001:db8::14/64",
        "Nameservers = 2001:0db8:0000:0000:0000:0000:0000:0053,2001:db8::54",
        "IPv6 = 2001:db8::14/64/2001:db8::1",
        "IPv6 = 2OO1:db8::l4/64",
        "IPv6 = 2001:db8/64",
        "IPv6 = 10.20.0.14/24",
        "IPv6 = [2001:db8::14]/64",
        "Address=2001:0db8:85a3:0000:0000:8a2e:0370:7334:0000",
        "Address=fe80::1%wlan0",
        "Gateway=64:ff9b::10.20.0.256",
        "Gateway=2001:db8::1 ",
        "Name = Desk 4",
        "SearchDomains = a b",
    ] {
        assert_eq!(shown(line.as_bytes(), 1), line);
    }
    assert_eq!(shown(b"Colour = red", 1), "Colour = ...");
    assert_eq!(shown(b"\r", 1), "\\x0d");
}

#[test]
fn a_line_behind_a_secret_may_go_on_with_it() {
    for line in ["Low=tide", "[Tide]", "tide 88", "Hidden tide"] {
        let file = format!("[Security]\nPassphrase=low\n\n{line}\n");
        let text = shown(file.as_bytes(), 4);
        assert!(text.trim_start_matches('[').chars().all(|dot| dot == '.'), "{line} shows as {text}");
    }
    assert_eq!(shown(b"[Security]\nPassphrase=low\n[IPv6]\n", 3), "[IPv6]");
    assert_eq!(shown(b"[Security]\nPassphrase=low\nHidden=maybe\n", 3), "Hidden=maybe");
}

#[test]
fn a_secret_is_hidden_where_else_it_stands() {
    let file = b"[service_a]\nPassphrase = lowtide88\nName = a lowtide88 b\nDomain = 6c6f777469646538380\n";
    assert_eq!(shown(file, 3), "Name = a ......... b");
    assert_eq!(shown(file, 4), "Domain = ..................0");
    let file = format!("# key: {KEY}\n[IPv4]\nDomainName={}\n", KEY.to_uppercase());
    assert_eq!(shown(file.as_bytes(), 3), format!("DomainName={}", ".".repeat(64)));
}

/// A passphrase, a domain in the same file, and what is shown of that.
const SPELLED: &[(&str, &str, &str)] = &[
    ("low\\\\tide 88", "low\\\\tide 88", "............"),
    ("low\\\\tide 88", "see low\\tide 88", "see ..........."),
    ("low\\tide 88", "a low\tide 88 b", "a .......... b"),
    ("low\tide 88", "a low\\tide 88 b", "a ........... b"),
    ("low tide 88", "low\\stide\\s88\\q", ".............\\q"),
    ("low\\n\\tide", "low\\n\tide", "........."),
    ("\\slow tide\\s", "low tide", "........"),
    ("\\slow tide", "\\slow tide", ".........."),
    ("low\\tide 88", "LOW\tIDE 88", ".........."),
    ("low\\tide 88", "6C6F770969646520383800", "....................00"),
];

#[test]
fn a_secret_is_hidden_however_its_bytes_are_spelled() {
    for (passphrase, domain, expected) in SPELLED {
        let file = format!("[service_a]\nPassphrase = {passphrase}\nDomain = {domain}\n");
        assert_eq!(
            shown(file.as_bytes(), 3),
            format!("Domain = {expected}"),
            "{passphrase} and {domain}"
        );
    }
}

#[test]
fn a_string_that_swallowed_the_next_line_is_hidden() {
    assert_eq!(
        shown(b"Name = Desk 4 Passphrase = lowtide88", 1),
        "Name = ............................."
    );
    assert_eq!(shown(b"Name = Desk 4Hidden=true", 1), "Name = .................");
    assert_eq!(shown(b"Name = Desk 4", 1), "Name = Desk 4");
    let file = b"[service_a]\nName = Desk 4 passphrase=lowtide88\nDomain = lowtide88\n";
    assert_eq!(shown(file, 3), "Domain = .........");
    assert_eq!(
        shown(b"Domain = shop PreShearedKey = lowtide88", 1),
        "Domain = .............................."
    );
    assert_eq!(
        (swallowed(b"Desk 4 IPv4 = off"), swallowed_secret(b"Desk 4 IPv4 = off")),
        (Some("IPv4"), Some(&b"off"[..]))
    );
    assert_eq!((swallowed(b"a = b"), swallowed(b"Desk Hidden")), (None, None));
    assert_eq!(
        shown(b"Name = Desk\\tpin=4711 4711", 1),
        "Name = ...................",
        "as it is meant"
    );
    let file = b"[service_a]\nName = Desk\\tpin=lowtide88\nDomain = lowtide88\n";
    assert_eq!(shown(file, 3), "Domain = .........");
    assert_eq!(
        (swallowed(b"Pasphrase = b"), swallowed_secret(b"Pasphrase = b")),
        (None, Some(&b"b"[..]))
    );
}
