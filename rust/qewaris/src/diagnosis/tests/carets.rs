//! The caret stands under the place that is to blame, and the line shows what it may.

use super::*;

/// A file name, a file, the line as it is shown, and what stands from the caret on.
const CASES: &[(&str, &[u8], &str, &str)] = &[
    (
        "a.config",
        b"[service_a]\nPassphrase = lowtide\n",
        "Passphrase = .......",
        ".......",
    ),
    ("a.psk", b"[Security]\nPassphrase=lowtide8\\x\n", "Passphrase=..........", ".."),
    (
        "a.config",
        b"[service_a]\nPassphrase = low\\tide\\88 \n",
        "Passphrase = ............",
        "....",
    ),
    (
        "a.config",
        b"[service_a]\nPassphrase = low tide 88\\ \t\n",
        "Passphrase = ..............",
        "...",
    ),
    ("a.config", b"[global]\nName = a\\sb\\q\n", "Name = a\\sb\\q", "\\q"),
    ("a.config", b"[global]\nDescription = \\\n", "Description = \\", "\\"),
    ("a.config", b"[service_a]\nName = a\\\\\\ \t\n", "Name = a\\\\\\ \\t", "\\ \\t"),
    ("a.config", b"[service_a]\nDomain = \\S\n", "Domain = \\S", "\\S"),
    ("a.open", b"[IPv4]\nAddress=1.2.256.4\n", "Address=1.2.256.4", "256.4"),
    ("a.open", b"[IPv4]\nAddress=01.2.3.4\n", "Address=01.2.3.4", "01.2.3.4"),
    ("a.open", b"[IPv4]\nAddress=1.2.3\n", "Address=1.2.3", ""),
    ("a.open", b"[IPv4]\nAddress=1.2.3.4.5\n", "Address=1.2.3.4.5", "5"),
    ("a.open", b"[IPv4]\nNetmask=255.0.255.0\n", "Netmask=255.0.255.0", "255.0"),
    ("a.open", b"[IPv4]\nNetmask=0.0.0.0\n", "Netmask=0.0.0.0", "0.0.0.0"),
    ("a.open", b"[IPv4]\nNetmask=253.0.0.0\n", "Netmask=253.0.0.0", "253.0.0.0"),
    (
        "a.open",
        b"[IPv4]\nDNS=1.1.1.1  2.2.2.2 3.3.3.3 4.4.4.4 5.5.5.5\n",
        "DNS=1.1.1.1  2.2.2.2 3.3.3.3 4.4.4.4 5.5.5.5",
        "5.5.5.5",
    ),
    ("a.open", b"[IPv4]\nDNS=1.1.1.1\t2.2.2.2\n", "DNS=1.1.1.1\\t2.2.2.2", "1\\t2.2.2.2"),
    (
        "a.config",
        b"[service_a]\nNameservers = 1.1.1.1, 2.2.2.2\n",
        "Nameservers = 1.1.1.1, 2.2.2.2",
        " 2.2.2.2",
    ),
    (
        "a.config",
        b"[service_a]\nTimeservers = a,b,c,d,e\n",
        "Timeservers = a,b,c,d,e",
        "e",
    ),
    ("a.config", b"[service_a]\nSearchDomains = ab c\n", "SearchDomains = ab c", " c"),
    ("a.config", b"[service_a]\nIPv4 = 10.0.0.2/33\n", "IPv4 = 10.0.0.2/33", "33"),
    (
        "a.config",
        b"[service_a]\nIPv4 = 10.0.0.2/24/10.0.0.1/9\n",
        "IPv4 = 10.0.0.2/24/10.0.0.1/9",
        "9",
    ),
    (
        "a.config",
        b"[service_a]\nIPv4 = 10.0.0.2/24/10.0.0\n",
        "IPv4 = 10.0.0.2/24/10.0.0",
        "",
    ),
    (
        "a.config",
        b"[service_a]\nMAC = 02:00:5e:10:00:0g\n",
        "MAC = 02:00:5e:10:00:0g",
        "g",
    ),
    (
        "a.config",
        b"[service_a]\nMAC = 02:00:5e-10:00:01\n",
        "MAC = 02:00:5e-10:00:01",
        "-10:00:01",
    ),
    ("a.config", b"[service_a]\nMAC = 02:00:5e:10:00\n", "MAC = 02:00:5e:10:00", ""),
    ("a.config", b"[service_a]\nSSID = 44x5\n", "SSID = 44x5", "x5"),
    ("a.open", b"[IPv6]\nEnabled=true \n", "Enabled=true ", " "),
    ("a.config", b"[service_a]\nIPv6 = on\n", "IPv6 = on", "on"),
    (
        "a.config",
        b"[service_a]\nIPv6 = 10.20.0.14/24\n",
        "IPv6 = 10.20.0.14/24",
        "10.20.0.14/24",
    ),
    (
        "a.config",
        b"[service_a]\nIPv6 = 2001:db8::14/64/10.20.0.1\n",
        "IPv6 = 2001:db8::14/64/10.20.0.1",
        "10.20.0.1",
    ),
    (
        "a.config",
        b"[service_a]\nIPv6 = 2001:db8:0:0:0:0:14/64\n",
        "IPv6 = 2001:db8:0:0:0:0:14/64",
        "/64",
    ),
    ("a.open", b"[IPv6]\nAddress=2001:db8:14\n", "Address=2001:db8:14", ""),
    (
        "a.open",
        b"[IPv6]\nAddress=2001:db8:0:0:0:0:0:0:14/64\n",
        "Address=2001:db8:0:0:0:0:0:0:14/64",
        "14/64",
    ),
    (
        "a.open",
        b"[IPv6]\nAddress=1:2:3:4:5:6:7:10.20.0.14\n",
        "Address=1:2:3:4:5:6:7:10.20.0.14",
        "10.20.0.14",
    ),
    (
        "a.config",
        b"[service_a]\nIPv6 = 2001:db8::00014/64\n",
        "IPv6 = 2001:db8::00014/64",
        "00014/64",
    ),
    (
        "a.config",
        b"[service_a]\nIPv6 = 2001:db8::g4/64\n",
        "IPv6 = 2001:db8::g4/64",
        "g4/64",
    ),
    (
        "a.config",
        b"[service_a]\nIPv6 = 2001:db8::4g/64/::1\n",
        "IPv6 = 2001:db8::4g/64/::1",
        "g/64/::1",
    ),
    ("a.open", b"[IPv6]\nGateway=2001:db8:: 1\n", "Gateway=2001:db8:: 1", " 1"),
    (
        "a.config",
        b"[service_a]\nIPv6 = 2001:db8::14/ 64\n",
        "IPv6 = 2001:db8::14/ 64",
        " 64",
    ),
    (
        "a.open",
        b"[IPv6]\nAddress=fe80::14%wlan0/64\n",
        "Address=fe80::14%wlan0/64",
        "%wlan0/64",
    ),
    (
        "a.config",
        b"[service_a]\nIPv6 = [2001:db8::14]/64\n",
        "IPv6 = [2001:db8::14]/64",
        "[2001:db8::14]/64",
    ),
    ("a.open", b"[IPv6]\nGateway=2001:db8::1]\n", "Gateway=2001:db8::1]", "]"),
    (
        "a.config",
        b"[service_a]\nIPv6 = :db8::14/64\n",
        "IPv6 = :db8::14/64",
        ":db8::14/64",
    ),
    ("a.open", b"[IPv6]\nAddress=2001:db8:/64\n", "Address=2001:db8:/64", ":/64"),
    (
        "a.config",
        b"[service_a]\nIPv6 = 2001:db8:::14/64\n",
        "IPv6 = 2001:db8:::14/64",
        ":14/64",
    ),
    (
        "a.config",
        b"[service_a]\nIPv6 = 2001::db8::14/64\n",
        "IPv6 = 2001::db8::14/64",
        "::14/64",
    ),
    (
        "a.config",
        b"[service_a]\nIPv6 = 2001:db8::14/64/::1::\n",
        "IPv6 = 2001:db8::14/64/::1::",
        "::",
    ),
    (
        "a.open",
        b"[IPv6]\nAddress=2001:db8:1:2::3:4:5:6/64\n",
        "Address=2001:db8:1:2::3:4:5:6/64",
        "::3:4:5:6/64",
    ),
    ("a.open", b"[IPv6]\nAddress=1:2:3:4:5:6:7:8::\n", "Address=1:2:3:4:5:6:7:8::", "::"),
    (
        "a.config",
        b"[service_a]\nIPv6 = ::10.20.0.14:1/96\n",
        "IPv6 = ::10.20.0.14:1/96",
        "10.20.0.14:1/96",
    ),
    ("a.open", b"[IPv6]\nAddress=::10.20.14/96\n", "Address=::10.20.14/96", "/96"),
    ("a.open", b"[IPv6]\nGateway=::10.20.0.14.1\n", "Gateway=::10.20.0.14.1", "1"),
    ("a.open", b"[IPv6]\nAddress=::10.256.0.14\n", "Address=::10.256.0.14", "256.0.14"),
    (
        "a.config",
        b"[service_a]\nIPv6 = ::10.20.0.014/96\n",
        "IPv6 = ::10.20.0.014/96",
        "014/96",
    ),
    ("a.config", b"[service_a]\nIPv6 = 2001:db8::14/0\n", "IPv6 = 2001:db8::14/0", "0"),
    (
        "a.config",
        b"[service_a]\nIPv6 = 2001:db8::14/129/::1\n",
        "IPv6 = 2001:db8::14/129/::1",
        "129/::1",
    ),
    ("a.open", b"[IPv6]\nAddress=2001:db8::14/064\n", "Address=2001:db8::14/064", "064"),
    ("a.open", b"[IPv6]\nAddress=2001:db8::14/\n", "Address=2001:db8::14/", ""),
    ("a.config", b"[service_a]\nIPv6 = 2001:db8::14\n", "IPv6 = 2001:db8::14", ""),
    (
        "a.config",
        b"[service_a]\nIPv6 = 2001:db8::14/2001:db8::1\n",
        "IPv6 = 2001:db8::14/2001:db8::1",
        "2001:db8::1",
    ),
    (
        "a.open",
        b"[IPv6]\nAddress=2001:db8::14/64/2001:db8::1\n",
        "Address=2001:db8::14/64/2001:db8::1",
        "/2001:db8::1",
    ),
    (
        "a.open",
        b"[IPv6]\nAddress=2001:db8::14/2001:db8::1\n",
        "Address=2001:db8::14/2001:db8::1",
        "2001:db8::1",
    ),
    ("a.open", b"[IPv6]\nGateway=2001:db8::1/64\n", "Gateway=2001:db8::1/64", "/64"),
    (
        "a.config",
        b"[service_a]\nIPv6 = 2001:db8::14/64/2001:db8::1/64\n",
        "IPv6 = 2001:db8::14/64/2001:db8::1/64",
        "/64",
    ),
    ("a.open", b"[IPv6]\nAddress=2001:db8::14/64 \n", "Address=2001:db8::14/64 ", " "),
    ("a.open", b"[IPv4]\nAddress=2001:db8::14\n", "Address=2001:db8::14", "2001:db8::14"),
    (
        "a.config",
        b"[service_a]\nIPv4 = 10.20.0.14/24/2001:db8::1\n",
        "IPv4 = 10.20.0.14/24/2001:db8::1",
        "2001:db8::1",
    ),
    (
        "a.config",
        b"[service_a]\nNameservers = 10.20.0.2,2001:db8::53\n",
        "Nameservers = 10.20.0.2,2001:db8::53",
        "2001:db8::53",
    ),
    (
        "a.config",
        b"[service_a]\nIPv6 = low tide 88\n",
        "IPv6 = ...........",
        "...........",
    ),
    ("a.open", b"\t[IPv6] x\n", "\\t[IPv6]..", "."),
    ("a.open", b"[IPv6\n", "[IPv6", ""),
    ("a.config", b"[service_desk.4]\n", "[service_desk.4]", ".4]"),
    ("a.open", b"[IPv6]\n  Enab led=true\n", "  Enab led=....", " led=...."),
    ("a.open", b"[Settings]\nHidden\t:\ttrue=1\n", "Hidden.........", "........."),
    (
        "a.config",
        b"[global]\nName = Caf\xc3\xa9\xff\xff\n",
        "Name = Caf\u{e9}\\xff\\xff",
        "\\xff\\xff",
    ),
    ("a.config", b"[global]\nName = \x1b[31m\0\n", "Name = \\x1b[31m\\x00", "\\x00"),
    (
        "a.psk",
        b"[Security]\n \tPSK=low tide 88\n",
        " \\tPSK=...........",
        "PSK=...........",
    ),
];

#[test]
fn the_caret_stands_under_the_place() {
    for (name, file, shown, from) in CASES {
        let found = finding(&Subject::new(name.as_bytes(), file), &check(name, file));
        let excerpt = found.excerpt.expect("a line is to blame");
        let text: String = excerpt.pieces.iter().map(|piece| piece.text.as_str()).collect();
        assert_eq!(text, *shown);
        let behind = excerpt.pieces.iter().filter(|piece| piece.start >= excerpt.place);
        let behind: String = behind.map(|piece| piece.text.as_str()).collect();
        assert_eq!(behind, *from, "the caret of {shown}");
    }
}
