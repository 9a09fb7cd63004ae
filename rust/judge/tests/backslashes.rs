//! The reference on request 2026-02, sentence by sentence, and on the decisions about what it leaves open: the strings of ConnMan files
//! know escapes, and its lists do not.

use judge::reference::groups::Text;
use judge::reference::writer::ENOUGH;
use judge::reference::{connman, iwd, moving, Credential, Record, Refusal};

/// A string of a ConnMan file: the lines of the file above its value and below it, its line, and how many bytes it can have.
struct Place {
    key: &'static str,
    above: &'static str,
    below: &'static str,
    line: usize,
    bounds: (usize, usize),
    looked_up: fn(&connman::File) -> Option<&Text>,
}

/// "Name, Passphrase, Domain and the two global strings."
const PLACES: [Place; 5] = [
    Place {
        key: "Name",
        above: "[service_a]\nType = wifi\n",
        below: "Hidden = true\n",
        line: 3,
        bounds: (1, 32),
        looked_up: |file| file.services[0].settings.name.as_ref(),
    },
    Place {
        key: "Passphrase",
        above: "[service_a]\nType = wifi\nName = a\n",
        below: "Security = psk\n",
        line: 4,
        bounds: (8, 63),
        looked_up: |file| file.services[0].settings.passphrase.as_ref(),
    },
    Place {
        key: "Domain",
        above: "[service_a]\nType = wifi\n",
        below: "Name = a\n",
        line: 3,
        bounds: (1, 253),
        looked_up: |file| file.services[0].settings.domain.as_ref(),
    },
    Place {
        key: "Name",
        above: "[global]\n",
        below: "Description = a\n",
        line: 2,
        bounds: (1, 253),
        looked_up: |file| file.global_name.as_ref(),
    },
    Place {
        key: "Description",
        above: "[global]\nName = a\n",
        below: "",
        line: 3,
        bounds: (1, 253),
        looked_up: |file| file.global_description.as_ref(),
    },
];

impl Place {
    /// The file with a value, and what stands behind it to the end of the line, in this place; and where the value starts.
    fn file(&self, value: &[u8]) -> (Vec<u8>, usize) {
        let before = format!("{}{} = ", self.above, self.key).into_bytes();
        let start = before.len();
        ([&before, value, b"\n", self.below.as_bytes()].concat(), start)
    }

    /// What is read of a value in this place.
    fn read(&self, value: &[u8]) -> Result<Text, Refusal> {
        let (file, _) = self.file(value);
        connman::read(b"shop.config", &file).map(|file| (self.looked_up)(&file).expect("the string is there").clone())
    }

    /// The bytes that a value stands for in this place, or the refusal's number.
    fn bytes(&self, value: &[u8]) -> Result<Vec<u8>, u8> {
        self.read(value).map(|text| text.bytes).map_err(|refusal| {
            assert_eq!(refusal.line, self.line, "{}: {}", self.key, value.escape_ascii());
            refusal.number()
        })
    }
}

/// A value, and the bytes that it stands for, 8 to 32 so that every string can have them, or the refusal's number.
type Row<'a> = (&'a [u8], Result<&'a [u8], u8>);

/// Tries rows at every place.
fn try_everywhere(rows: &[Row]) {
    for place in &PLACES {
        for (value, expected) in rows {
            let expected = expected.map(<[u8]>::to_vec);
            assert_eq!(place.bytes(value), expected, "{}: {}", place.key, value.escape_ascii());
        }
    }
}

/// "Strings know `\s`, `\t`, `\r`, `\n` and `\\`."
#[test]
fn strings_know_five_escapes() {
    try_everywhere(&[
        (b"\\s1234567", Ok(b" 1234567")),
        (b"\\t1234567", Ok(b"\t1234567")),
        (b"\\r1234567", Ok(b"\r1234567")),
        (b"\\n1234567", Ok(b"\n1234567")),
        (b"\\\\1234567", Ok(b"\\1234567")),
        (b"123\\s\\t\\r\\n\\\\", Ok(b"123 \t\r\n\\")),
        (b"\\\\s\\\\n1234", Ok(b"\\s\\n1234")),
        (b"\\\\\\s123456", Ok(b"\\ 123456")),
        (b"low\\tide 88", Ok(b"low\tide 88")),
        (b"low\\\\tide 88", Ok(b"low\\tide 88")),
        (b"a b\tc d e f", Ok(b"a b\tc d e f")),
        (b"caf\xC3\xA9\\s123", Ok(b"caf\xC3\xA9 123")),
    ]);
}

/// "To be unescaped after the whitespace is trimmed": a blank at an end is dropped, and one that an escape stands for is kept.
#[test]
fn whitespace_is_trimmed_before_unescaping() {
    try_everywhere(&[
        (b"1234567\\s", Ok(b"1234567 ")),
        (b"1234567\\t \t ", Ok(b"1234567\t")),
        (b"1234567 \\s\t", Ok(b"1234567  ")),
        (b"1234567\\n ", Ok(b"1234567\n")),
        (b"1234567\\\\ ", Ok(b"1234567\\")),
        (b" \t\\s 123456", Ok(b"  123456")),
        (b"\\s\\s\\t\\s\\s\\s\\s\\s", Ok(b"  \t     ")),
        (b"\\s      \\s", Ok(b"        ")),
        (b"12345678 ", Ok(b"12345678")),
    ]);
    for place in PLACES.iter().filter(|place| place.bounds.0 == 1) {
        assert_eq!(place.bytes(b"\\s"), Ok(b" ".to_vec()), "{}", place.key);
        assert_eq!(place.bytes(b"\\t \t"), Ok(b"\t".to_vec()), "{}", place.key);
        assert_eq!(place.bytes(b"\\\\"), Ok(b"\\".to_vec()), "{}", place.key);
        assert_eq!(place.bytes(b" \t"), Err(12), "{}", place.key);
    }
}

/// "Refusals: a bad escape there is 11." A backslash that only blanks follow is one too, once these are trimmed.
#[test]
fn a_bad_escape_is_11() {
    try_everywhere(&[
        (b"12345678\\", Err(11)),
        (b"12345678\\ ", Err(11)),
        (b"12345678\\\t \t", Err(11)),
        (b"12345678\\\\\\", Err(11)),
        (b"12345678\\\\\\ ", Err(11)),
        (b"\\", Err(11)),
        (b"\\ ", Err(11)),
        (b"a\\ ", Err(11)),
        (b"1234\\ 5678", Err(11)),
        (b"1234\\x5678", Err(11)),
        (b"1234\\S5678", Err(11)),
        (b"1234\\T5678", Err(11)),
        (b"1234\\R5678", Err(11)),
        (b"1234\\N5678", Err(11)),
        (b"1234\\05678", Err(11)),
        (b"1234\\;5678", Err(11)),
        (b"1234\\\"5678", Err(11)),
        (b"1234\\\xC3\xA95678", Err(11)),
        (b"1234\\\xF0\x9F\x98\x805678", Err(11)),
        (b"1234\\s\\\\\\a5678", Err(11)),
    ]);
}

/// A bad escape is 11 also where the length is wrong. UTF-8, byte 0 and byte 13 are judged on the value as it stands.
#[test]
fn text_is_judged_as_it_stands_and_before_its_length() {
    let long = [&[b'a'; 300][..], b"\\"].concat();
    try_everywhere(&[
        (&long, Err(11)),
        (b"1234567\r", Err(11)),
        (b"1234\r\\r567", Err(11)),
        (b"1234\x00567", Err(11)),
        (b"1234567\xC3\\s", Err(11)),
        (b"1234567\xC3\\\xA9", Err(11)),
        (b"1234567\\r", Ok(b"1234567\r")),
    ]);
}

/// "Lengths count the bytes after that."
#[test]
fn lengths_count_the_bytes_after_unescaping() {
    for place in &PLACES {
        let (least, most) = place.bounds;
        for escape in ["\\s", "\\t", "\\r", "\\n", "\\\\"] {
            let length = |count: usize| place.bytes(escape.repeat(count).as_bytes()).map(|bytes| bytes.len());
            assert_eq!(length(least), Ok(least), "{}: {escape}", place.key);
            assert_eq!(length(most), Ok(most), "{}: {escape}", place.key);
            assert_eq!(length(least - 1), Err(12), "{}: {escape}", place.key);
            assert_eq!(length(most + 1), Err(12), "{}: {escape}", place.key);
        }
    }
}

/// "Its value is handed back as the stretch of the lent file where it stands, still escaped": in ConnMan too.
#[test]
fn lookups_hand_back_the_stretch_still_escaped() {
    let values: [(&[u8], &[u8]); 4] = [
        (b"", b"12345678"),
        (b"", b"\\s123456\\\\"),
        (b" \t", b"\\t\\r\\n\\\\\\s\\s\\s\\s"),
        (b" ", b"1234567\\s"),
    ];
    for place in &PLACES {
        for (dropped, value) in values {
            let (_, start) = place.file(value);
            let text = place.read(&[dropped, value, dropped].concat()).expect("accepted");
            let expected = (place.line, start + dropped.len(), value.len());
            assert_eq!(
                (text.line, text.start, text.length),
                expected,
                "{}: {}",
                place.key,
                value.escape_ascii()
            );
        }
    }
}

/// SearchDomains and Timeservers are lists and no strings: a backslash there is an ordinary byte.
#[test]
fn lists_know_no_escapes() {
    for key in ["SearchDomains", "Timeservers"] {
        let entries = |value: &str| {
            let file = format!("[service_a]\nType = ethernet\n{key} = {value}\n");
            let read = connman::read(b"shop.config", file.as_bytes()).map_err(|refusal| (refusal.number(), refusal.line))?;
            let settings = &read.services[0].settings;
            let places = if key == "SearchDomains" {
                &settings.search_domains
            } else {
                &settings.timeservers
            };
            let entry = |(start, length): &(usize, usize)| file[*start..start + length].to_string();
            Ok(places.iter().map(entry).collect::<Vec<String>>())
        };
        let rows: [(&str, &[&str]); 7] = [
            ("\\s", &["\\s"]),
            ("\\s,\\t,\\r,\\n", &["\\s", "\\t", "\\r", "\\n"]),
            ("\\\\,\\x,\\", &["\\\\", "\\x", "\\"]),
            ("a\\,b", &["a\\", "b"]),
            ("a\\ \t", &["a\\"]),
            ("\\S;\\", &["\\S;\\"]),
            ("\\", &["\\"]),
        ];
        for (value, expected) in rows {
            assert_eq!(
                entries(value),
                Ok(expected.iter().map(|entry| entry.to_string()).collect()),
                "{key}: {value}"
            );
        }
        let longest = "\\s".repeat(126) + "a";
        assert_eq!(entries(&longest), Ok(vec![longest.clone()]), "{key}: 253 bytes as they stand");
        assert_eq!(entries(&"\\s".repeat(127)), Err((12, 3)), "{key}: 254 bytes as they stand");
        assert_eq!(entries("a\\ b"), Err((12, 3)), "{key}: a blank is no part of an entry");
    }
}

/// "Only strings are unescaped": a backslash in any other kind is 12.
#[test]
fn other_kinds_know_no_escapes() {
    let rows = [
        "Type = wifi\\s",
        "Type = \\twifi",
        "IPv4 = dhcp\\n",
        "IPv6 = off\\",
        "Nameservers = 1.2.3.4,\\s1.2.3.5",
        "MAC = 00:11:22:33:44:\\t5",
        "SSID = \\\\61",
        "Security = p\\sk",
        "Hidden = true\\s",
    ];
    for line in rows {
        let file = format!("[service_a]\n{line}\n");
        let answer = connman::read(b"shop.config", file.as_bytes()).map_err(|refusal| (refusal.number(), refusal.line));
        assert_eq!(answer.err(), Some((12, 2)), "{line}");
    }
}

/// The service with these strings, and its record.
fn service(name: &str, passphrase: &str, domain: &str) -> (Vec<u8>, Record) {
    let file = format!("[service_a]\nType = wifi\nName = {name}\nPassphrase = {passphrase}\nDomain = {domain}\n").into_bytes();
    let reading = connman::read(b"shop.config", &file).expect("accepted");
    let record = reading.services[0].record().expect("a record");
    (file, record)
}

/// A passphrase in the file and the bytes that it stands for, a domain likewise, and what is written of both.
type MovedRow = (&'static str, &'static [u8], &'static str, &'static [u8], &'static [u8]);

/// "Demands 2 and 3 read with the new definition": the record has the bytes that the strings stand for, and a move keeps them.
#[test]
fn records_and_moves_have_the_bytes_that_are_meant() {
    let rows: [MovedRow; 6] = [
        (
            "1234567\\n",
            b"1234567\n",
            "\\sshop",
            b" shop",
            b"Passphrase=1234567\\n\n[IPv4]\nDomainName=\\sshop\n",
        ),
        (
            "\\s123456\\r",
            b" 123456\r",
            "shop\\s",
            b"shop ",
            b"Passphrase=\\s123456\\r\n[IPv4]\nDomainName=shop \n",
        ),
        (
            "1234567\\\\",
            b"1234567\\",
            "a\\tb",
            b"a\tb",
            b"Passphrase=1234567\\\\\n[IPv4]\nDomainName=a\tb\n",
        ),
        (
            "1234567\\t",
            b"1234567\t",
            "\\t",
            b"\t",
            b"Passphrase=1234567\t\n[IPv4]\nDomainName=\\t\n",
        ),
        (
            "1\\s2\\s3\\s4\\s",
            b"1 2 3 4 ",
            "\\\\",
            b"\\",
            b"Passphrase=1 2 3 4 \n[IPv4]\nDomainName=\\\\\n",
        ),
        (
            "\\s\\s\\s\\s\\s\\s\\s\\s",
            b"        ",
            "\\n\\s",
            b"\n ",
            b"Passphrase=\\s       \n[IPv4]\nDomainName=\\n \n",
        ),
    ];
    for (passphrase, meant, domain, domain_meant, written) in rows {
        let (file, record) = service("Desk\\s4", passphrase, domain);
        assert_eq!(record.ssid, b"Desk 4", "{passphrase}");
        assert_eq!(record.credential, Credential::Passphrase(meant.to_vec()), "{passphrase}");
        assert_eq!(record.domain, domain_meant, "{domain}");
        let moved = moving::move_service(&connman::read(b"shop.config", &file), 1, ENOUGH).expect("moved");
        assert_eq!(moved.name, b"Desk 4.psk");
        assert_eq!(moved.file, [b"[Security]\n", written].concat(), "{passphrase}");
        assert_eq!(
            iwd::read(&moved.name, &moved.file).expect("accepted").record(),
            record,
            "{passphrase}"
        );
    }
}

/// A network's name has the bytes that are meant too, and so has the name of the file.
#[test]
fn network_names_have_the_bytes_that_are_meant() {
    let rows: [(&str, &[u8], &[u8]); 6] = [
        ("Desk\\s", b"Desk ", b"Desk .psk"),
        ("\\s", b" ", b" .psk"),
        ("\\sDesk", b" Desk", b" Desk.psk"),
        ("a\\nb", b"a\nb", b"=610a62.psk"),
        ("a\\tb", b"a\tb", b"=610962.psk"),
        ("a\\\\", b"a\\", b"=615c.psk"),
    ];
    for (name, ssid, file_name) in rows {
        let (file, record) = service(name, "12345678", "shop");
        assert_eq!(record.ssid, ssid, "{name}");
        let moved = moving::move_service(&connman::read(b"shop.config", &file), 1, ENOUGH).expect("moved");
        assert_eq!(moved.name, file_name, "{name}");
        assert_eq!(iwd::read(&moved.name, &moved.file).expect("accepted").record(), record, "{name}");
    }
}

/// "SSID, if present, is the name and Name is ignored, though its line is still judged": also its escapes.
#[test]
fn a_name_beside_an_ssid_is_still_judged() {
    let file = |name: &str| format!("[service_a]\nType = wifi\nSSID = 61\nName = {name}\n").into_bytes();
    let reading = connman::read(b"shop.config", &file("b\\s")).expect("accepted");
    assert_eq!(reading.services[0].record().expect("a record").ssid, b"a");
    let refusal = connman::read(b"shop.config", &file("b\\x")).expect_err("a bad escape");
    assert_eq!((refusal.number(), refusal.line), (11, 4));
}
