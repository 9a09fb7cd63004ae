//! The string lookups: each hands back the stretch still escaped, in both formats, and beside it the bytes that it means, which are those
//! of the join record.

use qewaris::*;

/// A string as it stands, and what it means.
const STRINGS: &[(&str, &[u8])] = &[
    ("low tide 88", b"low tide 88"),
    ("low\\tide 88", b"low\tide 88"),
    ("low\\\\tide 88", b"low\\tide 88"),
    ("low\tide 88", b"low\tide 88"),
    ("\\s\\t\\r\\n\\\\low tide", b" \t\r\n\\low tide"),
    ("low tide\\s", b"low tide "),
    ("low tide\\t", b"low tide\t"),
    ("low tide\\\\", b"low tide\\"),
    ("\\s\\s\\s\\s\\s\\s\\s\\s", b"        "),
    ("caf\u{e9}\\\\\\scaf\u{e9}", b"caf\xc3\xa9\\ caf\xc3\xa9"),
];

/// What a lookup answers.
type Found<'a> = Result<Option<Text<'a>>, Refusal>;

#[track_caller]
fn expect(found: Found<'_>, line: usize, stretch: &str, meant: &[u8]) {
    let text = found.unwrap().expect("it is there");
    assert_eq!((text.line, text.bytes), (line, stretch.as_bytes()));
    assert_eq!(*text.unescaped(), *meant, "{stretch}");
}

#[test]
fn those_of_a_connman_file_are_unescaped() {
    for (stretch, meant) in STRINGS {
        let file = format!(
            "[global]\nName = {stretch}\nDescription = {stretch} \t\n[service_a]\nType = wifi\nName = {stretch}\n\
             Passphrase = {stretch}\t \nDomain = {stretch}\n"
        );
        let (name, file) = (b"shop.config", file.as_bytes());
        expect(global_name(name, file), 2, stretch, meant);
        expect(global_description(name, file), 3, stretch, meant);
        expect(service_name(name, file, 1), 6, stretch, meant);
        expect(service_passphrase(name, file, 1), 7, stretch, meant);
        expect(service_domain(name, file, 1), 8, stretch, meant);
        let settings = service_settings(name, file, 1).unwrap();
        assert_eq!((settings.network.name_line, settings.network.passphrase_line), (Some(6), Some(7)));
        assert_eq!(settings.addresses.domain_line, Some(8));
        let record = service_record(name, file, 1).unwrap();
        assert_eq!(record.name, *meant);
        assert_eq!(record.credential, Credential::Passphrase(meant.to_vec()));
        assert_eq!(record.domain, *meant);
        let moved = move_service(name, file, 1).unwrap();
        assert_eq!(iwd_record(&moved.name, &moved.file), Ok(record));
    }
}

#[test]
fn those_of_an_iwd_file_are_unescaped() {
    for (stretch, meant) in STRINGS {
        let file = format!("[Security]\nPassphrase={stretch}\n[IPv4]\nDomainName={stretch}\n");
        let (name, file) = (b"Desk 4.psk", file.as_bytes());
        expect(iwd_passphrase(name, file), 2, stretch, meant);
        expect(iwd_domain_name(name, file), 4, stretch, meant);
        let record = iwd_record(name, file).unwrap();
        assert_eq!(
            (record.credential, record.domain),
            (Credential::Passphrase(meant.to_vec()), meant.to_vec())
        );
    }
}

#[test]
fn a_bad_escape_is_refused_in_each_string() {
    let service = "[service_a]\nType = wifi\n";
    for value in ["low\\dtide 88", "low tide 88\\", "low tide 88\\ \t", "\\", "\\S", "a\\\\\\"] {
        let files = [
            (format!("[global]\nName = {value}\n"), 2),
            (format!("[global]\nDescription = {value}\n"), 2),
            (format!("{service}Name = {value}\n"), 3),
            (format!("{service}Passphrase = {value}\n"), 3),
            (format!("{service}Domain = {value}\n"), 3),
        ];
        for (file, line) in files {
            let refusal = check_connman(b"shop.config", file.as_bytes()).unwrap_err();
            assert_eq!((refusal.reason(), refusal.line()), (Reason::ValueText, Some(line)), "{file}");
        }
    }
}

#[test]
fn lists_have_no_escapes() {
    let file = b"[service_a]\nType = ethernet\nSearchDomains = a\\tb,\\\nTimeservers = \\q\n";
    let addresses = service_settings(b"shop.config", file, 1).unwrap().addresses;
    let entries = addresses.search_domains.iter().chain(&addresses.timeservers);
    let entries: Vec<&[u8]> = entries.map(|place| &file[place.clone()]).collect();
    assert_eq!(entries, [&b"a\\tb"[..], b"\\", b"\\q"]);
}
