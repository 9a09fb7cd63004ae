//! Files with a passphrase and a key in likely and in odd places, made from random numbers.

use super::Random;

/// A file under a name, and the texts that must not be printed.
pub struct Generated {
    pub name: String,
    pub file: Vec<u8>,
    pub secrets: Vec<String>,
    /// The part of the passphrase that is in no other file.
    pub core: String,
}

impl Generated {
    /// The same file with a longer passphrase. No word that tells of a secret has a z, so the new letters make none.
    pub fn lengthened(&self) -> Vec<u8> {
        let (core, longer) = (self.core.as_bytes(), format!("{}zz", self.core));
        let mut found = Vec::new();
        let mut rest = self.file.as_slice();
        while let Some(place) = rest.windows(core.len()).position(|window| window == core) {
            found.extend(&rest[..place]);
            found.extend(longer.as_bytes());
            rest = &rest[place + core.len()..];
        }
        found.extend(rest);
        found
    }
}

/// The lines that a secret is put into, the passphrase in place of `%` and the key of `$`; what is behind `|` stands on the next line.
const PLACES: [&str; 71] = [
    "Name = Till Passphrase = %",
    "Name = Till Passphrase=%|Security = none",
    "Domain = shop passphrase = %",
    "Description = the till Passphrase = %",
    "DomainName=shop PreSharedKey = $",
    "SearchDomains = a,Passphrase=%",
    "Passphrase = % Name = Desk",
    "#Passphrase = %",
    "Passphrase=%",
    "Passphrase = %",
    "\t Passphrase\t=\t% \t",
    "passphrase=%",
    "PASSPHRASE = %",
    "PassPhrase=%",
    "Pass phrase = %",
    "Pasphrase=%",
    "Passphrases = %",
    "Passphrase: %",
    "Passphrase %",
    "Passphrase",
    "Passphrase=|%",
    "Passphrase = eightbyt|%",
    "Passphrase = eightbyt||% = 1",
    "Passphrase = eightbyt|[%]",
    "Passphrase = eightbyt|  % extra = more",
    "Passphrase = %|Passphrase = %",
    "Passphrase = %|Passphrase : %",
    "Passphrase = %|Description = about % here",
    "Passphrase = %|Domain = %",
    "Passphrase = %|DomainName=x %",
    "Passphrase = %|SearchDomains = %,%",
    "Passphrase = %|Colour = %",
    "Passphrase = %|[%]",
    "Passphrase = %|%",
    "Passphrase=%\\",
    "Passphrase = %\r",
    "Passphrase = %\u{1}",
    "Passphrase=%%%%%%%%%%",
    "Passphrase=\\s%\\\\",
    "Passphrase = %\\q",
    "Passphrase.=%",
    "Pass-phrase=%",
    "\u{feff}Passphrase=%",
    "PreSharedKey=$",
    "PreSharedKey = $$",
    "PreSharedKey=$0",
    "PreSharedKey=x$",
    "preshared key: $",
    "PSK=$",
    "Key = %",
    "wep_key0=%",
    "Password = %",
    "EAP-Password=%",
    "PrivateKeyPassphrase = %",
    "SAE-PT-Group19=$",
    "; Passphrase = %",
    "# Passphrase = %",
    "my passphrase is %",
    "%",
    "% = Passphrase",
    "% = 1",
    "% =",
    "= %",
    "[%]",
    "[%",
    "[Passphrase=%]",
    "[Security] Passphrase=%",
    "[@pem@%]",
    "Security = %",
    "Hidden = %|Type = %",
    "Address=%|Netmask=$",
];

/// Settings that a secret was put behind by mistake.
const WRONG_KEYS: [&str; 13] = [
    "AutoConnect",
    "AddressOverride",
    "Address",
    "Gateway",
    "Netmask",
    "DNS",
    "Enabled",
    "Type",
    "IPv4",
    "IPv6",
    "IPv6.Privacy",
    "Nameservers",
    "MAC",
];

/// A file: every third one good, the others with a secret in an odd place.
pub fn generated(random: &mut Random, number: usize) -> Generated {
    let core = core(random);
    let wrapped = wrapped(random, &core);
    let key: String = (0..64).map(|_| char::from(b"0123456789abcdef"[random.below(16)])).collect();
    let is_iwd = random.below(2) == 0;
    let (name, file) = if random.below(3) == 0 {
        good(random, is_iwd, number, &wrapped, &key)
    } else {
        odd(random, is_iwd, number, &wrapped, &key)
    };
    Generated {
        name,
        file,
        secrets: told_of(&core, &key),
        core,
    }
}

/// A good file that has the secret where it belongs, and in other texts.
fn good(random: &mut Random, is_iwd: bool, number: usize, secret: &str, key: &str) -> (String, Vec<u8>) {
    let file = match (is_iwd, random.below(3)) {
        (true, 0) => format!("[Security]\nPassphrase={secret}\nPreSharedKey={key}\n"),
        (true, 1) => format!("[IPv4]\nDomainName={key}\n[Security]\nPreSharedKey={}\n", key.to_uppercase()),
        (true, _) => format!("# {secret}\n[IPv4]\nDomainName=see {secret}\n[Security]\nPassphrase={secret}\n"),
        (false, _) => format!(
            "[global]\nName = {secret}\nDescription = it is {secret}.\n[service_till]\nType = wifi\nName = Desk {number}\n\
             Passphrase = {secret}\nDomain = {secret}\n[service_open]\nType = wifi\nName = Open {number}\nDomain = a{secret}\n"
        ),
    };
    let name = if is_iwd {
        format!("Desk {number}.psk")
    } else {
        format!("shop{number}.config")
    };
    (name, file.into_bytes())
}

fn odd(random: &mut Random, is_iwd: bool, number: usize, secret: &str, key: &str) -> (String, Vec<u8>) {
    let line = if random.below(5) == 0 {
        format!("{}={secret}", random.pick(&WRONG_KEYS))
    } else {
        random.pick(&PLACES).replace('$', key).replace('%', secret)
    };
    let mut lines: Vec<String> = surroundings(random, is_iwd, number);
    let place = if random.below(6) == 0 { 0 } else { 1 + random.below(lines.len()) };
    lines.splice(place..place, line.split('|').map(str::to_string));
    let mut file = lines.join("\n").into_bytes();
    if random.below(8) == 0 {
        let at = random.below(file.len());
        file.insert(at, u8::try_from(random.below(256)).unwrap());
    }
    let name = match (is_iwd, random.below(12)) {
        (true, 0) => format!("Desk {number}.open"),
        (true, _) => format!("Desk {number}.psk"),
        (false, _) => format!("shop{number}.config"),
    };
    (name, file)
}

/// A text that is in no message and no other file.
fn core(random: &mut Random) -> String {
    let letters = |random: &mut Random, count: usize, from: &[u8]| -> String {
        (0..count).map(|_| char::from(from[random.below(from.len())])).collect()
    };
    let lower = b"bcdfghjklmnpqrstvwxz";
    match random.below(5) {
        0 => letters(random, 10, lower),
        1 => format!("Q{}", letters(random, 9, lower)),
        2 => letters(random, 10, b"123456789"),
        3 => format!("{}{}", letters(random, 6, lower), letters(random, 4, b"123456789")),
        _ => letters(random, 12, b"0123456789ABCDEF"),
    }
}

/// The text with something around it, as passphrases have.
fn wrapped(random: &mut Random, core: &str) -> String {
    match random.below(11) {
        0 => format!("{core} and more"),
        1 => format!("two words {core}"),
        2 => format!("\"{core}\""),
        3 => format!("{core}=88"),
        4 => format!("caf\u{e9} {core}"),
        5 => format!("{core}\\\\x"),
        6 => format!("\\s{core}\\s"),
        7 => format!("low\\t{core}\\n8"),
        _ => core.to_string(),
    }
}

/// A good file, or one that would be good.
fn surroundings(random: &mut Random, is_iwd: bool, number: usize) -> Vec<String> {
    let iwd: [&[&str]; 4] = [
        &["[Security]"],
        &["[Settings]", "Hidden=true", "[Security]"],
        &["# passphrase of the till", "[Security]", "[IPv4]", "DNS=10.0.0.2"],
        &["[IPv6]", "Enabled=false"],
    ];
    let connman: [&[&str]; 3] = [
        &["[service_till]", "Type = wifi", "Name = Desk"],
        &[
            "[global]",
            "Description = Office",
            "[service_till]",
            "Type = wifi",
            "Name = Desk",
            "Hidden = true",
        ],
        &["[service_till]", "Type = ethernet"],
    ];
    let lines = if is_iwd { random.pick(&iwd) } else { random.pick(&connman) };
    let mut lines: Vec<String> = lines.iter().map(|line| line.replace("Desk", &format!("Desk {number}"))).collect();
    if is_iwd && random.below(3) == 0 {
        lines.push(format!("# {number}"));
    }
    lines
}

/// The texts that must not be printed: the secret itself, the key, and both in hex of either case.
fn told_of(core: &str, key: &str) -> Vec<String> {
    let hex: String = core.bytes().map(|byte| format!("{byte:02x}")).collect();
    let key_hex: String = key.bytes().map(|byte| format!("{byte:02x}")).collect();
    let texts = [core.to_string(), key.to_string(), hex, key_hex];
    texts.into_iter().map(|text| text.to_lowercase()).collect()
}
