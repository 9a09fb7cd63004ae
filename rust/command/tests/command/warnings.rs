//! Warnings: files that the library accepts, and that a till will not do with what was meant.

use crate::common::{Folder, DESK, SHOP};

/// A wifi service up to its name, four lines.
const TILL: &str = "[service_till]\nType = wifi\nName = Desk 4\nPassphrase = low tide 88\n";

/// A file, and the warnings of its check: line, sentence and word.
struct Case {
    name: &'static str,
    file: String,
    told: &'static [&'static str],
}

fn case(name: &'static str, file: impl ToString, told: &'static [&'static str]) -> Case {
    let file = file.to_string();
    Case { name, file, told }
}

/// Each warning of one file, and beside it the file that earns none.
fn cases() -> Vec<Case> {
    [of_services(), of_lost_lines(), of_texts(), of_iwd_settings(), of_odd_letters()]
        .into_iter()
        .flatten()
        .collect()
}

/// Of services that say nothing, and files that have none.
fn of_services() -> Vec<Case> {
    vec![
        case(
            "a.config",
            "[service_a]\nType = wifi\nName = Desk\n",
            &["1: warning: [service_a] has neither Passphrase nor Security, so it is a network without a key; Security = none says that this is meant [open-by-silence]"],
        ),
        case("a.config", "[service_a]\nType = wifi\nName = Desk\nSecurity = none\n", &[]),
        case("a.config", "[service_a]\nType = wifi\nName = Desk\nSecurity = wep\n", &[]),
        case("a.config", "[service_a]\nType = ethernet\n", &[]),
        case("a.config", TILL, &[]),
        case(
            "a.config",
            "",
            &[" warning: The file has no service, and a till gets no network from it; see whether it was cut short [no-service]"],
        ),
        case(
            "a.config",
            "[global]\nDescription = Till Hidden=true\n",
            &[
                " warning: The file has no service, and a till gets no network from it; see whether it was cut short [no-service]",
                "2: warning: Description has Hidden and an equal sign in it, and seems to have swallowed the next line; each setting stands on a line of its own [swallowed-line]",
            ],
        ),
    ]
}

/// Of lines that were swallowed or commented out.
fn of_lost_lines() -> Vec<Case> {
    vec![
        case(
            "a.config",
            "[service_a]\nType = wifi\nName = Desk 4 Passphrase = lowtide8\nSecurity = none\n",
            &["3: warning: Name has Passphrase and an equal sign in it, and seems to have swallowed the next line; each setting stands on a line of its own [swallowed-line]"],
        ),
        case(
            "a.config",
            "[service_a]\nType = wifi\nName = Desk 4 Pasphrase = lowtide8\nSecurity = none\n",
            &["3: warning: Name has a word for a passphrase and an equal sign in it, and seems to have swallowed the next line; each setting stands on a line of its own [swallowed-line]"],
        ),
        case(
            "a.config",
            TILL.replace("Desk 4", "Desk\\tpin=4711"),
            &["3: warning: Name has a word for a passphrase and an equal sign in it, and seems to have swallowed the next line; each setting stands on a line of its own [swallowed-line]"],
        ),
        case("a.config", TILL.replace("low tide 88", "my key=tide 88"), &[]),
        case(
            "a.config",
            format!("[global]\nDescription = Till Hidden=true\n{TILL}"),
            &["2: warning: Description has Hidden and an equal sign in it, and seems to have swallowed the next line; each setting stands on a line of its own [swallowed-line]"],
        ),
        case(
            "Desk.open",
            "[Security]\n # Passphrase = low tide 88\n",
            &["2: warning: The line is a Passphrase that is commented out, and the network is without a key; take the # away if it has one [commented-out-passphrase]"],
        ),
        case(
            "a.config",
            format!("{TILL}[service_b]\nType = wifi\nName = Left\nSecurity = none\n#Passphrase=low tide 88\n"),
            &["9: warning: The line is a Passphrase that is commented out, and the network is without a key; take the # away if it has one [commented-out-passphrase]"],
        ),
        case(
            "a.config",
            "## passphrase=low tide 88\n[service_a]\nType = wifi\nName = Desk\nSecurity = none\n",
            &["1: warning: The line is a Passphrase that is commented out, and the network is without a key; take the # away if it has one [commented-out-passphrase]"],
        ),
        case("a.config", format!("{TILL}# Passphrase = low tide 88\n# Hidden = true\n"), &[]),
    ]
}

/// Of marks and blanks around a text.
fn of_texts() -> Vec<Case> {
    vec![
        case(
            "Desk.psk",
            "[Security]\nPassphrase=\"low tide 88\"\n",
            &["2: warning: Passphrase stands in quotation marks, which count as a part of it; a value needs none [quoted-value]"],
        ),
        case(
            "a.config",
            TILL.replace("Desk 4", "'Desk 4'"),
            &["3: warning: Name stands in quotation marks, which count as a part of it; a value needs none [quoted-value]"],
        ),
        case("Desk.psk", "[Security]\nPassphrase=low \"tide\" 88\n", &[]),
        case(
            "Desk.psk",
            "[Security]\nPassphrase=low tide 88 # the old one\n",
            &["2: warning: Passphrase has a blank and # in it; there are no comments behind a value, and all of it counts [comment-behind-value]"],
        ),
        case(
            "a.config",
            TILL.replace("Desk 4", "Desk 4\t; left"),
            &["3: warning: Name has a blank and ; in it; there are no comments behind a value, and all of it counts [comment-behind-value]"],
        ),
        case("Desk.psk", "[Security]\nPassphrase=low#tide;88\n", &[]),
        case(
            "a.config",
            TILL.replace("88", "88 \t"),
            &["4: warning: Passphrase has blanks at its end; ConnMan counts them, and the papers and the move do not [trailing-blanks]"],
        ),
        case(
            "a.config",
            TILL.replace("88", "88\\s "),
            &["4: warning: Passphrase has blanks at its end; ConnMan counts them, and the papers and the move do not [trailing-blanks]"],
        ),
        case("a.config", TILL.replace("88", "88\\s"), &[]),
        case("a.config", TILL.replace("Desk 4", "Desk 4 "), &[]),
        case(
            "a.config",
            TILL.replace("Desk 4", "Desk 4\\s"),
            &["3: warning: Name ends in a blank or line end that is written as an escape; ConnMan cuts it off, and the papers and the move do not [escaped-end]"],
        ),
        case("a.config", TILL.replace("Desk 4", "Desk 4\\n\nSSID = 446573"), &[]),
        case("a.config", TILL.replace("Desk 4", "\\sDesk 4\\\\"), &[]),
        case("a.config", TILL.replace("Desk 4", "Desk 4\\s# left"), &[]),
        case("a.config", TILL.replace("low tide", "low\\tide\\\\"), &[]),
    ]
}

/// Of settings that iwd takes otherwise.
fn of_iwd_settings() -> Vec<Case> {
    let key = "0".repeat(64);
    vec![
        case(
            "Desk.psk",
            format!("[Security]\nPassphrase=low tide 88\nPreSharedKey={key}\n"),
            &["3: warning: Passphrase and PreSharedKey are both given; the passphrase counts by the papers, and on a WPA2 network iwd takes the key [both-keys]"],
        ),
        case(
            "Desk.open",
            "[IPv4]\nAddress=10.0.0.2\nNetmask=255.255.255.254\nGateway=10.0.0.3\n",
            &["3: warning: The mask has length 31; iwd does not connect with one of 31 or 32 [long-mask]"],
        ),
        case("Desk.open", "[IPv4]\nAddress=10.0.0.2\nNetmask=255.255.255.252\nGateway=10.0.0.1\n", &[]),
        case(
            "Desk.open",
            "[IPv4]\nDNS=10.0.0.2  10.0.0.3\n",
            &["2: warning: DNS has two spaces in a row or one at its end; iwd does not connect with such a list [dns-blanks]"],
        ),
        case(
            "Desk.open",
            "[IPv4]\nDNS=10.0.0.2 \n",
            &["2: warning: DNS has two spaces in a row or one at its end; iwd does not connect with such a list [dns-blanks]"],
        ),
        case("Desk.open", "[IPv4]\nDNS=10.0.0.2 10.0.0.3\n", &[]),
        case(
            "Desk.open",
            "[IPv4]\nDomainName=shop.example\n",
            &["2: warning: DomainName is never read by iwd 2.3; nothing comes of it [domain-unread]"],
        ),
    ]
}

/// Of names and texts that iwd does not take.
fn of_odd_letters() -> Vec<Case> {
    vec![
        case(
            "=436166e9.open",
            "",
            &[" warning: The network name is not UTF-8; iwd passes over such a file without a word [name-not-utf8]"],
        ),
        case("=436166c3a9.open", "", &[]),
        case(
            "Desk.psk",
            "[Security]\nPassphrase=low tide \u{fffe}\n",
            &["2: warning: Passphrase has a Unicode noncharacter in it; iwd refuses the whole file [noncharacter]"],
        ),
        case(
            "=4465736befb790.open",
            "",
            &[" warning: The network name has a Unicode noncharacter in it; iwd refuses the whole file [noncharacter]"],
        ),
        case("Desk.psk", "# \u{fffe}\n[Security]\nPassphrase=low tide \u{fffd}\n", &[]),
    ]
}

#[test]
fn each_warning_is_told_with_its_line_and_its_word() {
    let folder = Folder::new("warnings");
    for case in cases() {
        folder.write(case.name, &case.file);
        let lines: Vec<String> = case.told.iter().map(|told| format!("{}:{told}\n", case.name)).collect();
        folder.run(&["check", case.name]).gives(0, &lines.concat(), "");
        folder.run(&["check", "--no-warnings", case.name]).gives(0, "", "");
        let code = i32::from(!lines.is_empty());
        folder.run(&["check", "--strict", case.name]).gives(code, &lines.concat(), "");
        let shown = folder.run(&["show", case.name]);
        assert_eq!(shown.code, Some(0));
        assert!(lines.iter().all(|line| shown.out.contains(line)), "{}", shown.out);
        assert_eq!(folder.run(&["show", "--strict", case.name]).code, Some(code));
        assert!(!folder.run(&["show", "--no-warnings", case.name]).out.contains("warning:"));
        std::fs::remove_file(folder.path().join(case.name)).unwrap();
    }
}

#[test]
fn every_word_is_earned_and_explained() {
    let folder = Folder::new("words");
    let listed = folder.run(&["explain"]).out;
    let words: Vec<&str> = listed.lines().skip(19).filter_map(|line| line.split_whitespace().next()).collect();
    assert_eq!(words.len(), 19, "{listed}");
    let page = include_str!("../../../../man/qewaris.1").replace("\\-", "-");
    let told: Vec<String> = cases().iter().flat_map(|case| case.told).map(|told| told.to_string()).collect();
    let elsewhere = ["both-suffixes", "readable-by-others", "two-keys", "one-address", "empty-folder"];
    for word in words {
        let is_earned = told.iter().any(|line| line.ends_with(&format!("[{word}]")));
        assert!(is_earned || elsewhere.contains(&word), "{word}");
        let run = folder.run(&["explain", word]);
        assert_eq!((run.code, run.err.as_str()), (Some(0), ""));
        assert!(run.out.starts_with(&format!("{word}: ")), "{}", run.out);
        assert!(page.contains(&format!("\n.TP\n.B {word}\n")), "the man page has no {word}");
        for heading in ["\nWhat to do\n", "\nWhere this comes from\n"] {
            assert!(run.out.contains(heading), "{}", run.out);
        }
        assert!(run.out.lines().all(|line| line.len() <= 110), "{}", run.out);
    }
    let told = "qewaris: There is no refusal and no warning open-by-noise. Try qewaris explain --help\n";
    folder.run(&["explain", "open-by-noise"]).gives(3, "", told);
}

#[test]
fn the_worked_files_earn_none() {
    let folder = Folder::new("none-earned");
    folder.write("shop.config", SHOP);
    folder.write("Desk 4.psk", DESK);
    folder.run(&["check", "--strict", "shop.config", "Desk 4.psk"]).gives(0, "", "");
}

#[test]
fn warnings_are_counted_in_the_summary() {
    let folder = Folder::new("counted");
    folder.write("a/a.config", "[service_a]\nType = wifi\nName = Desk\n");
    folder.write("a/b.psk", "[Security]\nPassphrase='low tide 88' # x\n");
    folder.write("a/c.psk", DESK);
    let run = folder.run(&["check", "a"]);
    assert_eq!((run.code, run.err.as_str()), (Some(0), ""));
    let end = "2 warnings, in 2 files; qewaris explain WORD tells more\n3 good, 0 refused, 0 unreadable, 0 skipped\n";
    assert!(run.out.ends_with(end), "{}", run.out);
    let run = folder.run(&["check", "--strict", "a"]);
    assert_eq!(run.code, Some(1));
    assert_eq!(run.err, "qewaris: 2 of 3 files did not pass: a/a.config, a/b.psk\n");
    let told = "qewaris: Only one of --strict and --no-warnings can be given. Try qewaris check --help\n";
    folder.run(&["check", "--strict", "--no-warnings", "a"]).gives(3, "", told);
}

#[test]
fn a_move_tells_open_by_silence_on_its_line_and_in_its_summary() {
    let folder = Folder::new("silence");
    folder.write("a.config", "[service_a]\nType = wifi\nName = Desk\n");
    let warning = "a.config:1: warning: [service_a] has neither Passphrase nor Security, so it is a network without a key; \
                   Security = none says that this is meant [open-by-silence]\n";
    let told = format!("{warning}Desk.open: written from service 1, [service_a]\n1 written, 1 of them OPEN by silence: Desk.open\n");
    let strict = "qewaris: nothing was written: with --strict a warning stands in the way\n";
    folder.run(&["move", "--strict", "a.config"]).gives(1, warning, strict);
    assert_eq!(folder.names(), ["a.config"]);
    folder.run(&["move", "--strict", "--dry-run", "a.config"]).gives(1, warning, strict);
    folder.run(&["move", "a.config"]).gives(0, &told, "");
    assert_eq!(folder.names(), ["Desk.open", "a.config"]);
    let told = "Desk.open: written from service 1, [service_a]\n";
    folder.run(&["move", "--force", "--no-warnings", "a.config"]).gives(0, told, "");
    folder.write("b.config", "[service_b]\nType = wifi\nName = Left\nSecurity = none\n");
    let told = "Left.open: written from service 1, [service_b]\n";
    folder.run(&["move", "--strict", "b.config"]).gives(0, told, "");
}

#[test]
fn what_concerns_the_new_file_only_is_told_at_the_move() {
    let folder = Folder::new("new-file");
    let base = "[service_a]\nType = wifi\nName = Desk\nSecurity = none\n";
    let cases = [
        (
            "IPv4 = 10.0.0.2/31/10.0.0.3\n",
            "a.config:5: warning: The mask has length 31; iwd does not connect with one of 31 or 32 [long-mask]\n",
        ),
        (
            "Domain = shop.example\n",
            "a.config:5: warning: Domain becomes DomainName, which iwd 2.3 never reads; nothing comes of it [domain-unread]\n",
        ),
        (
            "SSID = 436166e9\n",
            "a.config:5: warning: The network name is not UTF-8; iwd passes over such a file without a word [name-not-utf8]\n",
        ),
        (
            "SSID = efbfbe\n",
            "a.config:5: warning: The network name has a Unicode noncharacter in it; iwd refuses the whole file [noncharacter]\n",
        ),
    ];
    for (line, warning) in cases {
        folder.write("a.config", format!("{base}{line}"));
        folder.run(&["check", "--strict", "a.config"]).gives(0, "", "");
        let run = folder.run(&["move", "--strict", "--dry-run", "a.config"]);
        assert_eq!((run.code, run.out.as_str()), (Some(1), warning));
    }
}

#[test]
fn the_same_network_with_the_other_suffix_is_told() {
    let folder = Folder::new("suffixes");
    folder.write("a.config", TILL);
    folder.write("out/Desk 4.open", "");
    let warning = "out/Desk 4.open: warning: The network has a key in Desk 4.psk, and this file joins one of the same name without; \
                   keep the one that is meant [both-suffixes]\n";
    let strict = "qewaris: nothing was written: with --strict a warning stands in the way\n";
    folder
        .run(&["move", "a.config", "--to", "out", "--strict"])
        .gives(1, warning, strict);
    let told = format!("{warning}out/Desk 4.psk: written from service 1, [service_till]\n1 written\n");
    folder.run(&["move", "a.config", "--to", "out"]).gives(0, &told, "");
    let two = format!("{TILL}[service_b]\nType = wifi\nName = Desk 4\nSecurity = none\n");
    folder.write("two.config", two);
    let run = folder.run(&["move", "two.config", "--all", "--strict"]);
    assert_eq!(run.code, Some(1));
    assert_eq!(run.out, warning.replace("out/", ""));
}

#[test]
fn a_swallowed_passphrase_is_nowhere() {
    let folder = Folder::new("swallowed");
    folder.write("a.config", "[service_a]\nType = wifi\nName = Desk 4 Passphrase = quayside\n");
    let hex = "4465736b20342050617373706872617365203d207175617973696465";
    let runs: [&[&str]; 6] = [
        &["check", "-v", "a.config"],
        &["show", "a.config"],
        &["show", "--json", "a.config"],
        &["move", "--dry-run", "a.config"],
        &["move", "a.config"],
        &["move", "a.config"],
    ];
    for arguments in runs {
        let run = folder.run(arguments);
        for text in [run.out, run.err] {
            assert!(
                !text.contains("quayside") && !text.contains(hex) && !text.contains("7175617973696465"),
                "{text}"
            );
        }
    }
    assert_eq!(folder.names(), [format!("={hex}.open"), "a.config".to_string()]);
    let shown = folder.run(&["show", "--secrets", "a.config"]).out;
    assert!(shown.contains("Desk 4 Passphrase = quayside"), "{shown}");
}
