//! `--json` of every command: an object a line, one schema, no member left out; and files from standard input.

use crate::common::json::{read, text, Value};
use crate::common::{Folder, Run, SHOP};
use std::io::Write;
use std::process::Stdio;

const PSK: &str = "[Security]\nPassphrase=low tide 88\n";

fn objects(run: &Run) -> Vec<Value> {
    run.out.lines().map(read).collect()
}

fn names(object: &Value) -> Vec<&str> {
    match object {
        Value::Object(members) => members.keys().map(String::as_str).collect(),
        _ => panic!("an object a line"),
    }
}

/// The members of each type, as the man page tells them.
const SCHEMA: &[(&str, &str)] = &[
    (
        "file",
        "command file file_hex format global kind reason record refusal service_count services setting_count settings state type warnings",
    ),
    (
        "row",
        "command credential file file_hex format group hidden ipv4 ipv6 iwd_name iwd_name_hex kind line moves network \
         network_hex refusals remedy service state type warnings",
    ),
    ("finding", "command files format network network_hex sentence type word"),
    (
        "move",
        "command file file_hex format group line refusals service state to to_hex type warnings",
    ),
    (
        "counts",
        "command format good left_out refused skipped type unreadable warnings written",
    ),
    ("explanation", "command format meaning number remedy source title type word"),
];

/// Runs that print objects of every type.
const RUNS: [&[&str]; 8] = [
    &["check", "--json", "a", "empty", "gone.psk"],
    &["show", "--json", "a", "empty", "gone.psk"],
    &["list", "--json", "a", "empty", "gone.psk"],
    &["move", "--json", "a", "gone.config", "--to", "out"],
    &[
        "move",
        "--json",
        "--skip-unplaced",
        "--dry-run",
        "a/silent.config",
        "a/stays.config",
        "--to",
        "a",
    ],
    &[
        "move",
        "--json",
        "--skip-unplaced",
        "a/silent.config",
        "a/stays.config",
        "--to",
        "out",
    ],
    &["explain", "--json"],
    &["explain", "--json", "open-by-silence"],
];

/// A folder with a file of each state.
fn mixed() -> Folder {
    let folder = Folder::new("json-all");
    folder.write("a/good.psk", PSK);
    folder.write(
        "a/fixed.psk",
        format!("{PSK}[IPv6]\nAddress=2001:db8::14/64\nGateway=2001:db8::1\n"),
    );
    folder.write("a/bad.psk", "");
    folder.write("a/notes.txt", "");
    folder.write("a/silent.config", "[service_a]\nType = wifi\nName = Quay\n");
    folder.write("a/stays.config", "[service_a]\nType = ethernet\nMAC = 02:00:5e:10:00:01\n");
    folder.write("a/Quay.psk", PSK);
    std::fs::create_dir(folder.path().join("empty")).unwrap();
    std::fs::create_dir(folder.path().join("out")).unwrap();
    folder
}

#[test]
fn every_object_has_every_member_of_its_type() {
    let folder = mixed();
    let mut seen = Vec::new();
    for arguments in RUNS {
        let run = folder.run(arguments);
        let all = objects(&run);
        assert!(!all.is_empty(), "{arguments:?}: {}", run.err);
        for object in &all {
            assert_eq!(*object.at("format"), Value::Number(4));
            assert_eq!(*object.at("command"), text(arguments[0]));
            let of_type = SCHEMA.iter().find(|(name, _)| *object.at("type") == text(name)).unwrap();
            assert_eq!(names(object).join(" "), of_type.1, "{arguments:?}");
            seen.push(of_type.0);
        }
    }
    assert!(SCHEMA.iter().all(|(name, _)| seen.contains(name)), "{seen:?}");
}

/// The members of what stands inside such an object: the arguments, the place, and the members.
const INNER: &[(&[&str], &str, &str)] = &[
    (&["check", "--json", "a/bad.psk"], "refusal", "advice line number sentence"),
    (&["check", "--json", "a/silent.config"], "warnings/0", "line sentence service word"),
    (&["show", "--json", "a/fixed.psk"], "settings", "IPv4 IPv6 Security Settings"),
    (&["show", "--json", "a/fixed.psk"], "settings/IPv6", "Address Enabled Gateway"),
    (
        &["show", "--json", "a/silent.config"],
        "services/0",
        "group iwd_name iwd_name_hex line move_refusals moves number record record_refusal settings",
    ),
    (
        &["show", "--json", "a/fixed.psk"],
        "record",
        "credential domain hidden ipv4 ipv6 key key_hidden name name_hex name_hidden name_servers passphrase passphrase_hidden",
    ),
    (
        &["show", "--json", "a/fixed.psk"],
        "record/ipv4",
        "address gateway method prefix_length",
    ),
    (
        &["show", "--json", "a/fixed.psk"],
        "record/ipv6",
        "address gateway method prefix_length",
    ),
    (&["list", "--json", "a/fixed.psk"], "ipv4", "address gateway method prefix_length"),
    (&["list", "--json", "a/fixed.psk"], "ipv6", "address gateway method prefix_length"),
];

#[test]
fn what_stands_inside_an_object_has_every_member() {
    let folder = mixed();
    for (arguments, place, members) in INNER {
        let all = objects(&folder.run(arguments));
        assert_eq!(names(all[0].at(place)).join(" "), *members, "{place} of {arguments:?}");
    }
}

#[test]
fn the_man_page_names_every_member() {
    let page = include_str!("../../../../man/qewaris.1");
    let inner = INNER.iter().map(|(_, place, members)| (*place, *members));
    for (name, members) in SCHEMA.iter().copied().chain(inner) {
        for member in members.split_whitespace() {
            assert!(page.contains(member), "{member} of {name}");
        }
    }
    for (name, _) in SCHEMA {
        assert!(page.contains(&format!("\"{name}\"")), "{name}");
    }
}

#[test]
fn check_tells_each_file() {
    let folder = mixed();
    let run = folder.run(&["check", "--json", "a", "gone.psk"]);
    assert_eq!(run.code, Some(2));
    let all = objects(&run);
    let of = |file: &str| {
        all.iter()
            .find(|object| *object.at("type") == text("file") && *object.at("file") == text(file))
            .unwrap()
    };
    let states = [
        ("a/good.psk", "good"),
        ("a/bad.psk", "refused"),
        ("a/notes.txt", "skipped"),
        ("gone.psk", "unreadable"),
    ];
    for (file, state) in states {
        assert_eq!(*of(file).at("state"), text(state));
    }
    assert_eq!(*of("a/bad.psk").at("refusal/number"), Value::Number(14));
    assert_eq!(*of("a/notes.txt").at("reason"), text("not an iwd or ConnMan file"));
    assert_eq!(*of("a/silent.config").at("warnings/0/word"), text("open-by-silence"));
    assert_eq!(*of("a/silent.config").at("warnings/0/line"), Value::Number(1));
    assert_eq!(*of("a/silent.config").at("warnings/0/service"), Value::Number(1));
    folder.write("Caf\u{e9}.psk", PSK);
    let told = objects(&folder.run(&["check", "--json", "Caf\u{e9}.psk"]));
    assert_eq!(*told[0].at("refusal/advice"), text("The right name is =436166c3a9.psk"));
}

#[test]
fn show_tells_whether_a_service_moves() {
    let folder = mixed();
    let moves = objects(&folder.run(&["show", "--json", "a/silent.config"]));
    let service = moves[0].at("services/0");
    assert_eq!(
        (service.at("moves"), service.at("iwd_name")),
        (&Value::Bool(true), &text("Quay.open"))
    );
    assert_eq!(*service.at("move_refusals"), Value::List(Vec::new()));
    let stays = objects(&folder.run(&["show", "--json", "a/stays.config"]));
    let service = stays[0].at("services/0");
    assert_eq!((service.at("moves"), service.at("iwd_name")), (&Value::Bool(false), &Value::Null));
    assert_eq!(*service.at("move_refusals/0/line"), Value::Number(2));
    assert_eq!(*service.at("move_refusals/1/line"), Value::Number(3));
}

#[test]
fn move_tells_each_service() {
    let folder = mixed();
    let run = folder.run(&[
        "move",
        "--json",
        "--skip-unplaced",
        "a/silent.config",
        "a/stays.config",
        "--to",
        "out",
    ]);
    assert_eq!((run.code, run.err.as_str()), (Some(0), ""));
    let all = objects(&run);
    assert_eq!((all[0].at("state"), all[0].at("to")), (&text("written"), &text("out/Quay.open")));
    assert_eq!((all[1].at("state"), all[1].at("to")), (&text("left-out"), &Value::Null));
    assert_eq!(
        (all[2].at("written"), all[2].at("left_out")),
        (&Value::Number(1), &Value::Number(1))
    );
    let all = objects(&folder.run(&["move", "--json", "a/silent.config", "a/stays.config", "--to", "out"]));
    assert_eq!((all[0].at("state"), all[1].at("state")), (&text("not-written"), &text("refused")));
    let dry = objects(&folder.run(&["move", "--json", "--dry-run", "a/silent.config", "--to", "a"]));
    assert_eq!(*dry[0].at("state"), text("would-be-written"));
    assert_eq!((dry[1].at("type"), dry[1].at("word")), (&text("finding"), &text("both-suffixes")));
}

/// Runs the command with a file on standard input.
fn fed(folder: &Folder, arguments: &[&str], file: &str) -> Run {
    let mut command = folder.command();
    command
        .args(arguments)
        .stdin(Stdio::piped())
        .stdout(Stdio::piped())
        .stderr(Stdio::piped());
    let mut child = command.spawn().unwrap();
    child.stdin.take().unwrap().write_all(file.as_bytes()).unwrap();
    Run::of(child.wait_with_output().unwrap())
}

#[test]
fn a_file_may_come_from_standard_input() {
    let folder = Folder::new("standard");
    folder.write("disk/shop.config", SHOP);
    fed(&folder, &["check", "-v", "-", "--stdin-name", "shop.config"], SHOP).gives(0, "shop.config: good, 7 settings, 1 service\n", "");
    let broken = "Desk.psk: error: The file has neither Passphrase nor PreSharedKey; a .psk file needs one of them [14]\n";
    fed(&folder, &["check", "--stdin-name=Desk.psk", "-"], "").gives(1, broken, "");
    let shown = folder.run(&["show", "disk/shop.config"]).out.replace("disk/", "");
    fed(&folder, &["show", "-", "--stdin-name", "shop.config"], SHOP).gives(0, &shown, "");
    let listed = fed(&folder, &["list", "-", "--stdin-name", "shop.config"], SHOP);
    assert!(listed.out.contains("good   shop.config  Desk 4"), "{}", listed.out);
    let told = "Desk 4.psk: written from service 1, [service_till]\n";
    fed(&folder, &["move", "-", "--stdin-name", "shop.config"], SHOP).gives(0, told, "");
    assert_eq!(folder.names(), ["Desk 4.psk", "disk"]);
}
