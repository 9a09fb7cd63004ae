//! `qewaris move`: what is written, and that nothing is written where it must not be.

use crate::common::{Folder, DESK, SHOP};
use std::fs;
use std::os::unix::fs::{symlink, PermissionsExt};
use std::process::Command;

const TWO: &str =
    "[service_a]\nType = wifi\nName = Left\nPassphrase = low tide 88\n[service_b]\nType = wifi\nName = Right\nSecurity = none\n";

#[test]
fn the_worked_move_is_written_for_its_owner_only() {
    let folder = Folder::new("worked");
    folder.write("shop.config", SHOP);
    folder
        .run(&["move", "shop.config"])
        .gives(0, "Desk 4.psk: written from service 1, [service_till]\n", "");
    assert_eq!(folder.read("Desk 4.psk"), DESK.as_bytes());
    assert_eq!(folder.mode("Desk 4.psk"), 0o600);
    assert_eq!(folder.names(), ["Desk 4.psk", "shop.config"]);
    folder.run(&["check", "Desk 4.psk"]).gives(0, "", "");
}

#[test]
fn a_wide_umask_opens_nothing() {
    let folder = Folder::new("umask");
    folder.write("shop.config", SHOP);
    let run = format!("umask 000; exec '{}' move shop.config", env!("CARGO_BIN_EXE_qewaris"));
    let output = Command::new("sh").args(["-c", &run]).current_dir(folder.path()).output().unwrap();
    assert!(output.status.success());
    assert_eq!(folder.mode("Desk 4.psk"), 0o600);
}

#[test]
fn nothing_is_overwritten_without_force() {
    let folder = Folder::new("force");
    folder.write("shop.config", SHOP);
    folder.write("out/Desk 4.psk", "mine");
    let told = "qewaris: out/Desk 4.psk is there already; --force overwrites it\nqewaris: nothing was written\n";
    folder.run(&["move", "shop.config", "--to", "out"]).gives(1, "", told);
    assert_eq!(folder.read("out/Desk 4.psk"), b"mine");
    let told = "out/Desk 4.psk: written from service 1, [service_till]\n";
    folder.run(&["move", "shop.config", "--to=out", "--force"]).gives(0, told, "");
    assert_eq!(folder.read("out/Desk 4.psk"), DESK.as_bytes());
    assert_eq!(folder.mode("out/Desk 4.psk"), 0o600);
    assert_eq!(crate::common::names_in(&folder.path().join("out")), ["Desk 4.psk"]);
}

#[test]
fn a_link_in_the_way_is_replaced_and_not_followed() {
    let folder = Folder::new("link");
    folder.write("shop.config", SHOP);
    folder.write("elsewhere", "mine");
    symlink("elsewhere", folder.path().join("Desk 4.psk")).unwrap();
    assert_eq!(folder.run(&["move", "shop.config"]).code, Some(1));
    assert_eq!(folder.run(&["move", "shop.config", "--force"]).code, Some(0));
    assert_eq!(folder.read("elsewhere"), b"mine");
    assert_eq!(folder.read("Desk 4.psk"), DESK.as_bytes());
    let _ = fs::remove_file(folder.path().join("Desk 4.psk"));
    symlink("nowhere", folder.path().join("Desk 4.psk")).unwrap();
    assert_eq!(
        folder.run(&["move", "shop.config"]).code,
        Some(1),
        "a link to nothing is in the way too"
    );
}

#[test]
fn of_several_services_one_must_be_named_or_all() {
    let folder = Folder::new("several");
    folder.write("two.config", TWO);
    let told = "qewaris: two.config has 2 services; --service N or --all says which are to move. Try qewaris move --help\n";
    folder.run(&["move", "two.config"]).gives(3, "", told);
    assert_eq!(folder.names(), ["two.config"]);
    folder
        .run(&["move", "two.config", "--service", "2"])
        .gives(0, "Right.open: written from service 2, [service_b]\n", "");
    assert_eq!(folder.read("Right.open"), b"");
    let told = "qewaris: Right.open is there already; --force overwrites it\nqewaris: nothing was written\n";
    folder.run(&["move", "two.config", "--all"]).gives(1, "", told);
    assert_eq!(folder.names(), ["Right.open", "two.config"], "Left.psk is not written alone");
    let told = "Left.psk: written from service 1, [service_a]\nRight.open: written from service 2, [service_b]\n";
    folder.run(&["move", "two.config", "--all", "--force"]).gives(0, told, "");
    assert_eq!(folder.read("Left.psk"), b"[Security]\nPassphrase=low tide 88\n");
    let run = folder.run(&["move", "two.config", "--service", "3"]);
    assert_eq!(
        (run.code, run.out.as_str()),
        (Some(1), "two.config: error: There is no service 3; the file has 2 [18]\n")
    );
}

#[test]
fn a_file_without_services_has_nothing_to_move() {
    let folder = Folder::new("none");
    folder.write("empty.config", "");
    for arguments in [&["move", "empty.config"][..], &["move", "empty.config", "--all"]] {
        let told = "empty.config: error: There is no service 1; the file has none [18]\n";
        folder.run(arguments).gives(1, told, "qewaris: nothing was written\n");
    }
}

#[test]
fn each_service_without_a_place_is_named_and_nothing_is_written() {
    let folder = Folder::new("unplaced");
    let file = format!("{TWO}MAC = 02:00:5e:10:00:01\n[service_c]\nType = ethernet\n");
    folder.write("three.config", file);
    let told = "three.config:9: error: [service_b] has MAC, which picks an interface and has no place in iwd; \
                a service without it moves [16]\n    MAC = 02:00:5e:10:00:01\n    ^\n\
                three.config:11: error: [service_c] is ethernet, which has no place in iwd; only wifi moves [16]\n\
                \x20   Type = ethernet\n           ^\n";
    folder
        .run(&["move", "three.config", "--all"])
        .gives(1, told, "qewaris: nothing was written\n");
    assert_eq!(folder.names(), ["three.config"]);
}

#[test]
fn two_services_of_one_file_name_are_an_error() {
    let folder = Folder::new("clash");
    folder.write(
        "two.config",
        TWO.replace("Right\nSecurity = none", "Left\nPassphrase = high tide 99"),
    );
    let told = "qewaris: two.config: [service_a] on line 1 and [service_b] on line 5 would both be Left.psk; --service picks one of them\n\
                qewaris: nothing was written\n";
    folder.run(&["move", "two.config", "--all", "--force"]).gives(1, "", told);
    assert_eq!(folder.names(), ["two.config"]);
    assert_eq!(folder.run(&["move", "two.config", "--service", "2"]).code, Some(0));
}

#[test]
fn a_dry_run_shows_all_but_secrets_and_writes_nothing() {
    let folder = Folder::new("dry");
    folder.write("shop.config", SHOP);
    let shown = DESK.replace("low\tide 88", "..........").replace('\n', "\n    ");
    let told = format!("Desk 4.psk: 167 bytes from service 1, [service_till]\n    {}\n", shown.trim_end());
    folder.run(&["move", "--dry-run", "shop.config"]).gives(0, &told, "");
    assert_eq!(folder.names(), ["shop.config"]);
    folder.write("Desk 4.psk", "mine");
    let there = "qewaris: Desk 4.psk is there already; --force overwrites it\nqewaris: nothing was written\n";
    folder.run(&["move", "--dry-run", "shop.config"]).gives(1, &told, there);
    folder.run(&["move", "--dry-run", "--force", "shop.config"]).gives(0, &told, "");
    assert_eq!(folder.read("Desk 4.psk"), b"mine");
}

#[test]
fn a_name_of_any_bytes_has_a_plain_file_name() {
    let folder = Folder::new("hex-name");
    folder.write("a.config", "[service_a]\nType = wifi\nSSID = 2e2e2f61c3a9\nSecurity = none\n");
    let told = "=2e2e2f61c3a9.open: written from service 1, [service_a]\n";
    folder.run(&["move", "a.config"]).gives(0, told, "");
    assert_eq!(folder.names(), ["=2e2e2f61c3a9.open", "a.config"]);
    folder.write("b.config", "[service_b]\nType = wifi\nSSID = 2e2e2f61ff\nSecurity = none\n");
    assert_eq!(folder.run(&["move", "b.config"]).code, Some(0));
    assert_eq!(folder.read("=2e2e2f61ff.open"), b"");
}

#[test]
fn only_connman_files_move() {
    let folder = Folder::new("iwd-move");
    folder.write("Desk.open", "");
    let told = "Desk.open: error: The file name is not ConnMan's; only a file of letters or digits and .config can be moved [2]\n";
    folder.run(&["move", "Desk.open"]).gives(1, told, "");
    folder.write("bad.config", "[service_a]\n");
    let told = "bad.config:1: error: [service_a] has no Type; it needs Type = wifi or Type = ethernet [14]\n    [service_a]\n    ^\n";
    folder.run(&["move", "bad.config"]).gives(1, told, "");
}

#[test]
fn a_folder_that_is_none_is_told() {
    let folder = Folder::new("no-folder");
    folder.write("shop.config", SHOP);
    let cases = [
        ("gone", "gone cannot be written: there is no such file or folder"),
        ("shop.config", "shop.config is no folder"),
        ("shop.config/a", "shop.config/a cannot be written: a part of its path is no folder"),
    ];
    for (to, sentence) in cases {
        let told = format!("qewaris: {sentence}\nqewaris: nothing was written\n");
        folder.run(&["move", "shop.config", "--to", to]).gives(2, "", &told);
        assert_eq!(folder.run(&["move", "--dry-run", "shop.config", "--to", to]).code, Some(2));
    }
    fs::create_dir(folder.path().join("Desk 4.psk")).unwrap();
    let told = "qewaris: Desk 4.psk is a folder\nqewaris: nothing was written\n";
    folder.run(&["move", "shop.config", "--force"]).gives(2, "", told);
    assert_eq!(folder.names(), ["Desk 4.psk", "shop.config"]);
}

#[test]
fn a_read_only_folder_is_left_as_it_is() {
    let folder = Folder::new("read-only");
    folder.write("shop.config", SHOP);
    let closed = folder.path().join("closed");
    fs::create_dir(&closed).unwrap();
    fs::set_permissions(&closed, fs::Permissions::from_mode(0o555)).unwrap();
    if let Some(run) = folder.run_bound(&["move", "shop.config", "--to", "closed"]) {
        let told = "qewaris: closed cannot be written: you have no permission for it\nqewaris: nothing was written\n";
        run.gives(2, "", told);
        let dry = folder.run_bound(&["move", "--dry-run", "shop.config", "--to", "closed"]).unwrap();
        assert_eq!((dry.code, dry.err.as_str()), (Some(2), told), "a dry run ends as the move would");
    }
    assert_eq!(crate::common::names_in(&closed), [""; 0]);
}

#[test]
fn a_folder_whose_name_is_no_utf8_works() {
    let folder = Folder::new("odd-folder");
    folder.write("shop.config", SHOP);
    let odd: &[u8] = b"t\xeflls";
    folder.write(<std::ffi::OsStr as std::os::unix::ffi::OsStrExt>::from_bytes(b"t\xeflls/other"), "");
    let run = folder.run_bytes(&[b"move", b"shop.config", b"--to", odd]);
    run.gives(0, "t\\xeflls/Desk 4.psk: written from service 1, [service_till]\n", "");
}
