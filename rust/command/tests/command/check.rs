//! `qewaris check` of single files.

use crate::common::{Folder, DESK, SHOP};
use std::ffi::OsStr;
use std::fs;
use std::os::unix::ffi::OsStrExt;
use std::os::unix::fs::PermissionsExt;

#[test]
fn a_good_file_is_passed_in_silence() {
    let folder = Folder::new("good");
    folder.write("shop.config", SHOP);
    folder.write("Desk 4.psk", DESK);
    folder.write("Desk.open", "");
    folder.run(&["check", "shop.config"]).gives(0, "", "");
    folder.run(&["check", "shop.config", "Desk 4.psk", "Desk.open"]).gives(0, "", "");
    folder
        .run(&["check", "-v", "shop.config"])
        .gives(0, "shop.config: good, 7 settings, 1 service\n", "");
    let all = "shop.config: good, 7 settings, 1 service\nDesk 4.psk: good, 7 settings\nDesk.open: good, 0 settings\n\
               3 good, 0 refused, 0 unreadable, 0 skipped\n";
    folder
        .run(&["check", "--verbose", "shop.config", "Desk 4.psk", "Desk.open"])
        .gives(0, all, "");
}

#[test]
fn a_broken_file_is_told_with_line_number_and_caret() {
    let folder = Folder::new("broken");
    folder.write("shop.config", SHOP.replace("low\\tide 88", "lowtide"));
    let told = "shop.config:4: error: Passphrase has 7 bytes; it needs 8 to 63 [12]\n    Passphrase = .......\n                 ^\n";
    folder.run(&["check", "shop.config"]).gives(1, told, "");
    folder.write("Desk.psk", "");
    let told = "Desk.psk: error: The file has neither Passphrase nor PreSharedKey; a .psk file needs one of them [14]\n";
    folder.run(&["check", "Desk.psk"]).gives(1, told, "");
}

#[test]
fn several_files_end_with_a_summary() {
    let folder = Folder::new("several");
    folder.write("shop.config", SHOP);
    folder.write("Desk.psk", "");
    let run = folder.run(&["check", "shop.config", "Desk.psk", "Gone.psk"]);
    assert_eq!(run.code, Some(2));
    let told = "qewaris: Gone.psk cannot be read: there is no such file or folder\n\
                qewaris: 2 of 3 files did not pass: Desk.psk, Gone.psk\n";
    assert_eq!(run.err, told);
    assert!(
        run.out.ends_with("[14]\n1 good, 1 refused, 1 unreadable, 0 skipped\n"),
        "{}",
        run.out
    );
}

#[test]
fn a_missing_file_is_an_error() {
    let folder = Folder::new("missing");
    let told = "qewaris: shop.config cannot be read: there is no such file or folder\n";
    folder.run(&["check", "shop.config"]).gives(2, "", told);
    folder.run(&["show", "shop.config"]).gives(2, "", told);
    folder.run(&["move", "shop.config"]).gives(2, "", told);
    folder.write("a", "");
    let told = "qewaris: a/shop.config cannot be read: a part of its path is no folder\n";
    folder.run(&["check", "a/shop.config"]).gives(2, "", told);
    fs::create_dir(folder.path().join("empty")).unwrap();
    for command in ["check", "show", "move"] {
        let told = format!("qewaris: empty has no iwd or ConnMan file in it: nothing to {command}\n");
        let run = folder.run(&[command, "empty"]);
        assert!(run.err.starts_with(&told), "{}", run.err);
        assert_eq!((run.code, run.out.as_str()), (Some(2), ""));
    }
}

#[test]
fn a_file_that_may_not_be_read_is_an_error() {
    let folder = Folder::new("forbidden");
    let path = folder.write("shop.config", SHOP);
    fs::set_permissions(&path, fs::Permissions::from_mode(0o000)).unwrap();
    if let Some(run) = folder.run_bound(&["check", "shop.config"]) {
        run.gives(2, "", "qewaris: shop.config cannot be read: you have no permission for it\n");
    }
}

#[test]
fn a_long_file_is_told_with_its_size() {
    let folder = Folder::new("long");
    folder.write("shop.config", vec![b'#'; 16_385]);
    let told = "shop.config: error: The file has 16,385 bytes; at most 16,384 are allowed [1]\n";
    folder.run(&["check", "shop.config"]).gives(1, told, "");
    folder.write("Desk.open", vec![b'#'; 16_384]);
    folder.run(&["check", "Desk.open"]).gives(0, "", "");
    // A file without an end is refused as well.
    std::os::unix::fs::symlink("/dev/zero", folder.path().join("zero.config")).unwrap();
    let told = "zero.config: error: The file has more than 16,384 bytes; at most 16,384 are allowed [1]\n";
    folder.run(&["check", "zero.config"]).gives(1, told, "");
}

#[test]
fn a_long_line_is_cut_around_the_place() {
    let folder = Folder::new("long-line");
    folder.write("a.config", format!("[service_a]\nTimeservers = {}\n", "ntp.example,".repeat(40)));
    let run = folder.run(&["check", "a.config"]);
    let lines: Vec<&str> = run.out.lines().collect();
    assert_eq!((run.code, lines.len()), (Some(1), 3));
    assert!(
        lines[1].starts_with("    [cut]") && lines[1].ends_with("[cut]") && lines[1].len() < 140,
        "{}",
        lines[1]
    );
    assert_eq!(lines[1].as_bytes()[lines[2].len() - 1], b'n', "the fifth entry begins there");
}

#[test]
fn control_bytes_do_not_reach_the_terminal() {
    let folder = Folder::new("control");
    folder.write("a.config", b"[global]\nName = \x1b]0;title\x07\xff\n");
    let run = folder.run(&["check", "a.config"]);
    assert!(run.out.contains("    Name = \\x1b]0;title\\x07\\xff\n"), "{}", run.out);
    let caret = run.out.lines().last().unwrap();
    assert_eq!(caret.len(), "    Name = \\x1b]0;title\\x07^".len());
    assert!(!run.out.contains('\x1b') && !run.out.contains('\x07'));
}

#[test]
fn a_name_that_is_no_utf8_works() {
    let folder = Folder::new("odd-name");
    let name: &[u8] = b"caf\xe9\x1b.psk";
    folder.write(OsStr::from_bytes(name), DESK);
    let run = folder.run_bytes(&[b"check", name]);
    let told = "caf\\xe9\\x1b.psk: error: The network name has byte 233 in it; \
                only letters, digits, space, _ and - stand plainly, other names are = and hex [2]\n    The right name is =636166e91b.psk\n";
    run.gives(1, told, "");
    let run = folder.run_bytes(&[b"check", b"gone\xff.psk"]);
    run.gives(2, "", "qewaris: gone\\xff.psk cannot be read: there is no such file or folder\n");
    folder.write(OsStr::from_bytes(b"f\xffg/Desk.psk"), "");
    let run = folder.run(&["check", "."]);
    assert!(run.out.contains("./f\\xffg/Desk.psk: error: The file has neither"), "{}", run.out);
    let run = folder.run_bytes(&[b"show", b"--json", b"f\xffg/Desk.psk"]);
    assert_eq!(run.code, Some(1));
    assert!(
        run.out.contains("\"file\":null,\"file_hex\":\"66ff672f4465736b2e70736b\","),
        "{}",
        run.out
    );
}

#[test]
fn a_full_disk_for_the_output_is_told() {
    let folder = Folder::new("full");
    folder.write("Desk.psk", "");
    let full = fs::OpenOptions::new().write(true).open("/dev/full").unwrap();
    let output = folder.command().args(["check", "Desk.psk"]).stdout(full).output().unwrap();
    assert_eq!(output.status.code(), Some(2));
    assert_eq!(
        String::from_utf8_lossy(&output.stderr),
        "qewaris: the output cannot be written: there is no room left\n"
    );
}
