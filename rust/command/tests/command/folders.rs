//! `qewaris check` of folders.

use crate::common::{Folder, DESK, SHOP};
use std::fs;
use std::os::unix::fs::{symlink, PermissionsExt};
use std::process::Command;

#[test]
fn a_folder_of_good_files_is_passed_in_silence() {
    let folder = Folder::new("all-good");
    folder.write("a/shop.config", SHOP);
    folder.write("a/Desk 4.psk", DESK);
    folder.write("a/b/Desk.open", "");
    folder.run(&["check", "a"]).gives(0, "", "");
    folder.run(&["check", "a/", "a/b"]).gives(0, "", "");
    let all = "a/Desk 4.psk: good, 7 settings\na/b/Desk.open: good, 0 settings\na/shop.config: good, 7 settings, 1 service\n\
               3 good, 0 refused, 0 unreadable, 0 skipped\n";
    folder.run(&["check", "-v", "a"]).gives(0, all, "");
}

#[test]
fn other_files_are_skipped_in_one_line_and_named_where_asked() {
    let folder = Folder::new("skipped");
    folder.write("a/shop.config", SHOP);
    folder.write("a/notes.txt", "");
    folder.write("a/shop.config~", "");
    folder.write("a/Head office.8021x", "");
    folder.write("a/.git/config", "");
    folder.write("a/._shop.config", "");
    let told = "a/._shop.config: skipped: a note that a Mac keeps beside a file\na/.git: skipped: a hidden folder\n\
                a/Head office.8021x: skipped: 802.1X files are not checked\n\
                a/notes.txt: skipped: not an iwd or ConnMan file\na/shop.config: good, 7 settings, 1 service\n\
                a/shop.config~: skipped: not an iwd or ConnMan file\n\
                1 good, 0 refused, 0 unreadable, 5 skipped\n";
    folder.run(&["check", "-v", "a"]).gives(0, told, "");
    let told = "skipped: 2 other files, 1 802.1X file, 1 hidden folder, 1 Mac note; --verbose names each\n\
                1 good, 0 refused, 0 unreadable, 5 skipped\n";
    folder.run(&["check", "a"]).gives(0, told, "");
}

#[test]
fn a_misspelled_suffix_is_judged_and_not_passed_over() {
    let folder = Folder::new("suffix");
    folder.write("a/Desk.PSK", DESK);
    let told = "a/Desk.PSK: error: The file name ends in .PSK; it must end in .psk, in lower case [2]\n    The right name is Desk.psk\n\
                0 good, 1 refused, 0 unreadable, 0 skipped\n";
    folder.run(&["check", "a"]).gives(1, told, "");
}

#[test]
fn a_folder_without_a_network_file_does_not_pass() {
    let folder = Folder::new("empty");
    let told = "qewaris: stick has no iwd or ConnMan file in it: nothing to check\n";
    folder.write("stick/notes.txt", "");
    let counted = "skipped: 1 other file; --verbose names each\n0 good, 0 refused, 1 unreadable, 1 skipped\n";
    folder.run(&["check", "stick"]).gives(2, counted, told);
    folder.write("a/shop.config", SHOP);
    let run = folder.run(&["check", "a", "stick"]);
    assert_eq!(run.code, Some(2));
    assert_eq!(run.err, format!("{told}qewaris: 1 of 2 files did not pass: stick\n"));
}

#[test]
fn a_thousand_files_are_checked() {
    let folder = Folder::new("thousand");
    for number in 0..1000 {
        folder.write(format!("many/Desk {number}.psk"), DESK);
    }
    folder.run(&["check", "many"]).gives(0, "", "");
    for number in [17, 500, 998] {
        folder.write(format!("many/Desk {number}.psk"), "");
    }
    let run = folder.run(&["check", "many"]);
    let told = "qewaris: 3 of 1000 files did not pass: many/Desk 17.psk, many/Desk 500.psk, many/Desk 998.psk\n";
    assert_eq!((run.code, run.err.as_str()), (Some(1), told));
    let lines: Vec<&str> = run.out.lines().collect();
    assert_eq!(lines.len(), 4);
    assert!(lines[0].starts_with("many/Desk 17.psk: error: "));
    assert_eq!(lines[3], "997 good, 3 refused, 0 unreadable, 0 skipped");
}

#[test]
fn links_and_other_things_do_not_stop_the_walk() {
    let folder = Folder::new("links");
    folder.write("a/shop.config", SHOP);
    symlink("shop.config", folder.path().join("a/linked.config")).unwrap();
    symlink(".", folder.path().join("a/round")).unwrap();
    symlink(".", folder.path().join("a/round.config")).unwrap();
    symlink("gone", folder.path().join("a/dangling.psk")).unwrap();
    let made = Command::new("mkfifo").arg(folder.path().join("a/pipe.config")).status().unwrap();
    assert!(made.success());
    let run = folder.run(&["check", "-v", "a"]);
    let told = "qewaris: a/dangling.psk cannot be read: there is no such file or folder\n\
                qewaris: 1 of 3 files did not pass: a/dangling.psk\n";
    assert_eq!(run.err, told);
    let told = "a/linked.config: good, 7 settings, 1 service\na/pipe.config: skipped: not a plain file\n\
                a/round: skipped: a link to a folder, which is not followed\n\
                a/round.config: skipped: a link to a folder, which is not followed\n\
                a/shop.config: good, 7 settings, 1 service\n2 good, 0 refused, 1 unreadable, 3 skipped\n";
    assert_eq!((run.out.as_str(), run.code), (told, Some(2)));
    let told = "skipped: 2 folder links, 1 special file; --verbose names each\n2 good, 0 refused, 1 unreadable, 3 skipped\n";
    assert_eq!(folder.run(&["check", "a"]).out, told);
}

#[test]
fn a_folder_that_may_not_be_read_is_an_error() {
    let folder = Folder::new("closed");
    folder.write("a/b/shop.config", SHOP);
    let closed = folder.path().join("a/b");
    fs::set_permissions(&closed, fs::Permissions::from_mode(0o000)).unwrap();
    let run = folder.run_bound(&["check", "a"]);
    fs::set_permissions(&closed, fs::Permissions::from_mode(0o700)).unwrap();
    if let Some(run) = run {
        assert_eq!(run.err, "qewaris: a/b cannot be read: you have no permission for it\n");
        assert_eq!(run.code, Some(2));
    }
}
