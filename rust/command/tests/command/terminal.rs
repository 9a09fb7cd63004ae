//! Colour and progress, on a terminal only. `script` stands in for one; where it is missing there is nothing to try.

use crate::common::{Folder, DESK};
use std::process::Command;

/// What a terminal gets to see.
fn on_terminal(folder: &Folder, arguments: &str, variables: &[(&str, &str)]) -> Option<String> {
    let mut command = Command::new("script");
    let words = format!("'{}' {arguments}", env!("CARGO_BIN_EXE_qewaris"));
    command.args(["-qec", &words, "/dev/null"]).current_dir(folder.path());
    command.env_remove("NO_COLOR").env("TERM", "xterm").envs(variables.iter().copied());
    match command.stdin(std::process::Stdio::null()).output() {
        Ok(output) => Some(String::from_utf8_lossy(&output.stdout).into_owned()),
        Err(_) => {
            println!("skipped: there is no command script");
            None
        }
    }
}

#[test]
fn colour_is_for_terminals_only() {
    let folder = Folder::new("colour");
    folder.write("Desk.psk", "");
    assert!(!folder.run(&["check", "Desk.psk"]).out.contains('\x1b'));
    let Some(seen) = on_terminal(&folder, "check Desk.psk", &[]) else {
        return;
    };
    assert!(
        seen.contains("\x1b[1mDesk.psk:\x1b[0m \x1b[1;31merror:\x1b[0m The file"),
        "{seen:?}"
    );
    for variables in [[("NO_COLOR", "1")], [("TERM", "dumb")]] {
        let seen = on_terminal(&folder, "check Desk.psk", &variables).unwrap();
        assert!(seen.contains("Desk.psk: error: The file"), "{seen:?}");
    }
    let seen = on_terminal(&folder, "check Desk.psk", &[("NO_COLOR", "")]).unwrap();
    assert!(seen.contains('\x1b'), "an empty NO_COLOR counts for nothing");
}

#[test]
fn colour_is_as_it_is_asked_for() {
    let folder = Folder::new("asked-colour");
    folder.write("Desk.psk", "");
    for arguments in [
        &["check", "--color=always", "Desk.psk"][..],
        &["list", "--color", "always", "Desk.psk"],
    ] {
        assert!(folder.run(arguments).out.contains("\x1b[1;31m"));
    }
    assert!(!folder.run(&["check", "--color=auto", "Desk.psk"]).out.contains('\x1b'));
    if let Some(seen) = on_terminal(&folder, "check --color never Desk.psk", &[]) {
        assert!(!seen.contains("\x1b[1"), "{seen:?}");
    }
    let loud = on_terminal(&folder, "check --color always Desk.psk", &[("NO_COLOR", "1")]);
    assert!(
        loud.is_none_or(|seen| seen.contains("\x1b[1;31m")),
        "what is asked for comes before the variable"
    );
}

#[test]
fn progress_and_summary_are_for_many_files_on_terminals() {
    let folder = Folder::new("progress");
    for number in 0..1200 {
        folder.write(format!("many/Desk {number}.psk"), DESK);
    }
    folder.write("few/Desk.psk", DESK);
    folder.run(&["check", "many"]).gives(0, "", "");
    let Some(seen) = on_terminal(&folder, "check many", &[]) else {
        return;
    };
    assert!(seen.contains("\r\x1b[K0 of 1200 files checked"), "{seen:?}");
    assert!(
        seen.ends_with("\r\x1b[K1200 good, 0 refused, 0 unreadable, 0 skipped\r\n"),
        "{seen:?}"
    );
    assert_eq!(on_terminal(&folder, "check few", &[]).unwrap(), "");
}
