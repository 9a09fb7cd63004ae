//! A move that is ended in the middle leaves whole files or none; beside them temporary ones, if nothing could remove these.

use crate::common::{Folder, Random};
use std::fs;
use std::os::unix::fs::PermissionsExt;
use std::process::Command;
use std::thread::sleep;
use std::time::{Duration, Instant};

const COUNT: usize = 8;

/// A file with eight services, and the names and contents of their iwd files.
fn eight(passphrase: &str) -> (String, Vec<(String, String)>) {
    let service = |n: usize| format!("[service_{n}]\nType = wifi\nName = Desk {n}\nPassphrase = {passphrase} {n}\n");
    let file = (1..=COUNT).map(service).collect();
    let iwd = |n: usize| (format!("Desk {n}.psk"), format!("[Security]\nPassphrase={passphrase} {n}\n"));
    (file, (1..=COUNT).map(iwd).collect())
}

fn is_temporary(name: &str) -> bool {
    name.starts_with(".qewaris-") && name.ends_with(".tmp")
}

/// How many of these files are in the folder as they should be. Whatever else is there is temporary.
fn placed(folder: &Folder, files: &[(String, String)], old: &[(String, String)]) -> usize {
    let mut count = 0;
    for name in folder.names().iter().filter(|name| name.ends_with(".psk")) {
        let contents = String::from_utf8(folder.read(name)).unwrap();
        let is = |list: &[(String, String)]| list.iter().any(|file| file == &(name.clone(), contents.clone()));
        assert!(is(files) || is(old), "{name} is whole, and not: {contents}");
        assert_eq!(folder.mode(name), 0o600);
        count += usize::from(is(files));
    }
    for name in folder
        .names()
        .iter()
        .filter(|name| !name.ends_with(".psk") && *name != "eight.config")
    {
        assert!(is_temporary(name), "{name} is a temporary file");
    }
    count
}

/// How a move is ended, and what it meets.
struct Ending {
    signal: &'static str,
    /// Whether it replaces files that are there.
    force: bool,
    /// Whether some of the files alone would be wrong.
    all_or_none: bool,
}

/// Starts a move and ends it after a while.
fn ended(folder: &Folder, ending: &Ending, after: Duration) {
    let mut command = folder.command();
    command.args(["move", "--all", "eight.config"]).stdout(std::process::Stdio::null());
    if ending.force {
        command.arg("--force");
    }
    let mut child = command.spawn().unwrap();
    sleep(after);
    if ending.signal == "KILL" {
        let _ = child.kill();
    } else {
        let words = [format!("-{}", ending.signal), child.id().to_string()];
        let _ = Command::new("kill").args(words).status();
    }
    child.wait().unwrap();
}

/// Takes the files away, or puts the old ones there.
fn reset(folder: &Folder, old: &[(String, String)], force: bool) {
    for (name, contents) in old {
        let _ = fs::remove_file(folder.path().join(name));
        if force {
            let path = folder.write(name, contents);
            fs::set_permissions(path, fs::Permissions::from_mode(0o600)).unwrap();
        }
    }
}

/// Ends a move at a random moment, again and again.
fn ended_at_random(name: &str, ending: &Ending) {
    let folder = Folder::new(name);
    let (file, files) = eight("low tide");
    let (_, old) = eight("high tide");
    folder.write("eight.config", file);
    let start = Instant::now();
    assert_eq!(folder.run(&["move", "--all", "eight.config"]).code, Some(0));
    let whole = u64::try_from(start.elapsed().as_nanos()).unwrap();
    let mut random = Random(7);
    for _ in 0..30 {
        reset(&folder, &old, ending.force);
        ended(&folder, ending, Duration::from_nanos(random.next() % (whole * 5 / 4)));
        let count = placed(&folder, &files, if ending.force { &old } else { &[] });
        assert!(
            !ending.all_or_none || count == 0 || count == COUNT,
            "{count} of {COUNT} were written"
        );
        let names = folder.names();
        let left = names.iter().filter(|name| is_temporary(name)).count();
        assert!(!ending.all_or_none || left == 0, "staged files were left behind: {names:?}");
    }
    assert_eq!(folder.run(&["move", "--all", "--force", "eight.config"]).code, Some(0));
    assert_eq!(placed(&folder, &files, &[]), COUNT);
    assert_eq!(
        folder.names().len(),
        COUNT + 1,
        "what was left behind is cleaned up: {:?}",
        folder.names()
    );
}

/// An ending by a signal that a person sends, which finds all files written or none; or by one that nothing withstands.
fn by(signal: &'static str, force: bool) -> Ending {
    Ending {
        signal,
        force,
        all_or_none: signal != "KILL",
    }
}

#[test]
fn an_interrupted_move_writes_all_or_none() {
    ended_at_random("interrupted", &by("INT", false));
}

#[test]
fn a_terminated_move_replaces_all_or_none() {
    ended_at_random("terminated", &by("TERM", true));
}

#[test]
fn a_signal_that_waited_is_delivered() {
    let folder = Folder::new("delivered");
    folder.write("eight.config", eight("low tide").0);
    let script = format!(
        "'{}' move --all eight.config & kill -TERM $!; wait $!",
        env!("CARGO_BIN_EXE_qewaris")
    );
    for _ in 0..20 {
        let status = Command::new("bash")
            .args(["-c", &script])
            .current_dir(folder.path())
            .status()
            .unwrap();
        let names = folder.names();
        let whole = names.iter().filter(|name| name.ends_with(".psk")).count();
        assert!(whole == 0 || whole == COUNT, "{names:?}");
        assert!(!names.iter().any(|name| is_temporary(name)), "{names:?}");
        assert!(
            status.code() == Some(128 + 15) || whole == COUNT,
            "it ends by the signal: {status:?}"
        );
        reset(&folder, &eight("low tide").1, false);
    }
}

#[test]
fn a_signal_that_is_ignored_changes_nothing() {
    let folder = Folder::new("ignored");
    folder.write("eight.config", eight("low tide").0);
    let script = format!(
        "trap '' HUP; '{}' move --all eight.config & for i in 1 2 3 4 5 6 7 8; do kill -HUP $!; done; wait $!",
        env!("CARGO_BIN_EXE_qewaris")
    );
    for _ in 0..10 {
        let output = Command::new("bash")
            .args(["-c", &script])
            .current_dir(folder.path())
            .output()
            .unwrap();
        assert_eq!(output.status.code(), Some(0), "{output:?}");
        assert_eq!(placed(&folder, &eight("low tide").1, &[]), COUNT);
        reset(&folder, &eight("low tide").1, false);
    }
}

#[test]
fn a_killed_move_leaves_only_whole_files() {
    ended_at_random("killed", &by("KILL", false));
}

#[test]
fn a_killed_replacement_leaves_only_whole_files() {
    ended_at_random("killed-force", &by("KILL", true));
}

#[test]
fn a_move_that_is_ended_while_it_writes_leaves_a_temporary_file() {
    let folder = Folder::new("cut");
    folder.write("eight.config", eight("low tide").0);
    // No file may grow: the first byte that is written ends the process by a signal.
    let run = format!(
        "ulimit -c 0; ulimit -f 0; exec '{}' move --all eight.config",
        env!("CARGO_BIN_EXE_qewaris")
    );
    let status = Command::new("bash").args(["-c", &run]).current_dir(folder.path()).status().unwrap();
    assert_eq!(status.code(), None, "it is ended by a signal");
    let names = folder.names();
    assert_eq!(names.len(), 2, "{names:?}");
    assert!(is_temporary(&names[0]), "{names:?}");
    let told = "skipped: 1 other file; --verbose names each\n1 good, 0 refused, 0 unreadable, 1 skipped\n";
    folder.run(&["check", "."]).gives(0, told, "");
    assert_eq!(folder.run(&["move", "--all", "eight.config"]).code, Some(0));
    assert_eq!(folder.names().len(), COUNT + 1, "it is cleaned up");
}

#[test]
fn only_what_an_ended_process_left_is_cleaned_up() {
    let folder = Folder::new("sweep");
    folder.write("eight.config", eight("low tide").0);
    let living = format!(".qewaris-{}-1.tmp", std::process::id());
    let stay = [
        living.as_str(),
        ".qewaris-1-1.tmp.bak",
        ".qewaris-a-1.tmp",
        "qewaris-4294967295-1.tmp",
    ];
    for name in stay.iter().chain(&[".qewaris-4294967295-1.tmp"]) {
        folder.write(name, "");
    }
    assert_eq!(folder.run(&["move", "--all", "eight.config"]).code, Some(0));
    let left: Vec<String> = folder.names().into_iter().filter(|name| name.contains("qewaris-")).collect();
    assert_eq!(left.len(), stay.len(), "{left:?}");
    assert!(stay.iter().all(|name| left.iter().any(|left| left == name)));
}
