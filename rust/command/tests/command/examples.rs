//! The files of `examples/` are what their table says.

use crate::common::{names_in, Folder, Run};
use std::collections::BTreeSet;
use std::path::{Path, PathBuf};
use std::process::Command;

fn examples() -> PathBuf {
    Path::new(env!("CARGO_MANIFEST_DIR")).join("../../examples")
}

fn run(arguments: &[&str]) -> Run {
    let mut command = Command::new(env!("CARGO_BIN_EXE_qewaris"));
    Run::of(command.current_dir(examples()).args(arguments).output().unwrap())
}

/// The rows of the table: whether a move is asked, the number, the line, and the file.
fn rows() -> Vec<(bool, u8, usize, String)> {
    let table = include_str!("examples.txt");
    let rows = table.lines().filter(|line| !line.is_empty() && !line.starts_with('#'));
    rows.map(|row| {
        let (is_move, row) = row.strip_prefix("move ").map_or((false, row), |row| (true, row));
        let mut parts = row.splitn(3, ' ');
        let mut next = || parts.next().unwrap();
        (is_move, next().parse().unwrap(), next().parse().unwrap(), next().to_string())
    })
    .collect()
}

#[test]
fn each_example_is_answered_as_its_table_says() {
    let folder = Folder::new("examples");
    for (is_move, number, line, file) in rows() {
        let run = if is_move {
            run(&["move", &file, "--to", folder.path().to_str().unwrap()])
        } else {
            run(&["check", &file])
        };
        if number == 0 {
            run.gives(0, "", "");
            continue;
        }
        let place = if line == 0 { String::new() } else { format!(":{line}") };
        let first = run.out.lines().next().unwrap();
        assert!(first.starts_with(&format!("{file}{place}: error: ")), "{first}");
        assert!(first.ends_with(&format!(" [{number}]")), "{first}");
        assert_eq!(run.code, Some(1));
    }
    assert_eq!(folder.names(), [""; 0]);
}

#[test]
fn the_old_files_that_stand_beside_their_new_ones_move_to_them() {
    let folder = Folder::new("worked");
    for (old, new) in [("shop.config", "Desk 4.psk"), ("harbour.config", "Harbour.psk")] {
        let told = run(&["move", &format!("good/{old}"), "--to", folder.path().to_str().unwrap()]);
        assert_eq!((told.code, told.err.as_str()), (Some(0), ""), "{}", told.out);
        assert_eq!(folder.read(new), std::fs::read(examples().join("good").join(new)).unwrap(), "{old}");
    }
}

#[test]
fn each_example_stands_in_the_table() {
    let listed: BTreeSet<String> = rows().into_iter().map(|row| row.3).collect();
    let mut found = BTreeSet::new();
    // The forty stand by themselves: list.rs has what is printed of them.
    for part in names_in(&examples()).into_iter().filter(|part| part != "forty") {
        found.extend(names_in(&examples().join(&part)).into_iter().map(|name| format!("{part}/{name}")));
    }
    assert_eq!(found, listed);
}

#[test]
fn every_refusal_of_a_file_has_an_example() {
    let numbers: BTreeSet<u8> = rows().into_iter().map(|row| row.1).collect();
    assert_eq!(numbers.into_iter().collect::<Vec<u8>>(), (0..=16).collect::<Vec<u8>>());
}

#[test]
fn the_good_ones_are_passed_in_silence() {
    run(&["check", "good"]).gives(0, "", "");
    let all = run(&["check", "good", "broken", "unmovable"]);
    assert_eq!(all.code, Some(1));
    let good = rows().iter().filter(|row| !row.0 && row.1 == 0).count();
    let bad = rows().iter().filter(|row| !row.0 && row.1 > 0).count();
    let summary = format!("{good} good, {bad} refused, 0 unreadable, 0 skipped");
    assert_eq!(all.out.lines().last(), Some(summary.as_str()));
}
