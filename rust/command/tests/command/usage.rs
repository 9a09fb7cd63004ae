//! Words on the command line: help, version, and what is not understood.

use crate::common::{Folder, SHOP};

#[test]
fn help_and_version_are_everywhere() {
    let folder = Folder::new("help");
    for command in ["check", "show", "list", "move", "explain"] {
        for word in ["--help", "-h"] {
            let run = folder.run(&[command, word]);
            assert_eq!((run.code, run.err.as_str()), (Some(0), ""));
            assert!(run.out.contains(&format!("qewaris {command}")), "{}", run.out);
        }
        for word in ["--version", "-V"] {
            folder.run(&[command, word]).gives(0, "qewaris 0.2.0\n", "");
        }
    }
    for word in ["--help", "-h", "help"] {
        let run = folder.run(&[word]);
        assert_eq!((run.code, run.err.as_str()), (Some(0), ""));
        assert!(run.out.contains("qewaris explain [NUMBER|WORD]"));
    }
    folder.run(&["--version"]).gives(0, "qewaris 0.2.0\n", "");
}

#[test]
fn help_of_a_command_is_its_help_and_narrow() {
    let folder = Folder::new("narrow");
    for command in ["check", "show", "list", "move", "explain"] {
        let run = folder.run(&["help", command]);
        run.gives(0, &folder.run(&[command, "--help"]).out, "");
        assert!(run.out.lines().all(|line| line.len() <= 80), "{}", run.out);
    }
    assert!(folder.run(&["help"]).out.lines().all(|line| line.len() <= 80));
    let told = "qewaris: There is no command moves; there are check, show, list, move and explain. Try qewaris --help\n";
    folder.run(&["help", "moves"]).gives(3, "", told);
}

/// Words that are not understood, and what is said of them.
const WRONG: &[(&[&str], &str)] = &[
    (&[], "A command is needed: check, show, list, move or explain. Try qewaris --help"),
    (
        &["chek"],
        "There is no command chek; there are check, show, list, move and explain. Try qewaris --help",
    ),
    (
        &["--json"],
        "There is no command --json; there are check, show, list, move and explain. Try qewaris --help",
    ),
    (&["check"], "A file or a folder is needed. Try qewaris check --help"),
    (
        &["check", "--secrets", "shop.config"],
        "There is no option --secrets. Try qewaris check --help",
    ),
    (
        &["check", "--verbose=1", "shop.config"],
        "There is no option --verbose=1. Try qewaris check --help",
    ),
    (&["show"], "A file or a folder is needed. Try qewaris show --help"),
    (
        &["show", "shop.config", "--service", "one"],
        "--service is given by its number, and one is none. Try qewaris show --help",
    ),
    (
        &["show", "shop.config", "--service=+1"],
        "--service is given by its number, and +1 is none. Try qewaris show --help",
    ),
    (&["move"], "A file or a folder is needed. Try qewaris move --help"),
    (
        &["check", "--color=blue", "shop.config"],
        "--color is auto, always or never, and not blue. Try qewaris check --help",
    ),
    (
        &["check", "-"],
        "- is standard input; --stdin-name NAME says how the file is called. Try qewaris check --help",
    ),
    (
        &["check", "shop.config", "--stdin-name", "shop.config"],
        "--stdin-name names standard input, which is read where - stands for a file. Try qewaris check --help",
    ),
    (
        &["check", "-", "--stdin-name", "a/shop.config"],
        "--stdin-name is the name of a file without a folder. Try qewaris check --help",
    ),
    (
        &["move", "shop.config", "--service=1", "--service=x"],
        "--service is given by its number, and x is none. Try qewaris move --help",
    ),
    (
        &["move", "shop.config", "--service"],
        "--service needs a value. Try qewaris move --help",
    ),
    (
        &["move", "shop.config", "--service", "x"],
        "--service is given by its number, and x is none. Try qewaris move --help",
    ),
    (
        &["move", "shop.config", "--service", "1", "--all"],
        "Only one of --service and --all can be given. Try qewaris move --help",
    ),
    (
        &["move", "shop.config", "--to=a", "--to=b"],
        "--to is given twice. Try qewaris move --help",
    ),
    (
        &["list", "shop.config", "--html", "page/"],
        "--html needs the name of a file. Try qewaris list --help",
    ),
    (&["move", "shop.config", "--to="], "--to needs a folder. Try qewaris move --help"),
    (
        &["explain", "0"],
        "There is no refusal 0; they are 1 to 19. Try qewaris explain --help",
    ),
    (
        &["explain", "20"],
        "There is no refusal 20; they are 1 to 19. Try qewaris explain --help",
    ),
    (
        &["explain", "twelve"],
        "There is no refusal and no warning twelve. Try qewaris explain --help",
    ),
    (&["explain", "1", "2"], "One number or word is taken. Try qewaris explain --help"),
];

#[test]
fn wrong_usage_is_one_sentence_on_standard_error() {
    let folder = Folder::new("usage");
    folder.write("shop.config", SHOP);
    for (arguments, sentence) in WRONG {
        folder.run(arguments).gives(3, "", &format!("qewaris: {sentence}\n"));
    }
    assert_eq!(folder.names(), ["shop.config"]);
}

#[test]
fn a_word_that_is_no_utf8_is_told_escaped() {
    let folder = Folder::new("odd-word");
    let run = folder.run_bytes(&[b"check", b"--\xff\x1b[31m"]);
    run.gives(3, "", "qewaris: There is no option --\\xff\\x1b[31m. Try qewaris check --help\n");
}

#[test]
fn two_dashes_end_the_options() {
    let folder = Folder::new("dashes");
    folder.write("-v", "");
    let run = folder.run(&["check", "--", "-v"]);
    assert_eq!(run.code, Some(1));
    assert!(run.out.starts_with("-v: error: The file name has no suffix"), "{}", run.out);
}

#[test]
fn every_refusal_is_explained() {
    let folder = Folder::new("explain");
    for number in 1..=19 {
        let run = folder.run(&["explain", &number.to_string()]);
        assert_eq!((run.code, run.err.as_str()), (Some(0), ""));
        assert!(run.out.starts_with(&format!("{number}: ")));
        assert!(run.out.contains("\nExample\n") && run.out.contains("\nWhat to do\n"), "{}", run.out);
        assert!(run.out.contains(&format!(" [{number}]\n")), "the example earns it: {}", run.out);
    }
    let run = folder.run(&["explain"]);
    assert_eq!((run.code, run.out.lines().count()), (Some(0), 19 + 19));
}

#[test]
fn a_reader_that_goes_away_is_no_failure() {
    let folder = Folder::new("pipe");
    for number in 0..200 {
        folder.write(format!("bad{number}.config"), "nothing\n");
    }
    let mut child = folder
        .command()
        .args(["check", "."])
        .stdout(std::process::Stdio::piped())
        .stderr(std::process::Stdio::piped())
        .spawn()
        .unwrap();
    drop(child.stdout.take());
    let output = child.wait_with_output().unwrap();
    let told = String::from_utf8_lossy(&output.stderr);
    assert!(!told.contains("cannot be written"), "{told}");
    assert_eq!(output.status.code(), Some(1), "the files were judged all the same");
}
