//! No passphrase and no key is printed without `--secrets`, wherever it stands in a file.

use crate::common::generated::{generated, Generated};
use crate::common::{Folder, Random, Run};

/// How many files are made; `QEWARIS_TEST_SEED` gives other ones.
const COUNT: usize = 400;

fn seed() -> u64 {
    std::env::var("QEWARIS_TEST_SEED").map_or(20_251_116, |seed| seed.parse().unwrap())
}

#[track_caller]
fn has_no_secret(run: &Run, of: &Generated, what: &str) {
    for text in [&run.out, &run.err] {
        assert!(!text.contains("panicked"), "{what} of {}: {text}", of.name);
        let lower = text.to_lowercase();
        for secret in &of.secrets {
            let file = String::from_utf8_lossy(&of.file);
            assert!(
                !lower.contains(secret),
                "{what} of {} shows {secret}:\n{text}\nThe file:\n{file}",
                of.name
            );
        }
    }
    assert!(matches!(run.code, Some(0..=3)), "{what} of {} ends with {:?}", of.name, run.code);
}

#[test]
fn no_output_shows_a_secret() {
    let folder = Folder::new("secrets");
    let mut random = Random(seed());
    let mut answers = [0; 4];
    for number in 0..COUNT {
        let made = generated(&mut random, number);
        folder.write(&made.name, &made.file);
        let runs: [(&str, &[&str]); 10] = [
            ("check", &["check", "-v", &made.name]),
            ("check --json", &["check", "--json", &made.name]),
            ("show", &["show", &made.name]),
            ("show --json", &["show", "--json", &made.name]),
            ("list", &["list", &made.name]),
            ("list --json", &["list", "--json", &made.name]),
            ("a page", &["list", "--html", "page.html", "--force", &made.name]),
            ("a dry run", &["move", "--dry-run", "--all", &made.name]),
            ("a move", &["move", "--all", "--force", &made.name]),
            (
                "move --json",
                &["move", "--json", "--all", "--force", "--skip-unplaced", &made.name],
            ),
        ];
        for (what, arguments) in runs {
            let mut run = folder.run(arguments);
            if what == "a page" {
                run.out.push_str(&String::from_utf8(folder.read("page.html")).unwrap());
            }
            has_no_secret(&run, &made, what);
            if what == "check" {
                answers[usize::try_from(run.code.unwrap()).unwrap()] += 1;
            }
        }
        std::fs::remove_file(folder.path().join(&made.name)).unwrap();
    }
    assert!(
        answers[0] > COUNT / 20 && answers[1] > COUNT / 2,
        "good and broken files are made: {answers:?}"
    );
}

/// What is told of a file where no length of a secret may be told: warnings, lists, pages and JSON.
fn told_without_lengths(folder: &Folder, name: &str) -> Vec<String> {
    let warnings = folder.run(&["check", name]).out;
    let warnings = warnings.lines().filter(|line| line.contains(": warning: "));
    let mut told = vec![warnings.collect::<Vec<&str>>().join("\n")];
    let runs: [&[&str]; 6] = [
        &["check", "--json", name],
        &["show", "--json", name],
        &["list", name],
        &["list", "--json", name],
        &["list", "--html", "page.html", "--force", name],
        &["move", "--json", "--dry-run", "--all", name],
    ];
    told.extend(runs.map(|arguments| folder.run(arguments).out));
    told.push(String::from_utf8(folder.read("page.html")).unwrap());
    told
}

#[test]
fn no_length_of_a_secret_is_told() {
    let folder = Folder::new("lengths");
    let mut random = Random(seed() + 1);
    let mut compared = [0; 2];
    for number in 0..COUNT / 2 {
        let made = generated(&mut random, number);
        let answer = |file: &[u8]| {
            folder.write(&made.name, file);
            let run = folder.run(&["check", "--no-warnings", &made.name]);
            let ending = run
                .out
                .lines()
                .next()
                .and_then(|line| line.rsplit_once(" ["))
                .map(|(_, number)| number.to_string());
            (run.code, ending)
        };
        let longer = made.lengthened();
        // A name or a passphrase that is too long now is another fault.
        let is_same_answer = answer(&longer) == answer(&made.file);
        if longer == made.file || !is_same_answer {
            continue;
        }
        let told = told_without_lengths(&folder, &made.name);
        folder.write(&made.name, &longer);
        let file = String::from_utf8_lossy(&made.file);
        assert_eq!(told_without_lengths(&folder, &made.name), told, "{}:\n{file}", made.name);
        let is_good = folder.run(&["check", "-q", &made.name]).code == Some(0);
        compared[usize::from(is_good)] += 1;
        std::fs::remove_file(folder.path().join(&made.name)).unwrap();
    }
    assert!(
        compared[0] > 50 && compared[1] > 30,
        "broken and good files are compared: {compared:?}"
    );
}

#[test]
fn with_the_option_it_is_shown() {
    let folder = Folder::new("shown");
    folder.write("Desk.psk", "[Security]\nPassphrase=low tide 88\n");
    for arguments in [&["show", "--secrets", "Desk.psk"][..], &["show", "--json", "--secrets", "Desk.psk"]] {
        assert!(folder.run(arguments).out.contains("low tide 88"));
    }
}

/// What random files are made of.
const PIECES: [&[u8]; 24] = [
    b"[",
    b"]",
    b"=",
    b"\n",
    b" ",
    b"\t",
    b"\r",
    b"\\",
    b"\0",
    b"\xff",
    b"\xc3\xa9",
    b"#",
    b";",
    b"@",
    b"/",
    b".",
    b",",
    b":",
    b"Passphrase",
    b"[service_a]\n",
    b"[IPv4]\n",
    b"Address",
    b"255.255",
    b"Type = wifi\n",
];

#[test]
fn random_bytes_are_answered() {
    let folder = Folder::new("noise");
    let mut random = Random(3);
    for number in 0..600 {
        let file: Vec<u8> = (0..random.below(40)).flat_map(|_| random.pick(&PIECES).to_vec()).collect();
        let name = if number % 2 == 0 {
            format!("a{number}.config")
        } else {
            format!("a{number}.psk")
        };
        folder.write(name, file);
    }
    let run = folder.run(&["check", "-v", "."]);
    assert!(matches!(run.code, Some(0 | 1)), "{:?}: {}", run.code, run.err);
    assert!(
        run.err.starts_with("qewaris: ") && run.err.contains(" of 600 files did not pass: "),
        "{}",
        run.err
    );
    assert!(run.out.ends_with("0 unreadable, 0 skipped\n"));
    assert!(run.out.chars().all(|character| character == '\n' || !character.is_control()));
}
