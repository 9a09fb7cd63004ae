//! What docs/USING.md shows is what is printed today.

use crate::common::{names_in, Folder};
use std::path::Path;
use std::process::Command;

const USING: &str = include_str!("../../../../docs/USING.md");

/// The commands of the page with what they print, in order.
fn blocks() -> Vec<(&'static str, &'static str)> {
    let blocks = USING.split("```console\n$ ").skip(1);
    blocks
        .map(|block| block.split_once("```").unwrap().0.split_once('\n').unwrap())
        .collect()
}

/// Copies a folder of the examples, or a file of one.
fn copy(from: &Path, to: &Path) {
    if from.is_dir() {
        std::fs::create_dir(to).unwrap();
        names_in(from).iter().for_each(|name| copy(&from.join(name), &to.join(name)));
    } else {
        std::fs::copy(from, to).unwrap();
    }
}

#[test]
fn the_commands_of_the_page_print_what_it_shows() {
    let folder = Folder::new("using");
    let examples = Path::new(env!("CARGO_MANIFEST_DIR")).join("../../examples");
    for example in [
        "forty",
        "good/twoTills.config",
        "forty/till03.config",
        "forty/till21.config",
        "forty/till24.config",
        "broken/passphraseMisspelled.config",
        "broken/windowsLineEnds.config",
        "broken/ipv6WithTwoDoubleColons.config",
        "broken/ipv6WithoutLength.config",
        "good/harbour.config",
    ] {
        let from = examples.join(example);
        copy(&from, &folder.path().join(from.file_name().unwrap()));
    }
    for name in ["stick", "till"] {
        std::fs::create_dir(folder.path().join(name)).unwrap();
    }
    let built = Path::new(env!("CARGO_BIN_EXE_qewaris")).parent().unwrap();
    let path = format!("{}:{}", built.display(), std::env::var("PATH").unwrap());
    assert_eq!(blocks().len(), 11);
    for (command, shown) in blocks() {
        let mut shell = Command::new("sh");
        shell
            .args(["-c", &format!("{command} 2>&1")])
            .current_dir(folder.path())
            .env("PATH", &path);
        let printed = shell.output().unwrap().stdout;
        assert_eq!(String::from_utf8(printed).unwrap(), shown, "{command}");
    }
}
