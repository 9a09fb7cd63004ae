//! The texts of `--help` and `--version`.

use crate::arguments::Topic;

pub const VERSION: &str = concat!("qewaris ", env!("CARGO_PKG_VERSION"));

/// The text of `--help`.
pub fn help(topic: Topic) -> &'static str {
    match topic {
        Topic::All => ALL,
        Topic::Check => CHECK,
        Topic::Show => SHOW,
        Topic::List => LIST,
        Topic::Move => MOVE,
        Topic::Explain => EXPLAIN,
    }
}

/// The words that ask for the help of a topic.
pub fn asks_for(topic: Topic) -> &'static str {
    match topic {
        Topic::All => "qewaris --help",
        Topic::Check => "qewaris check --help",
        Topic::Show => "qewaris show --help",
        Topic::List => "qewaris list --help",
        Topic::Move => "qewaris move --help",
        Topic::Explain => "qewaris explain --help",
    }
}

const ALL: &str = "\
Checks, shows, lists, moves and explains the network files of iwd and ConnMan.

Usage:
  qewaris check PATH...           which files are good, and what is wrong
  qewaris show PATH... [SERVICE]  what is in them
  qewaris list PATH...            all of them at a glance, the worst first
  qewaris move PATH... --to DIR   the iwd files of ConnMan services
  qewaris explain [NUMBER|WORD]   what a refusal or a warning means

`qewaris help COMMAND` tells the options of a command. Every command takes
--help, --version and --color auto|always|never.

Exit status:
  0  all is good
  1  a file was refused, or a move was; or a warning with --strict
  2  a file could not be read or written, or a folder has none
  3  the command was not used as it is meant
";

const CHECK: &str = "\
Checks files, and the files of folders.

Usage:
  qewaris check [OPTION]... PATH...

A folder stands for the iwd and ConnMan files in it and in the folders below it,
known by their suffixes .open, .psk and .config. All others are skipped.
When all are good nothing is printed. A file that is refused is printed with its
line, a sentence, and the number that `qewaris explain` tells more about. A
warning has a word in place of the number: the file is good, and yet a till may
not do what is meant. A passphrase or key is never printed: its bytes show as
dots. PATH - is standard input.

Options:
  -v, --verbose          a line for each good and each skipped file too
  -q, --quiet            only errors and the exit status
      --strict           a warning is as bad as a refusal
      --no-warnings      no warnings
      --json             for programs; the man page tells the form
      --stdin-name NAME  how the file on standard input is called
      --color WHEN       auto, always or never
  -h, --help             this text
  -V, --version          the version
";

const SHOW: &str = "\
Shows the settings of files and the join record: what a till needs to join.

Usage:
  qewaris show [OPTION]... PATH...
  qewaris show [OPTION]... FILE SERVICE

SERVICE is the number of a service of a ConnMan file, counted from 1; without it
all are shown. PATH - is standard input.

Options:
      --service N        only service N; may be given more than once
      --json             for programs; the man page tells the form
      --secrets          with the passphrase or key, which is hidden otherwise
      --strict           a warning is as bad as a refusal
      --no-warnings      no warnings
      --stdin-name NAME  how the file on standard input is called
      --color WHEN       auto, always or never
  -h, --help             this text
  -V, --version          the version
";

const LIST: &str = "\
Lists files at a glance: a row for each service and iwd file, the worst first.

Usage:
  qewaris list [OPTION]... PATH...

A row tells the file, the network, its key or that it is OPEN, whether it is
hidden, its addresses, whether it moves to iwd, and what to do. What only
several files can tell stands above: one network with two different keys, one
address on two tills, a network that is open in one file and has a key in
another. No secret is told, nor how long one is.

Options:
      --json             for programs; the man page tells the form
      --html FILE        a page to print or mail, which only its owner can read
      --force            overwrite FILE if it is there already
  -q, --quiet            only errors and the exit status
      --strict           a warning is as bad as a refusal
      --no-warnings      no warnings
      --stdin-name NAME  how the file on standard input is called
      --color WHEN       auto, always or never
  -h, --help             this text
  -V, --version          the version
";

const MOVE: &str = "\
Moves services of ConnMan files to iwd: writes an iwd file for each.

Usage:
  qewaris move [OPTION]... PATH... --to FOLDER

Of all services of all files either all are written or none. The ConnMan files
stay as they are. An iwd file that is there already stays too, unless --force is
given. What is written only its owner can read. PATH - is standard input.

Options:
      --service N        only service N, counted from 1; may be given more often
      --all              all services; without either, the only one of each file
      --to FOLDER        where the iwd files go; without it, the current folder
      --skip-unplaced    leave out the services that iwd has no place for
      --force            overwrite files that are there already
      --dry-run          show names and contents, secrets hidden, write nothing
      --strict           write nothing where there is a warning
      --no-warnings      no warnings
  -q, --quiet            only errors and the exit status
      --json             for programs; the man page tells the form
      --stdin-name NAME  how the file on standard input is called
      --color WHEN       auto, always or never
  -h, --help             this text
  -V, --version          the version
";

const EXPLAIN: &str = "\
Explains a refusal by its number, or a warning by its word: what it means, a
file that earns it, what to do.

Usage:
  qewaris explain [OPTION]... [NUMBER|WORD]

Without either all are listed.

Options:
      --json        for programs; the man page tells the form
      --color WHEN  auto, always or never
  -h, --help        this text
  -V, --version     the version
";
