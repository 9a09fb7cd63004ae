//! What the tests share: folders of their own, and runs of the built command as a person would run it.

pub mod generated;
pub mod json;

use std::ffi::OsStr;
use std::fs;
use std::os::unix::ffi::OsStrExt;
use std::os::unix::fs::PermissionsExt;
use std::os::unix::process::CommandExt;
use std::path::{Path, PathBuf};
use std::process::{Command, Output, Stdio};
use std::sync::atomic::{AtomicUsize, Ordering};

pub const SHOP: &str = "[service_till]\nType = wifi\nName = Desk 4\nPassphrase = low\\tide 88\nIPv4 = 10.20.0.14/24/10.20.0.1\n\
Nameservers = 10.20.0.2,10.20.0.3\nHidden = true\nIPv6 = off\n";

pub const DESK: &str = "[Settings]\nHidden=true\n[Security]\nPassphrase=low\tide 88\n[IPv4]\nAddress=10.20.0.14\nNetmask=255.255.255.0\n\
Gateway=10.20.0.1\nDNS=10.20.0.2 10.20.0.3\n[IPv6]\nEnabled=false\n";

/// How many folders were made, so that no two have one name.
static FOLDERS: AtomicUsize = AtomicUsize::new(0);

/// A folder of a test's own, empty at first and removed at the end.
pub struct Folder(PathBuf);

impl Folder {
    pub fn new(name: &str) -> Folder {
        let count = FOLDERS.fetch_add(1, Ordering::Relaxed);
        let path = Path::new(env!("CARGO_TARGET_TMPDIR")).join(format!("{name}-{}-{count}", std::process::id()));
        let _ = fs::remove_dir_all(&path);
        fs::create_dir_all(&path).unwrap();
        Folder(path)
    }

    pub fn path(&self) -> &Path {
        &self.0
    }

    pub fn write(&self, name: impl AsRef<OsStr>, contents: impl AsRef<[u8]>) -> PathBuf {
        let path = self.0.join(name.as_ref());
        fs::create_dir_all(path.parent().unwrap()).unwrap();
        fs::write(&path, contents).unwrap();
        path
    }

    pub fn read(&self, name: &str) -> Vec<u8> {
        fs::read(self.0.join(name)).unwrap()
    }

    pub fn mode(&self, name: &str) -> u32 {
        fs::metadata(self.0.join(name)).unwrap().permissions().mode() & 0o777
    }

    /// The names in the folder, in order.
    pub fn names(&self) -> Vec<String> {
        names_in(&self.0)
    }

    /// Runs the command in this folder.
    pub fn run(&self, arguments: &[&str]) -> Run {
        Run::of(self.command().args(arguments).output().unwrap())
    }

    pub fn run_bytes(&self, arguments: &[&[u8]]) -> Run {
        let arguments = arguments.iter().map(|argument| OsStr::from_bytes(argument));
        Run::of(self.command().args(arguments).output().unwrap())
    }

    /// Runs the command in this folder as a user whom permissions bind; none where it cannot run as one.
    pub fn run_bound(&self, arguments: &[&str]) -> Option<Run> {
        let mut command = self.command();
        command.args(arguments);
        if !is_bound() {
            command.uid(65_534).gid(65_534);
        }
        let output = command.output();
        if output.is_err() {
            println!("skipped: permissions do not bind this user, and it cannot run the command as another one");
        }
        output.ok().map(Run::of)
    }

    /// The command, to be run in this folder.
    pub fn command(&self) -> Command {
        let mut command = Command::new(env!("CARGO_BIN_EXE_qewaris"));
        command.current_dir(&self.0).stdin(Stdio::null()).env_remove("NO_COLOR");
        command
    }
}

impl Drop for Folder {
    fn drop(&mut self) {
        let _ = fs::remove_dir_all(&self.0);
    }
}

pub fn names_in(folder: &Path) -> Vec<String> {
    let entries = fs::read_dir(folder).unwrap();
    let mut names: Vec<String> = entries
        .map(|entry| entry.unwrap().file_name().to_string_lossy().into_owned())
        .collect();
    names.sort();
    names
}

/// What a run gave.
#[derive(Debug)]
pub struct Run {
    pub code: Option<i32>,
    pub out: String,
    pub err: String,
}

impl Run {
    pub fn of(output: Output) -> Run {
        Run {
            code: output.status.code(),
            out: String::from_utf8(output.stdout).expect("standard output is UTF-8"),
            err: String::from_utf8(output.stderr).expect("standard error is UTF-8"),
        }
    }

    /// Asserts the exit status and both streams.
    #[track_caller]
    pub fn gives(&self, code: i32, out: &str, err: &str) {
        assert_eq!((self.out.as_str(), self.err.as_str(), self.code), (out, err, Some(code)));
    }
}

/// Whether permissions bind this user, as they do not bind root.
fn is_bound() -> bool {
    let folder = Folder::new("is-bound");
    let path = folder.write("file", "");
    fs::set_permissions(&path, fs::Permissions::from_mode(0o000)).unwrap();
    fs::read(&path).is_err()
}

/// Random numbers that are the same in every run (splitmix64).
pub struct Random(pub u64);

impl Random {
    pub fn next(&mut self) -> u64 {
        self.0 = self.0.wrapping_add(0x9e37_79b9_7f4a_7c15);
        let mut z = self.0;
        z = (z ^ (z >> 30)).wrapping_mul(0xbf58_476d_1ce4_e5b9);
        z = (z ^ (z >> 27)).wrapping_mul(0x94d0_49bb_1331_11eb);
        z ^ (z >> 31)
    }

    pub fn below(&mut self, bound: usize) -> usize {
        usize::try_from(self.next() % u64::try_from(bound).unwrap()).unwrap()
    }

    pub fn pick<'a, T: ?Sized>(&mut self, items: &[&'a T]) -> &'a T {
        items[self.below(items.len())]
    }
}
