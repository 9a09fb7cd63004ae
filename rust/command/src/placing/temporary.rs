//! Temporary files beside the places they are for: `.qewaris-<process>-<count>.tmp`, readable by their owner only.

use std::fs::{self, OpenOptions};
use std::io::{self, Write};
use std::os::unix::ffi::OsStrExt;
use std::os::unix::fs::OpenOptionsExt;
use std::path::{Path, PathBuf};
use std::process;
use std::sync::atomic::{AtomicU32, Ordering};

/// A temporary file, removed when it is dropped unless it was renamed away.
pub struct Temporary(PathBuf);

static COUNT: AtomicU32 = AtomicU32::new(1);

/// How often another name is tried where one is taken.
const TRIES: u32 = 1000;

impl Temporary {
    /// A new file in a folder with these contents, on disk.
    pub fn holding(folder: &Path, contents: &[u8]) -> io::Result<Temporary> {
        let (temporary, mut file) = Temporary::named(folder, |path| {
            OpenOptions::new().write(true).create_new(true).mode(0o600).open(path)
        })?;
        file.write_all(contents)?;
        file.sync_all()?;
        Ok(temporary)
    }

    /// Another name for what stands at a path, or a copy of it where there are no links.
    pub fn of(folder: &Path, path: &Path) -> io::Result<Temporary> {
        match Temporary::named(folder, |name| fs::hard_link(path, name)) {
            Ok((temporary, ())) => Ok(temporary),
            Err(_) => Temporary::holding(folder, &fs::read(path)?),
        }
    }

    /// A name that is not taken, with what is made under it.
    fn named<T>(folder: &Path, make: impl Fn(&Path) -> io::Result<T>) -> io::Result<(Temporary, T)> {
        for _ in 0..TRIES {
            let count = COUNT.fetch_add(1, Ordering::Relaxed);
            let path = folder.join(format!(".qewaris-{}-{count}.tmp", process::id()));
            match make(&path) {
                Ok(made) => return Ok((Temporary(path), made)),
                Err(error) if error.kind() == io::ErrorKind::AlreadyExists => {}
                Err(error) => return Err(error),
            }
        }
        Err(io::Error::from(io::ErrorKind::AlreadyExists))
    }

    pub fn path(&self) -> &Path {
        &self.0
    }
}

impl Drop for Temporary {
    fn drop(&mut self) {
        // It is gone already where it was renamed to its place.
        let _ = fs::remove_file(&self.0);
    }
}

/// Removes the temporary files that a process left behind which was ended in the middle. Those of a process that still runs stay.
pub fn sweep(folder: &Path) {
    if !Path::new("/proc/self").exists() {
        return;
    }
    let Ok(entries) = fs::read_dir(folder) else { return };
    for entry in entries.flatten() {
        let left = process_of(entry.file_name().as_bytes());
        if left.is_some_and(|id| id == process::id() || !Path::new(&format!("/proc/{id}")).exists()) {
            let _ = fs::remove_file(entry.path());
        }
    }
}

/// The process that made a temporary file, by the file's name.
fn process_of(name: &[u8]) -> Option<u32> {
    let middle = name.strip_prefix(b".qewaris-")?.strip_suffix(b".tmp")?;
    let (process, count) = std::str::from_utf8(middle).ok()?.split_once('-')?;
    let is_number = |text: &str| !text.is_empty() && text.bytes().all(|byte| byte.is_ascii_digit());
    if is_number(process) && is_number(count) {
        process.parse().ok()
    } else {
        None
    }
}
