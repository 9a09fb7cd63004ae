//! Files into a folder, all or none: each is written beside its place under another name, and then all are put there.
//!
//! A signal that asks the command to end waits meanwhile: before the first file is put it ends all, and what was written is
//! removed; afterwards all are put. What SIGKILL or a power loss leaves behind has a name that begins with `.qewaris-` and ends
//! with `.tmp`, which no daemon reads. The next time files are placed in the folder it is removed.

mod interrupts;
mod temporary;
#[cfg(test)]
mod tests;

use crate::input::plainly;
use crate::report::shown_path;
use interrupts::Held;
use std::ffi::OsStr;
use std::fs::{self, File};
use std::io;
use std::os::unix::ffi::OsStrExt;
use std::os::unix::fs::MetadataExt;
use std::path::{Path, PathBuf};
use temporary::Temporary;

/// A file that is to be written: its name and what it holds.
pub struct NewFile<'a> {
    pub name: &'a [u8],
    pub contents: &'a [u8],
}

/// Why the files were not placed.
#[derive(Debug)]
pub enum Failure {
    /// These are there already, and may not be overwritten.
    InTheWay(Vec<PathBuf>),
    /// Nothing was written, for the reason that this sentence gives.
    NotWritten(String),
    /// The same, but some files that were put could not be taken back, which the sentence names.
    LeftBehind(String),
}

/// The path of a file in a folder, without `./` in the current one.
pub fn path_in(folder: &Path, name: &[u8]) -> PathBuf {
    let name = OsStr::from_bytes(name);
    if folder == Path::new(".") {
        PathBuf::from(name)
    } else {
        folder.join(name)
    }
}

/// Whether the files may be placed: the folder is there and can be written, which is tried with a temporary file, and nothing is in
/// the way. Tells whether the folder keeps what is written to its owner.
pub fn may_place(folder: &Path, files: &[NewFile<'_>], force: bool) -> Result<bool, Failure> {
    let about = fs::metadata(folder).map_err(|error| not_written(folder, &error))?;
    if !about.is_dir() {
        return Err(Failure::NotWritten(format!("{} is no folder", shown_path(folder))));
    }
    let targets = files.iter().map(|file| path_in(folder, file.name));
    let there: Vec<PathBuf> = targets.filter(|path| fs::symlink_metadata(path).is_ok()).collect();
    match there.iter().find(|path| path.is_dir()) {
        Some(path) => Err(Failure::NotWritten(format!("{} is a folder", shown_path(path)))),
        None if force || there.is_empty() => {
            let _signals = Held::new();
            let tried = Temporary::holding(folder, b"").map_err(|error| not_written(folder, &error))?;
            let about = fs::symlink_metadata(tried.path()).map_err(|error| not_written(folder, &error))?;
            Ok(about.mode() & 0o077 == 0)
        }
        None => Err(Failure::InTheWay(there)),
    }
}

/// Places all files where they may be placed, or none and says why. With `force` files that are there are replaced.
pub fn place(folder: &Path, files: &[NewFile<'_>], force: bool) -> Result<(), Failure> {
    // It stands before what is staged, and so is dropped after it.
    let signals = Held::new();
    temporary::sweep(folder);
    let mut staged = Vec::new();
    for file in files {
        let temporary = Temporary::holding(folder, file.contents).map_err(|error| not_written(folder, &error))?;
        staged.push(Staged {
            temporary,
            target: path_in(folder, file.name),
            backup: None,
            placed: None,
        });
        if signals.is_asked_to_end() {
            return Err(Failure::NotWritten("the move was interrupted".to_string()));
        }
    }
    let done = put_all(folder, &mut staged, force);
    // The files are in place; a file system that cannot say that the folder is on disk too is taken as it is.
    let _ = File::open(folder).and_then(|folder| folder.sync_all());
    done
}

fn not_written(path: &Path, error: &io::Error) -> Failure {
    Failure::NotWritten(reason(path, error))
}

fn reason(path: &Path, error: &io::Error) -> String {
    format!("{} cannot be written: {}", shown_path(path), plainly(error))
}

/// A file on its way to its place. Its temporary files go when it is dropped.
struct Staged {
    temporary: Temporary,
    target: PathBuf,
    /// What stood in the place before.
    backup: Option<Temporary>,
    /// The device and number of what was put there.
    placed: Option<(u64, u64)>,
}

/// Puts each file into its place; if one fails, takes back those before it.
fn put_all(folder: &Path, staged: &mut [Staged], force: bool) -> Result<(), Failure> {
    for at in 0..staged.len() {
        let (before, rest) = staged.split_at_mut(at);
        let Some(file) = rest.first_mut() else { break };
        let put = match meets(before, &file.target) {
            true => Err(io::Error::from(io::ErrorKind::AlreadyExists)),
            false => file.put(folder, force),
        };
        if let Err(error) = put {
            let target = file.target.clone();
            let left: Vec<String> = before.iter_mut().filter_map(Staged::take_back).collect();
            return Err(failure(&target, &error, force, &left));
        }
    }
    Ok(())
}

/// Whether a place is that of a file that was just put, under another name: some file systems do not tell `desk` from `Desk`.
fn meets(before: &[Staged], target: &Path) -> bool {
    let there = fs::symlink_metadata(target).map(|about| (about.dev(), about.ino())).ok();
    there.is_some() && before.iter().any(|file| file.placed == there)
}

/// Why a file could not be put, and which of those before it could not be taken back.
fn failure(target: &Path, error: &io::Error, force: bool, left: &[String]) -> Failure {
    if !left.is_empty() {
        let names = left.join(", ");
        return Failure::LeftBehind(format!(
            "{}; these were written and could not be taken back: {names}",
            reason(target, error)
        ));
    }
    if error.kind() == io::ErrorKind::AlreadyExists && !force {
        return Failure::InTheWay(vec![target.to_path_buf()]);
    }
    not_written(target, error)
}

impl Staged {
    fn put(&mut self, folder: &Path, force: bool) -> io::Result<()> {
        let about = fs::symlink_metadata(self.temporary.path())?;
        if force {
            if fs::symlink_metadata(&self.target).is_ok() {
                self.backup = Some(Temporary::of(folder, &self.target)?);
            }
            fs::rename(self.temporary.path(), &self.target)?;
        } else {
            put_new(self.temporary.path(), &self.target)?;
        }
        self.placed = Some((about.dev(), about.ino()));
        Ok(())
    }

    /// Puts back what stood there before, or removes what was put there; names the file where that fails.
    fn take_back(&mut self) -> Option<String> {
        self.placed.take()?;
        let done = match &self.backup {
            Some(backup) => fs::rename(backup.path(), &self.target),
            None => fs::remove_file(&self.target),
        };
        done.err().map(|_| shown_path(&self.target))
    }
}

/// Renames a file to a name that is not taken. A link fails where it is taken, at any moment; where there are no links the name
/// is looked up first.
fn put_new(from: &Path, to: &Path) -> io::Result<()> {
    match fs::hard_link(from, to) {
        // The second name goes now, or with the temporary file.
        Ok(()) => fs::remove_file(from).or(Ok(())),
        Err(error) if error.kind() == io::ErrorKind::AlreadyExists => Err(error),
        Err(_) if fs::symlink_metadata(to).is_ok() => Err(io::Error::from(io::ErrorKind::AlreadyExists)),
        Err(_) => fs::rename(from, to),
    }
}
