//! The files that paths stand for: themselves, those of a folder and of the folders below it, or standard input.

use crate::arguments::Sources;
use std::collections::HashSet;
use std::ffi::OsStr;
use std::fs::{self, DirEntry};
use std::io;
use std::os::unix::ffi::OsStrExt;
use std::path::{self, Path, PathBuf};

/// What was found at a path.
pub enum Found {
    File(PathBuf),
    /// Standard input, under the name that it was given.
    Standard(PathBuf),
    Skipped(PathBuf, Reason),
    Unreadable(PathBuf, io::Error),
    /// A folder that was named and has no network file.
    Empty(PathBuf),
}

/// Why something in a folder is skipped.
#[derive(Clone, Copy, Debug, PartialEq, Eq, PartialOrd, Ord)]
pub enum Reason {
    Other,
    Login,
    Iwd,
    HiddenFolder,
    FolderLink,
    Special,
    MacNote,
}

impl Reason {
    /// The reason in words.
    pub fn sentence(self) -> &'static str {
        match self {
            Reason::Other => "not an iwd or ConnMan file",
            Reason::Login => "802.1X files are not checked",
            Reason::Iwd => "an iwd file has no services to move",
            Reason::HiddenFolder => "a hidden folder",
            Reason::FolderLink => "a link to a folder, which is not followed",
            Reason::Special => "not a plain file",
            Reason::MacNote => "a note that a Mac keeps beside a file",
        }
    }

    /// What such a thing is called where they are counted.
    pub fn thing(self) -> &'static str {
        match self {
            Reason::Other => "other file",
            Reason::Login => "802.1X file",
            Reason::Iwd => "iwd file",
            Reason::HiddenFolder => "hidden folder",
            Reason::FolderLink => "folder link",
            Reason::Special => "special file",
            Reason::MacNote => "Mac note",
        }
    }
}

/// What the sources stand for, in their order, and in a folder in the order of the names. Nothing is found twice.
pub fn found(sources: &Sources) -> Vec<Found> {
    let mut found = Vec::new();
    for path in &sources.paths {
        match &sources.stdin_name {
            Some(name) if path.as_os_str() == "-" => found.push(Found::Standard(name.clone())),
            _ => found.extend(found_at(path)),
        }
    }
    let mut seen = HashSet::new();
    found.retain(|item| match item {
        Found::File(path) => seen.insert(path::absolute(path).unwrap_or_else(|_| path.clone())),
        _ => true,
    });
    found
}

fn found_at(path: &Path) -> Vec<Found> {
    let mut found = Vec::new();
    match fs::metadata(path) {
        Ok(about) if about.is_dir() => {
            folder(path, &mut found);
            if !found.iter().any(|item| matches!(item, Found::File(_) | Found::Unreadable(..))) {
                found.push(Found::Empty(path.to_path_buf()));
            }
        }
        Ok(_) => found.push(Found::File(path.to_path_buf())),
        Err(error) => found.push(Found::Unreadable(path.to_path_buf(), error)),
    }
    found
}

fn folder(path: &Path, found: &mut Vec<Found>) {
    let entries: io::Result<Vec<DirEntry>> = fs::read_dir(path).and_then(Iterator::collect);
    match entries {
        Ok(mut entries) => {
            entries.sort_by_key(DirEntry::file_name);
            entries.iter().for_each(|entry| within(entry, found));
        }
        Err(error) => found.push(Found::Unreadable(path.to_path_buf(), error)),
    }
}

/// An entry of a folder. Links to folders are not followed, so that the walk ends.
fn within(entry: &DirEntry, found: &mut Vec<Found>) {
    let (path, name) = (entry.path(), entry.file_name());
    let kind = match entry.file_type() {
        Ok(kind) => kind,
        Err(error) => return found.push(Found::Unreadable(path, error)),
    };
    let target = if kind.is_symlink() { fs::metadata(&path) } else { entry.metadata() };
    let is_folder = target.as_ref().is_ok_and(fs::Metadata::is_dir);
    let skipped = if kind.is_dir() && name.as_bytes().starts_with(b".") {
        Some(Reason::HiddenFolder)
    } else if kind.is_dir() {
        return folder(&path, found);
    } else if is_folder {
        Some(Reason::FolderLink)
    } else {
        reason_by_name(&name)
    };
    found.push(match (skipped, target) {
        (Some(reason), _) => Found::Skipped(path, reason),
        (None, Ok(about)) if about.is_file() => Found::File(path),
        (None, Ok(_)) => Found::Skipped(path, Reason::Special),
        (None, Err(error)) => Found::Unreadable(path, error),
    });
}

/// Why a file of this name is skipped. A suffix counts in whatever case: `Desk.PSK` is judged, and not passed over.
fn reason_by_name(name: &OsStr) -> Option<Reason> {
    let name = name.as_bytes().to_ascii_lowercase();
    let is_network = [&b".open"[..], b".psk", b".config"].iter().any(|suffix| name.ends_with(suffix));
    if name.starts_with(b"._") {
        Some(Reason::MacNote)
    } else if name.ends_with(b".8021x") {
        Some(Reason::Login)
    } else {
        (!is_network).then_some(Reason::Other)
    }
}
