//! Reading a file for the library: its bytes whole, under its name without a folder.

use crate::catalogue::Dialect;
use crate::diagnosis::Subject;
use crate::report::shown_path;
use std::ffi::OsStr;
use std::fs::File;
use std::io::{self, Read};
use std::os::unix::ffi::OsStrExt;
use std::path::{Path, PathBuf};

/// The library refuses every file that is longer, whatever it holds.
const SIZE_MAX: u64 = 16_384;

/// A file as it was read. Of one that is too long only the front is kept, which is too long as well.
pub struct Input {
    /// The path that it was read from, or the name that standard input was given.
    pub path: PathBuf,
    pub name: Vec<u8>,
    pub bytes: Vec<u8>,
    /// Its whole size, where the front was kept and the size is known.
    size: Option<u64>,
}

impl Input {
    pub fn read(path: &Path) -> io::Result<Input> {
        let file = File::open(path)?;
        let about = file.metadata()?;
        if about.is_dir() {
            return Err(io::Error::from(io::ErrorKind::IsADirectory));
        }
        let input = Input::from(path, file)?;
        let is_long = input.bytes.len() as u64 > SIZE_MAX && about.len() > SIZE_MAX;
        Ok(Input {
            size: is_long.then_some(about.len()),
            ..input
        })
    }

    /// Standard input, under a name.
    pub fn standard(name: &Path) -> io::Result<Input> {
        Input::from(name, io::stdin().lock())
    }

    fn from(path: &Path, bytes: impl Read) -> io::Result<Input> {
        let mut input = Input::held(path, b"");
        bytes.take(SIZE_MAX + 1).read_to_end(&mut input.bytes)?;
        Ok(input)
    }

    /// A file that was not read from anywhere.
    pub fn held(path: impl AsRef<Path>, bytes: &[u8]) -> Input {
        let path = path.as_ref();
        Input {
            path: path.to_path_buf(),
            name: path.file_name().map(OsStr::as_bytes).unwrap_or_default().to_vec(),
            bytes: bytes.to_vec(),
            size: None,
        }
    }

    pub fn dialect(&self) -> Dialect {
        Dialect::of(&self.name)
    }

    /// What the library answers for the file.
    pub fn check(&self) -> Result<qewaris::Counts, qewaris::Refusal> {
        match self.dialect() {
            Dialect::Iwd => qewaris::check_iwd(&self.name, &self.bytes),
            Dialect::Connman => qewaris::check_connman(&self.name, &self.bytes),
        }
    }

    pub fn subject(&self) -> Subject<'_> {
        Subject {
            size: self.size,
            ..Subject::new(&self.name, &self.bytes)
        }
    }
}

/// That a file could not be read, and why.
pub fn unreadable(path: &Path, error: &io::Error) -> String {
    format!("{} cannot be read: {}", shown_path(path), plainly(error))
}

/// Why something could not be done, in plain words.
pub fn plainly(error: &io::Error) -> String {
    match error.kind() {
        io::ErrorKind::NotFound => "there is no such file or folder".to_string(),
        io::ErrorKind::PermissionDenied => "you have no permission for it".to_string(),
        io::ErrorKind::IsADirectory => "it is a folder".to_string(),
        io::ErrorKind::NotADirectory => "a part of its path is no folder".to_string(),
        io::ErrorKind::ReadOnlyFilesystem => "its file system is read-only".to_string(),
        io::ErrorKind::StorageFull => "there is no room left".to_string(),
        io::ErrorKind::AlreadyExists => "it is there already".to_string(),
        _ => {
            let text = error.to_string();
            let plain = text.split(" (os error").next().unwrap_or(&text);
            plain.to_lowercase()
        }
    }
}
