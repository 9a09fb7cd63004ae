//! Writing the iwd file of a join record, and moving a ConnMan service to iwd.

use crate::raw;
use crate::record::JoinRecord;
use crate::refusal::{answered, Refusal};
use crate::Hidden;
use std::fmt;

/// How many bytes to set aside for a file name that is written: none is longer, and some open network reaches it.
///
/// A name buffer of this size beside a file buffer of [`FILE_MAX`] bytes never meets refusal 17, which is proved of the library.
pub const NAME_MAX: usize = raw::NAME_MAX;

/// How many bytes to set aside for a file that is written: none is longer, and some network with a passphrase reaches it.
///
/// ```
/// use qewaris::{write_iwd_into, JoinRecord, FILE_MAX, NAME_MAX};
///
/// let (mut name, mut file) = ([0; NAME_MAX], [0; FILE_MAX]);
/// let record = JoinRecord { hidden: true, ..JoinRecord::open(b"Desk 4") };
/// let written = write_iwd_into(&record, &mut name, &mut file)?;
/// assert_eq!(&name[..written.name_len], b"Desk 4.open");
/// assert_eq!(&file[..written.file_len], b"[Settings]\nHidden=true\n");
/// # Ok::<(), qewaris::Refusal>(())
/// ```
pub const FILE_MAX: usize = raw::FILE_MAX;

/// How many bytes are new at the front of each buffer; what stood behind them is still there.
#[derive(Clone, Copy, Debug, PartialEq, Eq)]
pub struct Written {
    pub name_len: usize,
    pub file_len: usize,
}

/// An iwd file and its name. `Debug` does not show the file, since it may hold a passphrase or a key.
#[derive(Clone, PartialEq, Eq)]
pub struct IwdFile {
    pub name: Vec<u8>,
    pub file: Vec<u8>,
}

impl fmt::Debug for IwdFile {
    fn fmt(&self, f: &mut fmt::Formatter<'_>) -> fmt::Result {
        f.debug_struct("IwdFile")
            .field("name", &String::from_utf8_lossy(&self.name))
            .field("file", &Hidden)
            .finish()
    }
}

/// Writes the iwd file of a record and its name into the front of two buffers. A refusal leaves both as they were.
pub fn write_iwd_into(record: &JoinRecord, name_out: &mut [u8], file_out: &mut [u8]) -> Result<Written, Refusal> {
    let record = record.to_raw().ok_or(Refusal::MALFORMED)?;
    // SAFETY: the pointers and lengths are those of two slices that are lent to this call alone.
    written(unsafe { raw::qewaris_write_iwd(record, name_out.as_mut_ptr(), name_out.len(), file_out.as_mut_ptr(), file_out.len()) })
}

/// The iwd file of a record and its name.
///
/// ```
/// use qewaris::{Credential, JoinRecord};
///
/// let record = JoinRecord { credential: Credential::Passphrase(b"low tide 88".to_vec()), ..JoinRecord::open(b"Desk 4") };
/// let written = qewaris::write_iwd(&record)?;
/// assert_eq!(written.name, b"Desk 4.psk");
/// assert_eq!(qewaris::iwd_record(&written.name, &written.file)?, record);
/// # Ok::<(), qewaris::Refusal>(())
/// ```
pub fn write_iwd(record: &JoinRecord) -> Result<IwdFile, Refusal> {
    collected(|name, file| write_iwd_into(record, name, file))
}

/// Writes the iwd file of a ConnMan service, by its number from 1, and its name into the front of two buffers. A refusal leaves
/// both as they were.
pub fn move_service_into(name: &[u8], file: &[u8], service: usize, name_out: &mut [u8], file_out: &mut [u8]) -> Result<Written, Refusal> {
    // SAFETY: the pointers and lengths are those of slices, and the two that are written are lent to this call alone.
    written(unsafe {
        raw::qewaris_move_service(
            name.as_ptr(),
            name.len(),
            file.as_ptr(),
            file.len(),
            service,
            name_out.as_mut_ptr(),
            name_out.len(),
            file_out.as_mut_ptr(),
            file_out.len(),
        )
    })
}

/// The iwd file of a ConnMan service, by its number from 1, and its name.
pub fn move_service(name: &[u8], file: &[u8], service: usize) -> Result<IwdFile, Refusal> {
    collected(|name_out, file_out| move_service_into(name, file, service, name_out, file_out))
}

fn written(answer: raw::Written) -> Result<Written, Refusal> {
    answered(answer.number, answer.line, || Written {
        name_len: answer.name_len,
        file_len: answer.file_len,
    })
}

/// What is written into buffers that are never too short, as vectors of just these bytes.
fn collected(write: impl FnOnce(&mut [u8], &mut [u8]) -> Result<Written, Refusal>) -> Result<IwdFile, Refusal> {
    let mut name = [0; NAME_MAX];
    let mut file = [0; FILE_MAX];
    let lengths = write(&mut name, &mut file)?;
    Ok(IwdFile {
        name: name[..lengths.name_len].to_vec(),
        file: file[..lengths.file_len].to_vec(),
    })
}
