//! Reading a file: accepted, or the first fault.

use crate::raw;
use crate::refusal::{answered, Refusal};

/// What an accepted file has.
#[derive(Clone, Copy, Debug, PartialEq, Eq)]
pub struct Counts {
    /// How many setting lines.
    pub settings: usize,
    /// How many services; 0 for iwd.
    pub services: usize,
}

/// Reads an iwd file under its name.
///
/// ```
/// let counts = qewaris::check_iwd(b"Desk 4.psk", b"[Security]\nPassphrase=low tide 88\n")?;
/// assert_eq!(counts.settings, 1);
/// assert_eq!(qewaris::check_iwd(b"Desk 4.psk", b"").unwrap_err().number(), 14);
/// # Ok::<(), qewaris::Refusal>(())
/// ```
pub fn check_iwd(name: &[u8], file: &[u8]) -> Result<Counts, Refusal> {
    // SAFETY: the pointers and lengths are those of slices, which nothing changes during the call.
    counted(unsafe { raw::qewaris_check_iwd(name.as_ptr(), name.len(), file.as_ptr(), file.len()) })
}

/// Reads a ConnMan file under its name.
///
/// ```
/// let counts = qewaris::check_connman(b"shop.config", b"[service_till]\nType = wifi\nName = Desk 4\n")?;
/// assert_eq!((counts.settings, counts.services), (2, 1));
/// # Ok::<(), qewaris::Refusal>(())
/// ```
pub fn check_connman(name: &[u8], file: &[u8]) -> Result<Counts, Refusal> {
    // SAFETY: as above.
    counted(unsafe { raw::qewaris_check_connman(name.as_ptr(), name.len(), file.as_ptr(), file.len()) })
}

fn counted(reading: raw::Reading) -> Result<Counts, Refusal> {
    answered(reading.number, reading.line, || Counts {
        settings: reading.settings,
        services: reading.services,
    })
}
