//! Questions to the library over the C boundary: the one place with unsafe code.

use qewaris::raw;

type Read<T> = unsafe extern "C" fn(*const u8, usize, *const u8, usize) -> T;
type ReadService<T> = unsafe extern "C" fn(*const u8, usize, *const u8, usize, usize) -> T;

/// What a function answers to a file under its name.
pub fn read<T>(function: Read<T>, name: &[u8], file: &[u8]) -> T {
    // SAFETY: the pointers and lengths are those of slices, which nothing changes during the call.
    unsafe { function(name.as_ptr(), name.len(), file.as_ptr(), file.len()) }
}

/// What a function answers to a service of a file under its name.
pub fn read_service<T>(function: ReadService<T>, name: &[u8], file: &[u8], service: usize) -> T {
    // SAFETY: as above.
    unsafe { function(name.as_ptr(), name.len(), file.as_ptr(), file.len(), service) }
}

/// Writes a record into two buffers.
pub fn write(record: raw::Record, name: &mut [u8], file: &mut [u8]) -> raw::Written {
    // SAFETY: the pointers and lengths are those of two slices that are lent to this call alone.
    unsafe { raw::qewaris_write_iwd(record, name.as_mut_ptr(), name.len(), file.as_mut_ptr(), file.len()) }
}

/// Moves a service of a file under its name into two buffers.
pub fn move_service(from: (&[u8], &[u8]), service: usize, name: &mut [u8], file: &mut [u8]) -> raw::Written {
    let (from_name, from_file) = (from.0.as_ptr(), from.1.as_ptr());
    let (name_out, file_out) = (name.as_mut_ptr(), file.as_mut_ptr());
    // SAFETY: the pointers and lengths are those of slices, and the two that are written are lent to this call alone.
    unsafe {
        raw::qewaris_move_service(
            from_name,
            from.0.len(),
            from_file,
            from.1.len(),
            service,
            name_out,
            name.len(),
            file_out,
            file.len(),
        )
    }
}

/// A struct of the boundary.
///
/// # Safety
///
/// Every member is a number, or an array or struct of numbers: zero bytes are a value of it.
pub unsafe trait Plain: Copy + PartialEq {}

unsafe impl Plain for raw::Reading {}
unsafe impl Plain for raw::IwdSettings {}
unsafe impl Plain for raw::ServiceSettings {}
unsafe impl Plain for raw::Text {}
unsafe impl Plain for raw::Written {}

/// The struct with zero in every place.
pub fn zero<T: Plain>() -> T {
    // SAFETY: `Plain` says that this is a value.
    unsafe { std::mem::zeroed() }
}
