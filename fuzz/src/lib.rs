//! The fuzzer's one function: each input stands for a case, which the outside judge puts to the library and to itself.

use std::slice;

/// Called by libFuzzer. A difference between the library and the judge aborts with the case made small and in print.
///
/// # Safety
/// `data` points to `size` bytes.
#[no_mangle]
pub unsafe extern "C" fn LLVMFuzzerTestOneInput(data: *const u8, size: usize) -> i32 {
    let data = if size == 0 { &[] } else { slice::from_raw_parts(data, size) };
    judge::one(data);
    0
}
