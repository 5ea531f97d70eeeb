//! The settings functions of the C boundary over the independent program.

use reference::settings_file;

/// The lent bytes.
///
/// # Safety
/// The pointer is good for the length, as the caller of the boundary promises.
pub unsafe fn lent<'b>(bytes: *mut u8, length: usize) -> &'b mut [u8] {
    std::slice::from_raw_parts_mut(bytes, length)
}

/// # Safety
/// The pointers are good for their lengths, and the buffers do not overlap.
#[no_mangle]
pub unsafe extern "C" fn hub_settings_read(
    file: *const u8,
    file_len: usize,
    out: *mut u8,
    out_len: usize,
) -> u64 {
    settings_file::read(std::slice::from_raw_parts(file, file_len), lent(out, out_len))
}

/// # Safety
/// The pointers are good for their lengths, and the buffers do not overlap.
#[no_mangle]
pub unsafe extern "C" fn hub_settings_read_1(
    file: *const u8,
    file_len: usize,
    out: *mut u8,
    out_len: usize,
) -> u64 {
    settings_file::read_1(std::slice::from_raw_parts(file, file_len), lent(out, out_len))
}

/// # Safety
/// The pointers are good for their lengths, and the buffers do not overlap.
#[no_mangle]
pub unsafe extern "C" fn hub_settings_write(
    settings: *const u8,
    settings_len: usize,
    out: *mut u8,
    out_len: usize,
) -> u64 {
    settings_file::write(std::slice::from_raw_parts(settings, settings_len), lent(out, out_len))
}

/// # Safety
/// The pointers are good for their lengths, and the buffers do not overlap.
#[no_mangle]
pub unsafe extern "C" fn hub_settings_write_1(
    settings: *const u8,
    settings_len: usize,
    out: *mut u8,
    out_len: usize,
) -> u64 {
    settings_file::write_1(std::slice::from_raw_parts(settings, settings_len), lent(out, out_len))
}

/// # Safety
/// The pointers are good for their lengths, and the buffers do not overlap.
#[no_mangle]
pub unsafe extern "C" fn hub_settings_default(out: *mut u8, out_len: usize) -> u64 {
    settings_file::default(lent(out, out_len))
}
