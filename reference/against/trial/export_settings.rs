//! The step's functions of the C boundary over the independent program: an archive to try the comparison with
//! where the proved hub's is not there, or is to be wrong on purpose.
//! They take settings.

use crate::export_files::lent;
use reference::hub;

/// # Safety
/// The pointers are good for their lengths, and the buffers do not overlap.
#[no_mangle]
pub unsafe extern "C" fn hub_attach(
    slot: u64,
    settings: *const u8,
    settings_len: usize,
    state: *mut u8,
    state_len: usize,
    out: *mut u8,
    out_len: usize,
) -> u64 {
    let settings = std::slice::from_raw_parts(settings, settings_len);
    hub::attach(slot, settings, lent(state, state_len), lent(out, out_len))
}

/// # Safety
/// As of `hub_attach`.
#[no_mangle]
pub unsafe extern "C" fn hub_attach_msgpack(
    slot: u64,
    settings: *const u8,
    settings_len: usize,
    state: *mut u8,
    state_len: usize,
    out: *mut u8,
    out_len: usize,
) -> u64 {
    let settings = std::slice::from_raw_parts(settings, settings_len);
    hub::attach_msgpack(slot, settings, lent(state, state_len), lent(out, out_len))
}

/// # Safety
/// As of `hub_attach`.
#[no_mangle]
pub unsafe extern "C" fn hub_detach(
    slot: u64,
    settings: *const u8,
    settings_len: usize,
    state: *mut u8,
    state_len: usize,
    out: *mut u8,
    out_len: usize,
) -> u64 {
    let settings = std::slice::from_raw_parts(settings, settings_len);
    hub::detach(slot, settings, lent(state, state_len), lent(out, out_len))
}

/// # Safety
/// As of `hub_attach`.
#[no_mangle]
pub unsafe extern "C" fn hub_message(
    slot: u64,
    number: u64,
    message: *const u8,
    message_len: usize,
    settings: *const u8,
    settings_len: usize,
    state: *mut u8,
    state_len: usize,
    out: *mut u8,
    out_len: usize,
) -> u64 {
    let settings = std::slice::from_raw_parts(settings, settings_len);
    let message = std::slice::from_raw_parts(message, message_len);
    hub::message(slot, number, message, settings, lent(state, state_len), lent(out, out_len))
}
