//! The step's functions of the C boundary over the independent program: an archive to try the comparison with
//! where the proved hub's is not there, or is to be wrong on purpose. They take no settings and serve the default ones.

use crate::export_files::lent;
use reference::hub;
use reference::settings::DEFAULT_BYTES;

/// # Safety
/// The pointers are good for their lengths, and the buffers do not overlap.
#[no_mangle]
pub unsafe extern "C" fn hub_attach(
    slot: u64,
    state: *mut u8,
    state_len: usize,
    out: *mut u8,
    out_len: usize,
) -> u64 {
    hub::attach(slot, &DEFAULT_BYTES, lent(state, state_len), lent(out, out_len))
}

/// # Safety
/// As of `hub_attach`.
#[no_mangle]
pub unsafe extern "C" fn hub_attach_msgpack(
    slot: u64,
    state: *mut u8,
    state_len: usize,
    out: *mut u8,
    out_len: usize,
) -> u64 {
    hub::attach_msgpack(slot, &DEFAULT_BYTES, lent(state, state_len), lent(out, out_len))
}

/// # Safety
/// As of `hub_attach`.
#[no_mangle]
pub unsafe extern "C" fn hub_detach(
    slot: u64,
    state: *mut u8,
    state_len: usize,
    out: *mut u8,
    out_len: usize,
) -> u64 {
    hub::detach(slot, &DEFAULT_BYTES, lent(state, state_len), lent(out, out_len))
}

/// # Safety
/// As of `hub_attach`.
#[no_mangle]
pub unsafe extern "C" fn hub_message(
    slot: u64,
    number: u64,
    message: *const u8,
    message_len: usize,
    state: *mut u8,
    state_len: usize,
    out: *mut u8,
    out_len: usize,
) -> u64 {
    let message = std::slice::from_raw_parts(message, message_len);
    hub::message(slot, number, message, &DEFAULT_BYTES, lent(state, state_len), lent(out, out_len))
}
