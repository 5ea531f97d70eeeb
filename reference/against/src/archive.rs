//! The functions of `libhub_ffi.a` (declared for C in include/hub.h), as safe ones.
//!
//! None of them asks anything of its arguments but what a slice in Rust has anyway: the pointer is good for the
//! length, and no two lent buffers overlap, since a mutable borrow overlaps no other.

use crate::side::{Event, Filing, Step};
use reference::format::Format;

/// Does the archive's step take settings? Where it does not, it serves the default ones and is lent none; a run that asks
/// for settings (`compare --settings`) is for a library whose step takes them all the same.
pub const STEP_TAKES_SETTINGS: bool = false;

extern "C" {
    fn hub_attach(slot: u64, state: *mut u8, state_len: usize, out: *mut u8, out_len: usize) -> u64;
    fn hub_attach_msgpack(slot: u64, state: *mut u8, state_len: usize, out: *mut u8, out_len: usize) -> u64;
    fn hub_detach(slot: u64, state: *mut u8, state_len: usize, out: *mut u8, out_len: usize) -> u64;
    fn hub_message(
        slot: u64,
        number: u64,
        message: *const u8,
        message_len: usize,
        state: *mut u8,
        state_len: usize,
        out: *mut u8,
        out_len: usize,
    ) -> u64;
    fn hub_settings_read(file: *const u8, file_len: usize, out: *mut u8, out_len: usize) -> u64;
    fn hub_settings_read_1(file: *const u8, file_len: usize, out: *mut u8, out_len: usize) -> u64;
    fn hub_settings_write(settings: *const u8, settings_len: usize, out: *mut u8, out_len: usize) -> u64;
    fn hub_settings_write_1(settings: *const u8, settings_len: usize, out: *mut u8, out_len: usize) -> u64;
    fn hub_settings_default(out: *mut u8, out_len: usize) -> u64;
}

/// Runs the step on lent bytes and answers `count * 256 + refusal`. The settings are lent if the step takes any.
pub fn run(step: &Step, settings: &[u8], state: &mut [u8], out: &mut [u8]) -> u64 {
    if STEP_TAKES_SETTINGS {
        return with_settings::run(step, settings, state, out);
    }
    let (state_at, state_len, out_at, out_len) =
        (state.as_mut_ptr(), state.len(), out.as_mut_ptr(), out.len());
    // SAFETY: slices, of which the state and the output are borrowed mutably.
    unsafe {
        match &step.event {
            Event::Attach(Format::Json) => hub_attach(step.slot, state_at, state_len, out_at, out_len),
            Event::Attach(Format::MsgPack) => {
                hub_attach_msgpack(step.slot, state_at, state_len, out_at, out_len)
            }
            Event::Detach => hub_detach(step.slot, state_at, state_len, out_at, out_len),
            Event::Message { number, bytes } => hub_message(
                step.slot,
                *number,
                bytes.as_ptr(),
                bytes.len(),
                state_at,
                state_len,
                out_at,
                out_len,
            ),
        }
    }
}

/// The step's functions as they are where they take settings.
#[allow(clashing_extern_declarations)]
mod with_settings {
    use super::{Event, Format, Step};

    type Bytes = *const u8;
    type Lent = *mut u8;

    extern "C" {
        fn hub_attach(
            slot: u64,
            at: Bytes,
            len: usize,
            state: Lent,
            of: usize,
            out: Lent,
            room: usize,
        ) -> u64;
        fn hub_attach_msgpack(
            slot: u64,
            at: Bytes,
            len: usize,
            state: Lent,
            of: usize,
            out: Lent,
            room: usize,
        ) -> u64;
        fn hub_detach(
            slot: u64,
            at: Bytes,
            len: usize,
            state: Lent,
            of: usize,
            out: Lent,
            room: usize,
        ) -> u64;
        fn hub_message(
            slot: u64,
            number: u64,
            message: Bytes,
            message_len: usize,
            at: Bytes,
            len: usize,
            state: Lent,
            of: usize,
            out: Lent,
            room: usize,
        ) -> u64;
    }

    pub fn run(step: &Step, settings: &[u8], state: &mut [u8], out: &mut [u8]) -> u64 {
        let (at, len) = (settings.as_ptr(), settings.len());
        let (state, of, out, room) = (state.as_mut_ptr(), state.len(), out.as_mut_ptr(), out.len());
        // SAFETY: slices, of which the state and the output are borrowed mutably.
        unsafe {
            match &step.event {
                Event::Attach(Format::Json) => hub_attach(step.slot, at, len, state, of, out, room),
                Event::Attach(Format::MsgPack) => {
                    hub_attach_msgpack(step.slot, at, len, state, of, out, room)
                }
                Event::Detach => hub_detach(step.slot, at, len, state, of, out, room),
                Event::Message { number, bytes } => {
                    let (message, message_len) = (bytes.as_ptr(), bytes.len());
                    hub_message(step.slot, *number, message, message_len, at, len, state, of, out, room)
                }
            }
        }
    }
}

/// The most arguments that a function has.
pub const ARGUMENTS: usize = 10;

/// A call of one of them, for whoever makes it on another stack: the function's address, and its arguments
/// in order. A function of fewer arguments leaves the last ones alone.
pub struct Call {
    pub function: usize,
    pub arguments: [u64; ARGUMENTS],
}

impl Call {
    fn new(function: *const (), arguments: &[u64]) -> Call {
        let mut all = [0; ARGUMENTS];
        all[..arguments.len()].copy_from_slice(arguments);
        Call { function: function as usize, arguments: all }
    }
}

/// The call that makes the step on lent bytes. `message` has the step's bytes. Settings are lent where there are some: to
/// a step that takes them. It is good as long as the buffers are.
pub fn call(step: &Step, message: &[u8], settings: Option<&[u8]>, state: &mut [u8], out: &mut [u8]) -> Call {
    let (function, mut arguments) = match step.event {
        Event::Attach(Format::Json) => (hub_attach as *const (), vec![step.slot]),
        Event::Attach(Format::MsgPack) => (hub_attach_msgpack as *const (), vec![step.slot]),
        Event::Detach => (hub_detach as *const (), vec![step.slot]),
        Event::Message { number, .. } => {
            let bytes = [message.as_ptr() as u64, message.len() as u64];
            (hub_message as *const (), [&[step.slot, number], &bytes[..]].concat())
        }
    };
    arguments.extend(settings.iter().flat_map(|settings| [settings.as_ptr() as u64, settings.len() as u64]));
    arguments.extend([state.as_mut_ptr() as u64, state.len() as u64]);
    arguments.extend([out.as_mut_ptr() as u64, out.len() as u64]);
    Call::new(function, &arguments)
}

/// The call of a settings function on lent bytes, a file or settings. It is good as long as both buffers are.
pub fn filing(filing: Filing, lent: &[u8], out: &mut [u8]) -> Call {
    let [lent_at, lent_len] = [lent.as_ptr() as u64, lent.len() as u64];
    let [out_at, out_len] = [out.as_mut_ptr() as u64, out.len() as u64];
    let function = match filing {
        Filing::Read => hub_settings_read as *const (),
        Filing::Read1 => hub_settings_read_1 as *const (),
        Filing::Write => hub_settings_write as *const (),
        Filing::Write1 => hub_settings_write_1 as *const (),
        Filing::Default => return Call::new(hub_settings_default as *const (), &[out_at, out_len]),
    };
    Call::new(function, &[lent_at, lent_len, out_at, out_len])
}
