//! A trap of the archive, told: the seed, the step, and what was touched; then the program ends with status 1.

use std::cell::Cell;
use std::ffi::{c_int, c_void};
use std::fmt::{self, Write};
use std::ops::Range;

use crate::pages::PAGE;

extern "C" {
    fn sigaction(signal: c_int, action: *const Action, before: *mut Action) -> c_int;
    fn write(file: c_int, bytes: *const u8, length: usize) -> isize;
    fn _exit(status: c_int) -> !;
}

/// `struct sigaction` of the C library on x86-64 Linux.
#[repr(C)]
struct Action {
    handler: extern "C" fn(c_int, *const Info, *mut c_void),
    mask: [u64; 16],
    flags: c_int,
    restorer: usize,
}

/// The begin of `siginfo_t`: three numbers, and for the signals of memory the address.
#[repr(C)]
struct Info {
    numbers: [c_int; 4],
    address: usize,
}

/// The handler takes three arguments (SA_SIGINFO) and runs on the stack that Rust keeps for handlers in each of
/// its threads (SA_ONSTACK): the one in use may be the one that is full.
const FLAGS: c_int = 0x4 | 0x0800_0000;

const SIGNALS: [(c_int, &str); 5] = [
    (4, "an instruction that is none (SIGILL)"),
    (6, "an abort (SIGABRT)"),
    (7, "memory that is not there (SIGBUS)"),
    (8, "a division (SIGFPE)"),
    (11, "an access that is not allowed (SIGSEGV)"),
];

/// The lent buffers and the stack, by name.
const NAMES: [&str; 5] = ["message or file", "settings", "state", "output", "stack"];

thread_local! {
    // The values need no destructor and no start, so that a handler can read them.
    static STEP: Cell<(u64, &str, u64)> = const { Cell::new((0, "step", 0)) };
    static LENT: [Cell<(usize, usize)>; 5] = const { [const { Cell::new((0, 0)) }; 5] };
}

/// The step that is run next in this thread.
pub fn note_step(seed: u64, step: u64) {
    STEP.set((seed, "step", step));
}

/// The call of a settings function that is made next in this thread.
pub fn note_file_call(seed: u64, call: u64) {
    STEP.set((seed, "file call", call));
}

/// Where this thread's message or file, settings, state, output and stack lie.
pub fn note_lent(lent: [Range<*const u8>; 5]) {
    LENT.with(|places| {
        for (place, range) in places.iter().zip(lent) {
            place.set((range.start as usize, range.end as usize));
        }
    });
}

/// Tells every trap from here on.
pub fn tell_all() {
    let action = Action { handler: tell, mask: [0; 16], flags: FLAGS, restorer: 0 };
    for (signal, _) in SIGNALS {
        // SAFETY: the handler calls nothing that a handler may not call.
        let set = unsafe { sigaction(signal, &action, std::ptr::null_mut()) };
        assert_eq!(set, 0, "signal {signal}");
    }
}

extern "C" fn tell(signal: c_int, info: *const Info, _: *mut c_void) {
    // SAFETY: the system hands the handler its information.
    let address = unsafe { (*info).address };
    let mut text = Text { bytes: [0; 400], length: 0 };
    let (seed, what, number) = STEP.get();
    let name = SIGNALS.iter().find(|(number, _)| *number == signal).map_or("a signal", |(_, name)| name);
    let _ = write!(text, "seed {seed}, {what} {number}: a trap: {name}");
    if signal == 11 {
        let _ = tell_address(&mut text, address);
    }
    let _ = writeln!(text);
    // SAFETY: the text's own bytes, to standard output.
    unsafe {
        write(1, text.bytes.as_ptr(), text.length);
        _exit(1)
    }
}

/// Says which of the lent buffers lies within a page of the address, and on which side.
fn tell_address(text: &mut Text, address: usize) -> fmt::Result {
    LENT.with(|places| {
        for (name, place) in NAMES.iter().zip(places) {
            let (from, to) = place.get();
            if address < from && from - address <= PAGE {
                write!(text, ", {} bytes before the first of the {name}", from - address)?;
            } else if address >= to && address - to < PAGE {
                write!(text, ", {} bytes after the last of the {name}", address - to + 1)?;
            }
        }
        Ok(())
    })
}

/// A text in a fixed place, since a handler takes no memory. What does not fit is left out.
struct Text {
    bytes: [u8; 400],
    length: usize,
}

impl Write for Text {
    fn write_str(&mut self, part: &str) -> fmt::Result {
        let room = &mut self.bytes[self.length..];
        let length = part.len().min(room.len());
        room[..length].copy_from_slice(&part.as_bytes()[..length]);
        self.length += length;
        Ok(())
    }
}

#[cfg(test)]
mod tests {
    use super::*;

    /// What is told of an address, with a message of 8 bytes at 0x10000.
    fn told(address: usize) -> String {
        let nowhere = std::ptr::null()..std::ptr::null();
        let message = 0x10000 as *const u8..0x10008 as *const u8;
        note_lent([message, nowhere.clone(), nowhere.clone(), nowhere.clone(), nowhere]);
        let mut text = Text { bytes: [0; 400], length: 0 };
        tell_address(&mut text, address).unwrap();
        String::from_utf8_lossy(&text.bytes[..text.length]).into_owned()
    }

    #[test]
    fn the_buffer_beside_an_address_is_told() {
        assert_eq!(told(0xffff), ", 1 bytes before the first of the message or file");
        assert_eq!(told(0x10008), ", 1 bytes after the last of the message or file");
        assert_eq!(told(0x20000), "");
    }

    #[test]
    fn a_text_ends_where_its_place_does() {
        let mut text = Text { bytes: [0; 400], length: 0 };
        text.write_str(&"x".repeat(500)).unwrap();
        assert_eq!(text.length, 400);
    }
}
