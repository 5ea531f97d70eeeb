//! A host in Rust: three connections, one of which speaks MessagePack, a registration, calls and their answers. It prints each step's
//! outcome and what is to be sent.
//!
//! ```text
//! rustc --edition 2021 -O examples/embed.rs -L target/staticlib -l static=hub_ffi -o embed && ./embed
//! ```

/// The functions of `libhub_ffi.a`; include/hub.h says what each does.
mod ffi {
    extern "C" {
        pub fn hub_attach(slot: u64, state: *mut u8, state_len: usize, out: *mut u8, out_len: usize) -> u64;
        pub fn hub_attach_msgpack(
            slot: u64,
            state: *mut u8,
            state_len: usize,
            out: *mut u8,
            out_len: usize,
        ) -> u64;
        pub fn hub_detach(slot: u64, state: *mut u8, state_len: usize, out: *mut u8, out_len: usize) -> u64;
        pub fn hub_message(
            slot: u64,
            number: u64,
            message: *const u8,
            message_len: usize,
            state: *mut u8,
            state_len: usize,
            out: *mut u8,
            out_len: usize,
        ) -> u64;
    }
}

/// A hub with the bytes that it is lent: its state, all zero when empty, and room for what a step sends.
struct Hub {
    state: Vec<u8>,
    out: Vec<u8>,
}

/// The messages to send, each with its slot; or the refusal's number.
type Outcome<'h> = Result<Vec<(u8, &'h [u8])>, u64>;

impl Hub {
    fn new() -> Hub {
        Hub { state: vec![0; 9688], out: vec![0; 13_000] }
    }

    fn attach(&mut self, slot: u64) -> Outcome<'_> {
        let (state, out) = (&mut self.state, &mut self.out);
        // SAFETY: two buffers of their lengths, both borrowed mutably, so that they do not overlap.
        let answer =
            unsafe { ffi::hub_attach(slot, state.as_mut_ptr(), state.len(), out.as_mut_ptr(), out.len()) };
        self.outcome(answer)
    }

    fn attach_msgpack(&mut self, slot: u64) -> Outcome<'_> {
        let (state, out) = (&mut self.state, &mut self.out);
        // SAFETY: as in `attach`.
        let answer = unsafe {
            ffi::hub_attach_msgpack(slot, state.as_mut_ptr(), state.len(), out.as_mut_ptr(), out.len())
        };
        self.outcome(answer)
    }

    fn detach(&mut self, slot: u64) -> Outcome<'_> {
        let (state, out) = (&mut self.state, &mut self.out);
        // SAFETY: as in `attach`.
        let answer =
            unsafe { ffi::hub_detach(slot, state.as_mut_ptr(), state.len(), out.as_mut_ptr(), out.len()) };
        self.outcome(answer)
    }

    /// `number` is a random number of the host's, from 1 to 2^53.
    fn message(&mut self, slot: u64, number: u64, message: &[u8]) -> Outcome<'_> {
        let (state, out) = (&mut self.state, &mut self.out);
        // SAFETY: as in `attach`; the message is another borrow, and is only read.
        let answer = unsafe {
            ffi::hub_message(
                slot,
                number,
                message.as_ptr(),
                message.len(),
                state.as_mut_ptr(),
                state.len(),
                out.as_mut_ptr(),
                out.len(),
            )
        };
        self.outcome(answer)
    }

    /// Takes the answer, `count * 256 + refusal`, and the output apart.
    fn outcome(&self, answer: u64) -> Outcome<'_> {
        if answer % 256 != 0 {
            return Err(answer % 256);
        }
        let messages = usize::from(u16::from_be_bytes([self.out[0], self.out[1]]));
        let (contents, mut bodies) = self.out[2..(answer / 256) as usize].split_at(3 * messages);
        let sent = contents.chunks(3).map(|entry| {
            let (body, rest) = bodies.split_at(usize::from(u16::from_be_bytes([entry[1], entry[2]])));
            bodies = rest;
            (entry[0], body)
        });
        Ok(sent.collect())
    }
}

/// A message as it is printed: one of JSON, which begins with its bracket, as it is, and one of MessagePack, which never does, in hex.
fn told(message: &[u8]) -> String {
    if message.starts_with(b"[") {
        return String::from_utf8_lossy(message).into_owned();
    }
    message.iter().map(|byte| format!("{byte:02x}")).collect()
}

fn print(outcome: Outcome) {
    match outcome {
        Ok(messages) => {
            let count: usize = 2 + messages.iter().map(|(_, body)| 3 + body.len()).sum::<usize>();
            println!("  done, {count} bytes");
            for (slot, body) in messages {
                println!("  to slot {slot}: {}", told(body));
            }
        }
        Err(refusal) => println!("  refusal {refusal}"),
    }
}

fn sends(hub: &mut Hub, slot: u64, number: u64, message: &[u8]) {
    println!("slot {slot} sends {}", told(message));
    print(hub.message(slot, number, message));
}

fn main() {
    let mut hub = Hub::new();
    // The second time, slot 1 is attached already.
    for slot in [0, 1, 1] {
        println!("slot {slot} is attached");
        print(hub.attach(slot));
    }
    // A real host draws these numbers at random.
    let messages = [
        (0, 1001, r#"[1,"hub.bus",{}]"#),
        (1, 1002, r#"[1,"hub.bus",{}]"#),
        (1, 1003, r#"[64,1,{"match":"prefix"},"hub.donor"]"#),
        (0, 1004, r#"[48,1,{},"hub.donor.defer",["D17"]]"#),
        (1, 1005, r#"[70,1,{},["held"]]"#),
        (0, 1006, r#"[48,2,{},"hub.donor.defer",["D18"]]"#),
    ];
    for (slot, number, message) in messages {
        sends(&mut hub, slot, number, message.as_bytes());
    }
    // The same procedure, called in MessagePack: the invocation is JSON, and the result is MessagePack again.
    println!("slot 2 is attached for MessagePack");
    print(hub.attach_msgpack(2));
    sends(&mut hub, 2, 1007, b"\x93\x01\xa7hub.bus\x80");
    sends(&mut hub, 2, 1008, b"\x95\x30\x01\x80\xafhub.donor.defer\x91\xa3D19");
    sends(&mut hub, 1, 1009, br#"[70,3,{},["held"]]"#);
    // The call that it served is canceled.
    println!("slot 1 is detached");
    print(hub.detach(1));
}
