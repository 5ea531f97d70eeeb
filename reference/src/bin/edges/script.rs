//! A script of steps, and what must be written on it. Each method writes a line of the script, runs it on the
//! reference's hub, and writes what came of it; the crate `edges` says what the lines are.

use reference::format::Format;
use reference::hub;
use reference::layout::{self, Table};
use reference::settings::DEFAULT_BYTES;
use reference::state::{State, BYTES, ROWS};
use reference::values;

/// The most output that a step is lent.
pub const MOST: usize = 8192;

/// Fills the output before a step.
const UNWRITTEN: u8 = 238;

/// The lent number where it does not matter.
const NUMBER: u64 = 4711;

const VIOLATION: &str = r#"[3,{},"wamp.error.protocol_violation"]"#;

const NAMES: [&str; 6] = ["done", "BAD STATE", "BAD SLOT", "WRONG TIME", "BAD NUMBER", "NO ROOM"];

#[derive(Clone)]
pub struct Script {
    pub stdin: Vec<u8>,
    pub stdout: Vec<u8>,
    pub state: Vec<u8>,
    room: usize,
    /// How many steps came out with each number.
    outcomes: [usize; NAMES.len()],
}

impl Default for Script {
    fn default() -> Script {
        Script {
            stdin: vec![],
            stdout: vec![],
            state: vec![0; BYTES],
            room: MOST,
            outcomes: [0; NAMES.len()],
        }
    }
}

/// What came of a step. The methods say what it must have been, so that a case stands on its side of the edge. A message
/// of MessagePack is told as `mp` and the JSON that it converts to; as `mp` and hex where it does not.
#[must_use]
pub struct Outcome {
    refusal: usize,
    count: usize,
    sent: Vec<(u8, String)>,
}

impl Outcome {
    /// It was refused with this number.
    #[track_caller]
    pub fn refuses(self, number: usize) {
        assert_eq!(self.refusal, number);
    }

    /// It was done, and sent nothing.
    #[track_caller]
    pub fn is_silent(self) {
        assert_eq!((self.refusal, self.sent), (0, vec![]));
    }

    /// It was done, and this is how its first message begins.
    #[track_caller]
    pub fn says(self, start: &str) {
        assert_eq!(self.refusal, 0);
        assert!(self.sent.first().is_some_and(|(_, text)| text.starts_with(start)), "{:?}", self.sent);
    }

    /// It was done, and its first message is an ERROR with this URI.
    #[track_caller]
    pub fn errs(self, uri: &str) {
        assert_eq!(self.refusal, 0);
        let end = format!(",{{}},\"{uri}\"]");
        let is_so = |text: &str| text.starts_with("[8,") && text.ends_with(&end);
        assert!(self.sent.first().is_some_and(|(_, text)| is_so(text)), "{:?}", self.sent);
    }

    /// It was a violation.
    #[track_caller]
    pub fn violates(self) {
        self.says(VIOLATION);
    }

    /// It was a violation on a slot of MessagePack.
    #[track_caller]
    pub fn violates_packed(self) {
        self.says(&format!("mp{VIOLATION}"));
    }

    /// It was done, and was no violation.
    #[track_caller]
    pub fn is_no_violation(self) {
        assert_eq!(self.refusal, 0);
        assert!(self.sent.iter().all(|(_, text)| text.trim_start_matches("mp") != VIOLATION));
    }

    /// It was done, and these are its messages.
    #[track_caller]
    pub fn sends(self, wanted: &[(u8, &str)]) {
        assert_eq!(self.refusal, 0);
        let sent: Vec<_> = self.sent.iter().map(|(slot, text)| (*slot, text.as_str())).collect();
        assert_eq!(sent, wanted);
    }

    /// It was done, and the receivers of its messages are these slots.
    #[track_caller]
    pub fn reaches(self, slots: &[u8]) {
        assert_eq!(self.refusal, 0);
        assert_eq!(self.sent.iter().map(|(slot, _)| *slot).collect::<Vec<_>>(), slots);
    }

    /// It was done with so many bytes, and sent this message alone.
    #[track_caller]
    pub fn is(self, count: usize, slot: u8, text: &str) {
        assert_eq!((self.refusal, self.count, self.sent), (0, count, vec![(slot, text.to_string())]));
    }
}

impl Script {
    pub fn heading(&mut self, text: &str) {
        self.line(format!("# {text}").as_bytes());
    }

    /// An empty hub.
    pub fn empty(&mut self) {
        self.line(b"empty");
        self.state.fill(0);
    }

    /// Each step from here on is lent so many bytes of output.
    pub fn room(&mut self, room: usize) {
        self.line(format!("room {room}").as_bytes());
        self.room = room;
    }

    /// The state's bytes from a place on are these.
    pub fn poke(&mut self, at: usize, bytes: &[u8]) {
        self.line(format!("poke {at} {}", hex(bytes)).as_bytes());
        self.state[at..at + bytes.len()].copy_from_slice(bytes);
    }

    pub fn poke_number(&mut self, at: usize, number: u64) {
        self.poke(at, &number.to_be_bytes());
    }

    pub fn attach(&mut self, slot: u64) -> Outcome {
        self.line(format!("attach {slot}").as_bytes());
        self.step(|state, out| hub::attach(slot, &DEFAULT_BYTES, state, out))
    }

    pub fn attach_msgpack(&mut self, slot: u64) -> Outcome {
        self.line(format!("attach_msgpack {slot}").as_bytes());
        self.step(|state, out| hub::attach_msgpack(slot, &DEFAULT_BYTES, state, out))
    }

    pub fn detach(&mut self, slot: u64) -> Outcome {
        self.line(format!("detach {slot}").as_bytes());
        self.step(|state, out| hub::detach(slot, &DEFAULT_BYTES, state, out))
    }

    pub fn send(&mut self, slot: u64, text: &str) -> Outcome {
        self.lent(slot, NUMBER, text)
    }

    /// A message under this lent number.
    pub fn lent(&mut self, slot: u64, number: u64, text: &str) -> Outcome {
        assert!(!text.contains('\n') && !text.ends_with('\r'), "a message of a line");
        self.line(format!("send {slot} {number} {text}").as_bytes());
        self.step(|state, out| hub::message(slot, number, text.as_bytes(), &DEFAULT_BYTES, state, out))
    }

    /// A message that a line cannot hold as it is.
    pub fn bytes(&mut self, slot: u64, bytes: &[u8]) -> Outcome {
        self.lent_bytes(slot, NUMBER, bytes)
    }

    /// The same under this lent number.
    pub fn lent_bytes(&mut self, slot: u64, number: u64, bytes: &[u8]) -> Outcome {
        self.line(format!("bytes {slot} {number} {}", hex(bytes)).as_bytes());
        self.step(|state, out| hub::message(slot, number, bytes, &DEFAULT_BYTES, state, out))
    }

    /// A message, given in JSON, in the slot's format; in MessagePack it has the shortest forms.
    pub fn say(&mut self, slot: u64, text: &str) -> Outcome {
        match self.format(slot) {
            Format::Json => self.send(slot, text),
            Format::MsgPack => self.bytes(slot, &packed(text)),
        }
    }

    /// The format of the slot.
    fn format(&self, slot: u64) -> Format {
        State::parse(&self.state).expect("a state").sessions[slot as usize].format
    }

    /// The step with room for one byte less than it needs, and with just enough.
    #[track_caller]
    pub fn tight(&mut self, step: impl Fn(&mut Script) -> Outcome) -> Outcome {
        let mut trial = self.clone();
        trial.room(MOST);
        let needed = step(&mut trial).count;
        self.room(needed - 1);
        step(self).refuses(5);
        self.room(needed);
        let outcome = step(self);
        assert_eq!((outcome.refusal, outcome.count), (0, needed));
        self.room(MOST);
        outcome
    }

    /// Puts back a state that stood before, part by part.
    pub fn restore(&mut self, saved: &[u8]) {
        self.empty();
        let mut parts = vec![0..Table::Subscriptions.counter()];
        for table in Table::BOTH {
            parts.push(table.counter()..table.row(0));
            parts.extend((0..ROWS).map(|row| table.row(row)..table.row(row + 1)));
        }
        parts.push(layout::call(0)..BYTES);
        for part in parts {
            let used = saved[part.clone()].iter().rposition(|&byte| byte != 0);
            if let Some(last) = used {
                self.poke(part.start, &saved[part.start..=part.start + last]);
            }
        }
        assert!(self.state == saved);
    }

    /// The state's first broken rule; 0 where its bytes are no state.
    pub fn broken_rule(&self) -> Option<usize> {
        State::parse(&self.state).map_or(Some(0), |state| state.broken_rule())
    }

    /// How many steps there are, by outcome.
    pub fn told(&self) -> String {
        let total: usize = self.outcomes.iter().sum();
        let parts: Vec<_> =
            NAMES.iter().zip(self.outcomes).map(|(name, count)| format!("{name} {count}")).collect();
        format!("{total} steps: {}", parts.join(", "))
    }

    fn line(&mut self, text: &[u8]) {
        for file in [&mut self.stdin, &mut self.stdout] {
            file.extend([text, b"\n"].concat());
        }
    }

    /// Runs a step and writes what came of it.
    fn step(&mut self, step: impl FnOnce(&mut [u8], &mut [u8]) -> u64) -> Outcome {
        let before = self.state.clone();
        let mut out = vec![UNWRITTEN; MOST];
        let answer = step(&mut self.state, &mut out[..self.room]);
        let (count, refusal) = ((answer / 256) as usize, (answer % 256) as usize);
        let kept = |is_so: bool| if is_so { "kept" } else { "changed" };
        let line = format!(
            "  {refusal} {}, {count} bytes, tail {}, state {} {:08x}\n",
            NAMES[refusal],
            kept(out[count..].iter().all(|&byte| byte == UNWRITTEN)),
            kept(self.state == before),
            adler32(&self.state)
        );
        self.stdout.extend(line.as_bytes());
        self.outcomes[refusal] += 1;
        let sent = self.output(&out[..count]);
        assert!(count == 0 || self.broken_rule().is_none(), "a done step keeps the rules");
        Outcome { refusal, count, sent }
    }

    /// Writes the contents in hex and each message as it is, one of MessagePack in hex, and answers the messages with
    /// their receivers.
    fn output(&mut self, out: &[u8]) -> Vec<(u8, String)> {
        let mut sent = Vec::new();
        if out.is_empty() {
            return sent;
        }
        let mut at = 2 + 3 * usize::from(u16::from_be_bytes([out[0], out[1]]));
        self.stdout.extend(format!("  {}\n", hex(&out[..at])).as_bytes());
        for entry in out[2..at].chunks(3) {
            let end = at + usize::from(u16::from_be_bytes([entry[1], entry[2]]));
            let (slot, message) = (entry[0], &out[at..end]);
            self.stdout.extend(format!("  slot {slot}: ").as_bytes());
            // A message of JSON begins with its bracket, and none of MessagePack does.
            if message[0] == b'[' {
                self.stdout.extend(message);
                sent.push((slot, String::from_utf8(message.to_vec()).expect("UTF-8")));
            } else {
                self.stdout.extend(hex(message).as_bytes());
                sent.push((slot, told_packed(message)));
            }
            self.stdout.push(b'\n');
            at = end;
        }
        assert_eq!(at, out.len());
        sent
    }
}

/// The checksum Adler-32 of RFC 1950: the sum of the bytes and 1, and the sum of those sums, modulo 65521.
fn adler32(bytes: &[u8]) -> u32 {
    let (mut low, mut high) = (1, 0);
    for &byte in bytes {
        low = (low + u32::from(byte)) % 65521;
        high = (high + low) % 65521;
    }
    high << 16 | low
}

/// A message of JSON in MessagePack, in the shortest forms.
pub fn packed(text: &str) -> Vec<u8> {
    let converted = values::convert(Format::Json, Format::MsgPack, 8, text.as_bytes(), 0);
    converted.unwrap_or_else(|| panic!("{text}")).0
}

/// A message of MessagePack as outcomes tell it.
fn told_packed(message: &[u8]) -> String {
    let told = match values::convert(Format::MsgPack, Format::Json, 8, message, 0) {
        Some((text, end)) if end == message.len() => String::from_utf8(text).expect("UTF-8"),
        _ => hex(message),
    };
    format!("mp{told}")
}

fn hex(bytes: &[u8]) -> String {
    bytes.iter().map(|byte| format!("{byte:02x}")).collect()
}
