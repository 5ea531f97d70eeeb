//! What happened to messages and payloads of the two formats, counted: in which format they came and went, which
//! forms they had, whether they were converted.

use crate::pair::Outcome;
use crate::sent;
use against::side::{Event, Step};
use reference::format::Format;
use reference::matching::fits;
use reference::message::{self, Incoming, MAX_LENGTH};
use reference::msgpack::{self, Head};
use reference::output::uris;
use reference::payload::{Passed, Payload};
use reference::state::{State, Status, SLOTS};
use reference::values;

/// What is counted, of each format.
#[derive(Clone, Copy, Debug, PartialEq, Eq)]
pub enum Fate {
    Attached,
    Read,
    Violation,
    Sent,
    AsItCame,
    Converted,
    CallStays,
    YieldStays,
    ErrorStays,
    PassedOver,
    NoRoomEither,
    AllPassedOver,
    LongestRead,
    TooLong,
    LongSent,
    Closed,
    Parted,
    Canceled,
}

pub const FATES: [(Fate, &str); 18] = [
    (Fate::Attached, "slot attached for"),
    (Fate::Read, "message read, of"),
    (Fate::Violation, "bytes that are no message, of"),
    (Fate::Sent, "message sent, of"),
    (Fate::AsItCame, "payload as it came, of"),
    (Fate::Converted, "payload converted, from"),
    (Fate::CallStays, "CALL that does not convert, from"),
    (Fate::YieldStays, "YIELD that does not convert, from"),
    (Fate::ErrorStays, "ERROR that does not convert, from"),
    (Fate::PassedOver, "PUBLISH that passes a member over, from"),
    (Fate::NoRoomEither, "CALL that does not convert where there is no room, from"),
    (Fate::AllPassedOver, "PUBLISH that is acknowledged and reaches nobody, from"),
    (Fate::LongestRead, "message of 2,048 bytes read, of"),
    (Fate::TooLong, "message of 2,049 bytes, of"),
    (Fate::LongSent, "message sent of more than 2,048 bytes, of"),
    (Fate::Closed, "ABORT to the slot that it closes, of"),
    (Fate::Parted, "GOODBYE to the slot that stays attached, of"),
    (Fate::Canceled, "canceled to a caller, of"),
];

/// The names of the formats.
pub const NAMES: [&str; 2] = ["JSON", "MessagePack"];

/// The forms of MessagePack, from the first byte on; those from C0 to DF stand in their order, C1 among them.
const FORMS: [&str; 37] = [
    "positive fixint",
    "fixmap",
    "fixarray",
    "fixstr",
    "nil",
    "",
    "false",
    "true",
    "bin 8",
    "bin 16",
    "bin 32",
    "ext 8",
    "ext 16",
    "ext 32",
    "float 32",
    "float 64",
    "uint 8",
    "uint 16",
    "uint 32",
    "uint 64",
    "int 8",
    "int 16",
    "int 32",
    "int 64",
    "fixext 1",
    "fixext 2",
    "fixext 4",
    "fixext 8",
    "fixext 16",
    "str 8",
    "str 16",
    "str 32",
    "array 16",
    "array 32",
    "map 16",
    "map 32",
    "negative fixint",
];

fn form(first: u8) -> usize {
    match first {
        0x00..=0x7f => 0,
        0x80..=0x8f => 1,
        0x90..=0x9f => 2,
        0xa0..=0xbf => 3,
        0xc0..=0xdf => 4 + usize::from(first - 0xc0),
        0xe0..=0xff => 36,
    }
}

#[derive(Clone)]
pub struct Fates {
    counts: [[u64; 2]; FATES.len()],
    /// The forms of the values in the messages of MessagePack that were read.
    forms: [u64; FORMS.len()],
    /// States that traffic went on from.
    both_open: u64,
    all_packed: u64,
}

impl Default for Fates {
    fn default() -> Fates {
        Fates { counts: [[0; 2]; FATES.len()], forms: [0; FORMS.len()], both_open: 0, all_packed: 0 }
    }
}

impl Fates {
    fn count(&mut self, fate: Fate, format: Format, is_so: bool) {
        self.counts[fate as usize][format as usize] += u64::from(is_so);
    }

    /// Counts a done step.
    pub fn step(&mut self, step: &Step, state: &[u8], outcome: &Outcome) {
        let Some(before) = State::parse(state) else { return };
        let slot = step.slot as usize;
        let format = match &step.event {
            Event::Attach(format) => return self.count(Fate::Attached, *format, true),
            Event::Detach => before.sessions[slot].format,
            Event::Message { bytes, .. } => {
                let format = before.sessions[slot].format;
                self.came(format, bytes);
                format
            }
        };
        let read = message::read(format, step.bytes());
        let sent = sent::messages(outcome.written()).expect("an output");
        for &(to, bytes) in &sent {
            self.went(&before, slot, to, bytes);
        }
        if let Ok(message) = &read {
            self.passed(&before, slot, message, &sent);
        }
    }

    fn came(&mut self, format: Format, bytes: &[u8]) {
        let is_read = message::read(format, bytes).is_ok();
        self.count(Fate::Read, format, is_read);
        self.count(Fate::Violation, format, !is_read);
        self.count(Fate::LongestRead, format, is_read && bytes.len() == MAX_LENGTH);
        self.count(Fate::TooLong, format, bytes.len() == MAX_LENGTH + 1);
        if is_read && format == Format::MsgPack {
            self.forms(bytes);
        }
    }

    /// Counts the forms in a value.
    fn forms(&mut self, bytes: &[u8]) {
        let mut at = 0;
        while at < bytes.len() {
            self.forms[form(bytes[at])] += 1;
            let (head, behind) = msgpack::head(bytes, at).expect("a value");
            at = match head {
                Head::Str(length) | Head::Opaque(length) => behind + length,
                _ => behind,
            };
        }
    }

    fn went(&mut self, before: &State, slot: usize, to: usize, bytes: &[u8]) {
        let format = before.sessions[to].format;
        let sent = sent::read(format, bytes).expect("a message");
        self.count(Fate::Sent, format, true);
        self.count(Fate::LongSent, format, bytes.len() > MAX_LENGTH);
        self.count(Fate::Closed, format, sent.number == 3);
        self.count(Fate::Parted, format, sent.number == 6);
        let canceled = values::write(format, &values::Value::Text(uris::CANCELED.to_vec()));
        self.count(Fate::Canceled, format, sent.number == 8 && sent.fixed[4] == canceled);
        let from = before.sessions[slot].format;
        self.count(Fate::AsItCame, from, !sent.payload.is_empty() && from == format);
        self.count(Fate::Converted, from, !sent.payload.is_empty() && from != format);
    }

    /// Counts what became of a payload that does not convert.
    fn passed(&mut self, before: &State, slot: usize, message: &Incoming, sent: &[(usize, &[u8])]) {
        let from = before.sessions[slot].format;
        let payload = message.payload();
        if payload == Payload::None || Passed::new(from, payload).to(from.other()).is_some() {
            return;
        }
        let stays = |&(to, bytes): &(usize, &[u8])| {
            let format = before.sessions[to].format;
            let text = values::write(format, &values::Value::Text(uris::NOT_CONVERTIBLE.to_vec()));
            sent::read(format, bytes).is_some_and(|sent| sent.number == 8 && sent.fixed[4] == text)
        };
        let stays = sent.iter().any(stays);
        match message {
            Incoming::Call { .. } => {
                self.count(Fate::CallStays, from, stays);
                let is_full = before.calls.iter().all(|call| call.is_used());
                self.count(Fate::NoRoomEither, from, stays && is_full);
            }
            Incoming::Yield { .. } => self.count(Fate::YieldStays, from, stays),
            Incoming::Error { .. } => self.count(Fate::ErrorStays, from, stays),
            Incoming::Publish { topic, receivers, .. } if !receivers.has_wrong() => {
                let members = before.subscriptions.used().filter(|row| fits(row.policy, row.text(), topic));
                let members = members.fold(0, |members, row| members | row.holder);
                let left = |to: usize| receivers.leave(before.sessions[to].id, to == slot);
                let other =
                    |to: usize| members >> to & 1 == 1 && left(to) && before.sessions[to].format != from;
                let is_over = !sent.is_empty() && (0..SLOTS).any(other);
                self.count(Fate::PassedOver, from, is_over);
                self.count(Fate::AllPassedOver, from, is_over && sent.len() == 1 && sent[0].0 == slot);
            }
            _ => {}
        }
    }

    /// Counts a state that traffic goes on from.
    pub fn state(&mut self, state: &State) {
        let open = |format| {
            let is_so = |session: &&reference::state::Session| session.format == format;
            let open = state.sessions.iter().filter(|session| session.status == Status::Open);
            open.filter(is_so).count()
        };
        self.both_open += u64::from(Format::BOTH.into_iter().all(|format| open(format) > 0));
        self.all_packed += u64::from(open(Format::MsgPack) == SLOTS);
    }

    pub fn add(&mut self, other: &Fates) {
        for (counts, others) in self.counts.iter_mut().zip(other.counts) {
            counts.iter_mut().zip(others).for_each(|(count, other)| *count += other);
        }
        self.forms.iter_mut().zip(other.forms).for_each(|(count, other)| *count += other);
        self.both_open += other.both_open;
        self.all_packed += other.all_packed;
    }

    /// The counts, by title and name.
    pub fn sections(&self) -> Vec<(&'static str, Vec<(String, u64)>)> {
        let mut lines = Vec::new();
        for ((_, name), counts) in FATES.iter().zip(self.counts) {
            for (format, count) in NAMES.iter().zip(counts) {
                lines.push((format!("{name} {format}"), count));
            }
        }
        let forms = FORMS.iter().zip(self.forms).filter(|(name, _)| !name.is_empty());
        let states = [
            ("open slots of both formats", self.both_open),
            ("8 open slots of MessagePack", self.all_packed),
        ];
        vec![
            ("formats", lines),
            ("forms of MessagePack read", forms.map(|(name, count)| (name.to_string(), count)).collect()),
            ("formats of states", states.map(|(name, count)| (name.to_string(), count)).to_vec()),
        ]
    }
}

#[cfg(test)]
mod tests {
    use super::*;

    #[test]
    fn each_fate_has_its_name() {
        assert!(FATES.iter().enumerate().all(|(place, (fate, _))| *fate as usize == place));
    }

    #[test]
    fn forms_are_told_apart() {
        let mut fates = Fates::default();
        fates.forms(b"\x94\x46\x01\x80\x94\xc4\x01\xc1\xd9\x02\xff\xff\xca\0\0\0\0\x81\xff\xc0");
        let met: Vec<_> = FORMS.iter().zip(fates.forms).filter(|(_, count)| *count > 0).collect();
        let wanted = [
            (&"positive fixint", 2),
            (&"fixmap", 2),
            (&"fixarray", 2),
            (&"nil", 1),
            (&"bin 8", 1),
            (&"float 32", 1),
            (&"str 8", 1),
            (&"negative fixint", 1),
        ];
        assert_eq!(met, wanted);
        assert_eq!(
            (FORMS[form(0xc4)], FORMS[form(0xdf)], FORMS[form(0xd8)]),
            ("bin 8", "map 32", "fixext 16")
        );
        assert_eq!(FORMS[form(0xc1)], "");
    }
}
