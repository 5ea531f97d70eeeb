//! A step, a call of a settings function, and the two sides that can run them.

use crate::archive;
use reference::format::Format;
use reference::settings::DEFAULT_BYTES;
use reference::{hub, settings_file};

/// What happens to a slot.
#[derive(Clone, Debug)]
pub enum Event {
    Attach(Format),
    Detach,
    /// `number` is the lent number.
    Message {
        number: u64,
        bytes: Vec<u8>,
    },
}

#[derive(Clone, Debug)]
pub struct Step {
    pub slot: u64,
    pub event: Event,
}

impl Step {
    /// Attaches a slot for JSON.
    pub fn attach(slot: usize) -> Step {
        Step::attach_for(slot, Format::Json)
    }

    pub fn attach_for(slot: usize, format: Format) -> Step {
        Step { slot: slot as u64, event: Event::Attach(format) }
    }

    pub fn detach(slot: usize) -> Step {
        Step { slot: slot as u64, event: Event::Detach }
    }

    pub fn message(slot: usize, number: u64, bytes: Vec<u8>) -> Step {
        Step { slot: slot as u64, event: Event::Message { number, bytes } }
    }

    /// The bytes of the message, or none.
    pub fn bytes(&self) -> &[u8] {
        match &self.event {
            Event::Attach(_) | Event::Detach => &[],
            Event::Message { bytes, .. } => bytes,
        }
    }
}

/// The functions of settings, which are of bytes alone.
#[derive(Clone, Copy, Debug, PartialEq, Eq)]
pub enum Filing {
    /// A file is read to settings, by the reader of version 2 or 1.
    Read,
    Read1,
    /// Settings are written to a file of version 2 or 1.
    Write,
    Write1,
    /// The default settings. There is nothing to read.
    Default,
}

impl Filing {
    pub const ALL: [Filing; 5] =
        [Filing::Read, Filing::Read1, Filing::Write, Filing::Write1, Filing::Default];
    pub const READERS: [Filing; 2] = [Filing::Read, Filing::Read1];
    pub const WRITERS: [Filing; 2] = [Filing::Write, Filing::Write1];

    /// Its name, as a host knows it.
    pub fn name(self) -> &'static str {
        match self {
            Filing::Read => "hub_settings_read",
            Filing::Read1 => "hub_settings_read_1",
            Filing::Write => "hub_settings_write",
            Filing::Write1 => "hub_settings_write_1",
            Filing::Default => "hub_settings_default",
        }
    }
}

#[derive(Clone, Copy, Debug, PartialEq, Eq)]
pub enum Side {
    /// The proved hub.
    Archive,
    /// The independent program.
    Reference,
}

impl Side {
    /// Runs one step on lent bytes, with the default settings, and answers `count * 256 + refusal`.
    pub fn run(self, step: &Step, state: &mut [u8], out: &mut [u8]) -> u64 {
        match self {
            Side::Archive => archive::run(step, &DEFAULT_BYTES, state, out),
            Side::Reference => stepped(step, &DEFAULT_BYTES, state, out),
        }
    }
}

/// The independent program's answer of a step.
pub fn stepped(step: &Step, settings: &[u8], state: &mut [u8], out: &mut [u8]) -> u64 {
    match &step.event {
        Event::Attach(Format::Json) => hub::attach(step.slot, settings, state, out),
        Event::Attach(Format::MsgPack) => hub::attach_msgpack(step.slot, settings, state, out),
        Event::Detach => hub::detach(step.slot, settings, state, out),
        Event::Message { number, bytes } => hub::message(step.slot, *number, bytes, settings, state, out),
    }
}

/// The independent program's answer of a settings function. The archive's is got by `archive::filing`.
pub fn filed(filing: Filing, lent: &[u8], out: &mut [u8]) -> u64 {
    match filing {
        Filing::Read => settings_file::read(lent, out),
        Filing::Read1 => settings_file::read_1(lent, out),
        Filing::Write => settings_file::write(lent, out),
        Filing::Write1 => settings_file::write_1(lent, out),
        Filing::Default => settings_file::default(out),
    }
}

/// The count and the refusal of an answer.
pub fn taken_apart(answer: u64) -> (u64, u64) {
    (answer / 256, answer % 256)
}
