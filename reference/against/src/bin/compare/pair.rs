//! One step on both sides, from one state, with everything compared that a step may change.

use crate::guarded::Guarded;
use crate::random::Random;
use against::archive;
use against::header;
use against::side::{self, taken_apart, Filing, Step};
use reference::settings::Settings;
use reference::state::State;

/// What a run is of.
#[derive(Clone, Copy, Debug, PartialEq, Eq)]
pub struct Mode {
    /// Slots speak both formats; else JSON alone.
    pub msgpack: bool,
    /// A PUBLISH may have the options that choose its receivers.
    pub receivers: bool,
    /// Settings are drawn and lent to both sides; else the default ones are.
    pub settings: bool,
    /// There are no steps, but calls of the settings functions alone.
    pub files: bool,
    /// The archive is not run: in its place the independent program runs once more.
    pub dry: bool,
}

/// Room enough for every step's output, as hosts are told.
pub fn ample() -> usize {
    header::figure("HUB_OUT_LEN")
}

/// What one side made of a step.
pub struct Outcome {
    pub answer: u64,
    pub state: Vec<u8>,
    /// The lent output, and room behind it. Where nothing was written it has the pattern.
    pub out: Vec<u8>,
}

impl Outcome {
    pub fn count(&self) -> usize {
        taken_apart(self.answer).0 as usize
    }

    pub fn refusal(&self) -> u64 {
        taken_apart(self.answer).1
    }

    /// The output that was written.
    pub fn written(&self) -> &[u8] {
        &self.out[..self.count()]
    }
}

/// Both sides, with their buffers.
pub struct Pair {
    mode: Mode,
    pub archive: Outcome,
    pub reference: Outcome,
    pub guarded: Guarded,
    /// What an output holds before a step: bytes of no order, so that hardly any write goes unseen.
    pattern: Vec<u8>,
}

impl Pair {
    pub fn new(seed: u64, mode: Mode) -> Pair {
        let mut random = Random::new(0);
        let pattern: Vec<u8> = (0..ample()).map(|_| random.byte()).collect();
        let outcome = || Outcome { answer: 0, state: Vec::new(), out: pattern.clone() };
        let guarded = Guarded::new(seed, ample());
        Pair { mode, archive: outcome(), reference: outcome(), guarded, pattern }
    }

    /// Runs the step on both sides from `state`, each lent `room` bytes of output, and says what differs: of
    /// the two answers, states and outputs, or of a refused step from what it must leave alone. The archive is lent
    /// settings if its step takes any, or the run is of settings.
    pub fn run(
        &mut self,
        step: &Step,
        settings: &[u8],
        state: &[u8],
        room: usize,
    ) -> Result<(), &'static str> {
        self.begin(state);
        let Outcome { state: lent, out, .. } = &mut self.reference;
        self.reference.answer = side::stepped(step, settings, lent, &mut out[..room]);
        let Outcome { state: lent, out, .. } = &mut self.archive;
        if self.mode.dry {
            if let Some(state) = State::parse(lent) {
                state.print(lent);
            }
            self.archive.answer = side::stepped(step, &printed_anew(settings), lent, &mut out[..room]);
            return self.compare(state, room);
        }
        let takes_settings = archive::STEP_TAKES_SETTINGS || self.mode.settings;
        let lent_settings = takes_settings.then_some(settings);
        let (answer, kept) = self.guarded.run(step, lent_settings, lent, &mut out[..room]);
        self.archive.answer = answer;
        kept?;
        self.compare(state, room)
    }

    /// The same of a settings function, on a lent file or lent settings. There is no state to it.
    pub fn file(&mut self, filing: Filing, lent: &[u8], room: usize) -> Result<(), &'static str> {
        self.begin(&[]);
        self.reference.answer = side::filed(filing, lent, &mut self.reference.out[..room]);
        let out = &mut self.archive.out[..room];
        if self.mode.dry {
            let is_written = Filing::WRITERS.contains(&filing);
            let lent = if is_written { printed_anew(lent) } else { lent.to_vec() };
            self.archive.answer = side::filed(filing, &lent, out);
            return self.compare(&[], room);
        }
        let (answer, kept) = self.guarded.file(filing, lent, out);
        self.archive.answer = answer;
        kept?;
        self.compare(&[], room)
    }

    /// Both sides get the state, and outputs with the pattern.
    fn begin(&mut self, state: &[u8]) {
        for outcome in [&mut self.archive, &mut self.reference] {
            // The rest of the output was seen to have the pattern.
            let count = outcome.count();
            outcome.out[..count].copy_from_slice(&self.pattern[..count]);
            outcome.state.clear();
            outcome.state.extend_from_slice(state);
        }
    }

    fn compare(&self, state: &[u8], room: usize) -> Result<(), &'static str> {
        let (archive, reference) = (&self.archive, &self.reference);
        let count = reference.count();
        let same = |same: bool, what| if same { Ok(()) } else { Err(what) };
        same(archive.answer == reference.answer, "the answers differ")?;
        same(archive.state == reference.state, "the states differ")?;
        same(count <= room, "the count is above the room")?;
        same(archive.written() == reference.written(), "the outputs differ")?;
        for outcome in [archive, reference] {
            let tail = count..room;
            same(outcome.out[tail.clone()] == self.pattern[tail], "the output is changed past the count")?;
        }
        if reference.refusal() != 0 {
            same(count == 0, "a refusal has a count")?;
            same(reference.state == state, "a refusal changed the state")?;
        }
        Ok(())
    }
}

/// The settings as the independent program prints them, if they are any.
fn printed_anew(lent: &[u8]) -> Vec<u8> {
    let mut printed = lent.to_vec();
    if let Some(settings) = Settings::load(lent) {
        settings.print(&mut printed);
    }
    printed
}
