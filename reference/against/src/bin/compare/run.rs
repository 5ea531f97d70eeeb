//! A run: stretches of turns from an empty hub on, and the state that they go on from.

use crate::pair::{ample, Mode, Pair};
use crate::random::Random;
use crate::tally::{Kind, Tally};
use crate::traffic::Temper;
use crate::{deep, deep_packed, dump, sent, states, trap, turns};
use against::side::Step;
use reference::ids;
use reference::settings::DEFAULT_BYTES;
use reference::state::{State, BYTES, ROWS};

/// Calls of settings functions for each hundred steps.
const SHARE: u64 = 6;

/// The output that is lent to most steps. A step that needs more is run again with ample room.
pub const USUAL: usize = 8192;

pub struct Run {
    pub seed: u64,
    pub mode: Mode,
    pub random: Random,
    /// Draws the calls of settings functions.
    pub files: Random,
    /// Draws settings, where the run is of them.
    pub drawn: Random,
    pub pair: Pair,
    /// The settings that the stretch's steps are lent.
    pub settings: Vec<u8>,
    /// The state that traffic goes on from, as bytes and taken apart.
    pub state: Vec<u8>,
    pub model: State,
    pub temper: Temper,
    /// The turns left of this stretch.
    left: usize,
    /// Each step is told before it is run, and each call of a settings function.
    pub trace: bool,
    pub tally: Tally,
}

impl Run {
    pub fn new(seed: u64, mode: Mode, trace: bool) -> Run {
        let mut random = Random::new(seed);
        let temper = Temper::new(&mut random, mode);
        Run {
            seed,
            mode,
            random,
            files: Random::new(seed ^ 1 << 63),
            drawn: Random::new(seed ^ 1 << 62),
            pair: Pair::new(seed, mode),
            settings: DEFAULT_BYTES.to_vec(),
            state: vec![0; BYTES],
            model: State::empty(),
            temper,
            left: 1000,
            trace,
            tally: Tally::new(mode),
        }
    }

    /// Goes on until so many steps are made, or to the first difference, which it tells.
    pub fn go(&mut self, steps: u64) -> Result<(), String> {
        let done = self.steps(steps);
        self.tally.stack(self.pair.guarded.deepest());
        done
    }

    fn steps(&mut self, steps: u64) -> Result<(), String> {
        if self.mode.files {
            return self.file_calls(steps);
        }
        deep::take(self)?;
        if self.mode.msgpack {
            deep_packed::take(self)?;
        }
        while self.tally.steps() < steps {
            self.turn()?;
            self.file_calls(self.tally.steps() * SHARE / 100)?;
        }
        Ok(())
    }

    fn turn(&mut self) -> Result<(), String> {
        if self.left == 0 {
            self.new_stretch();
        }
        self.left -= 1;
        turns::take(self)?;
        self.other_settings()
    }

    /// Another temper; now and then another state.
    fn new_stretch(&mut self) {
        self.temper = Temper::new(&mut self.random, self.mode);
        self.left = self.random.between(500, 3000);
        // Near the end of a counter there is soon nothing left to do: such stretches are short, and the next
        // one begins anew.
        let spent = [&self.model.subscriptions, &self.model.registrations]
            .iter()
            .any(|table| table.counter > ids::MAX / 2);
        match self.random.below(if spent { 4 } else { 8 }) {
            0 | 1 => self.model = State::empty(),
            2 => {
                self.model = self.random_state();
                self.left = self.random.between(50, 300);
            }
            3 => {
                let calls = self.random.pick(&[0, ROWS - 1, ROWS]);
                self.model = self.full_state(calls);
            }
            4 => {
                states::raise_counters(&mut self.random, &mut self.model);
                self.left = self.random.between(50, 300);
            }
            5 => {
                self.model = self.full_state(ROWS - 4);
                states::raise_counters(&mut self.random, &mut self.model);
                self.left = self.random.between(50, 300);
            }
            _ => {}
        }
        self.model.print(&mut self.state);
        self.new_settings();
    }

    /// A state with anything in it.
    pub fn random_state(&mut self) -> State {
        let state = states::random(&mut self.random);
        self.mixed(state)
    }

    /// A state with every table full.
    pub fn full_state(&mut self, calls: usize) -> State {
        let state = states::full(&mut self.random, calls);
        self.mixed(state)
    }

    fn mixed(&mut self, mut state: State) -> State {
        if self.mode.msgpack {
            states::mix_formats(&mut self.random, &mut state);
        }
        state
    }

    /// Runs the step on both sides from a state of its own and answers the refusal. Where one is wanted it is the
    /// generator's own word, beside the two sides'.
    pub fn run_from(
        &mut self,
        kind: Kind,
        step: &Step,
        state: &[u8],
        room: usize,
        wanted: Option<u64>,
    ) -> Result<u64, String> {
        let settings = std::mem::take(&mut self.settings);
        let done = self.run_with(kind, step, &settings, state, room, wanted);
        self.settings = settings;
        done
    }

    /// The same with settings of its own.
    pub fn run_with(
        &mut self,
        kind: Kind,
        step: &Step,
        settings: &[u8],
        state: &[u8],
        room: usize,
        wanted: Option<u64>,
    ) -> Result<u64, String> {
        if self.trace {
            let message = step.bytes().escape_ascii();
            eprintln!("{}: {kind:?}, slot {}, room {room}, {message}", self.tally.steps(), step.slot);
        }
        trap::note_step(self.seed, self.tally.steps());
        let mut done = self.pair.run(step, settings, state, room);
        let refusal = self.pair.reference.refusal();
        if done.is_ok() && wanted.is_some_and(|wanted| refusal != wanted) {
            done = Err("both give another refusal than the step was made for");
        }
        let mut done = done.map_err(str::to_string);
        if done.is_ok() && self.mode.msgpack {
            done = sent::check(step, state, &self.pair.reference);
        }
        if let Err(what) = done {
            let told = dump::told(&what, step, settings, state, room, &self.pair);
            return Err(format!("step {}, {kind:?}: {told}", self.tally.steps()));
        }
        self.tally.step(kind, step, settings, state, &self.pair.reference);
        Ok(refusal)
    }

    /// Runs the step from the state that stands. The state goes on only if `keep` is called next.
    pub fn run(&mut self, kind: Kind, step: &Step, room: usize, wanted: Option<u64>) -> Result<u64, String> {
        let state = std::mem::take(&mut self.state);
        let done = self.run_from(kind, step, &state, room, wanted);
        self.state = state;
        done
    }

    /// Runs the step with as much room as it needs: the room is looked at last, so what lacked it is done then.
    pub fn run_with_room(&mut self, kind: Kind, step: &Step) -> Result<u64, String> {
        match self.run(kind, step, USUAL, None)? {
            5 => self.run(kind, step, ample(), Some(0)),
            refusal => Ok(refusal),
        }
    }

    /// Traffic goes on from what the last step made of the state.
    pub fn keep(&mut self) {
        self.state.copy_from_slice(&self.pair.reference.state);
        self.model = State::parse(&self.state).expect("the state after a step");
        self.tally.state(&self.model);
    }

    /// Keeps the step's state if the slot is as it was; if the step ended the session or closed the slot,
    /// mostly not, so that tables fill in spite of many such steps.
    pub fn keep_if_harmless(&mut self, slot: usize) {
        let before = self.model.sessions[slot].status;
        let after = State::parse(&self.pair.reference.state).map(|state| state.sessions[slot].status);
        if after == Some(before) || self.random.once_in(24) {
            self.keep();
        }
    }
}

#[cfg(test)]
mod tests {
    use super::*;

    /// Every step is seen by `sent`, and the independent program does the same from a state printed anew. `check`
    /// makes more of them.
    #[test]
    fn runs_without_the_archive() {
        for (msgpack, receivers, settings) in
            [(false, true, false), (true, true, false), (true, false, false), (true, true, true)]
        {
            let mut run = Run::new(3, Mode { msgpack, receivers, settings, files: false, dry: true }, false);
            assert_eq!((0..2000).try_for_each(|_| run.turn()), Ok(()));
            assert_eq!(run.file_calls(120), Ok(()));
        }
    }
}
