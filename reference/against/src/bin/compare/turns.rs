//! The turns of a run: traffic, with steps of every other kind thrown in.

use crate::breaches::{self, Breaker};
use crate::draft::{string, Draft};
use crate::run::{Run, USUAL};
use crate::tally::Kind;
use crate::traffic::{self, Planned};
use crate::{packed, spoil};
use against::side::{Event, Step};
use reference::format::Format;
use reference::ids;
use reference::state::{Status, BYTES, SLOTS};

/// The turns, and how often each is taken, of 100.
const TURNS: [(usize, Turn); 11] = [
    (60, Run::valid),
    (15, Run::spoilt),
    (2, Run::random_bytes),
    (4, Run::small_room),
    (4, Run::exact_room),
    (2, Run::wrong_slot),
    (3, Run::wrong_time),
    (2, Run::number_out_of_range),
    (2, Run::number_in_use),
    (3, Run::broken_state),
    (3, Run::changed_state),
];

/// One or more steps of one kind. The error is a difference, told.
type Turn = fn(&mut Run) -> Result<(), String>;

/// Takes a turn.
pub fn take(run: &mut Run) -> Result<(), String> {
    let (_, turn) = TURNS[run.random.weighted(&TURNS.map(|(share, _)| share))];
    turn(run)
}

impl Run {
    /// A step that means something.
    pub fn planned(&mut self) -> Step {
        match traffic::next(&mut self.random, &self.temper, &self.model) {
            Planned::Attach(slot) => self.attach(slot),
            Planned::Detach(slot) => Step::detach(slot),
            Planned::Send(draft) => {
                let number = traffic::lent_number(&mut self.random);
                Step::message(draft.slot, number, self.written(&draft))
            }
        }
    }

    /// The slot is attached, for either format where slots speak both.
    fn attach(&mut self, slot: usize) -> Step {
        if !self.mode.msgpack {
            return Step::attach(slot);
        }
        Step::attach_for(slot, self.random.pick(&Format::BOTH))
    }

    /// The slot's format; now and then the other one, which is a violation.
    fn format(&mut self, slot: usize) -> Format {
        let format = self.model.sessions[slot].format;
        if self.mode.msgpack && self.random.once_in(400) {
            return format.other();
        }
        format
    }

    /// The draft's bytes, in the slot's format.
    fn written(&mut self, draft: &Draft) -> Vec<u8> {
        match self.format(draft.slot) {
            Format::Json => draft.written(&mut self.random),
            Format::MsgPack => packed::written(&mut self.random, draft),
        }
    }

    /// A HELLO that is welcomed, in the slot's format; none if the realm is one that no HELLO can name.
    fn hello(&mut self, slot: usize) -> Option<Vec<u8>> {
        let realm = self.temper.realm.as_ref()?;
        Some(match self.model.sessions[slot].format {
            Format::Json => {
                let realm = string(realm);
                // A dot may be spelled by its number.
                let spelled = self.random.pick(&[".", r"\u002e"]);
                format!("[1,{},{{}}]", realm.replace('.', spelled)).into_bytes()
            }
            Format::MsgPack => packed::hello(&mut self.random, realm),
        })
    }

    fn valid(&mut self) -> Result<(), String> {
        let step = self.planned();
        self.run_with_room(Kind::Valid, &step)?;
        self.keep();
        Ok(())
    }

    fn spoilt(&mut self) -> Result<(), String> {
        let Some(draft) = traffic::next_message(&mut self.random, &self.temper, &self.model) else {
            return self.valid();
        };
        let slot = draft.slot;
        let bytes = match self.format(slot) {
            Format::Json => spoil::spoilt(&mut self.random, draft),
            Format::MsgPack => packed::spoilt(&mut self.random, &draft),
        };
        let step = Step::message(slot, traffic::lent_number(&mut self.random), bytes);
        self.run_with_room(Kind::Spoilt, &step)?;
        self.keep_if_harmless(slot);
        Ok(())
    }

    fn random_bytes(&mut self) -> Result<(), String> {
        let Some(slot) = self.slot(|status| status != Status::Closed) else { return self.valid() };
        let bytes = match self.format(slot) {
            Format::Json => spoil::random_bytes(&mut self.random),
            Format::MsgPack => packed::random_bytes(&mut self.random),
        };
        let step = Step::message(slot, traffic::lent_number(&mut self.random), bytes);
        self.run_with_room(Kind::RandomBytes, &step)?;
        self.keep_if_harmless(slot);
        Ok(())
    }

    fn small_room(&mut self) -> Result<(), String> {
        let step = self.planned();
        let room = self.random.below(401);
        self.run(Kind::SmallRoom, &step, room, None)?;
        self.keep();
        Ok(())
    }

    /// A step with one byte too little room, and with just enough.
    fn exact_room(&mut self) -> Result<(), String> {
        let step = self.planned();
        if self.run_with_room(Kind::Valid, &step)? != 0 {
            return Ok(());
        }
        let needed = self.pair.reference.count();
        self.run(Kind::OneByteShort, &step, needed - 1, Some(5))?;
        self.run(Kind::ExactRoom, &step, needed, Some(0))?;
        self.keep();
        Ok(())
    }

    fn wrong_slot(&mut self) -> Result<(), String> {
        let mut step = self.planned();
        // Slots whose lower bytes are a slot's too.
        let wrong = [8, 9, 255, 256 + step.slot, (1 << 32) + step.slot, (1 << 63) + step.slot, u64::MAX];
        step.slot = self.random.pick(&wrong);
        let room = self.random.pick(&[0, USUAL]);
        self.run(Kind::WrongSlot, &step, room, Some(2))?;
        Ok(())
    }

    fn wrong_time(&mut self) -> Result<(), String> {
        let slot = self.random.below(SLOTS);
        let step = if self.model.sessions[slot].status != Status::Closed {
            self.attach(slot)
        } else if self.random.once_in(2) {
            Step::detach(slot)
        } else {
            let message = traffic::next_message(&mut self.random, &self.temper, &self.model);
            let bytes =
                message.map_or(b"[1,\"hub.bus\",{}]".to_vec(), |draft| draft.written(&mut self.random));
            Step::message(slot, self.random.pick(&[0, 1, ids::MAX, ids::MAX + 1]), bytes)
        };
        let room = self.random.pick(&[0, USUAL]);
        self.run(Kind::WrongTime, &step, room, Some(3))?;
        Ok(())
    }

    fn number_out_of_range(&mut self) -> Result<(), String> {
        let mut step = self.planned();
        let wrong =
            [0, ids::MAX + 1, ids::MAX + 2, 1 << 63, u64::MAX, ids::MAX + self.random.next() % 1000 + 1];
        let Event::Message { number, .. } = &mut step.event else { return self.valid() };
        *number = self.random.pick(&wrong);
        let room = self.random.pick(&[0, USUAL]);
        self.run(Kind::NumberOutOfRange, &step, room, Some(4))?;
        Ok(())
    }

    /// A HELLO whose number is an open session's; or any other message, where that is no fault.
    fn number_in_use(&mut self) -> Result<(), String> {
        let Some(open) = self.slot(|status| status == Status::Open) else { return self.valid() };
        let in_use = self.model.sessions[open].id;
        if let (Some(slot), true) = (self.slot(|status| status == Status::Attached), self.random.once_in(2)) {
            let Some(hello) = self.hello(slot) else { return self.valid() };
            let step = Step::message(slot, in_use, hello);
            let room = self.random.pick(&[0, 2, USUAL]);
            self.run(Kind::NumberInUse, &step, room, Some(4))?;
            return Ok(());
        }
        let mut step = self.planned();
        let Event::Message { number, .. } = &mut step.event else { return self.valid() };
        *number = in_use;
        self.run_with_room(Kind::NumberInUse, &step)?;
        self.keep();
        Ok(())
    }

    /// One rule broken by construction. Whatever else is wrong with the step, the refusal is 1.
    fn broken_state(&mut self) -> Result<(), String> {
        let breaches = breaches::all(self.mode.msgpack);
        let place = self.random.below(breaches.len());
        let (_, _, change) = breaches[place];
        let mut state = self.state.clone();
        // Where the state that stands has nothing to break in that way, others are drawn until one has.
        while change(&mut Breaker { random: &mut self.random, state: &mut state }).is_none() {
            self.random_state().print(&mut state);
        }
        let mut step = self.planned();
        if self.random.once_in(8) {
            step.slot = 8;
        }
        if let (true, Event::Message { number, .. }) = (self.random.once_in(8), &mut step.event) {
            *number = 0;
        }
        let room = self.random.pick(&[0, 2, USUAL]);
        self.tally.breach(place);
        self.run_from(Kind::BrokenState, &step, &state, room, Some(1))?;
        Ok(())
    }

    /// A few bytes of the state changed at random. It may still keep the rules.
    fn changed_state(&mut self) -> Result<(), String> {
        let mut state = self.state.clone();
        for _ in 0..self.random.between(1, 3) {
            let at = self.random.below(BYTES);
            // Half of the changes hit a byte in use, or one next to it.
            let used = (at..BYTES).find(|&at| state[at] != 0).unwrap_or(at);
            let at = if self.random.once_in(2) { used } else { at };
            state[at] = match self.random.below(4) {
                0 => self.random.byte(),
                1 => state[at].wrapping_add(1),
                2 => state[at].wrapping_sub(1),
                _ => state[at] ^ 1 << self.random.below(8),
            };
        }
        let step = self.planned();
        self.run_from(Kind::ChangedState, &step, &state, USUAL, None)?;
        Ok(())
    }

    /// A slot whose status is a wanted one, if there is any.
    fn slot(&mut self, wanted: impl Fn(Status) -> bool) -> Option<usize> {
        self.random.pick_of((0..SLOTS).filter(|&slot| wanted(self.model.sessions[slot].status)))
    }
}
