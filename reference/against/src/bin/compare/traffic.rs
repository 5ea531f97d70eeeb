//! Steps that mean something: what a host and its sessions would do next, by the state that they are in.

use crate::draft::{quoted, string, Draft};
use crate::packs::Odd;
use crate::pair::Mode;
use crate::random::Random;
use crate::spelling::Habit;
use crate::texts::{self, Rule};
use crate::{receivers, states, values};
use reference::ids;
use reference::state::{Row, State, Status, Table, SLOTS};
use reference::uri::{self, Policy};

/// What is planned for a slot.
pub enum Planned {
    Attach(usize),
    Detach(usize),
    Send(Draft),
}

/// The kinds of meaningful step, in the order of a temper's weights.
#[derive(Clone, Copy, Debug, PartialEq, Eq)]
enum Action {
    Attach,
    Hello,
    Subscribe,
    Register,
    Publish,
    Call,
    Yield,
    Error,
    Unsubscribe,
    Unregister,
    Goodbye,
    Abort,
    Detach,
}

const ACTIONS: [Action; 13] = [
    Action::Attach,
    Action::Hello,
    Action::Subscribe,
    Action::Register,
    Action::Publish,
    Action::Call,
    Action::Yield,
    Action::Error,
    Action::Unsubscribe,
    Action::Unregister,
    Action::Goodbye,
    Action::Abort,
    Action::Detach,
];

/// How often each action is taken, how many components texts are made of, and how strings are spelled. It holds for a
/// stretch of the run.
pub struct Temper {
    weights: [usize; ACTIONS.len()],
    pub alphabet: usize,
    habit: Habit,
    /// The realm that a HELLO asks for; none if no HELLO can name it.
    pub realm: Option<String>,
    /// Where slots speak both formats payloads go from one to the other.
    mode: Mode,
}

impl Temper {
    pub fn new(random: &mut Random, mode: Mode) -> Temper {
        #[rustfmt::skip]
        let [filling, calling, telling, leaving] = [
            // Attach, Hello | Subscribe, Register | Publish | Call, Yield, Error | Unsubscribe, Unregister | the partings
            [40, 40, 60, 60,  20,  80,  20,  5,  4,  4,  1,  1,  1],
            [40, 40, 10, 30,  10, 200, 150, 40,  5, 10,  1,  1,  1],
            [40, 40, 60,  5, 200,  10,  10,  5, 20,  5,  1,  1,  1],
            [40, 40, 20, 20,  20,  40,  20, 10, 30, 30, 10, 10, 10],
        ];
        let weights = random.pick(&[filling, filling, calling, telling, leaving]);
        let alphabet = random.between(texts::FEWEST, texts::MOST);
        // In a third of the stretches no string is spelled anew.
        let habit =
            random.pick(&[Habit::NONE, Habit { one_in: 4, lone_in: 80 }, Habit { one_in: 2, lone_in: 160 }]);
        Temper { weights, alphabet, habit, realm: Some("hub.bus".to_string()), mode }
    }
}

/// The next step. Every session's requests are numbered as they should be.
pub fn next(random: &mut Random, temper: &Temper, state: &State) -> Planned {
    loop {
        let action = ACTIONS[random.weighted(&temper.weights)];
        // An action that nothing in the state allows is passed over; some slot is closed, attached or open.
        match (Host { random, temper, state }).plan(action) {
            Some(Planned::Send(draft)) => return Planned::Send(draft.respelled(random, temper.habit)),
            Some(planned) => return planned,
            None => {}
        }
    }
}

/// The next message that an open session would send; none if no slot is open.
pub fn next_message(random: &mut Random, temper: &Temper, state: &State) -> Option<Draft> {
    state.sessions.iter().find(|session| session.status == Status::Open)?;
    loop {
        if let Planned::Send(draft) = next(random, temper, state) {
            return Some(draft);
        }
    }
}

/// A lent number: any in range, now and then one at an end.
pub fn lent_number(random: &mut Random) -> u64 {
    match random.below(16) {
        0 => 1,
        1 => ids::MAX,
        _ => random.next() % ids::MAX + 1,
    }
}

struct Host<'r> {
    random: &'r mut Random,
    temper: &'r Temper,
    state: &'r State,
}

impl Host<'_> {
    fn plan(&mut self, action: Action) -> Option<Planned> {
        Some(match action {
            Action::Attach => Planned::Attach(self.slot(&[Status::Closed])?),
            // Mostly of an open slot, which holds more.
            Action::Detach => Planned::Detach(self.slot(&[Status::Open, Status::Attached])?),
            Action::Hello => Planned::Send(self.hello()?),
            Action::Subscribe => {
                Planned::Send(self.new_row("32", &self.state.subscriptions, uri::is_subscribed_topic)?)
            }
            Action::Register => {
                Planned::Send(self.new_row("64", &self.state.registrations, uri::is_registered_procedure)?)
            }
            Action::Publish => Planned::Send(self.publish()?),
            Action::Call => Planned::Send(self.call()?),
            Action::Yield => Planned::Send(self.answer_call(false)?),
            Action::Error => Planned::Send(self.answer_call(true)?),
            Action::Unsubscribe => Planned::Send(self.unsubscribe()?),
            Action::Unregister => Planned::Send(self.unregister()?),
            Action::Goodbye => Planned::Send(self.parting("6", &[Status::Open])?),
            Action::Abort => Planned::Send(self.parting("3", &[Status::Open, Status::Attached])?),
        })
    }

    /// A slot that has the first of these statuses that any slot has.
    fn slot(&mut self, statuses: &[Status]) -> Option<usize> {
        statuses.iter().find_map(|&status| {
            self.random.pick_of((0..SLOTS).filter(|&slot| self.state.sessions[slot].status == status))
        })
    }

    fn open_slot(&mut self) -> Option<usize> {
        self.slot(&[Status::Open])
    }

    /// The session's next request number. After the last ID it is none, and a violation.
    fn request(&self, slot: usize) -> String {
        (self.state.sessions[slot].requests + 1).to_string()
    }

    /// A dict without an option that the hub knows.
    fn details(&mut self) -> String {
        let roles = r#"{"roles":{"caller":{},"callee":{}}}"#;
        let details =
            ["{}", "{}", "{}", "{ }", r#"{"x":1}"#, r#"{"é\n":"€","\ud834\udd1e":"\ud834"}"#, roles];
        self.random.pick(&details).to_string()
    }

    fn hello(&mut self) -> Option<Draft> {
        let slot = self.slot(&[Status::Attached])?;
        let realm = match &self.temper.realm {
            Some(realm) if !self.random.once_in(12) => string(realm),
            _ => quoted(self.random.pick(&[
                "",
                "hub",
                "hub.bus.",
                "hub.Bus",
                "hub\\\\u002ebus",
                "hub\\u002ebus",
                "hub.bus\\ud834",
            ])),
        };
        Some(Draft::new(slot, ["1".to_string(), realm, self.details()]))
    }

    /// GOODBYE or ABORT.
    fn parting(&mut self, kind: &str, statuses: &[Status]) -> Option<Draft> {
        let slot = self.slot(statuses)?;
        let reason = self.random.pick(&["wamp.close.normal", "", "any thing", "\\n", "\\ud834"]);
        Some(Draft::new(slot, [kind.to_string(), self.details(), quoted(reason)]))
    }

    /// SUBSCRIBE or REGISTER, mostly with a text that the rule takes.
    fn new_row(&mut self, kind: &str, table: &Table, rule: Rule) -> Option<Draft> {
        let slot = self.open_slot()?;
        let policy = self.random.pick(&[Policy::Exact, Policy::Prefix, Policy::Wildcard]);
        let taken = |random: &mut Random| texts::taken(random, self.temper.alphabet, policy, rule);
        let text = match self.random.below(24) {
            0 => quoted(&texts::odd(self.random)),
            1 => string(&texts::long(self.random)),
            2 => string(&texts::not_registered(self.random, policy)),
            // The text of a row that is there: the same row with its policy, another with another one.
            3..=6 => match self.random.pick_of(table.used()) {
                Some(row) => string(&String::from_utf8_lossy(row.text())),
                None => string(&taken(self.random)),
            },
            _ => string(&taken(self.random)),
        };
        let options = self.matching(policy);
        Some(Draft::new(slot, [kind.to_string(), self.request(slot), options, text]))
    }

    /// Options that ask for a policy; now and then for none that there is.
    fn matching(&mut self, policy: Policy) -> String {
        let name = match policy {
            Policy::Exact if self.random.once_in(2) => return self.details(),
            Policy::Exact => "exact",
            Policy::Prefix => "prefix",
            Policy::Wildcard => "wildcard",
        };
        match self.random.below(24) {
            0 => {
                let values =
                    ["1", "null", "\"\"", "\"Exact\"", "\"pre\\\\u0066ix\"", "\"exact\\u0000\"", "[]", "{}"];
                format!("{{\"match\":{}}}", self.random.pick(&values))
            }
            1 => format!("{{\"m\\u0061tch\":\"{name}\"}}"),
            2 => format!("{{ \"x\" : [ \"match\" ] , \"match\" : \"{name}\" }}"),
            3 => format!("{{\"match\":\"{name}\",\"y\":{{\"match\":\"prefix\"}}}}"),
            _ => format!("{{\"match\":\"{name}\"}}"),
        }
    }

    /// A URI to publish to or to call, as a string: mostly one that fits some row.
    fn uri(&mut self, called: bool) -> String {
        let table = if called { &self.state.registrations } else { &self.state.subscriptions };
        let text = match self.random.below(32) {
            0 => return quoted(&texts::odd(self.random)),
            1 => texts::long(self.random),
            2 => states::FITS_ALL.to_string(),
            3..=9 => texts::exact(self.random, self.temper.alphabet),
            _ => match self.random.pick_of(table.used()) {
                Some(row) => texts::fitting(self.random, self.temper.alphabet, row),
                None => texts::exact(self.random, self.temper.alphabet),
            },
        };
        string(&text)
    }

    /// A payload of JSON. Where slots speak both formats it is mostly one that converts, or has only a little that does
    /// not; MessagePack has its own in its place (`packed`).
    fn payload(&mut self) -> Vec<String> {
        if !self.temper.mode.msgpack || self.random.once_in(3) {
            return values::payload(self.random);
        }
        let mut parts: Vec<String> =
            Odd(0).payload(self.random).iter().filter_map(|pack| pack.json(self.random)).collect();
        if let (Some(list), true) = (parts.first_mut(), self.random.once_in(6)) {
            let odd = ["18446744073709551616", "-9223372036854775809", "1.0", "1e0", "-0.0", "\"\\udfff\""];
            *list = format!("[{},{list}]", self.random.pick(&odd));
        }
        parts
    }

    fn publish(&mut self) -> Option<Draft> {
        let slot = self.open_slot()?;
        let options = match self.random.below(8) {
            0..=3 => self.details(),
            4 => {
                let values = ["false", "1", "\"true\"", "null", "[true]"];
                format!("{{\"acknowledge\":{}}}", self.random.pick(&values))
            }
            5 => "{ \"acknowledge\" : true , \"x\" : 1 }".to_string(),
            _ => "{\"acknowledge\":true}".to_string(),
        };
        let options = if self.temper.mode.receivers && self.random.once_in(2) {
            receivers::chosen(self.random, self.state, &options)
        } else {
            options
        };
        let mut draft = Draft::new(slot, ["16".to_string(), self.request(slot), options, self.uri(false)]);
        draft.elements.extend(self.payload());
        Some(draft)
    }

    fn call(&mut self) -> Option<Draft> {
        let slot = self.open_slot()?;
        let (options, uri) = (self.details(), self.uri(true));
        let mut draft = Draft::new(slot, ["48".to_string(), self.request(slot), options, uri]);
        draft.elements.extend(self.payload());
        Some(draft)
    }

    /// YIELD or ERROR: mostly of a call that is held, else of one that was answered before.
    fn answer_call(&mut self, with_error: bool) -> Option<Draft> {
        let held = self.random.pick_of(self.state.calls.iter().filter(|call| call.is_used()))?;
        let slot = usize::from(held.callee);
        let last = self.state.sessions[slot].invocations;
        let invocation = match self.random.below(200) {
            // Not issued yet, and so a violation.
            0 => last + 1,
            1..=20 => self.random.next() % last + 1,
            _ => held.invocation,
        };
        let invocation = invocation.to_string();
        let mut draft = if with_error {
            let uri = if self.random.once_in(24) {
                texts::long(self.random)
            } else {
                texts::exact(self.random, self.temper.alphabet)
            };
            Draft::new(slot, ["8".to_string(), "68".to_string(), invocation, self.details(), string(&uri)])
        } else {
            Draft::new(slot, ["70".to_string(), invocation, self.details()])
        };
        draft.elements.extend(self.payload());
        Some(draft)
    }

    fn unsubscribe(&mut self) -> Option<Draft> {
        let row = *self.random.pick_of(self.state.subscriptions.used())?;
        let members = (0..SLOTS).filter(|slot| row.holder >> slot & 1 == 1);
        self.leave("34", row, members)
    }

    fn unregister(&mut self) -> Option<Draft> {
        let row = *self.random.pick_of(self.state.registrations.used())?;
        self.leave("66", row, std::iter::once(usize::from(row.holder)))
    }

    /// UNSUBSCRIBE or UNREGISTER: mostly of a row that the session holds.
    fn leave(&mut self, kind: &str, row: Row, holders: impl Iterator<Item = usize> + Clone) -> Option<Draft> {
        let slot = if self.random.once_in(8) { self.open_slot()? } else { self.random.pick_of(holders)? };
        let id = if self.random.once_in(8) { row.id % ids::MAX + 1 } else { row.id };
        Some(Draft::new(slot, [kind.to_string(), self.request(slot), id.to_string()]))
    }
}

#[cfg(test)]
mod tests {
    use super::*;
    use reference::format::Format;
    use reference::message;

    #[test]
    fn most_messages_are_read_and_numbered_as_they_should_be() {
        let mut random = Random::new(2);
        let mut read = 0;
        for turn in 0..20 {
            let mode = Mode {
                msgpack: turn % 2 == 1,
                receivers: turn % 4 > 1,
                settings: false,
                files: false,
                dry: true,
            };
            let temper = Temper::new(&mut random, mode);
            let state = states::random(&mut random);
            for _ in 0..100 {
                let Some(draft) = next_message(&mut random, &temper, &state) else { continue };
                read += usize::from(message::read(Format::Json, &draft.written(&mut random)).is_ok());
            }
        }
        assert!(read > 1500, "{read}");
    }
}
