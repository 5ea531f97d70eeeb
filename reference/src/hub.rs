//! One step of the hub, on lent bytes: a slot is attached for a format, a slot is detached, or a slot sends one message.
//! The settings lent with it say the realm, and who may do what.
//!
//! Every entry answers `count * 256 + refusal`. A step is decided on a copy of the state and in an outbox; the
//! lent bytes are written only when nothing more can refuse it.

use crate::format::Format;
use crate::ids;
use crate::matching::{choose, Candidate, Split};
use crate::message::{self, Incoming, Match, Violation};
use crate::output::{uris, Outbox, Outgoing};
use crate::payload::{Passed, Payload};
use crate::receivers::Receivers;
use crate::settings::{Action, Settings};
use crate::state::{HeldCall, Row, Session, State, Status, Table, SLOTS};
use crate::uri::{self, Policy};
use std::array;

/// The numbers of the requests, as an ERROR that answers one tells them.
mod kind {
    pub const PUBLISH: u64 = 16;
    pub const SUBSCRIBE: u64 = 32;
    pub const UNSUBSCRIBE: u64 = 34;
    pub const CALL: u64 = 48;
    pub const REGISTER: u64 = 64;
    pub const UNREGISTER: u64 = 66;
}

/// Why a step is refused. The checks run in this order.
#[derive(Clone, Copy, Debug, PartialEq, Eq)]
pub enum Refusal {
    BadState = 1,
    BadSlot = 2,
    WrongTime = 3,
    BadNumber = 4,
    NoRoom = 5,
}

/// What happens to a slot.
enum Event<'m> {
    Attach(Format),
    Detach,
    Message { number: u64, bytes: &'m [u8] },
}

/// Attaches a slot for JSON.
pub fn attach(slot: u64, settings: &[u8], state: &mut [u8], out: &mut [u8]) -> u64 {
    answer(step(slot, Event::Attach(Format::Json), settings, state, out))
}

/// Attaches a slot for MessagePack.
pub fn attach_msgpack(slot: u64, settings: &[u8], state: &mut [u8], out: &mut [u8]) -> u64 {
    answer(step(slot, Event::Attach(Format::MsgPack), settings, state, out))
}

/// Detaches a slot.
pub fn detach(slot: u64, settings: &[u8], state: &mut [u8], out: &mut [u8]) -> u64 {
    answer(step(slot, Event::Detach, settings, state, out))
}

/// A slot sends a message. `number` is the lent number.
pub fn message(
    slot: u64,
    number: u64,
    message: &[u8],
    settings: &[u8],
    state: &mut [u8],
    out: &mut [u8],
) -> u64 {
    answer(step(slot, Event::Message { number, bytes: message }, settings, state, out))
}

fn answer(done: Result<usize, Refusal>) -> u64 {
    match done {
        Ok(count) => count as u64 * 256,
        Err(refusal) => refusal as u64,
    }
}

/// Runs the checks in order, decides, and writes. Answers the number of output bytes written.
fn step(
    slot: u64,
    event: Event,
    settings: &[u8],
    bytes: &mut [u8],
    out: &mut [u8],
) -> Result<usize, Refusal> {
    let settings = Settings::load(settings).ok_or(Refusal::BadState)?;
    let mut state = State::empty();
    if !state.load(bytes) || state.broken_rule().is_some() {
        return Err(Refusal::BadState);
    }
    // They outlive the outbox, whose messages have texts of the one and payloads of the other.
    let (read, passed);
    let formats = state.sessions.map(|session| session.format);
    let mut hub = Hub { settings: &settings, state: &mut state, outbox: Outbox::new(formats) };
    let slot = allowed(slot, &event, hub.state)?;
    match event {
        Event::Attach(format) => {
            hub.state.sessions[slot] = Session { status: Status::Attached, format, ..Session::default() };
        }
        Event::Detach => hub.end_session(slot, Status::Closed),
        Event::Message { number, bytes } => {
            if !ids::in_range(number) {
                return Err(Refusal::BadNumber);
            }
            read = message::read(formats[slot], bytes);
            passed = Passed::new(formats[slot], read.as_ref().map_or(Payload::None, Incoming::payload));
            hub.message(slot, number, &read, &passed)?;
        }
    }
    if hub.outbox.needed() > out.len() {
        return Err(Refusal::NoRoom);
    }
    hub.state.print(bytes);
    Ok(hub.outbox.write(out))
}

/// The slot, if it is one and its status allows the event.
fn allowed(slot: u64, event: &Event, state: &State) -> Result<usize, Refusal> {
    if slot >= SLOTS as u64 {
        return Err(Refusal::BadSlot);
    }
    let slot = slot as usize;
    let is_closed = state.sessions[slot].status == Status::Closed;
    if is_closed != matches!(event, Event::Attach(_)) {
        return Err(Refusal::WrongTime);
    }
    Ok(slot)
}

/// A request's answer where it is refused: the error URI.
type Refused = &'static [u8];

/// A step being decided: the settings, the state as it will be, and the messages to send.
struct Hub<'s, 'm> {
    settings: &'s Settings<'s>,
    state: &'s mut State,
    outbox: Outbox<'m>,
}

impl<'m> Hub<'_, 'm> {
    /// A message on a slot that is not closed. Only BAD NUMBER refuses it.
    fn message(
        &mut self,
        slot: usize,
        number: u64,
        read: &'m Result<Incoming<'m>, Violation>,
        passed: &'m Passed<'m>,
    ) -> Result<(), Refusal> {
        let is_open = self.state.sessions[slot].status == Status::Open;
        match *read {
            Ok(Incoming::Hello { ref realm }) if !is_open => return self.hello(slot, number, realm),
            Ok(Incoming::Abort) => self.end_session(slot, Status::Closed),
            Ok(Incoming::Goodbye) if is_open => {
                self.outbox.send(slot, Outgoing::Goodbye { reason: uris::GOODBYE_AND_OUT });
                self.end_session(slot, Status::Attached);
            }
            Ok(Incoming::Yield { invocation, .. }) if self.was_issued(slot, invocation) => {
                let result = |request, payload| Outgoing::Result { request, payload };
                self.answer_call(slot, invocation, passed, result);
            }
            Ok(Incoming::Error { invocation, ref uri, .. }) if self.was_issued(slot, invocation) => {
                let error = |request, payload| Outgoing::Error { kind: kind::CALL, request, uri, payload };
                self.answer_call(slot, invocation, passed, error);
            }
            Ok(ref message) if is_open => match request_number(message) {
                Some(request) if request == self.state.sessions[slot].requests + 1 => {
                    self.state.sessions[slot].requests = request;
                    self.request(slot, number, message, passed);
                }
                _ => self.violation(slot),
            },
            _ => self.violation(slot),
        }
        Ok(())
    }

    /// HELLO on an attached slot.
    fn hello(&mut self, slot: usize, number: u64, realm: &[u8]) -> Result<(), Refusal> {
        if realm != self.settings.realm {
            self.outbox.send(slot, Outgoing::Abort { reason: uris::NO_SUCH_REALM });
            self.end_session(slot, Status::Closed);
            return Ok(());
        }
        // Slots that are not open have the ID 0, which the lent number is not.
        if self.state.sessions.iter().any(|session| session.id == number) {
            return Err(Refusal::BadNumber);
        }
        let attached = self.state.sessions[slot];
        self.state.sessions[slot] = Session { status: Status::Open, id: number, ..attached };
        self.outbox.send(slot, Outgoing::Welcome { session: number });
        Ok(())
    }

    /// Was the invocation number issued to the slot's session? An attached slot's counter is 0.
    fn was_issued(&self, slot: usize, invocation: u64) -> bool {
        invocation <= self.state.sessions[slot].invocations
    }

    fn violation(&mut self, slot: usize) {
        self.outbox.send(slot, Outgoing::Abort { reason: uris::PROTOCOL_VIOLATION });
        self.end_session(slot, Status::Closed);
    }

    /// Ends the slot's session, if it has one: the calls that it served for others are canceled, its rows,
    /// memberships and held calls freed. A slot that stays attached keeps its format.
    fn end_session(&mut self, slot: usize, status: Status) {
        let format = match status {
            Status::Closed => Format::default(),
            Status::Attached | Status::Open => self.state.sessions[slot].format,
        };
        self.state.sessions[slot] = Session { status, format, ..Session::default() };
        for call in &mut self.state.calls {
            let (caller, callee) = (usize::from(call.caller), usize::from(call.callee));
            if !call.is_used() || (caller != slot && callee != slot) {
                continue;
            }
            if caller != slot {
                self.outbox.send(caller, error(kind::CALL, call.request, uris::CANCELED));
            }
            *call = HeldCall::default();
        }
        for row in self.state.subscriptions.rows.iter_mut().filter(|row| row.holder >> slot & 1 == 1) {
            leave(row, slot);
        }
        for row in &mut self.state.registrations.rows {
            if row.is_used() && usize::from(row.holder) == slot {
                *row = Row::UNUSED;
            }
        }
    }

    /// The callee's answer goes to the caller, and the held call is freed. Without one the answer is dropped. In the
    /// place of an answer that does not convert for the caller goes an ERROR.
    fn answer_call(
        &mut self,
        slot: usize,
        invocation: u64,
        passed: &'m Passed<'m>,
        answer: impl FnOnce(u64, Payload<'m>) -> Outgoing<'m>,
    ) {
        let served = |call: &&mut HeldCall| {
            call.is_used() && usize::from(call.callee) == slot && call.invocation == invocation
        };
        let Some(call) = self.state.calls.iter_mut().find(served) else {
            return;
        };
        let HeldCall { caller, request, .. } = std::mem::take(call);
        let caller = usize::from(caller);
        let message = match passed.to(self.outbox.format(caller)) {
            Some(payload) => answer(request, payload),
            None => error(kind::CALL, request, uris::NOT_CONVERTIBLE),
        };
        self.outbox.send(caller, message);
    }

    /// A request whose number is the session's next.
    fn request(&mut self, slot: usize, number: u64, message: &'m Incoming<'m>, passed: &'m Passed<'m>) {
        match *message {
            Incoming::Publish { request, acknowledge, ref receivers, ref topic, .. } => {
                let answered = acknowledge.then_some(request);
                self.publish(slot, number, answered, receivers, topic, passed);
            }
            Incoming::Subscribe { request, matching, ref topic } => {
                let done = self.subscribe(slot, matching, topic);
                let done = done.map(|subscription| Outgoing::Subscribed { request, subscription });
                self.reply(slot, kind::SUBSCRIBE, request, done);
            }
            Incoming::Unsubscribe { request, subscription } => {
                let done = self.unsubscribe(slot, subscription);
                let done = done.map(|()| Outgoing::Unsubscribed { request });
                self.reply(slot, kind::UNSUBSCRIBE, request, done);
            }
            Incoming::Call { request, ref procedure, .. } => {
                if let Err(refused) = self.call(slot, request, procedure, passed) {
                    self.outbox.send(slot, error(kind::CALL, request, refused));
                }
            }
            Incoming::Register { request, matching, ref procedure } => {
                let done = self.register(slot, matching, procedure);
                let done = done.map(|registration| Outgoing::Registered { request, registration });
                self.reply(slot, kind::REGISTER, request, done);
            }
            Incoming::Unregister { request, registration } => {
                let done = self.unregister(slot, registration);
                let done = done.map(|()| Outgoing::Unregistered { request });
                self.reply(slot, kind::UNREGISTER, request, done);
            }
            // No requests: `request_number` has none for them.
            Incoming::Hello { .. }
            | Incoming::Abort
            | Incoming::Goodbye
            | Incoming::Error { .. }
            | Incoming::Yield { .. } => {}
        }
    }

    /// Answers a request: by its own message, or by an ERROR of its kind.
    fn reply(&mut self, slot: usize, kind: u64, request: u64, done: Result<Outgoing<'m>, Refused>) {
        self.outbox.send(slot, done.unwrap_or_else(|refused| error(kind, request, refused)));
    }

    /// Do the settings let the slot do this with the request's own text? It is asked right after the URI rule.
    fn may(&self, slot: usize, action: Action, text: &[u8]) -> Result<(), Refused> {
        if !self.settings.permit(slot, action, text) {
            return Err(uris::NOT_AUTHORIZED);
        }
        Ok(())
    }

    /// PUBLISH: its answer first, to the request of this number if it asks for one, then the events by row, then by slot,
    /// to the members that its options leave. One for whose format the payload does not convert is passed over.
    fn publish(
        &mut self,
        slot: usize,
        publication: u64,
        answered: Option<u64>,
        receivers: &Receivers,
        topic: &'m [u8],
        passed: &'m Passed<'m>,
    ) {
        let published = published(receivers, topic).and_then(|()| self.may(slot, Action::Publish, topic));
        if let Some(request) = answered {
            let done = published.map(|()| Outgoing::Published { request, publication });
            self.reply(slot, kind::PUBLISH, request, done);
        }
        if published.is_err() {
            return;
        }
        let sessions = &self.state.sessions;
        // Whom the options leave is the same by every row.
        let left: [bool; SLOTS] =
            array::from_fn(|member| receivers.leave(sessions[member].id, member == slot));
        let split = Split::new(topic);
        for row in self.state.subscriptions.used().filter(|row| split.is_fit(row.policy, row.text())) {
            let (subscription, topic) = (row.id, told(row.policy, topic));
            let event = |format| {
                let payload = passed.to(format)?;
                Some(Outgoing::Event { subscription, publication, topic, payload })
            };
            let members = (0..SLOTS).filter(|&member| left[member] && row.holder >> member & 1 == 1);
            self.outbox.send_to_each(members, event);
        }
    }

    /// SUBSCRIBE: joins the row of the text and policy, or makes it. Answers its ID.
    fn subscribe(&mut self, slot: usize, matching: Match, topic: &[u8]) -> Result<u64, Refused> {
        let policy = asked(matching)?;
        if !uri::is_subscribed_topic(topic, policy) {
            return Err(uris::INVALID_URI);
        }
        self.may(slot, Action::Subscribe, topic)?;
        let table = &mut self.state.subscriptions;
        if let Some(row) = table.rows.iter_mut().find(|row| row.is_of(policy, topic)) {
            row.holder |= 1 << slot;
            return Ok(row.id);
        }
        table.add(policy, 1 << slot, topic).ok_or(uris::NO_ROOM)
    }

    fn unsubscribe(&mut self, slot: usize, subscription: u64) -> Result<(), Refused> {
        let held = |row: &&mut Row| row.id == subscription && row.holder >> slot & 1 == 1;
        let row = self.state.subscriptions.rows.iter_mut().find(held);
        leave(row.ok_or(uris::NO_SUCH_SUBSCRIPTION)?, slot);
        Ok(())
    }

    /// REGISTER: answers the new row's ID.
    fn register(&mut self, slot: usize, matching: Match, procedure: &[u8]) -> Result<u64, Refused> {
        let policy = asked(matching)?;
        if !uri::is_registered_procedure(procedure, policy) {
            return Err(uris::INVALID_URI);
        }
        self.may(slot, Action::Register, procedure)?;
        let table: &mut Table = &mut self.state.registrations;
        if table.rows.iter().any(|row| row.is_of(policy, procedure)) {
            return Err(uris::PROCEDURE_ALREADY_EXISTS);
        }
        table.add(policy, slot as u8, procedure).ok_or(uris::NO_ROOM)
    }

    fn unregister(&mut self, slot: usize, registration: u64) -> Result<(), Refused> {
        let owned = |row: &&mut Row| row.id == registration && usize::from(row.holder) == slot;
        let row = self.state.registrations.rows.iter_mut().find(owned);
        *row.ok_or(uris::NO_SUCH_REGISTRATION)? = Row::UNUSED;
        Ok(())
    }

    /// CALL: routed to the chosen registration's owner and held, or refused.
    fn call(
        &mut self,
        slot: usize,
        request: u64,
        procedure: &'m [u8],
        passed: &'m Passed<'m>,
    ) -> Result<(), Refused> {
        if !uri::is_called_procedure(procedure) {
            return Err(uris::INVALID_URI);
        }
        self.may(slot, Action::Call, procedure)?;
        let rows = self.state.registrations.used();
        let candidates = rows.map(|row| Candidate { name: row, policy: row.policy, text: row.text() });
        let chosen = choose(candidates, procedure).ok_or(uris::NO_SUCH_PROCEDURE)?.name;
        let format = self.outbox.format(usize::from(chosen.holder));
        let payload = passed.to(format).ok_or(uris::NOT_CONVERTIBLE)?;
        let callee = &mut self.state.sessions[usize::from(chosen.holder)];
        let free = self.state.calls.iter_mut().find(|call| !call.is_used()).ok_or(uris::NO_ROOM)?;
        if callee.invocations == ids::MAX {
            return Err(uris::NO_ROOM);
        }
        callee.invocations += 1;
        let invocation = callee.invocations;
        *free = HeldCall { caller: slot as u8, request, callee: chosen.holder, invocation };
        let procedure = told(chosen.policy, procedure);
        let invocation = Outgoing::Invocation { invocation, registration: chosen.id, procedure, payload };
        self.outbox.send(usize::from(chosen.holder), invocation);
        Ok(())
    }
}

/// The request number of a message that is a request.
fn request_number(message: &Incoming) -> Option<u64> {
    match *message {
        Incoming::Publish { request, .. }
        | Incoming::Subscribe { request, .. }
        | Incoming::Unsubscribe { request, .. }
        | Incoming::Call { request, .. }
        | Incoming::Register { request, .. }
        | Incoming::Unregister { request, .. } => Some(request),
        Incoming::Hello { .. }
        | Incoming::Abort
        | Incoming::Goodbye
        | Incoming::Error { .. }
        | Incoming::Yield { .. } => None,
    }
}

/// Does a PUBLISH make a publication? A wrong option comes before a bad topic.
fn published(receivers: &Receivers, topic: &[u8]) -> Result<(), Refused> {
    if receivers.has_wrong() {
        return Err(uris::INVALID_ARGUMENT);
    }
    if !uri::is_published_topic(topic) {
        return Err(uris::INVALID_URI);
    }
    Ok(())
}

/// The policy that SUBSCRIBE or REGISTER asks for.
fn asked(matching: Match) -> Result<Policy, Refused> {
    match matching {
        Match::Unknown => Err(uris::INVALID_ARGUMENT),
        Match::Policy(policy) => Ok(policy),
    }
}

/// The URI that EVENT or INVOCATION tells in its details: none for an exact row, whose holder knows it.
fn told(policy: Policy, uri: &[u8]) -> Option<&[u8]> {
    (policy != Policy::Exact).then_some(uri)
}

/// The slot is no member of the subscription any more; the last one's leaving frees the row.
fn leave(row: &mut Row, slot: usize) {
    row.holder &= !(1 << slot);
    if row.holder == 0 {
        *row = Row::UNUSED;
    }
}

/// An ERROR of the hub's own, which has no payload.
fn error(kind: u64, request: u64, uri: &'static [u8]) -> Outgoing<'static> {
    Outgoing::Error { kind, request, uri, payload: Payload::None }
}

#[cfg(test)]
mod tests {
    use super::*;
    use crate::settings::{Rule, DEFAULT_BYTES};
    use crate::state::{BYTES, ROWS};
    use crate::values::convert;

    /// A host: the lent settings and state, and a lent output whose bytes tell whether they were written.
    struct Host {
        settings: Vec<u8>,
        state: Vec<u8>,
        out: Vec<u8>,
        /// The next lent number.
        number: u64,
    }

    const UNWRITTEN: u8 = 0xee;

    impl Host {
        fn new() -> Host {
            let settings = DEFAULT_BYTES.to_vec();
            Host { settings, state: vec![0; BYTES], out: vec![UNWRITTEN; 70000], number: 101 }
        }

        /// A host with so many open sessions, whose IDs count from 101.
        fn with_sessions(count: u64) -> Host {
            let mut host = Host::new();
            for slot in 0..count {
                assert_eq!(host.attach(slot), Ok(vec![]));
                let sent = host.send(slot, r#"[1,"hub.bus",{}]"#);
                assert!(sent[0].1.starts_with("[2,"));
                host.number += 1;
            }
            host
        }

        fn attach(&mut self, slot: u64) -> Result<Vec<(u8, String)>, u64> {
            let (before, answer) =
                (self.state.clone(), attach(slot, &self.settings, &mut self.state, &mut self.out));
            self.sent(before, answer)
        }

        fn detach(&mut self, slot: u64) -> Result<Vec<(u8, String)>, u64> {
            let (before, answer) =
                (self.state.clone(), detach(slot, &self.settings, &mut self.state, &mut self.out));
            self.sent(before, answer)
        }

        fn message(&mut self, slot: u64, number: u64, bytes: &[u8]) -> Result<Vec<(u8, String)>, u64> {
            let before = self.state.clone();
            let answer = message(slot, number, bytes, &self.settings, &mut self.state, &mut self.out);
            self.sent(before, answer)
        }

        /// A message step with the next lent number, which is not refused.
        fn send(&mut self, slot: u64, text: &str) -> Vec<(u8, String)> {
            self.message(slot, self.number, text.as_bytes()).unwrap()
        }

        /// The step answers with these messages.
        fn expect(&mut self, slot: u64, text: &str, wanted: &[(u8, &str)]) {
            let sent = self.send(slot, text);
            let sent: Vec<_> = sent.iter().map(|(slot, text)| (*slot, text.as_str())).collect();
            assert_eq!(sent, wanted, "{text}");
        }

        /// The messages as texts.
        fn sent(&mut self, before: Vec<u8>, answer: u64) -> Result<Vec<(u8, String)>, u64> {
            let sent = self.sent_bytes(before, answer)?;
            Ok(sent.into_iter().map(|(slot, bytes)| (slot, String::from_utf8(bytes).unwrap())).collect())
        }

        /// Takes the output apart, and sees that a refusal changed nothing and a done step kept the rules.
        fn sent_bytes(&mut self, before: Vec<u8>, answer: u64) -> Result<Vec<(u8, Vec<u8>)>, u64> {
            let (count, refusal) = ((answer / 256) as usize, answer % 256);
            assert!(self.out[count..].iter().all(|&byte| byte == UNWRITTEN));
            if refusal != 0 {
                assert_eq!(count, 0);
                assert!(self.state == before);
                return Err(refusal);
            }
            assert_eq!(self.parsed().broken_rule(), None);
            let entries = usize::from(u16::from_be_bytes([self.out[0], self.out[1]]));
            let mut at = 2 + 3 * entries;
            let mut sent = Vec::new();
            for entry in self.out[2..at].chunks(3) {
                let end = at + usize::from(u16::from_be_bytes([entry[1], entry[2]]));
                sent.push((entry[0], self.out[at..end].to_vec()));
                at = end;
            }
            assert_eq!(at, count);
            self.out[..count].fill(UNWRITTEN);
            Ok(sent)
        }

        fn parsed(&self) -> State {
            State::parse(&self.state).unwrap()
        }

        fn change(&mut self, change: impl FnOnce(&mut State)) {
            let mut state = self.parsed();
            change(&mut state);
            state.print(&mut self.state);
        }
    }

    const VIOLATION: &str = r#"[3,{},"wamp.error.protocol_violation"]"#;

    #[test]
    fn the_worked_step() {
        let mut host = Host::with_sessions(2);
        host.expect(1, r#"[64,1,{"match":"prefix"},"hub.donor"]"#, &[(1, "[65,1,1]")]);
        let call = br#"[48,1,{},"hub.donor.defer",["D17"]]"#;
        assert_eq!(message(0, 1, call, &host.settings, &mut host.state, &mut host.out), 53 * 256);
        let wanted = b"\x00\x01\x01\x00\x30[68,1,1,{\"procedure\":\"hub.donor.defer\"},[\"D17\"]]";
        assert_eq!(&host.out[..54], [wanted.as_slice(), &[UNWRITTEN]].concat());
        host.out.fill(UNWRITTEN);
        assert_eq!(
            message(1, 1, br#"[70,1,{},["held"]]"#, &host.settings, &mut host.state, &mut host.out),
            23 * 256
        );
        let wanted = b"\x00\x01\x00\x00\x12[50,1,{},[\"held\"]]";
        assert_eq!(&host.out[..24], [wanted.as_slice(), &[UNWRITTEN]].concat());
    }

    #[test]
    fn refusals_in_order() {
        let hello = br#"[1,"hub.bus",{}]"#;
        let mut host = Host::with_sessions(1);
        host.state[0] = 3;
        assert_eq!(host.message(8, 0, hello), Err(1));
        host.state[0] = 2;
        assert_eq!(host.message(8, 0, hello), Err(2));
        assert_eq!(host.message(1 << 32, 0, hello), Err(2));
        assert_eq!(host.message(7, 0, hello), Err(3));
        assert_eq!(host.detach(7), Err(3));
        assert_eq!(host.attach(0), Err(3));
        assert_eq!(host.attach(7), Ok(vec![]));
        assert_eq!(host.attach(7), Err(3));
        assert_eq!(host.message(7, 0, hello), Err(4));
        assert_eq!(host.message(7, ids::MAX + 1, b""), Err(4));
        assert_eq!(host.message(7, 101, hello), Err(4), "an open session's number");
        // The number refuses a HELLO that is otherwise accepted, and nothing else.
        host.out.truncate(0);
        assert_eq!(host.message(7, 101, hello), Err(4));
        assert_eq!(host.message(7, 101, br#"[1,"hub",{}]"#), Err(5));
        assert_eq!(host.message(7, 101, b"x"), Err(5));
        host.out = vec![UNWRITTEN; 3000];
        host.expect(0, r#"[1,"hub.bus",{}]"#, &[(0, VIOLATION)]);
        assert_eq!(host.message(7, 101, hello).unwrap().len(), 1, "the session has ended");
        host.state.push(0);
        assert_eq!(host.attach(0), Err(1));
    }

    #[test]
    fn room() {
        let mut host = Host::new();
        host.out.truncate(1);
        assert_eq!(host.attach(0), Err(5));
        host.out.push(UNWRITTEN);
        assert_eq!(host.attach(0), Ok(vec![]));
        assert_eq!(host.message(0, 1, b"x"), Err(5));
        host.out = vec![UNWRITTEN; 5 + VIOLATION.len() - 1];
        assert_eq!(host.message(0, 1, b"x"), Err(5));
        host.out.push(UNWRITTEN);
        host.expect(0, "x", &[(0, VIOLATION)]);
    }

    #[test]
    fn hello_goodbye_and_abort() {
        let mut host = Host::with_sessions(1);
        host.expect(0, r#"[6,{},"any thing"]"#, &[(0, r#"[6,{},"wamp.close.goodbye_and_out"]"#)]);
        assert_eq!(host.parsed().sessions[0], Session { status: Status::Attached, ..Session::default() });
        host.expect(0, r#"[6,{},"a"]"#, &[(0, VIOLATION)]);
        assert_eq!(host.parsed(), State::empty());
        host.attach(0).unwrap();
        host.expect(0, r#"[1,"",{}]"#, &[(0, r#"[3,{},"wamp.error.no_such_realm"]"#)]);
        assert_eq!(host.parsed(), State::empty());
        for opening in [false, true] {
            host.attach(0).unwrap();
            if opening {
                host.send(0, r#"[1,"hub.bus",{"x":1}]"#);
            }
            host.expect(0, r#"[3,{},""]"#, &[]);
            assert_eq!(host.parsed(), State::empty());
        }
    }

    #[test]
    fn violations() {
        for text in [
            "",
            r#"[48,2,{},"a"]"#,
            r#"[48,1,{},"a",1]"#,
            r#"[1,"hub.bus",{}]"#,
            r#"[70,1,{}]"#,
            r#"[8,68,1,{},"a.b"]"#,
        ] {
            let mut host = Host::with_sessions(1);
            host.expect(0, text, &[(0, VIOLATION)]);
            assert_eq!(host.parsed(), State::empty());
        }
        // Nothing but HELLO and ABORT on an attached slot.
        for text in [r#"[48,1,{},"a"]"#, r#"[70,1,{}]"#, r#"[6,{},"a"]"#] {
            let mut host = Host::new();
            host.attach(3).unwrap();
            host.expect(3, text, &[(3, VIOLATION)]);
            assert_eq!(host.parsed(), State::empty());
        }
        // After the largest request number there is no next one.
        let mut host = Host::with_sessions(1);
        host.change(|state| state.sessions[0].requests = ids::MAX - 1);
        let error = r#"[8,48,9007199254740992,{},"wamp.error.no_such_procedure"]"#;
        host.expect(0, r#"[48,9007199254740992,{},"a"]"#, &[(0, error)]);
        host.expect(0, r#"[48,9007199254740993,{},"a"]"#, &[(0, VIOLATION)]);
    }

    #[test]
    fn subscriptions() {
        let mut host = Host::with_sessions(3);
        host.expect(0, r#"[32,1,{},"a.b"]"#, &[(0, "[33,1,1]")]);
        host.expect(0, r#"[32,2,{"match":"prefix"},"a."]"#, &[(0, "[33,2,2]")]);
        host.expect(1, r#"[32,1,{"match":"exact"},"a.b"]"#, &[(1, "[33,1,1]")]);
        host.expect(1, r#"[32,2,{},"a.b"]"#, &[(1, "[33,2,1]")]);
        host.expect(2, r#"[32,1,{"match":"wildcard"},".b"]"#, &[(2, "[33,1,3]")]);
        host.expect(2, r#"[32,2,{},"wamp.x"]"#, &[(2, "[33,2,4]")]);
        // The publisher does not get its own event.
        host.number = 77;
        host.expect(
            1,
            r#"[16,3,{"acknowledge":true},"a.b",[ 1 ],{"k":2}]"#,
            &[
                (1, "[17,3,77]"),
                (0, r#"[36,1,77,{},[ 1 ],{"k":2}]"#),
                (0, r#"[36,2,77,{"topic":"a.b"},[ 1 ],{"k":2}]"#),
                (2, r#"[36,3,77,{"topic":"a.b"},[ 1 ],{"k":2}]"#),
            ],
        );
        host.expect(1, r#"[16,4,{},"a.bc"]"#, &[(0, r#"[36,2,77,{"topic":"a.bc"}]"#)]);
        host.expect(1, r#"[16,5,{},"q"]"#, &[]);
        // Leaving.
        let none = r#"[8,34,3,{},"wamp.error.no_such_subscription"]"#;
        host.expect(0, r#"[34,3,3]"#, &[(0, none)]);
        host.expect(0, r#"[34,4,1]"#, &[(0, "[35,4]")]);
        assert!(host.parsed().subscriptions.rows[0].is_used());
        host.expect(1, r#"[34,6,1]"#, &[(1, "[35,6]")]);
        assert_eq!(host.parsed().subscriptions.rows[0], Row::UNUSED);
        // The lowest free place, and the next ID.
        host.expect(1, r#"[32,7,{},"a.b"]"#, &[(1, "[33,7,5]")]);
        assert_eq!(host.parsed().subscriptions.rows[0], Row::new(5, Policy::Exact, 0b10, b"a.b"));
    }

    /// Sessions 3, 2, 1 and 104 on slots 0 to 3, so that no slot has its own number for its ID. All are members of an
    /// exact row, slots 1 and 3 of a prefix row too, and slots 0 and 2 of a wildcard row.
    fn chosen() -> Host {
        let mut host = Host::with_sessions(4);
        host.change(|state| {
            for (session, id) in state.sessions.iter_mut().zip([3, 2, 1]) {
                session.id = id;
            }
        });
        for slot in 0..4 {
            host.expect(slot, r#"[32,1,{},"a.b"]"#, &[(slot as u8, "[33,1,1]")]);
        }
        for (slots, policy, text) in [([1, 3], "prefix", "a"), ([0, 2], "wildcard", ".b")] {
            for slot in slots {
                host.send(slot, &format!(r#"[32,2,{{"match":"{policy}"}},"{text}"]"#));
            }
        }
        host
    }

    /// The receivers of the events of slot 1's PUBLISH with these options, by row.
    #[track_caller]
    fn reaches(host: &mut Host, options: &str, wanted: [&[u8]; 3]) {
        let request = host.parsed().sessions[1].requests + 1;
        let sent = host.send(1, &format!(r#"[16,{request},{{{options}}},"a.b"]"#));
        let by_row = |row: u64| -> Vec<u8> {
            let start = format!("[36,{row},");
            sent.iter().filter(|(_, text)| text.starts_with(&start)).map(|(slot, _)| *slot).collect()
        };
        assert_eq!([by_row(1), by_row(2), by_row(3)], wanted, "{options}");
        assert_eq!(sent.len(), wanted.concat().len(), "{options}");
    }

    #[test]
    fn the_options_of_a_publish_choose_its_receivers() {
        let mut host = chosen();
        let cases: [(&str, [&[u8]; 3]); 17] = [
            ("", [&[0, 2, 3], &[3], &[0, 2]]),
            (r#""exclude_me":true"#, [&[0, 2, 3], &[3], &[0, 2]]),
            (r#""exclude_me":false"#, [&[0, 1, 2, 3], &[1, 3], &[0, 2]]),
            (r#""exclude":[]"#, [&[0, 2, 3], &[3], &[0, 2]]),
            // Session 3 is slot 0's, and session 2 the publisher's.
            (r#""exclude":[3]"#, [&[2, 3], &[3], &[2]]),
            (r#""exclude":[2]"#, [&[0, 2, 3], &[3], &[0, 2]]),
            (r#""exclude":[4,8,103]"#, [&[0, 2, 3], &[3], &[0, 2]]),
            (r#""exclude":[1,1,103,3]"#, [&[3], &[3], &[]]),
            (r#""eligible":[]"#, [&[], &[], &[]]),
            (r#""eligible":[3]"#, [&[0], &[], &[0]]),
            (r#""eligible":[2,4,8]"#, [&[], &[], &[]]),
            (r#""eligible":[2,1,104]"#, [&[2, 3], &[3], &[2]]),
            (r#""eligible":[2,1,104],"exclude_me":false"#, [&[1, 2, 3], &[1, 3], &[2]]),
            (r#""eligible":[1],"exclude_me":false"#, [&[2], &[], &[2]]),
            (r#""exclude":[2],"exclude_me":false"#, [&[0, 2, 3], &[3], &[0, 2]]),
            (r#""exclude":[1,2],"exclude_me":false,"eligible":[2,1,3]"#, [&[0], &[], &[0]]),
            (r#""exclude":[1],"exclude_me":false,"eligible":[2,1,3]"#, [&[0, 1], &[1], &[0]]),
        ];
        for (options, wanted) in cases {
            reaches(&mut host, options, wanted);
        }
        // An ended session's ID is nobody's.
        host.detach(0).unwrap();
        reaches(&mut host, r#""eligible":[3,1]"#, [&[2], &[], &[2]]);
    }

    #[test]
    fn a_wrong_option() {
        let mut host = chosen();
        let (argument, uri) = ("wamp.error.invalid_argument", "wamp.error.invalid_uri");
        for wrong in [
            r#""exclude_me":null"#,
            r#""exclude_me":0"#,
            r#""exclude":[0]"#,
            r#""exclude":[1,2,3,4,5,6,7,8,9]"#,
            r#""exclude":[3],"eligible":"3""#,
            r#""eligible":null"#,
            r#""eligible":[1.0],"exclude_me":false"#,
        ] {
            for (topic, acknowledge, error) in [
                ("a.b", true, Some(argument)),
                ("a..b", true, Some(argument)),
                ("wamp.b", true, Some(argument)),
                ("a.b", false, None),
                ("a..b", false, None),
            ] {
                let before = host.parsed();
                let request = before.sessions[1].requests + 1;
                let publish = format!(r#"[16,{request},{{"acknowledge":{acknowledge},{wrong}}},"{topic}"]"#);
                let told = error.map(|error| format!(r#"[8,16,{request},{{}},"{error}"]"#));
                let wanted: Vec<_> = told.iter().map(|error| (1, error.as_str())).collect();
                host.expect(1, &publish, &wanted);
                // Nothing is changed but the request counter.
                let mut after = before;
                after.sessions[1].requests = request;
                assert_eq!(host.parsed(), after);
            }
        }
        let request = host.parsed().sessions[1].requests + 1;
        let publish = format!(r#"[16,{request},{{"acknowledge":true,"exclude":[3]}},"a..b"]"#);
        host.expect(1, &publish, &[(1, &format!(r#"[8,16,{request},{{}},"{uri}"]"#))]);
    }

    #[test]
    fn the_most_messages_of_a_step() {
        let mut host = Host::with_sessions(8);
        host.change(|state| {
            state.subscriptions.counter = 32;
            for (id, row) in (1..).zip(&mut state.subscriptions.rows) {
                *row = Row::new(id, Policy::Prefix, 0xff, &b"t".repeat(id as usize));
            }
        });
        let topic = "t".repeat(32);
        let publish = format!(r#"[16,1,{{"acknowledge":true,"exclude_me":false}},"{topic}"]"#);
        let sent = host.send(5, &publish);
        assert_eq!((sent.len(), &*sent[0].1), (257, "[17,1,109]"));
        for (k, (slot, text)) in sent[1..].iter().enumerate() {
            assert_eq!(usize::from(*slot), k % 8);
            assert_eq!(*text, format!(r#"[36,{},109,{{"topic":"{topic}"}}]"#, k / 8 + 1));
        }
    }

    #[test]
    fn errors_of_requests() {
        let mut host = Host::with_sessions(1);
        // The bad `match` comes before the bad URI.
        host.expect(0, r#"[32,1,{"match":1},""]"#, &[(0, r#"[8,32,1,{},"wamp.error.invalid_argument"]"#)]);
        host.expect(0, r#"[32,2,{},""]"#, &[(0, r#"[8,32,2,{},"wamp.error.invalid_uri"]"#)]);
        host.expect(0, r#"[64,3,{"match":""},"a"]"#, &[(0, r#"[8,64,3,{},"wamp.error.invalid_argument"]"#)]);
        host.expect(0, r#"[64,4,{},"wamp.a"]"#, &[(0, r#"[8,64,4,{},"wamp.error.invalid_uri"]"#)]);
        host.expect(
            0,
            r#"[16,5,{"acknowledge":true},"wamp.a"]"#,
            &[(0, r#"[8,16,5,{},"wamp.error.invalid_uri"]"#)],
        );
        host.expect(0, r#"[16,6,{},"wamp.a"]"#, &[]);
        host.expect(0, r#"[48,7,{},"a..b"]"#, &[(0, r#"[8,48,7,{},"wamp.error.invalid_uri"]"#)]);
        host.expect(0, r#"[48,8,{},"wamp.a"]"#, &[(0, r#"[8,48,8,{},"wamp.error.no_such_procedure"]"#)]);
        host.expect(0, r#"[66,9,1]"#, &[(0, r#"[8,66,9,{},"wamp.error.no_such_registration"]"#)]);
        host.expect(0, r#"[64,10,{},"a"]"#, &[(0, "[65,10,1]")]);
        host.expect(0, r#"[64,11,{},"a"]"#, &[(0, r#"[8,64,11,{},"wamp.error.procedure_already_exists"]"#)]);
        host.expect(0, r#"[64,12,{"match":"prefix"},"a"]"#, &[(0, "[65,12,2]")]);
        host.expect(0, r#"[66,13,1]"#, &[(0, "[67,13]")]);
        assert_eq!(host.parsed().registrations.rows[0], Row::UNUSED);
    }

    #[test]
    fn a_text_means_the_same_however_it_is_spelled() {
        let mut host = Host::with_sessions(2);
        host.expect(1, r#"[64,1,{},"hub.donor.defer"]"#, &[(1, "[65,1,1]")]);
        host.expect(0, r#"[48,1,{},"hub.donor.\u0064efer"]"#, &[(1, "[68,1,1,{}]")]);
        let exists = r#"[8,64,2,{},"wamp.error.procedure_already_exists"]"#;
        host.expect(1, r#"[64,2,{},"hub\u002edonor.defer"]"#, &[(1, exists)]);
        // The row holds the text, undone.
        host.expect(1, r#"[32,3,{"match":"pre\u0066ix"},"\u00e9\u0022\u005c\u002f"]"#, &[(1, "[33,3,1]")]);
        let row = Row::new(1, Policy::Prefix, 0b10, "é\"\\/".as_bytes());
        assert_eq!(host.parsed().subscriptions.rows[0], row);
        host.expect(0, r#"[32,2,{"m\u0061tch":"prefix"},"é\"\\\/"]"#, &[(0, "[33,2,1]")]);
        // An undone dot separates components.
        host.expect(1, r#"[64,4,{"match":"wildcard"},"a\u002e\u002ec"]"#, &[(1, "[65,4,2]")]);
        host.expect(0, r#"[48,3,{},"a.b\u002Ec"]"#, &[(1, r#"[68,2,2,{"procedure":"a.b.c"}]"#)]);
        for text in [r"\u002e", r"a\u002e", r"a\u0023", r"a\u0020b", r"a\tb", r"a\u0000"] {
            let request = host.parsed().sessions[0].requests + 1;
            let error = format!(r#"[8,48,{request},{{}},"wamp.error.invalid_uri"]"#);
            host.expect(0, &format!(r#"[48,{request},{{}},"{text}"]"#), &[(0, &error)]);
        }
        let error = r#"[8,64,5,{},"wamp.error.invalid_uri"]"#;
        host.expect(1, r#"[64,5,{},"\u0077amp.x"]"#, &[(1, error)]);
    }

    #[test]
    fn the_realm_is_undone() {
        let mut host = Host::with_sessions(1);
        host.attach(1).unwrap();
        let hello = r#"[1,"\u0068ub\u002Ebus",{}]"#;
        assert_eq!(host.message(1, 101, hello.as_bytes()), Err(4), "an open session's number");
        assert!(host.send(1, hello)[0].1.starts_with("[2,102,"));
        host.attach(2).unwrap();
        host.expect(2, r#"[1,"hub\\u002ebus",{}]"#, &[(2, r#"[3,{},"wamp.error.no_such_realm"]"#)]);
        // A lone half is a violation, also where the realm would be another one or the number is in use.
        host.attach(2).unwrap();
        host.expect(2, r#"[1,"x\ud800",{}]"#, &[(2, VIOLATION)]);
        host.attach(2).unwrap();
        assert_eq!(host.message(2, 101, br#"[1,"hub.bus\ud800",{}]"#), Ok(vec![(2, VIOLATION.to_string())]));
    }

    #[test]
    fn lone_halves() {
        for text in [
            r#"[32,1,{},"a\ud800"]"#,
            r#"[32,1,{"match":1},"a\ud800"]"#,
            r#"[32,1,{"match":"\ud800"},"a"]"#,
            r#"[48,1,{"\udc00":1},"a"]"#,
            r#"[16,1,{},"\udd1e\ud834"]"#,
            r#"[16,1,{"acknowledge":true,"\u0061cknowledge":true},"a"]"#,
        ] {
            let mut host = Host::with_sessions(1);
            host.expect(0, text, &[(0, VIOLATION)]);
        }
        let mut host = Host::with_sessions(2);
        host.send(1, r#"[32,1,{},"t"]"#);
        let payload = r#"["\ud800"],{"\ud800":1,"\udc00":2}"#;
        let event = format!("[36,1,{},{{}},{payload}]", host.number);
        host.expect(0, &format!(r#"[16,1,{{}},"t",{payload}]"#), &[(1, &event)]);
        host.expect(0, r#"[16,2,{},"t",[],{"\ud800":1,"\uD800":2}]"#, &[(0, VIOLATION)]);
    }

    #[test]
    fn quotes_and_backslashes_go_out_escaped() {
        let mut host = Host::with_sessions(2);
        host.number = 9;
        host.send(1, r#"[32,1,{"match":"prefix"},"a"]"#);
        host.send(1, r#"[64,2,{"match":"wildcard"},"a."]"#);
        let topic = r#"[36,1,9,{"topic":"a\"\\/é"}]"#;
        host.expect(0, r#"[16,1,{},"a\u0022\u005c\/\u00e9"]"#, &[(1, topic)]);
        let procedure = r#"[68,1,1,{"procedure":"a.\\\"n"},["\u0022\/"]]"#;
        host.expect(0, r#"[48,2,{},"a.\\\"\u006e",["\u0022\/"]]"#, &[(1, procedure)]);
        let error = r#"[8,48,2,{},"e.\"é\\",["\u0065"]]"#;
        host.expect(1, r#"[8,68,1,{},"\u0065.\u0022\u00E9\u005C",["\u0065"]]"#, &[(0, error)]);
    }

    #[test]
    fn texts_of_128_and_129_bytes() {
        let mut host = Host::with_sessions(1);
        let mut request = 0;
        for policy in ["exact", "prefix", "wildcard"] {
            for (number, table) in [(32, 33), (64, 65)] {
                // Bytes undone, spelled in as many, six times as many or three times as many.
                for (text, good) in [
                    ("a".repeat(128), true),
                    ("a".repeat(129), false),
                    (r"\u0062".repeat(128), true),
                    (r"\u0062".repeat(129), false),
                    (r"\u00e9".repeat(64), true),
                    (r"\u00e9".repeat(64) + "a", false),
                    (r"\ud834\udd1e".repeat(32), true),
                    (r"\ud834\udd1e".repeat(32) + r"\/", false),
                ] {
                    request += 1;
                    let sent =
                        host.send(0, &format!(r#"[{number},{request},{{"match":"{policy}"}},"{text}"]"#));
                    let error = format!(r#"[8,{number},{request},{{}},"wamp.error.invalid_uri"]"#);
                    assert_eq!(sent[0].1.starts_with(&format!("[{table},")), good);
                    assert_eq!(sent[0].1 == error, !good);
                }
            }
        }
    }

    #[test]
    fn no_room_for_rows() {
        let mut host = Host::with_sessions(1);
        for (asking, answered) in [(32, 33), (64, 65)] {
            let first = host.parsed().sessions[0].requests + 1;
            for request in first..first + 32 {
                let sent = host.send(0, &format!(r#"[{asking},{request},{{}},"t{request}"]"#));
                assert_eq!(sent[0].1, format!("[{answered},{request},{}]", request - first + 1));
            }
            let next = first + 32;
            let error = format!(r#"[8,{asking},{next},{{}},"hub.error.no_room"]"#);
            host.expect(0, &format!(r#"[{asking},{next},{{}},"t"]"#), &[(0, &error)]);
        }
        // A text that has a row needs no new one.
        host.expect(0, r#"[32,67,{},"t1"]"#, &[(0, "[33,67,1]")]);
        let exists = r#"[8,64,68,{},"wamp.error.procedure_already_exists"]"#;
        host.expect(0, r#"[64,68,{},"t34"]"#, &[(0, exists)]);
        // Rows are free, but there is no next ID.
        let mut host = Host::with_sessions(1);
        host.change(|state| {
            state.subscriptions.counter = ids::MAX - 1;
            state.registrations.counter = ids::MAX;
        });
        host.expect(0, r#"[32,1,{},"a"]"#, &[(0, "[33,1,9007199254740992]")]);
        host.expect(0, r#"[32,2,{},"b"]"#, &[(0, r#"[8,32,2,{},"hub.error.no_room"]"#)]);
        host.expect(0, r#"[64,3,{},"b"]"#, &[(0, r#"[8,64,3,{},"hub.error.no_room"]"#)]);
    }

    #[test]
    fn held_call_32() {
        let mut host = Host::with_sessions(2);
        host.expect(1, r#"[64,1,{},"a"]"#, &[(1, "[65,1,1]")]);
        for k in 1..=ROWS {
            host.expect(0, &format!(r#"[48,{k},{{}},"a"]"#), &[(1, &format!("[68,{k},1,{{}}]"))]);
        }
        host.expect(0, r#"[48,33,{},"a"]"#, &[(0, r#"[8,48,33,{},"hub.error.no_room"]"#)]);
        // Without a fit that is told first.
        host.expect(0, r#"[48,34,{},"b"]"#, &[(0, r#"[8,48,34,{},"wamp.error.no_such_procedure"]"#)]);
        host.expect(1, r#"[8,68,7,{},"x.y",[7]]"#, &[(0, r#"[8,48,7,{},"x.y",[7]]"#)]);
        host.expect(1, r#"[8,68,7,{},"x.y",[7]]"#, &[]);
        host.expect(0, r#"[48,35,{},"a"]"#, &[(1, "[68,33,1,{}]")]);
        let call = HeldCall { caller: 0, request: 35, callee: 1, invocation: 33 };
        assert_eq!(host.parsed().calls[6], call);
        host.expect(0, r#"[48,36,{},"a"]"#, &[(0, r#"[8,48,36,{},"hub.error.no_room"]"#)]);
        // The callee's counter stands at the end.
        let mut host = Host::with_sessions(2);
        host.send(1, r#"[64,1,{},"a"]"#);
        host.change(|state| state.sessions[1].invocations = ids::MAX - 1);
        host.expect(0, r#"[48,1,{},"a"]"#, &[(1, "[68,9007199254740992,1,{}]")]);
        host.expect(0, r#"[48,2,{},"a"]"#, &[(0, r#"[8,48,2,{},"hub.error.no_room"]"#)]);
    }

    #[test]
    fn the_choice_is_the_marked_one() {
        let mut host = Host::with_sessions(2);
        let rows = [
            ("exact", "a1.b2.c3.d4.e55"),
            ("prefix", "a1.b2.c3"),
            ("prefix", "a1.b2.c3.d4"),
            ("wildcard", "a1.b2..d4.e5"),
            ("wildcard", "a1.b2.c3..e5"),
            ("wildcard", "a1.b2..d4.e5..g7"),
            ("wildcard", "a1.b2..d4..f6.g7"),
        ];
        for (k, (policy, text)) in (1..).zip(rows) {
            host.send(1, &format!(r#"[64,{k},{{"match":"{policy}"}},"{text}"]"#));
        }
        let cases = [
            ("a1.b2.c3.d4.e55", 1),
            ("a1.b2.c3.d98.e74", 2),
            ("a1.b2.c3.d4.e325", 3),
            ("a1.b2.c55.d4.e5", 4),
            ("a1.b2.c3.d4.e5", 3),
            ("a1.b2.c88.d4.e5.f6.g7", 6),
        ];
        for (k, (uri, row)) in (1..).zip(cases) {
            let told = if row == 1 { String::new() } else { format!(r#""procedure":"{uri}""#) };
            let wanted = format!("[68,{k},{row},{{{told}}}]");
            host.expect(0, &format!(r#"[48,{k},{{}},"{uri}"]"#), &[(1, &wanted)]);
        }
        let none = r#"[8,48,7,{},"wamp.error.no_such_procedure"]"#;
        host.expect(0, r#"[48,7,{},"a2.b2.c2.d2.e2"]"#, &[(0, none)]);
        host.send(1, "[66,8,2]");
        host.send(1, "[66,9,3]");
        let wanted = r#"[68,7,5,{"procedure":"a1.b2.c3.d4.e5"}]"#;
        host.expect(0, r#"[48,8,{},"a1.b2.c3.d4.e5"]"#, &[(1, wanted)]);
    }

    /// Slot 1 serves calls of slots 0 and 2 and of its own, and has a call held by slot 0.
    fn serving() -> Host {
        let mut host = Host::with_sessions(3);
        host.send(1, r#"[64,1,{},"a"]"#);
        host.send(0, r#"[64,1,{},"b"]"#);
        host.send(1, r#"[32,2,{},"t"]"#);
        host.send(0, r#"[32,2,{},"t"]"#);
        host.send(2, r#"[48,1,{},"a"]"#);
        host.send(1, r#"[48,3,{},"a"]"#);
        host.send(1, r#"[48,4,{},"b"]"#);
        host.send(0, r#"[48,3,{},"a"]"#);
        host
    }

    #[test]
    fn a_session_ends() {
        let canceled = [
            (2, r#"[8,48,1,{},"wamp.error.canceled"]"#.to_string()),
            (0, r#"[8,48,3,{},"wamp.error.canceled"]"#.to_string()),
        ];
        let goodbye = (1, r#"[6,{},"wamp.close.goodbye_and_out"]"#.to_string());
        let violation = (1, VIOLATION.to_string());
        let mut ends = Vec::new();
        let mut host = serving();
        assert_eq!(host.detach(1).unwrap(), canceled);
        ends.push(host.parsed());
        let mut host = serving();
        assert_eq!(host.send(1, r#"[3,{},""]"#), canceled);
        ends.push(host.parsed());
        let mut host = serving();
        assert_eq!(host.send(1, "x"), [&[violation], &canceled[..]].concat());
        ends.push(host.parsed());
        let mut host = serving();
        assert_eq!(host.send(1, r#"[6,{},""]"#), [&[goodbye], &canceled[..]].concat());
        assert_eq!(host.parsed().sessions[1], Session { status: Status::Attached, ..Session::default() });
        host.change(|state| state.sessions[1].status = Status::Closed);
        ends.push(host.parsed());
        for state in ends {
            assert_eq!(state.sessions[1], Session::default());
            assert!(state.calls.iter().all(|call| !call.is_used()));
            assert_eq!(
                state.subscriptions.used().collect::<Vec<_>>(),
                [&Row::new(1, Policy::Exact, 1, b"t")]
            );
            assert_eq!(
                state.registrations.used().collect::<Vec<_>>(),
                [&Row::new(2, Policy::Exact, 0, b"b")]
            );
        }
        // The call that slot 0 serves was the ended session's: its answer is dropped.
        host.expect(0, "[70,1,{}]", &[]);
    }

    #[test]
    fn unregistering_does_not_disturb_held_calls() {
        let mut host = serving();
        host.send(1, "[66,5,1]");
        host.expect(1, "[70,1,{},[1]]", &[(2, "[50,1,{},[1]]")]);
        host.expect(1, "[70,2,{}]", &[(1, "[50,3,{}]")]);
        host.expect(1, "[70,4,{}]", &[(1, VIOLATION), (0, r#"[8,48,3,{},"wamp.error.canceled"]"#)]);
    }

    /// Bytes in a form that is told well.
    fn told(bytes: &[u8]) -> String {
        bytes.escape_ascii().to_string()
    }

    /// A text of JSON converted.
    fn packed(text: &str) -> Vec<u8> {
        convert(Format::Json, Format::MsgPack, 8, text.as_bytes(), 0).expect("it converts").0
    }

    impl Host {
        /// A host with open sessions of these formats, on the first slots. Their IDs count from 101.
        fn of_formats(formats: &[Format]) -> Host {
            let mut host = Host::new();
            for (slot, format) in (0..).zip(formats) {
                match format {
                    Format::Json => assert_eq!(host.attach(slot), Ok(vec![])),
                    Format::MsgPack => assert_eq!(host.attach_msgpack(slot), Ok(vec![])),
                };
                host.say(slot, r#"[1,"hub.bus",{}]"#);
                host.number += 1;
            }
            host
        }

        fn attach_msgpack(&mut self, slot: u64) -> Result<Vec<(u8, Vec<u8>)>, u64> {
            let (before, answer) =
                (self.state.clone(), attach_msgpack(slot, &self.settings, &mut self.state, &mut self.out));
            self.sent_bytes(before, answer)
        }

        /// The bytes that the text's message has in the slot's format.
        fn in_format(&self, slot: u64, text: &str) -> Vec<u8> {
            match self.parsed().sessions[slot as usize].format {
                Format::Json => text.as_bytes().to_vec(),
                Format::MsgPack => packed(text),
            }
        }

        /// A message step in the slot's format, which is not refused.
        fn say(&mut self, slot: u64, text: &str) -> Vec<(u8, Vec<u8>)> {
            self.raw(slot, &self.in_format(slot, text))
        }

        fn raw(&mut self, slot: u64, bytes: &[u8]) -> Vec<(u8, Vec<u8>)> {
            let before = self.state.clone();
            let answer = message(slot, self.number, bytes, &self.settings, &mut self.state, &mut self.out);
            self.sent_bytes(before, answer).unwrap()
        }

        /// The step answers with these messages, each given in JSON and wanted in its receiver's format.
        #[track_caller]
        fn hears(&mut self, slot: u64, text: &str, wanted: &[(u8, &str)]) {
            let bytes = self.in_format(slot, text);
            self.answers(slot, &bytes, wanted);
        }

        #[track_caller]
        fn answers(&mut self, slot: u64, bytes: &[u8], wanted: &[(u8, &str)]) {
            let wanted: Vec<_> =
                wanted.iter().map(|&(to, text)| (to, told(&self.in_format(to.into(), text)))).collect();
            let sent = self.raw(slot, bytes);
            let sent: Vec<_> = sent.iter().map(|(to, bytes)| (*to, told(bytes))).collect();
            assert_eq!(sent, wanted, "{}", told(bytes));
        }

        fn status(&self, slot: usize) -> u8 {
            self.state[25 * slot]
        }
    }

    const FORMATS: [[Format; 2]; 4] = [
        [Format::Json, Format::Json],
        [Format::Json, Format::MsgPack],
        [Format::MsgPack, Format::Json],
        [Format::MsgPack, Format::MsgPack],
    ];

    const PACKED_VIOLATION: &[u8] = b"\x93\x03\x80\xbdwamp.error.protocol_violation";

    #[test]
    fn a_slot_is_attached_for_its_format_and_keeps_it() {
        let mut host = Host::new();
        assert_eq!(host.attach_msgpack(8), Err(2));
        assert_eq!(host.attach_msgpack(3), Ok(vec![]));
        assert_eq!(host.status(3), 4);
        assert_eq!((host.attach_msgpack(3), host.attach(3)), (Err(3), Err(3)));
        host.say(3, r#"[1,"hub.bus",{}]"#);
        assert_eq!(host.status(3), 5);
        assert_eq!((host.attach_msgpack(3), host.attach(3)), (Err(3), Err(3)));
        host.hears(3, r#"[6,{},""]"#, &[(3, r#"[6,{},"wamp.close.goodbye_and_out"]"#)]);
        assert_eq!(host.status(3), 4);
        host.say(3, r#"[1,"hub.bus",{}]"#);
        assert_eq!(host.status(3), 5);
        assert_eq!(host.detach(3), Ok(vec![]));
        assert_eq!(host.status(3), 0);
        // The next attaching chooses anew.
        assert_eq!(host.attach(3), Ok(vec![]));
        assert_eq!(host.status(3), 1);
        assert_eq!((host.attach_msgpack(3), host.detach(3)), (Err(3), Ok(vec![])));
        assert_eq!(host.attach_msgpack(3), Ok(vec![]));
        host.raw(3, b"\x93\x03\x80\xa0");
        assert_eq!(host.status(3), 0);
        // It needs the same room, and a bad state comes first.
        host.out.truncate(1);
        assert_eq!(host.attach_msgpack(3), Err(5));
        host.state[0] = 3;
        assert_eq!(host.attach_msgpack(8), Err(1));
    }

    #[test]
    fn only_five_status_bytes_are_named() {
        for byte in 0..=255 {
            let mut host = Host::new();
            host.state[0] = byte;
            let wanted = if matches!(byte, 0 | 1 | 4) { Ok(vec![]) } else { Err(1) };
            assert_eq!(host.attach(7), wanted, "{byte}");
            let mut host = Host::with_sessions(1);
            host.state[0] = byte;
            let wanted = if matches!(byte, 2 | 5) { Ok(vec![]) } else { Err(1) };
            assert_eq!(host.attach(7), wanted, "{byte}");
        }
    }

    #[test]
    fn messages_go_in_the_format_from_before_the_step() {
        let mut host = Host::new();
        host.attach_msgpack(0).unwrap();
        let welcome = host.say(0, r#"[1,"hub.bus",{}]"#);
        assert!(welcome[0].1.starts_with(b"\x93\x02\x65\x81\xa5roles\x82\xa6broker"), "{welcome:?}");
        // A violation closes the slot, and its ABORT is MessagePack.
        assert_eq!(host.raw(0, b"\xc1"), [(0, PACKED_VIOLATION.to_vec())]);
        assert_eq!(host.parsed(), State::empty());
        host.attach_msgpack(0).unwrap();
        assert_eq!(host.raw(0, br#"[1,"hub.bus",{}]"#), [(0, PACKED_VIOLATION.to_vec())]);
        host.attach(0).unwrap();
        assert_eq!(host.raw(0, &packed(r#"[1,"hub.bus",{}]"#)), [(0, VIOLATION.as_bytes().to_vec())]);
        host.attach_msgpack(0).unwrap();
        let abort = b"\x93\x03\x80\xb8wamp.error.no_such_realm";
        assert_eq!(host.say(0, r#"[1,"hub",{}]"#), [(0, abort.to_vec())]);
        assert_eq!(host.parsed(), State::empty());
    }

    #[test]
    fn canceled_goes_to_each_in_its_own_format() {
        let mut host = Host::of_formats(&[Format::MsgPack, Format::MsgPack, Format::Json]);
        host.say(1, r#"[64,1,{},"a"]"#);
        host.hears(0, r#"[48,1,{},"a"]"#, &[(1, "[68,1,1,{}]")]);
        host.hears(2, r#"[48,1,{},"a"]"#, &[(1, "[68,2,1,{}]")]);
        let canceled = r#"[8,48,1,{},"wamp.error.canceled"]"#;
        let violation = r#"[3,{},"wamp.error.protocol_violation"]"#;
        host.answers(1, b"", &[(1, violation), (0, canceled), (2, canceled)]);
        assert_eq!(host.status(1), 0);
    }

    #[test]
    fn every_request_is_answered_in_its_format() {
        for [one, other] in FORMATS {
            let mut host = Host::of_formats(&[one, other]);
            host.number = 77;
            host.hears(0, r#"[32,1,{"match":"prefix"},"t"]"#, &[(0, "[33,1,1]")]);
            host.hears(0, r#"[64,2,{"match":"wildcard"},"p."]"#, &[(0, "[65,2,1]")]);
            host.hears(
                1,
                r#"[16,1,{"acknowledge":true},"t\"é",[1,"x"],{"k":[]}]"#,
                &[(1, "[17,1,77]"), (0, r#"[36,1,77,{"topic":"t\"é"},[1,"x"],{"k":[]}]"#)],
            );
            let invocation = r#"[68,1,1,{"procedure":"p.q"},[null,-1]]"#;
            host.hears(1, r#"[48,2,{},"p.q",[null,-1]]"#, &[(0, invocation)]);
            host.hears(0, r#"[70,1,{},[],{"a":true}]"#, &[(1, r#"[50,2,{},[],{"a":true}]"#)]);
            host.hears(1, r#"[48,3,{},"p.q"]"#, &[(0, r#"[68,2,1,{"procedure":"p.q"}]"#)]);
            let error = r#"[8,48,3,{},"e.\\f",["\n"]]"#;
            let bytes = host.in_format(0, r#"[8,68,2,{},"e.\\f",["\n"]]"#);
            let sent = host.raw(0, &bytes);
            // The text of JSON goes within its format as it came, and from MessagePack with lower-case hex digits.
            let wanted = match (one, other) {
                (Format::MsgPack, Format::Json) => error.replace("\\n", "\\u000a").into_bytes(),
                _ => host.in_format(1, error),
            };
            assert_eq!(sent, [(1, wanted)]);
            host.hears(0, r#"[34,3,1]"#, &[(0, "[35,3]")]);
            host.hears(0, r#"[66,4,1]"#, &[(0, "[67,4]")]);
            host.hears(0, r#"[66,5,1]"#, &[(0, r#"[8,66,5,{},"wamp.error.no_such_registration"]"#)]);
            host.hears(
                0,
                r#"[32,6,{"match":1},"a"]"#,
                &[(0, r#"[8,32,6,{},"wamp.error.invalid_argument"]"#)],
            );
            host.hears(0, r#"[48,7,{},"a"]"#, &[(0, r#"[8,48,7,{},"wamp.error.no_such_procedure"]"#)]);
        }
    }

    /// Slots 0 and 1, of which slot 1 has registered `p` and subscribed to `t`.
    fn pair([one, other]: [Format; 2]) -> Host {
        let mut host = Host::of_formats(&[one, other]);
        host.say(1, r#"[64,1,{},"p"]"#);
        host.say(1, r#"[32,2,{},"t"]"#);
        host.number = 9;
        host
    }

    #[test]
    fn within_a_format_a_payload_goes_as_it_came() {
        let list = r#"[ -0, 1.50e3 ,"\ud800\/\u0061",99999999999999999999,{"\udc00":1}]"#;
        let mut host = pair(FORMATS[0]);
        host.expect(0, &format!("[48,1,{{}},\"p\",{list}]"), &[(1, &format!("[68,1,1,{{}},{list}]"))]);
        host.expect(0, &format!("[16,2,{{}},\"t\",{list}]"), &[(1, &format!("[36,1,9,{{}},{list}]"))]);
        host.expect(1, &format!("[70,1,{{}},{list}]"), &[(0, &format!("[50,1,{{}},{list}]"))]);
        // Longer forms, floats, bin, ext, and keys that are no str.
        let list = b"\xdc\x00\x05\xd0\x05\xca\0\0\0\0\xc4\x01\xff\xd4\x00\xc1\xde\x00\x01\xda\x00\x01k\xc0";
        let dict = b"\x82\xc4\x01k\xcf\0\0\0\0\0\0\0\x07\x91\x90\xc0";
        let payload = [&list[..], dict].concat();
        let mut host = pair(FORMATS[3]);
        let with = |before: &[u8]| [before, &*payload].concat();
        assert_eq!(host.raw(0, &with(b"\x96\x30\x01\x80\xa1p")), [(1, with(b"\x96\x44\x01\x01\x80"))]);
        assert_eq!(host.raw(0, &with(b"\x96\x10\x02\x80\xa1t")), [(1, with(b"\x96\x24\x01\x09\x80"))]);
        assert_eq!(host.raw(1, &with(b"\x95\x46\x01\x80")), [(0, with(b"\x95\x32\x01\x80"))]);
    }

    #[test]
    fn across_formats_a_payload_is_converted() {
        // The text of the payload as JSON, as MessagePack, and that converted back.
        for (json, msgpack, back) in [
            ("[]", b"\x90" as &[u8], "[]"),
            ("[ -0 ]", b"\x91\x00", "[0]"),
            (r#"["\/\u0061\ud834\udd1e\u001F\u007f"]"#, b"\x91\xa8/a\xf0\x9d\x84\x9e\x1f\x7f", "[\"/a𝄞\\u001f\u{7f}\"]"),
            ("[-9223372036854775808]", b"\x91\xd3\x80\0\0\0\0\0\0\0", "[-9223372036854775808]"),
            ("[18446744073709551615]", b"\x91\xcf\xff\xff\xff\xff\xff\xff\xff\xff", "[18446744073709551615]"),
            (
                "[127,128,255,256,65535,65536,4294967295,4294967296]",
                b"\x98\x7f\xcc\x80\xcc\xff\xcd\x01\0\xcd\xff\xff\xce\0\x01\0\0\xce\xff\xff\xff\xff\xcf\0\0\0\x01\0\0\0\0",
                "[127,128,255,256,65535,65536,4294967295,4294967296]",
            ),
            ("[-32,-33,-128,-129]", b"\x94\xe0\xd0\xdf\xd0\x80\xd1\xff\x7f", "[-32,-33,-128,-129]"),
            (
                "[ ] , { \"b\" : [ null , true ] , \"a\" : { } }",
                b"\x90\x82\xa1b\x92\xc0\xc3\xa1a\x80",
                "[],{\"b\":[null,true],\"a\":{}}",
            ),
        ] {
            let parts = 1 + u8::from(json.contains('{'));
            let mut host = pair(FORMATS[1]);
            let wanted = [&[0x94 + parts, 0x44, 1, 1, 0x80], msgpack].concat();
            let call = format!("[48,1,{{}},\"p\",{json}]");
            assert_eq!(host.raw(0, call.as_bytes()), [(1, wanted)], "{json}");
            let answer = [&[0x93 + parts, 0x46, 1, 0x80], msgpack].concat();
            let result = format!("[50,1,{{}},{back}]").into_bytes();
            assert_eq!(host.raw(1, &answer), [(0, result)], "{json}");
            let wanted = [&[0x94 + parts, 0x24, 1, 9, 0x80], msgpack].concat();
            let publish = format!("[16,2,{{}},\"t\",{json}]");
            assert_eq!(host.raw(0, publish.as_bytes()), [(1, wanted)], "{json}");
            let mut host = pair(FORMATS[2]);
            let call = [&[0x94 + parts, 0x30, 1, 0x80, 0xa1, b'p'], msgpack].concat();
            let wanted = format!("[68,1,1,{{}},{back}]").into_bytes();
            assert_eq!(host.raw(0, &call), [(1, wanted)], "{json}");
            let answer = format!("[8,68,1,{{}},\"e\",{json}]");
            let wanted = [&[0x95 + parts, 0x08, 0x30, 1, 0x80, 0xa1, b'e'], msgpack].concat();
            assert_eq!(host.raw(1, answer.as_bytes()), [(0, wanted)], "{json}");
        }
    }

    /// Payloads of each format that do not convert.
    const STAYING: [(Format, &[u8]); 14] = [
        (Format::Json, b"[1.0]"),
        (Format::Json, b"[1e2]"),
        (Format::Json, br#"["\ud800"]"#),
        (Format::Json, b"[18446744073709551616]"),
        (Format::Json, b"[-9223372036854775809]"),
        (Format::Json, br#"[[{"\udc00":1}]]"#),
        (Format::Json, br#"[],{"a":0.5}"#),
        (Format::MsgPack, b"\x91\xca\0\0\0\0"),
        (Format::MsgPack, b"\x91\xcb\0\0\0\0\0\0\0\0"),
        (Format::MsgPack, b"\x91\xc4\0"),
        (Format::MsgPack, b"\x91\xd4\0\0"),
        (Format::MsgPack, b"\x91\x81\x01\x01"),
        (Format::MsgPack, b"\x91\x81\xc0\xc0"),
        (Format::MsgPack, b"\x90\x81\xc4\x01k\x01"),
    ];

    /// The message with that payload behind it. It is given in JSON, without one.
    fn carrying(format: Format, text: &str, payload: &[u8]) -> Vec<u8> {
        match format {
            Format::Json => [&text.as_bytes()[..text.len() - 1], b",", payload, b"]"].concat(),
            Format::MsgPack => {
                let mut bytes = [&*packed(text), payload].concat();
                bytes[0] += if payload[0] == 0x90 { 2 } else { 1 };
                bytes
            }
        }
    }

    const NOT_CONVERTIBLE: &str = r#"[8,48,1,{},"hub.error.not_convertible"]"#;

    #[test]
    fn a_call_that_does_not_convert() {
        for (format, payload) in STAYING {
            let mut host = pair([format, format.other()]);
            let before = host.parsed();
            let call = carrying(format, r#"[48,1,{},"p"]"#, payload);
            host.answers(0, &call, &[(0, NOT_CONVERTIBLE)]);
            // Nothing is held or issued; the request's number is its session's last.
            let mut wanted = before;
            wanted.sessions[0].requests = 1;
            assert_eq!(host.parsed(), wanted);
            // After the other errors.
            let call = carrying(format, r#"[48,2,{},"p."]"#, payload);
            host.answers(0, &call, &[(0, r#"[8,48,2,{},"wamp.error.invalid_uri"]"#)]);
            let call = carrying(format, r#"[48,3,{},"q"]"#, payload);
            host.answers(0, &call, &[(0, r#"[8,48,3,{},"wamp.error.no_such_procedure"]"#)]);
            // Before no_room, of either cause.
            host.change(|state| state.sessions[1].invocations = ids::MAX);
            let call = carrying(format, r#"[48,4,{},"p"]"#, payload);
            host.answers(0, &call, &[(0, r#"[8,48,4,{},"hub.error.not_convertible"]"#)]);
            host.hears(0, r#"[48,5,{},"p"]"#, &[(0, r#"[8,48,5,{},"hub.error.no_room"]"#)]);
            host.change(|state| {
                state.sessions[0].requests = 40;
                for (place, call) in (1..).zip(&mut state.calls) {
                    *call = HeldCall { caller: 0, request: place, callee: 1, invocation: place };
                }
            });
            let call = carrying(format, r#"[48,41,{},"p"]"#, payload);
            host.answers(0, &call, &[(0, r#"[8,48,41,{},"hub.error.not_convertible"]"#)]);
            host.hears(0, r#"[48,42,{},"p"]"#, &[(0, r#"[8,48,42,{},"hub.error.no_room"]"#)]);
            // To a callee of its own format it goes.
            let mut host = pair([format, format]);
            let call = carrying(format, r#"[48,1,{},"p"]"#, payload);
            assert_eq!(host.raw(0, &call), [(1, carrying(format, "[68,1,1,{}]", payload))]);
        }
    }

    #[test]
    fn the_chosen_callee_decides() {
        let mut host = Host::of_formats(&[Format::Json, Format::Json, Format::MsgPack]);
        host.say(1, r#"[64,1,{"match":"prefix"},"p"]"#);
        host.say(2, r#"[64,1,{},"p.q"]"#);
        host.hears(0, r#"[48,1,{},"p.q",[1.5]]"#, &[(0, NOT_CONVERTIBLE)]);
        host.hears(0, r#"[48,2,{},"p.r",[1.5]]"#, &[(1, r#"[68,1,1,{"procedure":"p.r"},[1.5]]"#)]);
        host.hears(0, r#"[48,3,{},"p.q",[1]]"#, &[(2, r#"[68,1,2,{},[1]]"#)]);
        host.say(2, "[66,2,2]");
        host.hears(0, r#"[48,4,{},"p.q",[1.5]]"#, &[(1, r#"[68,2,1,{"procedure":"p.q"},[1.5]]"#)]);
    }

    #[test]
    fn an_answer_that_does_not_convert() {
        for (format, payload) in STAYING {
            for (answer, reply) in
                [("[70,1,{}]", "[50,1,{}]"), (r#"[8,68,1,{},"e.f"]"#, r#"[8,48,1,{},"e.f"]"#)]
            {
                let mut host = pair([format.other(), format]);
                host.hears(0, r#"[48,1,{},"p"]"#, &[(1, "[68,1,1,{}]")]);
                let answer = carrying(format, answer, payload);
                host.answers(1, &answer, &[(0, NOT_CONVERTIBLE)]);
                assert!(host.parsed().calls.iter().all(|call| !call.is_used()));
                // The next answer to it is dropped.
                host.answers(1, &answer, &[]);
                // Within a format it goes as it came.
                let mut host = pair([format, format]);
                host.hears(0, r#"[48,1,{},"p"]"#, &[(1, "[68,1,1,{}]")]);
                assert_eq!(host.raw(1, &answer), [(0, carrying(format, reply, payload))]);
            }
        }
    }

    #[test]
    fn an_event_passes_over_those_that_it_does_not_convert_for() {
        let (json, msgpack) = (Format::Json, Format::MsgPack);
        let mut host = Host::of_formats(&[json, msgpack, json, msgpack, json]);
        host.number = 9;
        for slot in [1, 2, 3] {
            host.say(slot, r#"[32,1,{},"t"]"#);
        }
        for (slot, request) in [(3, 2), (4, 1), (1, 2)] {
            host.say(slot, &format!(r#"[32,{request},{{"match":"prefix"}},"t"]"#));
        }
        let all = [
            (0, "[17,1,9]"),
            (1, "[36,1,9,{},[1]]"),
            (2, "[36,1,9,{},[1]]"),
            (3, "[36,1,9,{},[1]]"),
            (1, r#"[36,2,9,{"topic":"t"},[1]]"#),
            (3, r#"[36,2,9,{"topic":"t"},[1]]"#),
            (4, r#"[36,2,9,{"topic":"t"},[1]]"#),
        ];
        host.hears(0, r#"[16,1,{"acknowledge":true},"t",[1]]"#, &all);
        let some = [(0, "[17,2,9]"), (2, "[36,1,9,{},[1.0]]"), (4, r#"[36,2,9,{"topic":"t"},[1.0]]"#)];
        host.hears(0, r#"[16,2,{"acknowledge":true},"t",[1.0]]"#, &some);
        let publish = carrying(msgpack, r#"[16,3,{"acknowledge":true},"t"]"#, b"\x91\xc4\0");
        let event = |text: &str| carrying(msgpack, text, b"\x91\xc4\0");
        let wanted =
            [(1, packed("[17,3,9]")), (3, event("[36,1,9,{}]")), (3, event(r#"[36,2,9,{"topic":"t"}]"#))];
        assert_eq!(host.raw(1, &publish), wanted);
        // Where all are passed over PUBLISHED stays; without acknowledge the step is silent.
        for slot in [2, 4] {
            host.detach(slot).unwrap();
        }
        host.hears(0, r#"[16,3,{"acknowledge":true},"t",[0.5]]"#, &[(0, "[17,3,9]")]);
        host.hears(0, r#"[16,4,{},"t",[0.5]]"#, &[]);
    }

    #[test]
    fn options_of_a_publish_in_either_format() {
        let (json, msgpack) = (Format::Json, Format::MsgPack);
        for formats in [[json, msgpack, json, msgpack], [msgpack, json, msgpack, json]] {
            let mut host = Host::of_formats(&formats);
            host.number = 9;
            for slot in 0..4 {
                host.say(slot, r#"[32,1,{},"t"]"#);
            }
            let publish = r#"[16,2,{"exclude_me":false,"exclude":[102],"eligible":[101,102,103]},"t",[1]]"#;
            host.hears(0, publish, &[(0, "[36,1,9,{},[1]]"), (2, "[36,1,9,{},[1]]")]);
            let publish = r#"[16,3,{"acknowledge":true,"exclude":[9007199254740993]},"t.",[1]]"#;
            host.hears(0, publish, &[(0, r#"[8,16,3,{},"wamp.error.invalid_argument"]"#)]);
            host.hears(0, r#"[16,4,{"eligible":[-1]},"t",[1]]"#, &[]);
            host.hears(0, r#"[16,5,{"eligible":[104]},"t"]"#, &[(3, "[36,1,9,{}]")]);
            // One that is left and that the payload does not convert for is passed over.
            let payload: &[u8] = if formats[0] == json { b"[1.5]" } else { b"\x91\xc4\0" };
            let publish = carrying(formats[0], r#"[16,6,{"exclude":[103]},"t"]"#, payload);
            host.answers(0, &publish, &[]);
        }
    }

    fn rule(slot: u8, action: Action, verdict: u8, prefix: &[u8]) -> Rule<'_> {
        Rule { slot, action: action as u8, verdict, prefix }
    }

    fn lent(realm: &[u8], rules: &[Rule]) -> Vec<u8> {
        let mut bytes = vec![0; crate::settings::BYTES];
        Settings::new(realm, rules, 1).print(&mut bytes);
        bytes
    }

    #[test]
    fn settings_that_break_a_rule_are_refused_first() {
        let mut host = Host::with_sessions(1);
        for (place, byte) in [(0, 0), (8, 1), (129, 1), (4355, 0xff)] {
            host.settings = DEFAULT_BYTES.to_vec();
            host.settings[place] = byte;
            assert_eq!(host.attach(8), Err(1));
            assert_eq!(host.attach_msgpack(1), Err(1));
            assert_eq!(host.detach(0), Err(1));
            assert_eq!(host.message(0, 0, b""), Err(1));
        }
        for length in [0, DEFAULT_BYTES.len() - 1] {
            host.settings = DEFAULT_BYTES[..length].to_vec();
            assert_eq!(host.message(0, 1, b"x"), Err(1));
        }
        host.settings = [&DEFAULT_BYTES[..], &[0]].concat();
        assert_eq!(host.message(0, 1, b"x"), Err(1));
    }

    #[test]
    fn the_realm_is_that_of_the_settings() {
        let mut host = Host::with_sessions(1);
        host.settings = lent("é.\"".as_bytes(), &[]);
        for (slot, hello, answer) in [
            (1, r#"[1,"hub.bus",{}]"#, r#"[3,{},"wamp.error.no_such_realm"]"#),
            (1, r#"[1,"\u00e9.\"",{}]"#, "[2,102,"),
            (2, r#"[1,"é.",{}]"#, r#"[3,{},"wamp.error.no_such_realm"]"#),
        ] {
            host.attach(slot).unwrap();
            assert!(host.send(slot, hello)[0].1.starts_with(answer), "{hello}");
        }
        // BAD NUMBER is of a HELLO that is welcomed.
        host.attach(3).unwrap();
        assert_eq!(host.message(3, 101, r#"[1,"é.\"",{}]"#.as_bytes()), Err(4));
        assert!(host.message(3, 101, br#"[1,"hub.bus",{}]"#).is_ok());
        // A realm that is no UTF-8 is nobody's.
        host.settings = lent(b"\xff", &[]);
        host.attach(3).unwrap();
        assert!(host.send(3, r#"[1,"hub.bus",{}]"#)[0].1.starts_with("[3,"));
    }

    /// The error that slot 0 gets for a request of this kind, of the number 1, in settings with a rule.
    fn refused(rules: &[Rule], text: &str) -> Option<String> {
        let mut host = Host::with_sessions(2);
        host.say(1, r#"[64,1,{"match":"prefix"},"a"]"#);
        host.say(1, r#"[32,2,{"match":"prefix"},"a"]"#);
        host.settings = lent(b"r", rules);
        let before = host.parsed();
        let sent = host.send(0, text);
        let (_, error) = sent.first().filter(|(_, message)| message.starts_with("[8,"))?;
        // Nothing else is sent, and only the request's number is taken.
        assert_eq!(sent.len(), 1);
        let mut wanted = before;
        wanted.sessions[0].requests = 1;
        assert_eq!(host.parsed(), wanted);
        let uri = error.split('"').nth(1).expect("a URI");
        Some(uri.trim_start_matches("wamp.error.").to_string())
    }

    #[test]
    fn who_may_not_is_told_so_and_nothing_is_done() {
        use Action::*;
        for (action, request, bad) in [
            (Register, r#"[64,1,{},"a.b"]"#, r#"[64,1,{},"a..b"]"#),
            (Call, r#"[48,1,{},"a.b"]"#, r#"[48,1,{},"a.b."]"#),
            (Publish, r#"[16,1,{"acknowledge":true},"a.b"]"#, r#"[16,1,{"acknowledge":true},"a b"]"#),
            (Subscribe, r#"[32,1,{},"a.b"]"#, r#"[32,1,{},".a"]"#),
        ] {
            let no = Some("not_authorized".to_string());
            assert_eq!(refused(&[], request), None);
            assert_eq!(refused(&[rule(0, action, 0, b"a")], request), no);
            assert_eq!(refused(&[rule(0, action, 0, b"a.b")], request), no);
            assert_eq!(refused(&[rule(0, action, 1, b"a")], request), None);
            assert_eq!(refused(&[rule(1, action, 0, b"a")], request), None, "another slot's");
            assert_eq!(refused(&[rule(0, action, 0, b"a.b.")], request), None, "a longer text");
            assert_eq!(refused(&[rule(0, action, 0, b"a"), rule(0, action, 1, b"a.")], request), None);
            assert_eq!(refused(&[rule(0, action, 1, b"a"), rule(0, action, 0, b"a.b")], request), no);
            for other in Action::ALL.into_iter().filter(|other| *other != action) {
                assert_eq!(refused(&[rule(0, other, 0, b"a")], request), None, "another action's");
            }
            // The URI rule goes first.
            let rules = [rule(0, action, 0, b"a"), rule(0, action, 0, b"b")];
            assert_eq!(refused(&rules, bad), Some("invalid_uri".to_string()));
        }
        // `match` and wrong options go before both.
        let rules = [rule(0, Subscribe, 0, b"a"), rule(0, Publish, 0, b"a")];
        for request in [r#"[32,1,{"match":1},"a"]"#, r#"[16,1,{"acknowledge":true,"exclude":1},"a"]"#] {
            assert_eq!(refused(&rules, request), Some("invalid_argument".to_string()));
        }
    }

    #[test]
    fn what_is_asked_about() {
        let mut host = Host::with_sessions(3);
        host.say(0, r#"[32,1,{"match":"wildcard"},"a."]"#);
        host.say(0, r#"[64,2,{"match":"prefix"},"a"]"#);
        host.say(1, r#"[48,1,{},"a.b"]"#);
        let rules: Vec<_> = Action::ALL.into_iter().map(|action| rule(0, action, 0, b"a")).collect();
        host.settings = lent(b"r", &rules);
        // A text is compared as it is given, whatever its policy is.
        for policy in ["exact", "prefix", "wildcard"] {
            for (kind, request) in [(32, 3), (64, 4)] {
                host.change(|state| state.sessions[0].requests = request - 1);
                let text = format!(r#"[{kind},{request},{{"match":"{policy}"}},"a.x"]"#);
                let told = format!(r#"[8,{kind},{request},{{}},"wamp.error.not_authorized"]"#);
                host.expect(0, &text, &[(0, &told)]);
            }
        }
        // What is shorter, or begins otherwise, is not under the prefix.
        host.expect(0, r#"[64,5,{"match":"wildcard"},".x"]"#, &[(0, "[65,5,2]")]);
        // A PUBLISH is told only if it asks, and there is no event; events come to who may not subscribe.
        host.expect(0, r#"[16,6,{"exclude_me":false},"a.b"]"#, &[]);
        host.number = 9;
        host.expect(2, r#"[16,1,{},"a.b"]"#, &[(0, r#"[36,1,9,{"topic":"a.b"}]"#)]);
        // Calls come to who may not register, and answers, UNSUBSCRIBE and UNREGISTER are not asked about.
        host.expect(2, r#"[48,2,{},"a.b"]"#, &[(0, r#"[68,2,1,{"procedure":"a.b"}]"#)]);
        host.expect(0, "[70,1,{}]", &[(1, "[50,1,{}]")]);
        host.expect(0, r#"[8,68,2,{},"a.b"]"#, &[(2, r#"[8,48,2,{},"a.b"]"#)]);
        host.expect(0, "[34,7,1]", &[(0, "[35,7]")]);
        host.expect(0, "[66,8,1]", &[(0, "[67,8]")]);
    }

    #[test]
    fn before_what_stands_is_looked_at() {
        let mut host = Host::with_sessions(1);
        host.say(0, r#"[64,1,{},"a"]"#);
        let rules: Vec<_> = Action::ALL.into_iter().map(|action| rule(0, action, 0, b"a")).collect();
        host.settings = lent(b"r", &rules);
        let told = |kind, request| format!(r#"[8,{kind},{request},{{}},"wamp.error.not_authorized"]"#);
        host.expect(0, r#"[64,2,{},"a"]"#, &[(0, &told(64, 2))]);
        host.expect(0, r#"[48,3,{},"a.none"]"#, &[(0, &told(48, 3))]);
        host.expect(0, r#"[48,4,{},"a"]"#, &[(0, &told(48, 4))]);
        host.change(|state| state.subscriptions.counter = ids::MAX);
        host.expect(0, r#"[32,5,{},"a"]"#, &[(0, &told(32, 5))]);
    }

    #[test]
    fn sizes() {
        // A MessagePack message of 2,048 bytes whose payload takes six times as many of JSON.
        let mut host = pair(FORMATS[2]);
        let procedure = format!("p.{}", "\\".repeat(126));
        host.say(1, r#"[64,3,{"match":"prefix"},"p"]"#);
        let head = packed(&format!("[48,1,{{}},{procedure:?}]"));
        let text = vec![0; 2048 - head.len() - 4];
        let length = (text.len() as u16).to_be_bytes();
        let mut call = [&*head, b"\x91\xda", &length, &text].concat();
        call[0] += 1;
        assert_eq!(call.len(), 2048);
        let sent = host.raw(0, &call);
        let wanted = format!(
            r#"[68,1,2,{{"procedure":"{}"}},["{}"]]"#,
            procedure.replace('\\', r"\\"),
            r"\u0000".repeat(text.len())
        );
        assert_eq!(sent, [(1, wanted.into_bytes())]);
        assert!((11_000..13_000).contains(&sent[0].1.len()), "{}", sent[0].1.len());
    }
}
