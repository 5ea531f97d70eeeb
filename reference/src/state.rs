//! The lent state: 9,688 bytes that the host keeps between steps, and the rules that they must keep.
//!
//! Numbers are big-endian. IDs, request numbers and counters take 8 bytes, everything else takes 1.

use crate::format::Format;
use crate::ids;
use crate::uri::{self, Policy};

pub const SLOTS: usize = 8;
/// The rows of each table: subscriptions, registrations, held calls.
pub const ROWS: usize = 32;

const SESSION_BYTES: usize = 1 + 8 + 8 + 8;
const ROW_BYTES: usize = 8 + 1 + 1 + 1 + uri::MAX_LENGTH;
const CALL_BYTES: usize = 1 + 8 + 1 + 8;
const TABLE_BYTES: usize = 8 + ROWS * ROW_BYTES;

/// The length of the lent state.
pub const BYTES: usize = SLOTS * SESSION_BYTES + 2 * TABLE_BYTES + ROWS * CALL_BYTES;

#[derive(Clone, Copy, Debug, Default, PartialEq, Eq)]
pub enum Status {
    #[default]
    Closed,
    Attached,
    Open,
}

/// A slot: its status, the format that it was attached for, and, where it is open, its session. The counters are of
/// the last request number that it sent and the last invocation number that was issued to it.
#[derive(Clone, Copy, Debug, Default, PartialEq, Eq)]
pub struct Session {
    pub status: Status,
    /// That of a closed slot is JSON, for want of any.
    pub format: Format,
    pub id: u64,
    pub requests: u64,
    pub invocations: u64,
}

/// A row of the subscriptions or the registrations; unused where its ID is 0.
#[derive(Clone, Copy, Debug, PartialEq, Eq)]
pub struct Row {
    pub id: u64,
    pub policy: Policy,
    /// A subscription's members, a bit for each slot, slot 0 the lowest; a registration's owner, by its slot.
    pub holder: u8,
    /// The length of the text. A lent one may lie above 128: rule 3 refuses it.
    length: u8,
    padded: [u8; uri::MAX_LENGTH],
}

impl Session {
    /// The status byte that names a status and a format.
    fn status_byte(&self) -> u8 {
        match (self.status, self.format) {
            (Status::Closed, _) => 0,
            (Status::Attached, Format::Json) => 1,
            (Status::Open, Format::Json) => 2,
            (Status::Attached, Format::MsgPack) => 4,
            (Status::Open, Format::MsgPack) => 5,
        }
    }

    /// The status and the format that a byte names, if it names any.
    fn named(byte: u8) -> Option<(Status, Format)> {
        Some(match byte {
            0 => (Status::Closed, Format::Json),
            1 => (Status::Attached, Format::Json),
            2 => (Status::Open, Format::Json),
            4 => (Status::Attached, Format::MsgPack),
            5 => (Status::Open, Format::MsgPack),
            _ => return None,
        })
    }
}

impl Row {
    pub const UNUSED: Row =
        Row { id: 0, policy: Policy::Exact, holder: 0, length: 0, padded: [0; uri::MAX_LENGTH] };

    /// A row in use. The text has at most 128 bytes.
    pub fn new(id: u64, policy: Policy, holder: u8, text: &[u8]) -> Row {
        let mut padded = [0; uri::MAX_LENGTH];
        padded[..text.len()].copy_from_slice(text);
        Row { id, policy, holder, length: text.len() as u8, padded }
    }

    pub fn is_used(&self) -> bool {
        self.id != 0
    }

    /// The text of a row whose length is at most 128, as that of every row that keeps the rules.
    pub fn text(&self) -> &[u8] {
        &self.padded[..usize::from(self.length)]
    }

    /// Is it the row of this policy and text?
    pub fn is_of(&self, policy: Policy, text: &[u8]) -> bool {
        self.is_used() && self.policy == policy && self.text() == text
    }
}

/// The subscriptions or the registrations, with the counter of their IDs.
#[derive(Clone, Debug, PartialEq, Eq)]
pub struct Table {
    pub counter: u64,
    pub rows: [Row; ROWS],
}

impl Table {
    /// The rows in use, in order.
    pub fn used(&self) -> impl Iterator<Item = &Row> + Clone {
        self.rows.iter().filter(|row| row.is_used())
    }

    /// Puts a new row, with the next ID, in the lowest free place and answers the ID; `None` if there is no
    /// free place, or no next ID.
    pub fn add(&mut self, policy: Policy, holder: u8, text: &[u8]) -> Option<u64> {
        let free = self.rows.iter_mut().find(|row| !row.is_used())?;
        if self.counter == ids::MAX {
            return None;
        }
        self.counter += 1;
        *free = Row::new(self.counter, policy, holder, text);
        Some(self.counter)
    }
}

/// A call that waits for its callee's answer; unused where its request number is 0. Caller and callee are slots.
#[derive(Clone, Copy, Debug, Default, PartialEq, Eq)]
pub struct HeldCall {
    pub caller: u8,
    pub request: u64,
    pub callee: u8,
    pub invocation: u64,
}

impl HeldCall {
    pub fn is_used(&self) -> bool {
        self.request != 0
    }
}

#[derive(Clone, Debug, PartialEq, Eq)]
pub struct State {
    pub sessions: [Session; SLOTS],
    pub subscriptions: Table,
    pub registrations: Table,
    pub calls: [HeldCall; ROWS],
}

/// Takes fields from the front of the lent bytes. The whole length is known to be right.
struct Fields<'s> {
    rest: &'s [u8],
}

impl<'s> Fields<'s> {
    fn bytes(&mut self, count: usize) -> &'s [u8] {
        let (taken, rest) = self.rest.split_at(count);
        self.rest = rest;
        taken
    }

    fn byte(&mut self) -> u8 {
        self.bytes(1)[0]
    }

    fn number(&mut self) -> u64 {
        u64::from_be_bytes(self.bytes(8).try_into().expect("8 bytes"))
    }
}

/// Puts fields to the front of the lent bytes.
struct Places<'s> {
    bytes: &'s mut [u8],
    at: usize,
}

impl Places<'_> {
    fn bytes(&mut self, bytes: &[u8]) {
        let end = self.at + bytes.len();
        self.bytes[self.at..end].copy_from_slice(bytes);
        self.at = end;
    }

    fn number(&mut self, number: u64) {
        self.bytes(&number.to_be_bytes());
    }
}

impl State {
    /// Slots closed, rows unused, counters 0.
    pub fn empty() -> State {
        const EMPTY: Table = Table { counter: 0, rows: [Row::UNUSED; ROWS] };
        State {
            sessions: Default::default(),
            subscriptions: EMPTY,
            registrations: EMPTY,
            calls: Default::default(),
        }
    }

    /// The state that the bytes are; `None` if they are none, as `load` says. The state may still break a rule.
    pub fn parse(bytes: &[u8]) -> Option<State> {
        let mut state = State::empty();
        state.load(bytes).then_some(state)
    }

    /// Takes over the state that the bytes are; false if their length is not 9,688, or a status or policy byte
    /// names no value, and the state is then of no meaning. The state is filled where it lies: a step moves none.
    pub fn load(&mut self, bytes: &[u8]) -> bool {
        if bytes.len() != BYTES {
            return false;
        }
        let mut fields = Fields { rest: bytes };
        for session in &mut self.sessions {
            let Some(named) = Session::named(fields.byte()) else {
                return false;
            };
            (session.status, session.format) = named;
            session.id = fields.number();
            session.requests = fields.number();
            session.invocations = fields.number();
        }
        for table in [&mut self.subscriptions, &mut self.registrations] {
            table.counter = fields.number();
            for row in &mut table.rows {
                row.id = fields.number();
                row.policy = match fields.byte() {
                    0 => Policy::Exact,
                    1 => Policy::Prefix,
                    2 => Policy::Wildcard,
                    _ => return false,
                };
                row.holder = fields.byte();
                row.length = fields.byte();
                row.padded.copy_from_slice(fields.bytes(uri::MAX_LENGTH));
            }
        }
        for call in &mut self.calls {
            call.caller = fields.byte();
            call.request = fields.number();
            call.callee = fields.byte();
            call.invocation = fields.number();
        }
        true
    }

    /// Writes the state over lent bytes of the right length.
    pub fn print(&self, bytes: &mut [u8]) {
        let mut places = Places { bytes, at: 0 };
        for session in &self.sessions {
            places.bytes(&[session.status_byte()]);
            places.number(session.id);
            places.number(session.requests);
            places.number(session.invocations);
        }
        for table in [&self.subscriptions, &self.registrations] {
            places.number(table.counter);
            for row in &table.rows {
                let policy = match row.policy {
                    Policy::Exact => 0,
                    Policy::Prefix => 1,
                    Policy::Wildcard => 2,
                };
                places.number(row.id);
                places.bytes(&[policy, row.holder, row.length]);
                places.bytes(&row.padded);
            }
        }
        for call in &self.calls {
            places.bytes(&[call.caller]);
            places.number(call.request);
            places.bytes(&[call.callee]);
            places.number(call.invocation);
        }
    }

    /// The first state rule that is broken, by its number (PROTOCOL, "State rules").
    pub fn broken_rule(&self) -> Option<usize> {
        let rules = [
            State::unused_is_zero,
            State::session_ids_are_distinct,
            State::rows_are_good,
            State::calls_are_good,
            State::counters_are_in_range,
        ];
        rules.iter().position(|rule| !rule(self)).map(|place| place + 1)
    }

    /// Is the slot one, and open?
    pub fn is_open(&self, slot: u8) -> bool {
        self.sessions.get(usize::from(slot)).is_some_and(|session| session.status == Status::Open)
    }

    /// The open slots, a bit for each.
    fn open_slots(&self) -> u8 {
        (0..SLOTS as u8).filter(|&slot| self.is_open(slot)).fold(0, |bits, slot| bits | 1 << slot)
    }

    /// Rule 1: unused rows, and closed and attached slots but for their status, are all zero.
    fn unused_is_zero(&self) -> bool {
        let zero = |session: &Session| (session.id, session.requests, session.invocations) == (0, 0, 0);
        let mut rows = self.subscriptions.rows.iter().chain(&self.registrations.rows);
        self.sessions.iter().all(|session| session.status == Status::Open || zero(session))
            && rows.all(|row| row.is_used() || *row == Row::UNUSED)
            && self.calls.iter().all(|call| call.is_used() || *call == HeldCall::default())
    }

    /// Rule 2: open session IDs are distinct and in range.
    fn session_ids_are_distinct(&self) -> bool {
        let open = || self.sessions.iter().filter(|session| session.status == Status::Open);
        open().all(|session| ids::in_range(session.id)) && pairwise(open(), |one, other| one.id != other.id)
    }

    /// Rule 3: row texts obey their rule and are zero past their length, IDs are distinct, from 1 to their
    /// counter, text and policy distinct, owners and members open, members not none.
    fn rows_are_good(&self) -> bool {
        let open = self.open_slots();
        is_good_table(&self.subscriptions, |row| {
            uri::is_subscribed_topic(row.text(), row.policy) && row.holder != 0 && row.holder & !open == 0
        }) && is_good_table(&self.registrations, |row| {
            uri::is_registered_procedure(row.text(), row.policy) && self.is_open(row.holder)
        })
    }

    /// Rule 4: held calls join open sessions, their numbers lie from 1 to the sessions' counters, and no two
    /// have one caller and request, or one callee and invocation.
    fn calls_are_good(&self) -> bool {
        let used = || self.calls.iter().filter(|call| call.is_used());
        used().all(|call| {
            self.is_open(call.caller)
                && self.is_open(call.callee)
                && call.request <= self.sessions[usize::from(call.caller)].requests
                && (1..=self.sessions[usize::from(call.callee)].invocations).contains(&call.invocation)
        }) && pairwise(used(), |one, other| {
            (one.caller, one.request) != (other.caller, other.request)
                && (one.callee, one.invocation) != (other.callee, other.invocation)
        })
    }

    /// Rule 5: counters are at most 2^53.
    fn counters_are_in_range(&self) -> bool {
        let of_sessions = self.sessions.iter().flat_map(|session| [session.requests, session.invocations]);
        let of_tables = [self.subscriptions.counter, self.registrations.counter];
        of_sessions.chain(of_tables).all(|counter| counter <= ids::MAX)
    }
}

/// Does the table keep rule 3, with `is_good` for what the two tables do not share? It is asked of rows whose
/// length is at most 128.
fn is_good_table(table: &Table, is_good: impl Fn(&Row) -> bool) -> bool {
    table.used().all(|row| {
        usize::from(row.length) <= uri::MAX_LENGTH
            && row.padded[usize::from(row.length)..] == Row::UNUSED.padded[usize::from(row.length)..]
            && row.id <= table.counter
            && is_good(row)
    }) && pairwise(table.used(), |one, other| one.id != other.id && !one.is_of(other.policy, other.text()))
}

/// Does it hold of every two, the earlier one first?
pub(crate) fn pairwise<T>(items: impl Iterator<Item = T> + Clone, holds: impl Fn(&T, &T) -> bool) -> bool {
    let mut rest = items;
    while let Some(one) = rest.next() {
        if !rest.clone().all(|other| holds(&one, &other)) {
            return false;
        }
    }
    true
}

#[cfg(test)]
mod tests {
    use super::*;

    /// A state with something in each part: slots 0 and 1 open, slot 2 attached.
    fn busy() -> State {
        let mut state = State::empty();
        let open = |id, requests, invocations| Session {
            status: Status::Open,
            format: Format::Json,
            id,
            requests,
            invocations,
        };
        state.sessions[0] = open(11, 5, 2);
        state.sessions[1] = open(ids::MAX, 1, 3);
        state.sessions[2].status = Status::Attached;
        state.subscriptions.counter = 4;
        state.subscriptions.rows[0] = Row::new(4, Policy::Exact, 0b11, b"a.b");
        state.subscriptions.rows[2] = Row::new(1, Policy::Wildcard, 0b01, b"a.b");
        state.registrations.counter = ids::MAX;
        state.registrations.rows[31] = Row::new(ids::MAX, Policy::Prefix, 1, &[b'p'; 128]);
        state.registrations.rows[3] = Row::new(2, Policy::Exact, 0, b"a.b");
        state.calls[0] = HeldCall { caller: 0, request: 5, callee: 1, invocation: 3 };
        state.calls[7] = HeldCall { caller: 1, request: 1, callee: 1, invocation: 1 };
        state
    }

    /// The rule that a change of the busy state breaks.
    fn breaks(change: impl FnOnce(&mut State)) -> Option<usize> {
        let mut state = busy();
        change(&mut state);
        state.broken_rule()
    }

    #[test]
    fn the_layout() {
        assert_eq!(BYTES, 9688);
        let mut bytes = vec![0xee; BYTES];
        State::empty().print(&mut bytes);
        assert!(bytes.iter().all(|&byte| byte == 0));
        let state = busy();
        state.print(&mut bytes);
        assert_eq!(State::parse(&bytes), Some(state));
        assert_eq!(bytes[..9], [2, 0, 0, 0, 0, 0, 0, 0, 11]);
        assert_eq!(bytes[50], 1);
        assert_eq!(bytes[200..200 + 8 + 15], *b"\0\0\0\0\0\0\0\x04\0\0\0\0\0\0\0\x04\0\x03\x03a.b\0");
        assert_eq!(bytes[9688 - 32 * 18..][..18], *b"\0\0\0\0\0\0\0\0\x05\x01\0\0\0\0\0\0\0\x03");
    }

    #[test]
    fn bytes_that_are_no_state() {
        let mut bytes = vec![0; BYTES];
        assert!(State::parse(&bytes).is_some());
        assert!(State::parse(&bytes[1..]).is_none());
        assert!(State::parse(&[0; BYTES + 1]).is_none());
        for (place, named) in [(0, 2), (25, 2), (200 + 8 + 8, 2), (200 + TABLE_BYTES + 8 + 8, 2)] {
            bytes[place] = named;
            assert!(State::parse(&bytes).is_some(), "{place}");
            bytes[place] = named + 1;
            assert!(State::parse(&bytes).is_none(), "{place}");
            bytes[place] = 0;
        }
    }

    #[test]
    fn status_bytes() {
        let named = [
            (0, Status::Closed, Format::Json),
            (1, Status::Attached, Format::Json),
            (2, Status::Open, Format::Json),
            (4, Status::Attached, Format::MsgPack),
            (5, Status::Open, Format::MsgPack),
        ];
        for slot in 0..SLOTS {
            for byte in 0..=255 {
                let mut bytes = vec![0; BYTES];
                bytes[slot * SESSION_BYTES] = byte;
                let wanted = named.iter().find(|(name, ..)| *name == byte);
                let Some(&(_, status, format)) = wanted else {
                    assert_eq!(State::parse(&bytes), None, "{byte}");
                    continue;
                };
                let state = State::parse(&bytes).expect("a state");
                assert_eq!(state.sessions[slot], Session { status, format, ..Session::default() });
                // An open session's ID is not 0.
                assert_eq!(state.broken_rule(), (status == Status::Open).then_some(2));
                let mut printed = vec![0xee; BYTES];
                state.print(&mut printed);
                assert!(printed == bytes);
            }
        }
    }

    #[test]
    fn a_format_breaks_no_rule_and_mends_none() {
        for slot in [0, 1, 2] {
            assert_eq!(breaks(|s| s.sessions[slot].format = Format::MsgPack), None);
        }
        let packed = |s: &mut State| s.sessions[..3].iter_mut().for_each(|s| s.format = Format::MsgPack);
        assert_eq!(breaks(packed), None);
        let breaks = |change: fn(&mut State)| {
            breaks(|s| {
                packed(s);
                change(s);
            })
        };
        assert_eq!(breaks(|s| s.sessions[2].requests = 1), Some(1));
        assert_eq!(breaks(|s| s.sessions[0].status = Status::Attached), Some(1));
        assert_eq!(breaks(|s| s.sessions[0].id = ids::MAX), Some(2));
        assert_eq!(breaks(|s| s.sessions[2].status = Status::Open), Some(2));
        assert_eq!(breaks(|s| s.subscriptions.rows[0].holder = 0b100), Some(3));
        assert_eq!(breaks(|s| s.registrations.rows[3].holder = 2), Some(3));
        assert_eq!(breaks(|s| s.calls[0].caller = 2), Some(4));
        assert_eq!(breaks(|s| s.sessions[0].requests = ids::MAX + 1), Some(5));
    }

    #[test]
    fn good_states() {
        assert_eq!(State::empty().broken_rule(), None);
        assert_eq!(busy().broken_rule(), None);
        // The rule speaks of bytes, not of UTF-8; a quote and a backslash are bytes like any other.
        assert_eq!(breaks(|s| s.subscriptions.rows[0] = Row::new(4, Policy::Exact, 1, b"\xff\"")), None);
        assert_eq!(breaks(|s| s.subscriptions.rows[0] = Row::new(4, Policy::Exact, 1, b"a\\b")), None);
        assert_eq!(breaks(|s| s.registrations.rows[3] = Row::new(2, Policy::Prefix, 1, b"\\\".")), None);
        // One text and policy in both tables, and one text with two policies, are distinct.
        assert_eq!(breaks(|s| s.registrations.rows[4] = Row::new(1, Policy::Prefix, 0, b"a.b")), None);
        assert_eq!(breaks(|s| s.subscriptions.rows[0] = Row::new(4, Policy::Exact, 1, b"wamp.x")), None);
    }

    #[test]
    fn rule_1() {
        assert_eq!(breaks(|s| s.sessions[3].id = 1), Some(1));
        assert_eq!(breaks(|s| s.sessions[2].requests = 1), Some(1));
        assert_eq!(breaks(|s| s.sessions[2].invocations = 1), Some(1));
        assert_eq!(breaks(|s| s.subscriptions.rows[1].policy = Policy::Prefix), Some(1));
        assert_eq!(breaks(|s| s.subscriptions.rows[1].holder = 1), Some(1));
        assert_eq!(breaks(|s| s.registrations.rows[1].length = 1), Some(1));
        assert_eq!(breaks(|s| s.registrations.rows[1].padded[127] = 1), Some(1));
        assert_eq!(breaks(|s| s.calls[1].caller = 1), Some(1));
        assert_eq!(breaks(|s| s.calls[1].callee = 1), Some(1));
        assert_eq!(breaks(|s| s.calls[1].invocation = 1), Some(1));
    }

    #[test]
    fn rule_2() {
        assert_eq!(breaks(|s| s.sessions[0].id = 0), Some(2));
        assert_eq!(breaks(|s| s.sessions[0].id = ids::MAX + 1), Some(2));
        assert_eq!(breaks(|s| s.sessions[0].id = ids::MAX), Some(2));
    }

    #[test]
    fn rule_3() {
        let put = |row: Row| move |s: &mut State| s.subscriptions.rows[0] = row;
        let own = |row: Row| move |s: &mut State| s.registrations.rows[3] = row;
        assert_eq!(breaks(put(Row::new(4, Policy::Exact, 1, b""))), Some(3), "text");
        assert_eq!(breaks(put(Row::new(4, Policy::Exact, 1, b"a."))), Some(3), "text");
        assert_eq!(breaks(put(Row::new(4, Policy::Prefix, 1, b"a."))), None, "text");
        assert_eq!(breaks(own(Row::new(2, Policy::Prefix, 1, b"wamp."))), Some(3), "text");
        assert_eq!(breaks(|s| s.subscriptions.rows[0].length = 129), Some(3), "length");
        assert_eq!(breaks(|s| s.subscriptions.rows[0].padded[127] = b'a'), Some(3), "past the length");
        assert_eq!(breaks(put(Row::new(1, Policy::Exact, 1, b"a"))), Some(3), "one ID twice");
        assert_eq!(breaks(put(Row::new(5, Policy::Exact, 1, b"a"))), Some(3), "above the counter");
        assert_eq!(breaks(put(Row::new(4, Policy::Wildcard, 1, b"a.b"))), Some(3), "text and policy twice");
        assert_eq!(breaks(put(Row::new(4, Policy::Exact, 0, b"a"))), Some(3), "no member");
        assert_eq!(breaks(put(Row::new(4, Policy::Exact, 0b101, b"a"))), Some(3), "an attached member");
        assert_eq!(breaks(put(Row::new(4, Policy::Exact, 0b1000_0001, b"a"))), Some(3), "a closed member");
        assert_eq!(breaks(own(Row::new(2, Policy::Exact, 2, b"a"))), Some(3), "an attached owner");
        assert_eq!(breaks(own(Row::new(2, Policy::Exact, 8, b"a"))), Some(3), "no slot");
    }

    #[test]
    fn rule_4() {
        let call = |caller, request, callee, invocation| {
            breaks(move |s| s.calls[9] = HeldCall { caller, request, callee, invocation })
        };
        assert_eq!(call(0, 4, 1, 2), None);
        assert_eq!(call(2, 4, 1, 2), Some(4), "an attached caller");
        assert_eq!(call(0, 4, 8, 2), Some(4), "no slot");
        assert_eq!(call(0, 6, 1, 2), Some(4), "request above the counter");
        assert_eq!(call(0, 4, 1, 4), Some(4), "invocation above the counter");
        assert_eq!(call(0, 4, 1, 0), Some(4), "no invocation");
        assert_eq!(call(0, 5, 1, 2), Some(4), "one caller and request twice");
        assert_eq!(call(0, 4, 1, 3), Some(4), "one callee and invocation twice");
    }

    #[test]
    fn rule_5() {
        assert_eq!(breaks(|s| s.sessions[0].requests = ids::MAX), None);
        assert_eq!(breaks(|s| s.sessions[0].requests = ids::MAX + 1), Some(5));
        assert_eq!(breaks(|s| s.sessions[0].invocations = ids::MAX + 1), Some(5));
        assert_eq!(breaks(|s| s.subscriptions.counter = ids::MAX + 1), Some(5));
        assert_eq!(breaks(|s| s.registrations.counter = ids::MAX + 1), Some(5));
    }

    #[test]
    fn the_first_broken_rule_is_told() {
        assert_eq!(breaks(|s| (s.sessions[0].id, s.subscriptions.counter) = (0, 0)), Some(2));
        assert_eq!(breaks(|s| (s.calls[9].request, s.subscriptions.counter) = (1, 0)), Some(3));
    }
}
