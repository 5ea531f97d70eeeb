//! Every way to break a state rule, each as one change of a state that keeps them all.
//!
//! A change goes over the lent bytes, since some breaches (a status that names no value, a length above 128)
//! have no other form. It answers `None` where the state has nothing to break in that way.

use crate::random::Random;
use crate::texts;
use reference::ids;
use reference::layout::{self, Table};
use reference::state::{ROWS, SLOTS};
use reference::uri::{Policy, MAX_LENGTH};

/// A state being broken.
pub struct Breaker<'s> {
    pub random: &'s mut Random,
    pub state: &'s mut Vec<u8>,
}

/// A breach: the number of the rule (0: the bytes are no state at all), its name, and the change.
pub type Breach = (u8, &'static str, fn(&mut Breaker) -> Option<()>);

pub const ALL: [Breach; 39] = [
    (0, "length", |b| b.length()),
    (0, "status names no value", |b| b.status()),
    (0, "policy names no value", |b| b.policy()),
    (1, "closed or attached slot not zero", |b| b.idle_slot()),
    (1, "unused row not zero", |b| b.unused_row()),
    (1, "used row without its ID", |b| b.row_without_id()),
    (1, "unused held call not zero", |b| b.unused_call()),
    (1, "used held call without its request", |b| b.call_without_request()),
    (2, "session ID 0", |b| b.session_id(0)),
    (2, "session ID above 2^53", |b| b.session_id(ids::MAX + 1)),
    (2, "session ID twice", |b| b.session_id_twice()),
    (3, "text empty", |b| b.text_empty()),
    (3, "text length above 128", |b| b.text_too_long()),
    (3, "text not zero past its length", |b| b.text_past_its_length()),
    (3, "refused byte in a text", |b| b.refused_byte()),
    (3, "empty component", |b| b.empty_component()),
    (3, "registration of wamp", |b| b.reserved()),
    (3, "registration that REGISTER refuses", |b| b.not_registered()),
    (3, "row ID above its counter", |b| b.row_id_above()),
    (3, "counter below a row's ID", |b| b.counter_below()),
    (3, "row ID twice", |b| b.row_id_twice()),
    (3, "text and policy twice", |b| b.row_twice()),
    (3, "no members", |b| b.no_members()),
    (3, "member not open", |b| b.member_not_open()),
    (3, "owner not open", |b| b.owner_not_open()),
    (3, "owner no slot", |b| b.owner_no_slot()),
    (4, "caller not open", |b| b.party_not_open(0)),
    (4, "callee not open", |b| b.party_not_open(layout::CALL_CALLEE)),
    (4, "caller no slot", |b| b.party_no_slot(0)),
    (4, "callee no slot", |b| b.party_no_slot(layout::CALL_CALLEE)),
    (4, "request above its counter", |b| b.request_above()),
    (4, "invocation above its counter", |b| b.invocation_above()),
    (4, "invocation 0", |b| b.invocation_zero()),
    (4, "caller and request twice", |b| b.request_twice()),
    (4, "callee and invocation twice", |b| b.invocation_twice()),
    (5, "request counter above 2^53", |b| b.session_counter(layout::SESSION_REQUESTS)),
    (5, "invocation counter above 2^53", |b| b.session_counter(layout::SESSION_INVOCATIONS)),
    (5, "subscription counter above 2^53", |b| b.table_counter(Table::Subscriptions)),
    (5, "registration counter above 2^53", |b| b.table_counter(Table::Registrations)),
];

/// Those that slots of MessagePack add.
pub const OF_MSGPACK: [Breach; 5] = [
    (1, "open slot's status attached MessagePack", |b| b.status_of(true, &[4])),
    (1, "attached MessagePack slot not zero", |b| b.idle_packed_slot()),
    (2, "idle slot's status open MessagePack", |b| b.status_of(false, &[5])),
    (0, "draining status of either format", |b| b.status_of(true, &[3, 6])),
    (0, "idle slot's status of neither format", |b| b.status_of(false, &[3, 6])),
];

/// All of them, or all but those.
pub fn all(msgpack: bool) -> Vec<Breach> {
    let more: &[Breach] = if msgpack { &OF_MSGPACK } else { &[] };
    ALL.iter().chain(more).copied().collect()
}

/// The status bytes of open slots, of JSON and of MessagePack.
const OPEN: [u8; 2] = [2, 5];

/// Finding the parts to change.
impl Breaker<'_> {
    fn number(&self, at: usize) -> u64 {
        layout::number(self.state, at)
    }

    fn set_number(&mut self, at: usize, number: u64) -> Option<()> {
        layout::set_number(self.state, at, number);
        Some(())
    }

    fn set(&mut self, at: usize, byte: u8) -> Option<()> {
        self.state[at] = byte;
        Some(())
    }

    /// A byte that is not 0.
    fn some_byte(&mut self) -> u8 {
        self.random.between(1, 255) as u8
    }

    fn slot(&mut self, open: bool) -> Option<usize> {
        let state = &self.state;
        self.random.pick_of((0..SLOTS).filter(|&slot| OPEN.contains(&state[layout::session(slot)]) == open))
    }

    /// Where an open session stands.
    fn session(&mut self) -> Option<usize> {
        self.slot(true).map(layout::session)
    }

    fn table(&mut self) -> Table {
        self.random.pick(&Table::BOTH)
    }

    /// Where a row of the table stands, used or unused.
    fn row(&mut self, table: Table, used: bool) -> Option<usize> {
        let state = &self.state;
        let places = (0..ROWS).map(|row| table.row(row));
        self.random.pick_of(places.filter(|&at| (layout::number(state, at) != 0) == used))
    }

    /// Where two different used rows of the table stand.
    fn two_rows(&mut self, table: Table) -> Option<(usize, usize)> {
        let (one, other) = (self.row(table, true)?, self.row(table, true)?);
        (one != other).then_some((one, other))
    }

    /// Where a held call stands, used or unused.
    fn call(&mut self, used: bool) -> Option<usize> {
        let state = &self.state;
        let places = (0..ROWS).map(layout::call);
        let is_used = |&at: &usize| layout::number(state, at + layout::CALL_REQUEST) != 0;
        self.random.pick_of(places.filter(|at| is_used(at) == used))
    }

    /// Where two different used held calls stand.
    fn two_calls(&mut self) -> Option<(usize, usize)> {
        let (one, other) = (self.call(true)?, self.call(true)?);
        (one != other).then_some((one, other))
    }

    fn length_of(&self, row: usize) -> usize {
        usize::from(self.state[row + layout::ROW_LENGTH])
    }
}

/// The bytes are no state.
impl Breaker<'_> {
    fn length(&mut self) -> Option<()> {
        let right = self.state.len();
        let wrong = [0, 1, right - 1, right + 1, right + 8, 2 * right];
        self.state.resize(self.random.pick(&wrong), 0);
        Some(())
    }

    fn status(&mut self) -> Option<()> {
        let at = layout::session(self.random.below(SLOTS));
        let status = match self.random.between(3, 255) as u8 {
            // These name slots of MessagePack.
            named @ (4 | 5) => named + 2,
            status => status,
        };
        self.set(at, status)
    }

    /// One of these status bytes for a slot that is open, or for one that is not.
    fn status_of(&mut self, open: bool, statuses: &[u8]) -> Option<()> {
        let slot = self.slot(open)?;
        let status = self.random.pick(statuses);
        self.set(layout::session(slot), status)
    }

    fn policy(&mut self) -> Option<()> {
        let at = self.table().row(self.random.below(ROWS));
        let policy = self.random.between(3, 255) as u8;
        self.set(at + layout::ROW_POLICY, policy)
    }
}

/// Rule 1: unused rows, and closed and attached slots but for their status, are all zero.
impl Breaker<'_> {
    fn idle_slot(&mut self) -> Option<()> {
        let at = layout::session(self.slot(false)?) + self.random.between(1, layout::SESSION_BYTES - 1);
        let byte = self.some_byte();
        self.set(at, byte)
    }

    fn idle_packed_slot(&mut self) -> Option<()> {
        let slot = self.slot(false)?;
        self.set(layout::session(slot), 4);
        let at = layout::session(slot) + self.random.between(1, layout::SESSION_BYTES - 1);
        let byte = self.some_byte();
        self.set(at, byte)
    }

    fn unused_row(&mut self) -> Option<()> {
        let table = self.table();
        let row = self.row(table, false)?;
        let (byte, policy) = (self.some_byte(), self.random.between(1, 2) as u8);
        let of_text = self.random.between(layout::ROW_TEXT, layout::ROW_BYTES - 1);
        match self.random.below(4) {
            0 => self.set(row + layout::ROW_POLICY, policy),
            1 => self.set(row + layout::ROW_HOLDER, byte),
            2 => self.set(row + layout::ROW_LENGTH, byte),
            _ => self.set(row + of_text, byte),
        }
    }

    fn row_without_id(&mut self) -> Option<()> {
        let table = self.table();
        let row = self.row(table, true)?;
        self.set_number(row, 0)
    }

    fn unused_call(&mut self) -> Option<()> {
        let call = self.call(false)?;
        let fields = [0, layout::CALL_CALLEE, layout::CALL_INVOCATION, layout::CALL_BYTES - 1];
        let (field, byte) = (self.random.pick(&fields), self.some_byte());
        self.set(call + field, byte)
    }

    fn call_without_request(&mut self) -> Option<()> {
        let call = self.call(true)?;
        self.set_number(call + layout::CALL_REQUEST, 0)
    }
}

/// Rule 2: open session IDs are distinct and in range.
impl Breaker<'_> {
    fn session_id(&mut self, id: u64) -> Option<()> {
        let session = self.session()?;
        self.set_number(session + layout::SESSION_ID, id)
    }

    fn session_id_twice(&mut self) -> Option<()> {
        let (one, other) = (self.session()?, self.session()?);
        if one == other {
            return None;
        }
        self.set_number(one + layout::SESSION_ID, self.number(other + layout::SESSION_ID))
    }
}

/// Rule 3: row texts obey their rule and are zero past their length, IDs are distinct, from 1 to their counter,
/// text and policy distinct, owners and members open, members not none.
impl Breaker<'_> {
    fn text_empty(&mut self) -> Option<()> {
        let table = self.table();
        let row = self.row(table, true)?;
        self.state[row + layout::ROW_TEXT..row + layout::ROW_BYTES].fill(0);
        self.set(row + layout::ROW_LENGTH, 0)
    }

    fn text_too_long(&mut self) -> Option<()> {
        let table = self.table();
        let row = self.row(table, true)?;
        // Long texts too, so that the length alone is wrong.
        if self.random.once_in(2) {
            self.state[row + layout::ROW_TEXT..row + layout::ROW_BYTES].fill(b'p');
        }
        let length = self.random.between(MAX_LENGTH + 1, 255) as u8;
        self.set(row + layout::ROW_LENGTH, length)
    }

    fn text_past_its_length(&mut self) -> Option<()> {
        let table = self.table();
        let row = self.row(table, true)?;
        let length = self.length_of(row);
        if length == MAX_LENGTH {
            return None;
        }
        let at = row + layout::ROW_TEXT + self.random.between(length, MAX_LENGTH - 1);
        let byte = self.some_byte();
        self.set(at, byte)
    }

    fn refused_byte(&mut self) -> Option<()> {
        let table = self.table();
        let row = self.row(table, true)?;
        let at = row + layout::ROW_TEXT + self.random.below(self.length_of(row));
        let low = self.random.between(0, 0x20) as u8;
        let byte = self.random.pick(&[low, low, b'#']);
        self.set(at, byte)
    }

    /// Two dots in an exact or prefix text, or one at the end of an exact one.
    fn empty_component(&mut self) -> Option<()> {
        let table = self.table();
        let row = self.row(table, true)?;
        let (policy, length) = (self.state[row + layout::ROW_POLICY], self.length_of(row));
        let text = row + layout::ROW_TEXT;
        match (policy, length) {
            (0, _) if self.random.once_in(2) => self.set(text + length - 1, b'.'),
            (0 | 1, 2..) => {
                let at = text + self.random.below(length - 1);
                self.set(at, b'.');
                self.set(at + 1, b'.')
            }
            _ => None,
        }
    }

    fn reserved(&mut self) -> Option<()> {
        let row = self.row(Table::Registrations, true)?;
        let text = self.random.pick(&["wamp", "wamp.x"]);
        self.set_text(row, text)
    }

    /// A text that a subscription's row may have.
    fn not_registered(&mut self) -> Option<()> {
        let row = self.row(Table::Registrations, true)?;
        let policy = match self.state[row + layout::ROW_POLICY] {
            0 => Policy::Exact,
            1 => Policy::Prefix,
            _ => Policy::Wildcard,
        };
        let text = texts::not_registered(self.random, policy);
        self.set_text(row, &text)
    }

    fn set_text(&mut self, row: usize, text: &str) -> Option<()> {
        let at = row + layout::ROW_TEXT;
        self.state[at..row + layout::ROW_BYTES].fill(0);
        self.state[at..at + text.len()].copy_from_slice(text.as_bytes());
        self.set(row + layout::ROW_LENGTH, text.len() as u8)
    }

    fn row_id_above(&mut self) -> Option<()> {
        let table = self.table();
        let row = self.row(table, true)?;
        self.set_number(row, self.number(table.counter()) + 1)
    }

    fn counter_below(&mut self) -> Option<()> {
        let table = self.table();
        let row = self.row(table, true)?;
        self.set_number(table.counter(), self.number(row) - 1)
    }

    fn row_id_twice(&mut self) -> Option<()> {
        let table = self.table();
        let (one, other) = self.two_rows(table)?;
        self.set_number(one, self.number(other))
    }

    /// One row gets the other's policy and text, and keeps its ID and holders.
    fn row_twice(&mut self) -> Option<()> {
        let table = self.table();
        let (one, other) = self.two_rows(table)?;
        self.set(one + layout::ROW_POLICY, self.state[other + layout::ROW_POLICY]);
        let from = other + layout::ROW_LENGTH;
        self.state.copy_within(from..other + layout::ROW_BYTES, one + layout::ROW_LENGTH);
        Some(())
    }

    fn no_members(&mut self) -> Option<()> {
        let row = self.row(Table::Subscriptions, true)?;
        self.set(row + layout::ROW_HOLDER, 0)
    }

    fn member_not_open(&mut self) -> Option<()> {
        let (row, slot) = (self.row(Table::Subscriptions, true)?, self.slot(false)?);
        let members = self.state[row + layout::ROW_HOLDER];
        self.set(row + layout::ROW_HOLDER, members | 1 << slot)
    }

    fn owner_not_open(&mut self) -> Option<()> {
        let (row, slot) = (self.row(Table::Registrations, true)?, self.slot(false)?);
        self.set(row + layout::ROW_HOLDER, slot as u8)
    }

    fn owner_no_slot(&mut self) -> Option<()> {
        let row = self.row(Table::Registrations, true)?;
        let owner = self.random.between(SLOTS, 255) as u8;
        self.set(row + layout::ROW_HOLDER, owner)
    }
}

/// Rule 4: held calls as in demand 3, their numbers from 1 to the counters.
impl Breaker<'_> {
    fn party_not_open(&mut self, party: usize) -> Option<()> {
        let (call, slot) = (self.call(true)?, self.slot(false)?);
        self.set(call + party, slot as u8)
    }

    fn party_no_slot(&mut self, party: usize) -> Option<()> {
        let call = self.call(true)?;
        let slot = self.random.between(SLOTS, 255) as u8;
        self.set(call + party, slot)
    }

    fn request_above(&mut self) -> Option<()> {
        let call = self.call(true)?;
        let caller = layout::session(usize::from(self.state[call]));
        let last = self.number(caller + layout::SESSION_REQUESTS);
        self.set_number(call + layout::CALL_REQUEST, last + 1)
    }

    fn invocation_above(&mut self) -> Option<()> {
        let call = self.call(true)?;
        let callee = layout::session(usize::from(self.state[call + layout::CALL_CALLEE]));
        let last = self.number(callee + layout::SESSION_INVOCATIONS);
        self.set_number(call + layout::CALL_INVOCATION, last + 1)
    }

    fn invocation_zero(&mut self) -> Option<()> {
        let call = self.call(true)?;
        self.set_number(call + layout::CALL_INVOCATION, 0)
    }

    fn request_twice(&mut self) -> Option<()> {
        let (one, other) = self.two_calls()?;
        self.state.copy_within(other..other + layout::CALL_CALLEE, one);
        Some(())
    }

    fn invocation_twice(&mut self) -> Option<()> {
        let (one, other) = self.two_calls()?;
        let from = other + layout::CALL_CALLEE;
        self.state.copy_within(from..other + layout::CALL_BYTES, one + layout::CALL_CALLEE);
        Some(())
    }
}

/// Rule 5: counters are at most 2^53.
impl Breaker<'_> {
    fn above_the_end(&mut self) -> u64 {
        self.random.pick(&[ids::MAX + 1, ids::MAX + 2, 1 << 54, 1 << 63, u64::MAX])
    }

    fn session_counter(&mut self, counter: usize) -> Option<()> {
        let (session, number) = (self.session()?, self.above_the_end());
        self.set_number(session + counter, number)
    }

    fn table_counter(&mut self, table: Table) -> Option<()> {
        let number = self.above_the_end();
        self.set_number(table.counter(), number)
    }
}

#[cfg(test)]
mod tests {
    use super::*;
    use crate::states;
    use reference::state::{State, BYTES};

    #[test]
    fn each_breaks_its_rule() {
        let mut random = Random::new(9);
        for (rule, name, change) in all(true) {
            let mut applied = 0;
            for turn in 0..300 {
                let mut state = vec![0; BYTES];
                let mut model = states::random(&mut random);
                if turn % 2 == 0 {
                    states::mix_formats(&mut random, &mut model);
                }
                model.print(&mut state);
                if (change(&mut Breaker { random: &mut random, state: &mut state })).is_none() {
                    continue;
                }
                applied += 1;
                // An earlier rule may break with it.
                let broken = State::parse(&state).map_or(Some(0), |state| state.broken_rule());
                let broken = broken.unwrap_or_else(|| panic!("{name}: no rule is broken"));
                assert!(broken <= usize::from(rule), "{name}: rule {broken}");
            }
            assert!(applied > 50, "{name}: {applied}");
        }
    }
}
