//! Where each part of the lent state stands, for states that are changed or told byte by byte.

use crate::state::{ROWS, SLOTS};
use crate::uri;

/// A session: its status, then its ID, request counter and invocation counter.
pub const SESSION_BYTES: usize = 25;
pub const SESSION_ID: usize = 1;
pub const SESSION_REQUESTS: usize = 9;
pub const SESSION_INVOCATIONS: usize = 17;

/// A row of a table: its ID, policy, holder (member bits, or the owner's slot), length, text.
pub const ROW_BYTES: usize = ROW_TEXT + uri::MAX_LENGTH;
pub const ROW_POLICY: usize = 8;
pub const ROW_HOLDER: usize = 9;
pub const ROW_LENGTH: usize = 10;
pub const ROW_TEXT: usize = 11;

/// A held call: its caller, request number, callee, invocation number.
pub const CALL_BYTES: usize = 18;
pub const CALL_REQUEST: usize = 1;
pub const CALL_CALLEE: usize = 9;
pub const CALL_INVOCATION: usize = 10;

/// The two tables, each of which begins with the counter of its IDs.
#[derive(Clone, Copy, Debug, PartialEq, Eq)]
pub enum Table {
    Subscriptions,
    Registrations,
}

impl Table {
    pub const BOTH: [Table; 2] = [Table::Subscriptions, Table::Registrations];

    pub fn counter(self) -> usize {
        let first = SLOTS * SESSION_BYTES;
        match self {
            Table::Subscriptions => first,
            Table::Registrations => first + TABLE_BYTES,
        }
    }

    pub fn row(self, row: usize) -> usize {
        self.counter() + 8 + row * ROW_BYTES
    }
}

const TABLE_BYTES: usize = 8 + ROWS * ROW_BYTES;
const CALLS: usize = SLOTS * SESSION_BYTES + 2 * TABLE_BYTES;

pub fn session(slot: usize) -> usize {
    slot * SESSION_BYTES
}

pub fn call(row: usize) -> usize {
    CALLS + row * CALL_BYTES
}

/// The number of 8 bytes at a place.
pub fn number(state: &[u8], at: usize) -> u64 {
    u64::from_be_bytes(state[at..at + 8].try_into().expect("8 bytes"))
}

pub fn set_number(state: &mut [u8], at: usize, number: u64) {
    state[at..at + 8].copy_from_slice(&number.to_be_bytes());
}

/// Says in words which part, row and field a byte of the state is in.
pub fn told(at: usize) -> String {
    if at < SLOTS * SESSION_BYTES {
        let field = match at % SESSION_BYTES {
            0 => "status",
            SESSION_ID..SESSION_REQUESTS => "ID",
            SESSION_REQUESTS..SESSION_INVOCATIONS => "request counter",
            _ => "invocation counter",
        };
        return format!("session {}, {field}", at / SESSION_BYTES);
    }
    for (table, name) in [(Table::Subscriptions, "subscription"), (Table::Registrations, "registration")] {
        if at >= table.row(ROWS) {
            continue;
        }
        if at < table.row(0) {
            return format!("the {name} counter");
        }
        let (row, byte) = ((at - table.row(0)) / ROW_BYTES, (at - table.row(0)) % ROW_BYTES);
        let field = match byte {
            0..ROW_POLICY => "ID".to_string(),
            ROW_POLICY => "policy".to_string(),
            ROW_HOLDER if table == Table::Subscriptions => "members".to_string(),
            ROW_HOLDER => "owner".to_string(),
            ROW_LENGTH => "length".to_string(),
            _ => format!("text byte {}", byte - ROW_TEXT),
        };
        return format!("{name} row {row}, {field}");
    }
    let field = match (at - CALLS) % CALL_BYTES {
        0 => "caller",
        CALL_REQUEST..CALL_CALLEE => "request number",
        CALL_CALLEE => "callee",
        _ => "invocation number",
    };
    format!("held call {}, {field}", (at - CALLS) / CALL_BYTES)
}

#[cfg(test)]
mod tests {
    use super::*;
    use crate::state::{HeldCall, Row, Session, State, Status, BYTES};
    use crate::uri::Policy;

    #[test]
    fn the_places_are_those_of_the_reference() {
        let mut state = State::empty();
        state.sessions[3] =
            Session { status: Status::Open, id: 11, requests: 12, invocations: 13, ..Session::default() };
        state.subscriptions.counter = 20;
        state.subscriptions.rows[31] = Row::new(14, Policy::Wildcard, 8, b"ab");
        state.registrations.counter = 21;
        state.registrations.rows[2] = Row::new(15, Policy::Prefix, 3, b"c");
        state.calls[31] = HeldCall { caller: 3, request: 12, callee: 4, invocation: 9 };
        let mut bytes = vec![0; BYTES];
        state.print(&mut bytes);
        let at = session(3);
        assert_eq!((bytes[at], number(&bytes, at + SESSION_ID)), (2, 11));
        assert_eq!(number(&bytes, at + SESSION_REQUESTS), 12);
        assert_eq!(number(&bytes, at + SESSION_INVOCATIONS), 13);
        assert_eq!(number(&bytes, Table::Subscriptions.counter()), 20);
        assert_eq!(number(&bytes, Table::Registrations.counter()), 21);
        let at = Table::Subscriptions.row(31);
        assert_eq!(number(&bytes, at), 14);
        assert_eq!(bytes[at + ROW_POLICY..at + ROW_TEXT + 2], *b"\x02\x08\x02ab");
        let at = Table::Registrations.row(2);
        assert_eq!(number(&bytes, at), 15);
        assert_eq!(bytes[at + ROW_POLICY..at + ROW_TEXT + 1], *b"\x01\x03\x01c");
        let at = call(31);
        assert_eq!((bytes[at], number(&bytes, at + CALL_REQUEST)), (3, 12));
        assert_eq!((bytes[at + CALL_CALLEE], number(&bytes, at + CALL_INVOCATION)), (4, 9));
        assert_eq!(call(32), BYTES);
    }

    #[test]
    fn in_words() {
        assert_eq!(told(0), "session 0, status");
        assert_eq!(told(199), "session 7, invocation counter");
        assert_eq!(told(200), "the subscription counter");
        assert_eq!(told(208), "subscription row 0, ID");
        assert_eq!(told(Table::Registrations.counter() - 1), "subscription row 31, text byte 127");
        assert_eq!(told(Table::Registrations.row(1) + 9), "registration row 1, owner");
        assert_eq!(told(9687), "held call 31, invocation number");
    }
}
