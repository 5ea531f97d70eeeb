//! The five state rules: each broken by bytes put into the state, next to a lawful neighbour.

use super::LAST;
use crate::script::Script;
use reference::layout::{self, Table};
use reference::state::{HeldCall, Row, Session, State, Status, BYTES};
use reference::uri::Policy;

pub fn all(script: &mut Script) {
    unformed(script);
    rule_1(script);
    rule_2(script);
    rule_3(script);
    rule_4(script);
    rule_5(script);
}

const SUBSCRIPTIONS: Table = Table::Subscriptions;
const REGISTRATIONS: Table = Table::Registrations;

/// A state with something in each part: slots 0 and 1 are open, slot 2 is attached.
fn busy() -> Vec<u8> {
    let mut state = State::empty();
    let json = Session { status: Status::Open, ..Session::default() };
    state.sessions[0] = Session { id: 11, requests: 5, invocations: 2, ..json };
    state.sessions[1] = Session { id: LAST, requests: 1, invocations: 3, ..json };
    state.sessions[2].status = Status::Attached;
    state.subscriptions.counter = 4;
    state.subscriptions.rows[0] = Row::new(4, Policy::Exact, 0b11, b"a.b");
    state.subscriptions.rows[2] = Row::new(1, Policy::Wildcard, 0b01, b"a.b");
    state.registrations.counter = LAST;
    state.registrations.rows[31] = Row::new(LAST, Policy::Prefix, 1, &[b'p'; 128]);
    state.registrations.rows[3] = Row::new(2, Policy::Exact, 0, b"a.b");
    state.calls[0] = HeldCall { caller: 0, request: 5, callee: 1, invocation: 3 };
    state.calls[7] = HeldCall { caller: 1, request: 1, callee: 1, invocation: 1 };
    let mut bytes = vec![0; BYTES];
    state.print(&mut bytes);
    bytes
}

fn number(number: u64) -> [u8; 8] {
    number.to_be_bytes()
}

/// The bytes at a place make the state break this rule, and its steps be refused; the bytes that stood there
/// are put back. 0 stands for bytes that are no state.
#[track_caller]
fn breaks(script: &mut Script, rule: usize, at: usize, bytes: &[u8]) {
    let stood = script.state[at..at + bytes.len()].to_vec();
    script.poke(at, bytes);
    assert_eq!(script.broken_rule(), Some(rule));
    script.attach(6).refuses(1);
    script.poke(at, &stood);
}

/// The state keeps the rules with these bytes.
#[track_caller]
fn keeps(script: &mut Script, at: usize, bytes: &[u8]) {
    let stood = script.state[at..at + bytes.len()].to_vec();
    script.poke(at, bytes);
    script.attach(6).is_silent();
    script.detach(6).is_silent();
    script.poke(at, &stood);
}

fn unformed(script: &mut Script) {
    script.heading(
        "BAD STATE: a status or policy byte that names no value; any step is refused, whatever it is",
    );
    script.restore(&busy());
    keeps(script, layout::session(7), &[1]);
    breaks(script, 0, layout::session(7), &[3]);
    breaks(script, 0, layout::session(0), &[255]);
    for table in [SUBSCRIPTIONS, REGISTRATIONS] {
        breaks(script, 0, table.row(3) + layout::ROW_POLICY, &[3]);
    }
    keeps(script, SUBSCRIPTIONS.row(0) + layout::ROW_POLICY, &[1]);
    keeps(script, REGISTRATIONS.row(3) + layout::ROW_POLICY, &[2]);
    script.poke(layout::session(7), &[3]);
    script.detach(0).refuses(1);
    script.detach(8).refuses(1);
    script.lent(0, 0, "").refuses(1);
    script.send(2, super::HELLO).refuses(1);
    script.room(0);
    script.attach(6).refuses(1);
    script.room(crate::script::MOST);
    script.poke(layout::session(7), &[0]);
}

fn rule_1(script: &mut Script) {
    script.heading("rule 1: unused rows, and closed and attached slots but for their status, are all zero");
    for slot in [2, 3] {
        for field in [layout::SESSION_ID, layout::SESSION_REQUESTS, layout::SESSION_INVOCATIONS] {
            breaks(script, 1, layout::session(slot) + field + 7, &[1]);
            breaks(script, 1, layout::session(slot) + field, &[128]);
        }
    }
    keeps(script, layout::session(2), &[0]);
    for table in [SUBSCRIPTIONS, REGISTRATIONS] {
        let row = table.row(1);
        for field in [layout::ROW_POLICY, layout::ROW_HOLDER, layout::ROW_LENGTH, layout::ROW_TEXT] {
            breaks(script, 1, row + field, &[1]);
        }
        breaks(script, 1, row + layout::ROW_TEXT + 127, &[1]);
    }
    for field in [0, layout::CALL_CALLEE, layout::CALL_INVOCATION, layout::CALL_INVOCATION + 7] {
        breaks(script, 1, layout::call(1) + field, &[1]);
    }
    breaks(script, 1, layout::session(1), &[1]);
}

fn rule_2(script: &mut Script) {
    script.heading("rule 2: open session IDs are distinct and in range");
    let id = layout::session(0) + layout::SESSION_ID;
    for good in [1, 12, LAST - 1] {
        keeps(script, id, &number(good));
    }
    for bad in [0, LAST, LAST + 1, u64::MAX] {
        breaks(script, 2, id, &number(bad));
    }
}

fn rule_3(script: &mut Script) {
    let subscription = SUBSCRIPTIONS.row(0);
    let registration = REGISTRATIONS.row(3);
    script.heading("rule 3: row texts obey their rule and are zero past their length");
    for row in [subscription, registration] {
        for (policy, text, is_good) in [
            (0, b"a.b" as &[u8], true),
            (0, b"a..", false),
            (0, b"a b", false),
            (0, b"a#b", false),
            (0, b"a\\b", true),
            (0, b"a\"b", true),
            (1, b"\\\".", true),
            (0, b"a\xffb", true),
            (1, b"a..", false),
            (1, b"ab.", true),
            (1, b".ab", false),
            (2, b"a.c", true),
            (2, b"...", true),
        ] {
            let bytes = [&[policy, script.state[row + layout::ROW_HOLDER], 3], text].concat();
            if is_good {
                keeps(script, row + layout::ROW_POLICY, &bytes);
            } else {
                breaks(script, 3, row + layout::ROW_POLICY, &bytes);
            }
        }
        keeps(script, row + layout::ROW_LENGTH, b"\x01a\x00\x00");
        breaks(script, 3, row + layout::ROW_LENGTH, &[0]);
        breaks(script, 3, row + layout::ROW_LENGTH, &[0, 0, 0, 0]);
        breaks(script, 3, row + layout::ROW_LENGTH, &[1]);
        breaks(script, 3, row + layout::ROW_LENGTH, &[4]);
        breaks(script, 3, row + layout::ROW_TEXT + 3, b"a");
        breaks(script, 3, row + layout::ROW_TEXT + 127, b"a");
        keeps(script, row + layout::ROW_LENGTH, &[&[128][..], &[b'q'; 128]].concat());
        breaks(script, 3, row + layout::ROW_LENGTH, &[&[129][..], &[b'q'; 128]].concat());
        breaks(script, 3, row + layout::ROW_LENGTH, &[255]);
    }
    script.heading("rule 3: the first component wamp, of a subscription and of a registration");
    keeps(script, subscription + layout::ROW_LENGTH, b"\x06wamp.a");
    breaks(script, 3, registration + layout::ROW_LENGTH, b"\x06wamp.a");
    keeps(script, registration + layout::ROW_LENGTH, b"\x06wampab");
    script.heading("rule 3: IDs are distinct and from 1 to their counter, text and policy distinct");
    keeps(script, subscription, &number(3));
    breaks(script, 3, subscription, &number(5));
    breaks(script, 3, subscription, &number(1));
    breaks(script, 3, SUBSCRIPTIONS.counter(), &number(3));
    keeps(script, SUBSCRIPTIONS.counter(), &number(5));
    keeps(script, registration, &number(LAST - 1));
    breaks(script, 3, registration, &number(LAST));
    breaks(script, 3, registration, &number(LAST + 1));
    keeps(script, subscription + layout::ROW_POLICY, &[1]);
    breaks(script, 3, subscription + layout::ROW_POLICY, &[2]);
    script.heading("rule 3: owners and members are open, members not none");
    for (members, is_good) in
        [(0b01, true), (0b10, true), (0, false), (0b111, false), (0b1011, false), (0b1000_0001, false)]
    {
        if is_good {
            keeps(script, subscription + layout::ROW_HOLDER, &[members]);
        } else {
            breaks(script, 3, subscription + layout::ROW_HOLDER, &[members]);
        }
    }
    keeps(script, registration + layout::ROW_HOLDER, &[1]);
    for owner in [2, 3, 7] {
        breaks(script, 3, registration + layout::ROW_HOLDER, &[owner]);
    }
    for owner in [8, 255] {
        breaks(script, 3, registration + layout::ROW_HOLDER, &[owner]);
    }
}

/// A held call's bytes.
fn call(caller: u8, request: u64, callee: u8, invocation: u64) -> Vec<u8> {
    [&[caller][..], &number(request), &[callee], &number(invocation)].concat()
}

fn rule_4(script: &mut Script) {
    script.heading(
        "rule 4: held calls join open sessions, their numbers are from 1 to the counters, and distinct",
    );
    let at = layout::call(9);
    for good in [call(0, 4, 1, 2), call(0, 1, 0, 1), call(0, 4, 0, 2), call(0, 1, 1, 2)] {
        keeps(script, at, &good);
    }
    for bad in [
        call(2, 1, 1, 2),
        call(3, 1, 1, 2),
        call(8, 1, 1, 2),
        call(255, 1, 1, 2),
        call(0, 4, 2, 1),
        call(0, 4, 3, 1),
        call(0, 4, 8, 1),
        call(0, 4, 255, 1),
        call(0, 6, 1, 2),
        call(0, u64::MAX, 1, 2),
        call(0, 4, 1, 0),
        call(0, 4, 1, 4),
        call(0, 4, 1, u64::MAX),
        call(0, 5, 1, 2),
        call(0, 4, 1, 3),
        call(0, 4, 1, 1),
        call(1, 1, 0, 1),
    ] {
        breaks(script, 4, at, &bad);
    }
    breaks(script, 4, layout::session(0) + layout::SESSION_REQUESTS, &number(4));
    keeps(script, layout::session(0) + layout::SESSION_REQUESTS, &number(6));
    breaks(script, 4, layout::session(1) + layout::SESSION_INVOCATIONS, &number(2));
    keeps(script, layout::session(1) + layout::SESSION_INVOCATIONS, &number(4));
}

fn rule_5(script: &mut Script) {
    script.heading("rule 5: counters at most 2^53");
    for at in [
        layout::session(0) + layout::SESSION_REQUESTS,
        layout::session(0) + layout::SESSION_INVOCATIONS,
        layout::session(1) + layout::SESSION_REQUESTS,
        layout::session(1) + layout::SESSION_INVOCATIONS,
        SUBSCRIPTIONS.counter(),
        REGISTRATIONS.counter(),
    ] {
        keeps(script, at, &number(LAST));
        breaks(script, 5, at, &number(LAST + 1));
        breaks(script, 5, at, &number(u64::MAX));
    }
}
