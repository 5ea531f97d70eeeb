//! States that keep the rules and are not come by step by step: any mixture of rows, full tables, counters at
//! their ends.

use crate::random::Random;
use crate::texts::{self, Rule};
use reference::format::Format;
use reference::ids;
use reference::state::{HeldCall, Row, Session, State, Status, Table, ROWS, SLOTS};
use reference::uri::{self, Policy};

/// A state with anything in it, rows anywhere.
pub fn random(random: &mut Random) -> State {
    let mut state = State::empty();
    // At least two slots are open, and at least one is not.
    let open = random.between(2, SLOTS - 1);
    let first = random.below(SLOTS);
    for place in 0..SLOTS {
        let session = &mut state.sessions[(first + place) % SLOTS];
        if place < open {
            let counter = |random: &mut Random| random.pick(&[40, 41, 100, ids::MAX - 1, ids::MAX]);
            let (requests, invocations) = (counter(random), counter(random));
            // Each from its own stretch of the range, so that they are distinct.
            let id = if place == 0 { ids::MAX } else { place as u64 * 1000 + random.next() % 1000 };
            *session = Session { status: Status::Open, format: Format::Json, id, requests, invocations };
        } else if random.once_in(2) {
            session.status = Status::Attached;
        }
    }
    let open: Vec<usize> = (0..SLOTS).filter(|&slot| state.is_open(slot as u8)).collect();
    fill(random, &mut state.subscriptions, uri::is_subscribed_topic, |random| {
        let members = open.iter().filter(|_| random.once_in(2)).fold(0, |bits, slot| bits | 1 << slot);
        if members == 0 {
            1 << open[0]
        } else {
            members
        }
    });
    let owner = |random: &mut Random| random.pick(&open) as u8;
    fill(random, &mut state.registrations, uri::is_registered_procedure, owner);
    hold_calls(random, &mut state, &open);
    state
}

/// Fills some places of a table, whose texts obey the rule, with IDs in no order, and sets its counter.
fn fill(random: &mut Random, table: &mut Table, rule: Rule, holder: impl Fn(&mut Random) -> u8) {
    let share = random.between(1, 8);
    for place in 0..ROWS {
        if random.below(8) >= share {
            continue;
        }
        let policy = random.pick(&[Policy::Exact, Policy::Prefix, Policy::Wildcard]);
        let text = row_text(random, policy, rule);
        if table.used().any(|row| row.is_of(policy, &text)) {
            continue;
        }
        // A place's own stretch of IDs, turned round so that later rows have smaller ones.
        let id = (ROWS - place) as u64 * 100 - random.next() % 100;
        let holder = holder(random);
        table.rows[place] = Row::new(id, policy, holder, &text);
    }
    let highest = table.used().map(|row| row.id).max().unwrap_or(0);
    table.counter = random.pick(&[highest, highest + 1, highest + 10, ids::MAX - 1, ids::MAX]);
}

/// A text that obeys the rule. It is of bytes: now and then they are no UTF-8, or quotes and backslashes.
fn row_text(random: &mut Random, policy: Policy, rule: Rule) -> Vec<u8> {
    let draw = || match random.below(10) {
        0 => vec![b'q', random.pick(&[0xff, b'\\']), random.byte(), b'"'],
        1 => vec![random.pick(b"pp\"\\"); random.between(uri::MAX_LENGTH - 1, uri::MAX_LENGTH)],
        _ => texts::taken(random, texts::MOST, policy, rule).into_bytes(),
    };
    texts::drawn(draw, |text| rule(text, policy))
}

/// Calls between open sessions, some of them of a session with itself.
fn hold_calls(random: &mut Random, state: &mut State, open: &[usize]) {
    let share = random.between(1, 8);
    for place in 0..ROWS {
        if random.below(8) >= share {
            continue;
        }
        // A place's own numbers, of the first 32 or of the counter's last 32, so that they are distinct. The
        // counter is 40 at least; below 64 the two stretches overlap, and only the first is used.
        let number = |random: &mut Random, counter: u64| {
            let first = if counter < 64 || random.once_in(2) { 1 } else { counter - 31 };
            first + place as u64
        };
        let (caller, callee) = (random.pick(open), random.pick(open));
        let request = number(random, state.sessions[caller].requests);
        let invocation = number(random, state.sessions[callee].invocations);
        state.calls[place] = HeldCall { caller: caller as u8, request, callee: callee as u8, invocation };
    }
}

/// Slots that are not closed get a format each; all the same one now and then.
pub fn mix_formats(random: &mut Random, state: &mut State) {
    let one = if random.once_in(6) { Some(random.pick(&Format::BOTH)) } else { None };
    for session in state.sessions.iter_mut().filter(|session| session.status != Status::Closed) {
        session.format = one.unwrap_or_else(|| random.pick(&Format::BOTH));
    }
}

/// The URI that every row of a full state fits.
pub const FITS_ALL: &str = "a.b.c.d.e";

/// Every table full: eight sessions, each a member of 32 subscriptions that all fit one URI, as the 32
/// registrations do; `calls` held calls.
pub fn full(random: &mut Random, calls: usize) -> State {
    let mut state = State::empty();
    for (slot, session) in state.sessions.iter_mut().enumerate() {
        let (status, format, id) = (Status::Open, Format::Json, 1 + slot as u64);
        *session = Session { status, format, id, requests: 40, invocations: 40 };
    }
    for place in 0..ROWS {
        let text = wildcard_of_five(place);
        let id = place as u64 + 1;
        state.subscriptions.rows[place] = Row::new(id, Policy::Wildcard, 0xff, text.as_bytes());
        let owner = random.below(SLOTS) as u8;
        state.registrations.rows[place] = Row::new(id, Policy::Wildcard, owner, text.as_bytes());
    }
    state.subscriptions.counter = ROWS as u64;
    state.registrations.counter = ROWS as u64;
    for place in 0..calls {
        let (caller, callee) = (random.below(SLOTS) as u8, random.below(SLOTS) as u8);
        let number = 1 + place as u64;
        state.calls[place] = HeldCall { caller, request: number, callee, invocation: number };
    }
    state
}

/// The k-th of the 32 wildcard texts that fit the URI of five components: each bit empties one.
fn wildcard_of_five(k: usize) -> String {
    let parts = FITS_ALL.split('.').enumerate();
    let kept = parts.map(|(place, part)| if k >> place & 1 == 1 { "" } else { part });
    kept.collect::<Vec<_>>().join(".")
}

/// Raises some counters to their end, or near it.
pub fn raise_counters(random: &mut Random, state: &mut State) {
    let near_the_end = |random: &mut Random, counter: &mut u64| {
        if random.once_in(2) {
            let raised = random.pick(&[ids::MAX - 3, ids::MAX - 1, ids::MAX - 1, ids::MAX]);
            *counter = (*counter).max(raised);
        }
    };
    for session in state.sessions.iter_mut().filter(|session| session.status == Status::Open) {
        near_the_end(random, &mut session.requests);
        near_the_end(random, &mut session.invocations);
    }
    near_the_end(random, &mut state.subscriptions.counter);
    near_the_end(random, &mut state.registrations.counter);
}

#[cfg(test)]
mod tests {
    use super::*;
    use reference::matching::fits;

    #[test]
    fn they_keep_the_rules() {
        let mut draw = Random::new(6);
        for calls in 0..=ROWS {
            for _ in 0..20 {
                let mut state = random(&mut draw);
                assert_eq!(state.broken_rule(), None);
                mix_formats(&mut draw, &mut state);
                raise_counters(&mut draw, &mut state);
                assert_eq!(state.broken_rule(), None);
            }
            let state = full(&mut draw, calls);
            assert_eq!(state.broken_rule(), None);
            assert!(state.subscriptions.used().all(|row| fits(row.policy, row.text(), FITS_ALL.as_bytes())));
        }
    }
}
