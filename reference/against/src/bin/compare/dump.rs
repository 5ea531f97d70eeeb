//! A difference, told so that it can be looked into: the step, the state before it, and what is not the same.

use crate::pair::{Outcome, Pair};
use against::side::{Event, Filing, Step};
use reference::layout;
use reference::settings::{Settings, DEFAULT_BYTES};
use reference::state::{State, Status, Table};
use reference::uri;

/// How many differing bytes are told.
const BYTES_TOLD: usize = 16;

/// How much of an output is told, from a little before the first byte that differs.
const OUTPUT_TOLD: usize = 600;
const OUTPUT_BEFORE: usize = 60;

/// The difference in words. `state` is the state before the step.
pub fn told(what: &str, step: &Step, settings: &[u8], state: &[u8], room: usize, pair: &Pair) -> String {
    let (archive, reference) = (&pair.archive, &pair.reference);
    let mut lines = vec![what.to_string(), told_step(step, room)];
    lines.extend(told_settings(settings));
    lines.extend(told_state(state));
    for (name, outcome) in [("archive", archive), ("reference", reference)] {
        lines.push(format!("{name}: refusal {}, count {}", outcome.refusal(), outcome.count()));
    }
    lines.extend(states(state, archive, reference));
    lines.extend(outputs(room, archive, reference));
    lines.join("\n")
}

/// The difference in a call of a settings function. `lent` is its file or settings.
pub fn told_filing(what: &str, filing: Filing, lent: &[u8], room: usize, pair: &Pair) -> String {
    let (archive, reference) = (&pair.archive, &pair.reference);
    let call = format!("{}, {room} bytes of output lent, {} bytes:", filing.name(), lent.len());
    let mut lines = vec![what.to_string(), call, format!("  {}", hex(lent))];
    for (name, outcome) in [("archive", archive), ("reference", reference)] {
        lines.push(format!("{name}: refusal {}, count {}", outcome.refusal(), outcome.count()));
    }
    lines.extend(outputs(room, archive, reference));
    lines.join("\n")
}

/// The bytes in hex; the zeros at their end are counted.
pub fn hex(bytes: &[u8]) -> String {
    let used = bytes.iter().rposition(|&byte| byte != 0).map_or(0, |last| last + 1);
    let digits: String = bytes[..used].iter().map(|byte| format!("{byte:02x}")).collect();
    match bytes.len() - used {
        0 => digits,
        zeros => format!("{digits} and {zeros} zeros"),
    }
}

fn told_step(step: &Step, room: usize) -> String {
    let event = match &step.event {
        Event::Attach(format) => format!("attach for {format:?}"),
        Event::Detach => "detach".to_string(),
        Event::Message { number, bytes } => {
            format!("lent number {number}, message of {} bytes:\n  {}", bytes.len(), bytes.escape_ascii())
        }
    };
    format!("slot {}, {room} bytes of output lent, {event}", step.slot)
}

/// The settings, where they are not the default ones.
fn told_settings(bytes: &[u8]) -> Vec<String> {
    if *bytes == DEFAULT_BYTES {
        return Vec::new();
    }
    let Some(settings) = Settings::load(bytes) else {
        return vec![format!("settings that break a rule:\n  {}", hex(bytes))];
    };
    let mut lines = vec![format!("settings: realm {}", settings.realm.escape_ascii())];
    lines.extend(settings.rules().iter().map(|rule| {
        let (slot, action, verdict, prefix) =
            (rule.slot, rule.action, rule.verdict, rule.prefix.escape_ascii());
        format!("  slot {slot}, action {action}, verdict {verdict}, {prefix}")
    }));
    lines
}

/// What is in use of the state.
fn told_state(bytes: &[u8]) -> Vec<String> {
    let Some(state) = State::parse(bytes) else {
        return vec![format!("before: {} bytes that are no state", bytes.len())];
    };
    let mut lines = vec![match state.broken_rule() {
        None => "before:".to_string(),
        Some(rule) => format!("before, with rule {rule} broken:"),
    }];
    for (slot, session) in state.sessions.iter().enumerate() {
        if session.status != Status::Closed {
            lines.push(format!("  slot {slot}: {session:?}"));
        }
    }
    lines.extend(told_table("subscription", layout::Table::Subscriptions, &state.subscriptions, bytes));
    lines.extend(told_table("registration", layout::Table::Registrations, &state.registrations, bytes));
    for (place, call) in state.calls.iter().enumerate() {
        if call.is_used() {
            lines.push(format!("  held call {place}: {call:?}"));
        }
    }
    lines
}

fn told_table(name: &str, at: layout::Table, table: &Table, bytes: &[u8]) -> Vec<String> {
    let mut lines = vec![format!("  {name} counter: {}", table.counter)];
    for (place, row) in table.rows.iter().enumerate().filter(|(_, row)| row.is_used()) {
        // From the bytes, since a broken row's length may lie above 128.
        let from = at.row(place) + layout::ROW_TEXT;
        let length = usize::from(bytes[at.row(place) + layout::ROW_LENGTH]);
        let text = bytes[from..from + length.min(uri::MAX_LENGTH)].escape_ascii();
        let (id, policy, holder) = (row.id, row.policy, row.holder);
        lines.push(format!("  {name} row {place}: ID {id}, {policy:?}, holder {holder:#04x}, {text}"));
    }
    lines
}

/// The state's bytes that differ between the two sides.
fn states(before: &[u8], archive: &Outcome, reference: &Outcome) -> Vec<String> {
    let differing: Vec<usize> =
        (0..before.len()).filter(|&at| archive.state[at] != reference.state[at]).collect();
    let mut lines = vec![format!("state bytes that differ: {}", differing.len())];
    lines.extend(differing.iter().take(BYTES_TOLD).map(|&at| {
        format!(
            "  byte {at} ({}): before {:02x}, archive {:02x}, reference {:02x}",
            layout::told(at),
            before[at],
            archive.state[at],
            reference.state[at]
        )
    }));
    lines
}

/// The lent output's bytes that differ between the two sides, and what the sides wrote there.
fn outputs(room: usize, archive: &Outcome, reference: &Outcome) -> Vec<String> {
    let differing: Vec<usize> = (0..room).filter(|&at| archive.out[at] != reference.out[at]).collect();
    let mut lines = vec![format!("output bytes that differ: {}", differing.len())];
    lines.extend(differing.iter().take(BYTES_TOLD).map(|&at| {
        format!("  byte {at}: archive {:02x}, reference {:02x}", archive.out[at], reference.out[at])
    }));
    let from = differing.first().map_or(0, |first| first.saturating_sub(OUTPUT_BEFORE));
    for (name, outcome) in [("archive", archive), ("reference", reference)] {
        // A count above the room is a difference by itself.
        let to = outcome.count().min(room).min(from + OUTPUT_TOLD);
        let written = outcome.out[from.min(to)..to].escape_ascii();
        lines.push(format!("output of the {name} from byte {from}:\n  {written}"));
    }
    lines
}
