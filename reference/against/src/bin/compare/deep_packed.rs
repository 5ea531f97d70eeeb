//! Steps that go as deep as any can in MessagePack: messages nested to the limit and one level past it, in values and in
//! keys, narrow, wide and long, in states with full tables and slots of either format. A run begins with them.

use crate::packs::Pack;
use crate::pair::ample;
use crate::random::Random;
use crate::run::{Run, USUAL};
use crate::states::FITS_ALL;
use crate::tally::Kind;
use against::side::Step;
use reference::format::Format;
use reference::ids;
use reference::json::MAX_DEPTH;
use reference::message::MAX_LENGTH;
use reference::state::{State, BYTES, ROWS};

/// What stands before and behind each level.
const SHAPES: [(&[u8], &[u8]); 9] = [
    (b"\x91", b""),
    (b"\xdc\x00\x01", b""),
    (b"\xdd\x00\x00\x00\x01", b""),
    (b"\x81\xa1a", b""),
    (b"\xdf\x00\x00\x00\x01\xda\x00\x01a", b""),
    // In the key.
    (b"\x81", b"\xc0"),
    (b"\xde\x00\x01", b"\xa1v"),
    // Wide: more stands before and behind what goes deeper.
    (b"\x96\x01\xa1x\x80", b"\x90\xc0"),
    (b"\x84\xa1k\x90\xd9\x01l\x81\xa1m\x01\xa1a", b"\xa1b\xca\x00\x00\x00\x00"),
];

/// What stands innermost: an array or map, which is a level too.
const INNER: [&[u8]; 4] =
    [b"\x90", b"\x80", b"\x93\xc4\x01\xff\xa4\xf0\x9d\x84\x9e\xc0", b"\x82\xa0\x00\xc0\xff"];

/// The innermost value in as many levels of the shape as make it so deep.
fn nested((open, close): (&[u8], &[u8]), depth: usize, inner: &[u8]) -> Vec<u8> {
    [&open.repeat(depth - 1), inner, &close.repeat(depth - 1)].concat()
}

/// Each shape with each innermost value, as deep as may be and one level deeper, where it stands at depth 2.
fn all_nested() -> Vec<Vec<u8>> {
    let mut all = Vec::new();
    for depth in [MAX_DEPTH - 1, MAX_DEPTH] {
        for shape in SHAPES {
            all.extend(INNER.map(|inner| nested(shape, depth, inner)));
        }
    }
    all
}

fn is_map(bytes: &[u8]) -> bool {
    matches!(bytes[0], 0x80..=0x8f | 0xde | 0xdf)
}

/// A message of these parts.
fn message(parts: &[Pack]) -> Vec<u8> {
    let mut bytes = Vec::new();
    let shortest = crate::packs::Longer(0);
    Pack::Array(parts.to_vec()).put(&mut Random::new(0), shortest, &mut bytes);
    bytes
}

/// Messages that carry the value, an array or a map, in each place where one may stand.
fn carriers(value: &[u8], request: u64, invocation: u64) -> Vec<Vec<u8>> {
    let [request, invocation] = [request, invocation].map(|number| Pack::Integer(number.into()));
    let number = |number: i128| Pack::Integer(number);
    let (raw, uri, empty) = (Pack::Raw(value.to_vec()), Pack::text(FITS_ALL), Pack::Map(vec![]));
    let payload =
        if is_map(value) { [Pack::Array(vec![]), raw.clone()] } else { [raw.clone(), empty.clone()] };
    let with_payload = |parts: &[Pack]| message(&[parts, &payload].concat());
    let acknowledge = Pack::Map(vec![(Pack::text("acknowledge"), Pack::Bool(true))]);
    let mut messages = vec![
        with_payload(&[number(16), request.clone(), acknowledge, uri.clone()]),
        with_payload(&[number(48), request.clone(), empty.clone(), uri.clone()]),
        with_payload(&[number(70), invocation.clone(), empty.clone()]),
        with_payload(&[number(8), number(68), invocation.clone(), empty, uri.clone()]),
    ];
    if is_map(value) {
        messages.extend([
            message(&[number(16), request.clone(), raw.clone(), uri.clone()]),
            with_payload(&[number(48), request.clone(), raw.clone(), uri.clone()]),
            message(&[number(32), request.clone(), raw.clone(), Pack::text("x.y")]),
            message(&[number(64), request, raw.clone(), Pack::text("x.y")]),
            message(&[number(70), invocation.clone(), raw.clone()]),
            message(&[number(8), number(68), invocation, raw.clone(), uri]),
            message(&[number(3), raw.clone(), Pack::text("x")]),
            message(&[number(6), raw, Pack::text("x")]),
        ]);
    }
    messages
}

/// Messages as long as may be, or a byte longer, whose payload converts or does not; among them, if it is asked for, a
/// PUBLISH to everybody, the publisher included.
fn long(length: usize, request: u64, invocation: u64, to_everybody: bool) -> Vec<Vec<u8>> {
    let [request, invocation] = [request, invocation].map(|number| Pack::Integer(number.into()));
    let all = [("acknowledge", true), ("exclude_me", false)];
    let all = Pack::Map(all.map(|(key, value)| (Pack::text(key), Pack::Bool(value))).to_vec());
    let mut heads = vec![
        vec![Pack::Integer(16), request.clone(), Pack::Map(vec![]), Pack::text(FITS_ALL)],
        vec![Pack::Integer(48), request.clone(), Pack::Map(vec![]), Pack::text(FITS_ALL)],
        vec![Pack::Integer(70), invocation, Pack::Map(vec![])],
    ];
    if to_everybody {
        heads.push(vec![Pack::Integer(16), request, all, Pack::text(FITS_ALL)]);
    }
    // The length that is left for the list, which has 3 bytes before its values.
    let filled = |head: &Vec<Pack>, list: &dyn Fn(usize) -> Vec<u8>| {
        let list = list(length - message(head).len() - 3);
        message(&[&head[..], &[Pack::Raw(list)]].concat())
    };
    let wide = |count: usize| [b"\xdc", &(count as u16).to_be_bytes()[..]].concat();
    let text = |byte: u8| {
        move |left: usize| {
            let text = vec![byte; left - 3];
            [b"\xdc\x00\x01\xda", &(text.len() as u16).to_be_bytes()[..], &text].concat()
        }
    };
    let keys = |left: usize| {
        // Members of 4 bytes: a key of 2, and a value.
        let members =
            (0..(left - 3) / 4).flat_map(|k| [0xa2, b'!' + (k / 90) as u8, b'!' + (k % 90) as u8, 1]);
        let rest = [0xc0].repeat((left - 3) % 4);
        let head = [b"\xde", &(((left - 3) / 4) as u16).to_be_bytes()[..]].concat();
        [wide(1 + rest.len()), head, members.collect(), rest].concat()
    };
    let fills: [&dyn Fn(usize) -> Vec<u8>; 7] = [
        &text(b'x'),
        &text(0),
        &text(b'"'),
        &|left| [wide(left), vec![0xff; left]].concat(),
        &|left| [wide(left), vec![0x90; left]].concat(),
        &|left| [wide(left - 1), vec![0xc4, 0], vec![0xc0; left - 2]].concat(),
        &keys,
    ];
    heads.iter().flat_map(|head| fills.map(|fill| filled(head, fill))).collect()
}

/// The session in slot 0 of a full state serves the first held call. It speaks MessagePack, the others either or one.
fn full(run: &mut Run, calls: usize, others: Option<Format>) -> State {
    let mut state = run.full_state(calls);
    for call in &mut state.calls[..calls] {
        (call.caller, call.callee) = (1 + call.request as u8 % 7, 0);
    }
    for session in &mut state.sessions {
        session.format = others.unwrap_or(session.format);
    }
    state.sessions[0].format = Format::MsgPack;
    state
}

/// Takes them all.
pub fn take(run: &mut Run) -> Result<(), String> {
    let mut bytes = vec![0; BYTES];
    for (calls, others) in [(ROWS - 1, Some(Format::Json)), (ROWS - 1, None), (ROWS, Some(Format::MsgPack))] {
        let state = full(run, calls, others);
        state.print(&mut bytes);
        let (request, invocation) = (state.sessions[0].requests + 1, state.calls[0].invocation);
        one(run, &bytes, &Step::detach(0))?;
        for value in all_nested() {
            for message in carriers(&value, request, invocation) {
                one(run, &bytes, &Step::message(0, ids::MAX, message))?;
            }
        }
        for length in [MAX_LENGTH - 1, MAX_LENGTH, MAX_LENGTH + 1] {
            for message in long(length, request, invocation, run.mode.receivers) {
                one(run, &bytes, &Step::message(0, ids::MAX, message))?;
            }
        }
    }
    Ok(())
}

fn one(run: &mut Run, state: &[u8], step: &Step) -> Result<(), String> {
    if run.run_from(Kind::Deep, step, state, USUAL, None)? == 5 {
        run.run_from(Kind::Deep, step, state, ample(), Some(0))?;
    }
    Ok(())
}

#[cfg(test)]
mod tests {
    use super::*;
    use reference::message::read;

    #[test]
    fn half_of_the_values_are_as_deep_as_may_be() {
        let all = all_nested();
        let (good, too_deep) = all.split_at(all.len() / 2);
        for (values, is_read) in [(good, true), (too_deep, false)] {
            for message in values.iter().flat_map(|value| carriers(value, 1, 1)) {
                assert_eq!(read(Format::MsgPack, &message).is_ok(), is_read, "{message:02x?}");
            }
        }
    }

    #[test]
    fn long_messages_are_read_to_the_limit() {
        for length in [MAX_LENGTH - 1, MAX_LENGTH, MAX_LENGTH + 1] {
            for message in long(length, 41, 1, true) {
                assert_eq!(message.len(), length);
                assert_eq!(read(Format::MsgPack, &message).is_ok(), length <= MAX_LENGTH, "{message:02x?}");
            }
        }
    }
}
