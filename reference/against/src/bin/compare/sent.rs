//! Outputs read as a host and its clients would: by the layout, and each message in its receiver's format. What must
//! hold of every done step, whatever it does, is seen here.

use crate::pair::Outcome;
use against::side::{Event, Step};
use reference::format::Format;
use reference::json::{self, Item, Kind, MAX_DEPTH};
use reference::state::{State, Status, SLOTS};
use reference::{message, msgpack, values};

/// A message sent, taken apart.
#[derive(Debug, PartialEq, Eq)]
pub struct Sent<'o> {
    pub number: u64,
    /// The elements before the payload, the message number among them.
    pub fixed: Vec<&'o [u8]>,
    pub payload: Vec<&'o [u8]>,
}

/// The messages sent: the number, the kinds of the elements behind it (a number, a dict, a string), and whether a payload
/// may follow.
const SHAPES: [(u64, &[Kind], bool); 12] = {
    use Kind::{Dict, Number, String};
    [
        (2, &[Number, Dict], false),
        (3, &[Dict, String], false),
        (6, &[Dict, String], false),
        (8, &[Number, Number, Dict, String], true),
        (17, &[Number, Number], false),
        (33, &[Number, Number], false),
        (35, &[Number], false),
        (36, &[Number, Number, Dict], true),
        (50, &[Number, Dict], true),
        (65, &[Number, Number], false),
        (67, &[Number], false),
        (68, &[Number, Number, Dict], true),
    ]
};

/// The messages of an output, each with its receiver; `None` if the layout is broken.
pub fn messages(out: &[u8]) -> Option<Vec<(usize, &[u8])>> {
    let count = usize::from(u16::from_be_bytes(out.get(..2)?.try_into().ok()?));
    let (contents, mut bodies) = out[2..].split_at_checked(3 * count)?;
    let mut messages = Vec::new();
    for entry in contents.chunks(3) {
        let length = usize::from(u16::from_be_bytes([entry[1], entry[2]]));
        let (body, rest) = bodies.split_at_checked(length)?;
        messages.push((usize::from(entry[0]), body));
        bodies = rest;
    }
    bodies.is_empty().then_some(messages)
}

/// The message that the bytes are in a format; `None` if they are none that the hub sends.
pub fn read(format: Format, bytes: &[u8]) -> Option<Sent<'_>> {
    let mut items: Vec<Item> = Vec::new();
    match format {
        Format::Json => json::elements(bytes, |item| items.push(item))?,
        Format::MsgPack => msgpack::elements(bytes, |item| items.push(item))?,
    }
    let number = match values::read(format, bytes, items.first()?.span.from, 1)?.0 {
        values::Value::Integer(number) => u64::try_from(number).ok()?,
        _ => return None,
    };
    let &(_, kinds, may_follow) = SHAPES.iter().find(|(shape, ..)| *shape == number)?;
    if items.len() < 1 + kinds.len() {
        return None;
    }
    let payload = items.split_off(1 + kinds.len());
    let is_so = items[1..].iter().map(|item| item.kind).eq(kinds.iter().copied())
        && [Kind::List, Kind::Dict].starts_with(&payload.iter().map(|item| item.kind).collect::<Vec<_>>())
        && (may_follow || payload.is_empty());
    let of = |items: Vec<Item>| items.into_iter().map(|item| item.span.of(bytes)).collect();
    is_so.then(|| Sent { number, fixed: of(items), payload: of(payload) })
}

/// What stands before the payload of a message of a format, as a JSON text.
pub fn in_json(format: Format, bytes: &[u8]) -> Option<Vec<u8>> {
    let convert =
        |part: &&[u8]| values::convert(format, Format::Json, MAX_DEPTH, part, 0).map(|(text, _)| text);
    let parts: Option<Vec<_>> = read(format, bytes)?.fixed.iter().map(convert).collect();
    Some([b"[", &*parts?.join(&b','), b"]"].concat())
}

/// Does the hub's own part of the message stand in the only form that it writes?
fn is_as_written(format: Format, part: &[u8]) -> bool {
    match values::read(format, part, 0, MAX_DEPTH) {
        Some((value, end)) => end == part.len() && values::write(format, &value) == part,
        None => false,
    }
}

/// Is the payload sent the one that came: the same bytes within a format, the same value across?
fn is_passed_on(from: Format, came: &[u8], to: Format, sent: &[u8]) -> bool {
    if from == to {
        return came == sent;
    }
    let (Some((came, _)), Some((value, end))) =
        (values::read(from, came, 0, MAX_DEPTH), values::read(to, sent, 0, MAX_DEPTH))
    else {
        return false;
    };
    end == sent.len() && came == value && values::write(to, &value) == sent
}

/// Sees that a step's output and state are such as any done step's are.
pub fn check(step: &Step, state: &[u8], outcome: &Outcome) -> Result<(), String> {
    if outcome.refusal() != 0 {
        return Ok(());
    }
    let is = |is: bool, what: &str| if is { Ok(()) } else { Err(what.to_string()) };
    let before = State::parse(state).ok_or("a step from bytes that are no state")?;
    let after = State::parse(&outcome.state).ok_or("the state after the step is none")?;
    is(after.broken_rule().is_none(), "the state after the step breaks a rule")?;
    for slot in 0..SLOTS {
        let (was, is_now) = (before.sessions[slot], after.sessions[slot]);
        let format = match step.event {
            Event::Attach(format) if was.status == Status::Closed => format,
            _ => was.format,
        };
        is(is_now.status == Status::Closed || is_now.format == format, "a slot has another format")?;
    }
    let from = before.sessions[step.slot as usize % SLOTS].format;
    let read_in = message::read(from, step.bytes());
    let came: Vec<&[u8]> = read_in.iter().flat_map(|message| message.payload().parts()).collect();
    for (slot, bytes) in messages(outcome.written()).ok_or("the output is not laid out as it must be")? {
        let receiver = before.sessions.get(slot).ok_or("a receiver is no slot")?;
        is(receiver.status != Status::Closed, "a message goes to a closed slot")?;
        let format = receiver.format;
        let sent = read(format, bytes).ok_or("a message is none of its receiver's format")?;
        is(sent.fixed.iter().all(|part| is_as_written(format, part)), "a message is not as it is written")?;
        let is_passed = sent.payload.is_empty()
            || sent.payload.len() == came.len()
                && came.iter().zip(&sent.payload).all(|(came, sent)| is_passed_on(from, came, format, sent));
        is(is_passed, "a payload is another than came")?;
    }
    Ok(())
}

#[cfg(test)]
mod tests {
    use super::Format::{Json, MsgPack};
    use super::*;

    #[test]
    fn the_layout() {
        assert_eq!(messages(b"\0\0"), Some(vec![]));
        assert_eq!(messages(b"\0\x01\x03\0\x02ab"), Some(vec![(3, &b"ab"[..])]));
        for out in
            [b"" as &[u8], b"\0", b"\0\0\0", b"\0\x01\x03\0\x02a", b"\0\x01\x03\0\x02abc", b"\0\x01\x03"]
        {
            assert_eq!(messages(out), None, "{out:02x?}");
        }
    }

    #[test]
    fn messages_sent() {
        let sent = read(Json, br#"[68,1,2,{"procedure":"p"},[1],{}]"#).expect("an INVOCATION");
        assert_eq!((sent.number, sent.fixed.len(), &sent.payload[..]), (68, 4, &[&b"[1]"[..], b"{}"][..]));
        let sent = read(MsgPack, b"\x95\x24\x01\x02\x80\x90").expect("an EVENT");
        assert_eq!((sent.number, sent.payload), (36, vec![&b"\x90"[..]]));
        for bytes in
            [b"\x93\x24\x01\x02" as &[u8], b"\x95\x24\x01\x02\x80\x80", b"\x93\x23\x01\x90", b"\x91\x05"]
        {
            assert_eq!(read(MsgPack, bytes), None, "{bytes:02x?}");
            assert_eq!(read(Json, bytes), None, "{bytes:02x?}");
        }
    }

    #[test]
    fn a_message_in_json() {
        let event = b"\x95\x24\x01\x02\x81\xa5topic\xa2a\"\x91\xc4\0";
        assert_eq!(in_json(MsgPack, event), Some(br#"[36,1,2,{"topic":"a\""}]"#.to_vec()));
    }

    #[test]
    fn payloads() {
        assert!(is_passed_on(Json, b"[ 1.5 ]", Json, b"[ 1.5 ]"));
        assert!(!is_passed_on(Json, b"[ 1 ]", Json, b"[1]"));
        assert!(is_passed_on(Json, b"[ -0 ]", MsgPack, b"\x91\0"));
        assert!(!is_passed_on(Json, b"[0]", MsgPack, b"\x91\xcc\0"), "a longer form");
        assert!(!is_passed_on(Json, b"[1]", MsgPack, b"\x91\0"));
        assert!(is_passed_on(MsgPack, b"\xdc\0\x01\xcc\x01", Json, b"[1]"));
        assert!(!is_passed_on(MsgPack, b"\x91\x01", Json, b"[ 1]"), "white space");
        assert!(!is_passed_on(MsgPack, b"\x91\xca\0\0\0\0", Json, b"[0]"));
    }
}
