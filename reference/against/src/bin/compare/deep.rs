//! Steps that go as deep as any can: messages nested to the limit and one level past it, narrow, wide and long,
//! in states with full tables. A run begins with them, since chance hardly makes them.

use crate::guarded;
use crate::pair::ample;
use crate::run::{Run, USUAL};
use crate::states::FITS_ALL;
use crate::tally::Kind;
use against::side::Step;
use reference::format::Format;
use reference::hub;
use reference::ids;
use reference::json::MAX_DEPTH;
use reference::message::MAX_LENGTH;
use reference::settings::DEFAULT_BYTES;
use reference::state::{State, BYTES, ROWS};

/// What opens and closes each level, the innermost being the last, and then round again.
const SHAPES: [&[(&str, &str)]; 7] = [
    &[("[", "]")],
    &[("{\"a\":", "}")],
    &[("{\"\\u0061\":", "}")],
    &[("[", "]"), ("{\"a\":", "}")],
    &[("{\"a\":", "}"), ("[", "]")],
    // Wide: more stands before and after what goes deeper.
    &[("[1,\"x\",{},", ",[],null]")],
    &[("{\"k\":[],\"l\":{\"m\":1},\"a\":", ",\"b\":true,\"c\":\"\\u00e9\"}")],
];

/// What stands innermost.
const INNER: [&str; 5] = ["[]", "{}", "[{\"a\":0,\"b\":-1.5e3},\"\\ud834\\udd1e\",null]", "1", "\"\""];

/// The innermost value in as many levels of the shape as make the text so deep.
fn nested(shape: &[(&str, &str)], depth: usize, inner: &str) -> String {
    let mut text = inner.to_string();
    for (open, close) in shape.iter().rev().cycle() {
        if guarded::depth(text.as_bytes()) == depth {
            break;
        }
        text = format!("{open}{text}{close}");
    }
    text
}

/// The texts to nest: each shape with each innermost value, as deep as may be and one level deeper, where the
/// text stands at depth 2.
fn all_nested() -> Vec<String> {
    let mut texts = Vec::new();
    for depth in [MAX_DEPTH - 1, MAX_DEPTH] {
        for shape in SHAPES {
            texts.extend(INNER.map(|inner| nested(shape, depth, inner)));
        }
    }
    texts
}

/// Messages that carry the text, a list or dict, in each place where one may stand, by the session of a full
/// state whose next request and whose invocation are told.
fn carriers(text: &str, request: u64, invocation: u64) -> Vec<String> {
    let (list, dict) = if text.starts_with('[') { (text, "{}") } else { ("[]", text) };
    let uri = FITS_ALL;
    let mut messages = vec![
        format!("[16,{request},{{\"acknowledge\":true}},\"{uri}\",{list},{dict}]"),
        format!("[48,{request},{{}},\"{uri}\",{list},{dict}]"),
        format!("[70,{invocation},{{}},{list},{dict}]"),
        format!("[8,68,{invocation},{{}},\"{uri}\",{list},{dict}]"),
    ];
    if dict == text {
        messages.extend([
            format!("[16,{request},{dict},\"{uri}\"]"),
            format!("[16,{request},{dict},\"{uri}\",[{{}}],{dict}]"),
            format!("[48,{request},{dict},\"{uri}\",[]]"),
            format!("[32,{request},{dict},\"x.y\"]"),
            format!("[64,{request},{dict},\"x.y\"]"),
            format!("[70,{invocation},{dict}]"),
            format!("[8,68,{invocation},{dict},\"{uri}\"]"),
            format!("[1,\"hub.bus\",{dict}]"),
            format!("[3,{dict},\"x\"]"),
            format!("[6,{dict},\"x\"]"),
        ]);
    }
    messages
}

/// A PUBLISH to each of the 8 members of the 32 rows of a full state, the publisher among them.
fn to_everybody(request: u64) -> String {
    format!("[16,{request},{{\"acknowledge\":true,\"exclude_me\":false}},\"{FITS_ALL}\",[]]")
}

/// The message with as many more elements or members as fit into the longest message, in an empty list or dict
/// of it; the keys of members are spelled with escapes or without. White space would not do, since a reader passes over
/// it without a call.
fn lengthened(message: &str, with_escapes: bool) -> Option<String> {
    let at = message.rfind("[]").or_else(|| message.rfind("{}"))?;
    let (before, after) = (&message[..=at], &message[at + 1..]);
    let left = MAX_LENGTH.checked_sub(message.len())?;
    let mut inserted = String::new();
    for place in 0.. {
        let next = if message[at..].starts_with('[') {
            format!("{}1", if place == 0 { "" } else { "," })
        } else if with_escapes {
            // Characters of two and of three bytes.
            format!("{}\"\\u{:04x}\":1", if place == 0 { "" } else { "," }, 0x7c0 + place)
        } else {
            format!("{}\"{place:x}\":1", if place == 0 { "" } else { "," })
        };
        if inserted.len() + next.len() > left {
            break;
        }
        inserted += &next;
    }
    Some(format!("{before}{inserted}{after}"))
}

/// The session in slot 0 of a full state serves the first held call.
fn full(run: &mut Run, calls: usize) -> State {
    let mut state = run.full_state(calls);
    // The others may speak either format, where slots do.
    state.sessions[0].format = Format::Json;
    for call in &mut state.calls[..calls] {
        (call.caller, call.callee) = (1 + call.request as u8 % 7, 0);
    }
    state
}

/// Takes them all.
pub fn take(run: &mut Run) -> Result<(), String> {
    let mut bytes = vec![0; BYTES];
    for calls in [ROWS - 1, ROWS] {
        let state = full(run, calls);
        state.print(&mut bytes);
        let (request, invocation) = (state.sessions[0].requests + 1, state.calls[0].invocation);
        one(run, &bytes, &Step::detach(0))?;
        if run.mode.receivers {
            messages(run, &bytes, &to_everybody(request))?;
        }
        for text in all_nested() {
            for message in carriers(&text, request, invocation) {
                messages(run, &bytes, &message)?;
            }
        }
    }
    // The same tables but for slot 0, which waits for HELLO.
    hub::detach(0, &DEFAULT_BYTES, &mut bytes, &mut vec![0; ample()]);
    one(run, &bytes, &Step::attach(0))?;
    hub::attach(0, &DEFAULT_BYTES, &mut bytes, &mut [0; 2]);
    for text in all_nested().iter().filter(|text| text.starts_with('{')) {
        for message in [format!("[1,\"hub.bus\",{text}]"), format!("[3,{text},\"x\"]")] {
            messages(run, &bytes, &message)?;
        }
    }
    Ok(())
}

/// The message as it is, and as long as it can be.
fn messages(run: &mut Run, state: &[u8], message: &str) -> Result<(), String> {
    // The lent number is the longest, since a PUBLISH tells it in every EVENT.
    one(run, state, &Step::message(0, ids::MAX, message.into()))?;
    for with_escapes in [false, true] {
        if let Some(long) = lengthened(message, with_escapes) {
            one(run, state, &Step::message(0, ids::MAX, long.into()))?;
        }
    }
    Ok(())
}

fn one(run: &mut Run, state: &[u8], step: &Step) -> Result<(), String> {
    let room = if step.bytes().starts_with(b"[16,") { ample() } else { USUAL };
    run.run_from(Kind::Deep, step, state, room, Some(0))?;
    Ok(())
}

#[cfg(test)]
mod tests {
    use super::*;
    use reference::message::{self, Incoming, Violation};

    fn read(bytes: &[u8]) -> Result<Incoming<'_>, Violation> {
        message::read(Format::Json, bytes)
    }

    #[test]
    fn half_of_the_texts_are_as_deep_as_may_be() {
        let texts = all_nested();
        let (good, too_deep) = texts.split_at(texts.len() / 2);
        for text in good {
            assert!(read(format!("[48,1,{{}},\"a\",[],{{\"a\":{text}}}]").as_bytes()).is_err(), "{text}");
            assert!(carriers(text, 1, 1).iter().all(|message| read(message.as_bytes()).is_ok()), "{text}");
        }
        for text in too_deep {
            assert!(carriers(text, 1, 1).iter().all(|message| read(message.as_bytes()).is_err()), "{text}");
        }
    }

    #[test]
    fn lengthened_messages_are_read_and_nearly_as_long_as_may_be() {
        let (mut long, mut lists, mut dicts, mut spelled) = (0, 0, 0, 0);
        for text in &all_nested()[..SHAPES.len() * INNER.len()] {
            let both = |message: String| [false, true].map(|with_escapes| lengthened(&message, with_escapes));
            for message in carriers(text, 1, 1).into_iter().flat_map(both).flatten() {
                assert!(read(message.as_bytes()).is_ok(), "{message}");
                assert!((MAX_LENGTH - 16..=MAX_LENGTH).contains(&message.len()), "{message}");
                long += 1;
                lists += usize::from(message.contains("[1,1,1"));
                dicts += usize::from(message.contains("\"2f\":1"));
                spelled += usize::from(message.contains("\"\\u0800\":1"));
            }
        }
        assert!(long > 100 && lists > 20 && dicts > 20 && spelled > 20, "{long} {lists} {dicts} {spelled}");
    }
}
