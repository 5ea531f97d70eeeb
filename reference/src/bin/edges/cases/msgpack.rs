//! Slots that speak MessagePack: attaching, reading in every form, writing in the shortest, payloads converted, and what
//! does not convert.

use super::{HELLO, LAST};
use crate::script::{packed, Outcome, Script};
use reference::format::Format::{self, Json, MsgPack};
use reference::layout::{self, Table};
use reference::state::{BYTES, ROWS};

pub fn all(script: &mut Script) {
    attaching(script);
    sessions(script);
    numbers(script);
    forms(script);
    unformed(script);
    texts(script);
    depths(script);
    lengths(script);
    keys(script);
    options(script);
    uris(script);
    written(script);
    as_it_came(script);
    converted(script);
    lengths_converted(script);
    calls_that_stay(script);
    answers_that_stay(script);
    events_that_stay(script);
    ends(script);
    rules(script);
}

const FORMATS: [[Format; 2]; 4] = [[Json, Json], [Json, MsgPack], [MsgPack, Json], [MsgPack, MsgPack]];

/// An empty hub with open sessions of these formats on the first slots. Slot k has the ID 100 + k.
pub fn open(script: &mut Script, formats: &[Format]) {
    script.empty();
    for (slot, format) in (0..).zip(formats) {
        match format {
            Json => {
                script.attach(slot).is_silent();
                script.lent(slot, 100 + slot, HELLO).says("[2,");
            }
            MsgPack => {
                script.attach_msgpack(slot).is_silent();
                script.lent_bytes(slot, 100 + slot, &packed(HELLO)).says("mp[2,");
            }
        }
    }
}

/// Two such sessions, of which slot 1 has registered `p` and subscribed to `t`, both exact.
fn pair(script: &mut Script, formats: [Format; 2]) {
    open(script, &formats);
    script.say(1, r#"[64,1,{},"p"]"#).is_no_violation();
    script.say(1, r#"[32,2,{},"t"]"#).is_no_violation();
}

/// An empty hub but for one open session of MessagePack, on slot 0, to which all invocations were issued. What is not so
/// yet of its bytes is put into the state, so that a case takes few lines; a YIELD that is dropped leaves it as it is.
fn alone(script: &mut Script, requests: u64) {
    let mut wanted = vec![0; BYTES];
    wanted[0] = 5;
    layout::set_number(&mut wanted, layout::SESSION_ID, 100);
    layout::set_number(&mut wanted, layout::SESSION_REQUESTS, requests);
    layout::set_number(&mut wanted, layout::SESSION_INVOCATIONS, LAST);
    if script.state == wanted {
        return;
    }
    if script.state.iter().any(|&byte| byte != 0) {
        script.empty();
    }
    for at in (0..BYTES).filter(|&at| wanted[at] != 0) {
        script.poke(at, &[wanted[at]]);
    }
    assert!(script.state == wanted);
}

#[track_caller]
fn violation(script: &mut Script, bytes: &[u8]) {
    alone(script, 0);
    script.bytes(0, bytes).violates_packed();
}

#[track_caller]
fn no_violation(script: &mut Script, bytes: &[u8]) -> Outcome {
    alone(script, 0);
    script.bytes(0, bytes)
}

fn attaching(script: &mut Script) {
    script.heading(
        "MessagePack: attaching a slot that is closed, attached or open; slots 7 and 8; one byte of room",
    );
    script.empty();
    for slot in [8, 255, 256, 1 << 32, u64::MAX] {
        script.attach_msgpack(slot).refuses(2);
    }
    script.tight(|s| s.attach_msgpack(7)).is_silent();
    script.attach_msgpack(7).refuses(3);
    script.attach(7).refuses(3);
    script.bytes(7, &packed(HELLO)).says("mp[2,4711,");
    script.attach_msgpack(7).refuses(3);
    script.attach(7).refuses(3);
    script.detach(7).is_silent();
    script.attach(7).is_silent();
    script.attach_msgpack(7).refuses(3);
    script.send(7, HELLO).says("[2,4711,");
    script.attach_msgpack(7).refuses(3);
    script.detach(7).is_silent();
    script.attach_msgpack(7).is_silent();
    script.detach(7).is_silent();
    script.detach(7).refuses(3);
    script.bytes(7, &packed(HELLO)).refuses(3);
}

fn sessions(script: &mut Script) {
    script.heading("MessagePack: WELCOME, ABORT and GOODBYE in the slot's format, as it was before the step");
    script.empty();
    script.attach_msgpack(0).is_silent();
    script.tight(|s| s.lent_bytes(0, 100, &packed(HELLO))).says(r#"mp[2,100,{"roles":{"broker":"#);
    script.tight(|s| s.say(0, r#"[6,{},""]"#)).says(r#"mp[6,{},"wamp.close.goodbye_and_out"]"#);
    script.lent_bytes(0, 0, &packed(HELLO)).refuses(4);
    script.lent_bytes(0, LAST + 1, &packed(HELLO)).refuses(4);
    script.lent_bytes(0, LAST, &packed(HELLO)).says("mp[2,9007199254740992,");
    script.attach(1).is_silent();
    script.lent(1, LAST, HELLO).refuses(4);
    script.say(0, r#"[3,{},"r"]"#).is_silent();
    script.say(1, HELLO).says("[2,4711,");
    for (slot, text) in [(0, r#"[1,"hub",{}]"#), (2, r#"[1,"hub.bus ",{}]"#), (2, r#"[1,"",{}]"#)] {
        script.attach_msgpack(slot).is_silent();
        script.say(slot, text).says(r#"mp[3,{},"wamp.error.no_such_realm"]"#);
    }
    script.heading("MessagePack: a message of the other format, and one at the wrong time, are violations");
    for text in [HELLO, r#"[3,{},"r"]"#, r#"[6,{},"r"]"#] {
        script.attach_msgpack(2).is_silent();
        script.send(2, text).violates_packed();
        script.attach(2).is_silent();
        script.bytes(2, &packed(text)).violates();
    }
    for text in [r#"[6,{},"r"]"#, r#"[48,1,{},"p"]"#, "[70,1,{}]", "[66,1,1]"] {
        script.attach_msgpack(2).is_silent();
        script.say(2, text).violates_packed();
    }
    script.attach_msgpack(2).is_silent();
    script.lent_bytes(2, 102, &packed(HELLO)).says("mp[2,102,");
    script.say(2, "[70,1,{}]").violates_packed();
    for text in [HELLO, r#"[48,2,{},"p"]"#, "[2,1,{}]"] {
        violation(script, &packed(text));
    }
    script.attach_msgpack(0).is_silent();
    script.say(0, r#"[3,{},"r"]"#).is_silent();
}

/// Every form that an integer from 0 up has.
pub fn integer_forms(number: u64) -> Vec<Vec<u8>> {
    let mut forms = Vec::new();
    if number < 128 {
        forms.push(vec![number as u8]);
    }
    for (width, first) in [(1, 0xcc), (2, 0xcd), (4, 0xce), (8, 0xcf)] {
        let low = &number.to_be_bytes()[8 - width..];
        if width == 8 || number >> (8 * width) == 0 {
            forms.push([&[first], low].concat());
        }
        if number >> (8 * width - 1) == 0 {
            forms.push([&[first + 4], low].concat());
        }
    }
    forms
}

fn numbers(script: &mut Script) {
    script.heading("MessagePack: IDs and message numbers are integers of any form, from 1 to 2^53");
    let shortest = [127, 255, 65535, (1 << 32) - 1].map(|id| integer_forms(id).swap_remove(0));
    let all = [1, 128, 256, 65536, 1 << 32, LAST].into_iter().flat_map(integer_forms);
    for number in all.chain(shortest) {
        no_violation(script, &[b"\x93\x46", &*number, b"\x80"].concat()).is_silent();
    }
    for number in integer_forms(68) {
        no_violation(script, &[b"\x95\x08", &*number, b"\x01\x80\xa1e"].concat()).is_silent();
    }
    for number in [b"\xcc\x46" as &[u8], b"\xd0\x46", b"\xcf\0\0\0\0\0\0\0\x46", b"\xd3\0\0\0\0\0\0\0\x46"] {
        no_violation(script, &[b"\x93", number, b"\x01\x80"].concat()).is_silent();
    }
    no_violation(script, b"\x94\x30\xd1\x00\x01\x80\xa1p").says("mp[8,48,1,");
    no_violation(script, b"\x93\x22\x01\xce\x00\x00\x00\x05").says("mp[8,34,1,");
    for number in [LAST + 1, 1 << 63, u64::MAX].into_iter().flat_map(integer_forms) {
        violation(script, &[b"\x93\x46", &*number, b"\x80"].concat());
    }
    for number in [
        b"\x00" as &[u8],
        b"\xcc\x00",
        b"\xff",
        b"\xd0\xff",
        b"\xd3\xff\xff\xff\xff\xff\xff\xff\xff",
        b"\xca\x3f\x80\x00\x00",
        b"\xcb\x3f\xf0\x00\x00\x00\x00\x00\x00",
        b"\xc4\x01\x01",
        b"\xd4\x00\x01",
        b"\xa11",
        b"\xc3",
        b"\x91\x01",
    ] {
        violation(script, &[b"\x93\x46", number, b"\x80"].concat());
    }
    violation(script, b"\x93\xcb\x40\x51\x80\0\0\0\0\0\x01\x80");
    violation(script, b"\x93\xc4\x01\x46\x01\x80");
    violation(script, b"\x95\x08\x30\x01\x80\xa1e");
}

fn forms(script: &mut Script) {
    script.heading("MessagePack: strings, arrays and maps of every form; what is none of them");
    let none = r#"mp[8,48,1,{},"wamp.error.no_such_procedure"]"#;
    for text in [b"\xa1p" as &[u8], b"\xd9\x01p", b"\xda\x00\x01p", b"\xdb\x00\x00\x00\x01p"] {
        no_violation(script, &[b"\x94\x30\x01\x80", text].concat()).says(none);
    }
    for map in [b"\x80" as &[u8], b"\xde\x00\x00", b"\xdf\x00\x00\x00\x00", b"\x81\xa1x\xc0"] {
        no_violation(script, &[b"\x94\x30\x01", map, b"\xa1p"].concat()).says(none);
        no_violation(script, &[b"\x96\x30\x01\x80\xa1p\x90", map].concat()).says(none);
    }
    for list in [b"\x90" as &[u8], b"\xdc\x00\x00", b"\xdd\x00\x00\x00\x00", b"\xdc\x00\x01\xc0"] {
        no_violation(script, &[b"\x95\x30\x01\x80\xa1p", list].concat()).says(none);
    }
    for outer in [b"\x94" as &[u8], b"\xdc\x00\x04", b"\xdd\x00\x00\x00\x04"] {
        no_violation(script, &[outer, b"\x30\x01\x80\xa1p"].concat()).says(none);
    }
    for other in [b"\xc4\x01p" as &[u8], b"\xd4\x00p", b"\xc0"] {
        violation(script, &[b"\x94\x30\x01\x80", other].concat());
        violation(script, &[b"\x94\x30\x01", other, b"\xa1p"].concat());
        violation(script, &[b"\x95\x30\x01\x80\xa1p", other].concat());
        violation(script, &[b"\x96\x30\x01\x80\xa1p\x90", other].concat());
    }
    script.heading("MessagePack: a payload of every other form is read");
    for value in [
        b"\xc4\x00" as &[u8],
        b"\xc5\x00\x01\xff",
        b"\xc6\x00\x00\x00\x01\xc1",
        b"\xc7\x00\x05",
        b"\xc8\x00\x01\x05\xff",
        b"\xc9\x00\x00\x00\x01\x05\xff",
        b"\xca\xff\xff\xff\xff",
        b"\xcb\xff\xff\xff\xff\xff\xff\xff\xff",
        b"\xd4\x00\xc1",
        b"\xd5\x00\xc1\xc1",
        b"\xd6\x00\xc1\xc1\xc1\xc1",
        b"\xd7\x00\xc1\xc1\xc1\xc1\xc1\xc1\xc1\xc1",
        b"\xd8\x00\xc1\xc1\xc1\xc1\xc1\xc1\xc1\xc1\xc1\xc1\xc1\xc1\xc1\xc1\xc1\xc1",
    ] {
        no_violation(script, &[b"\x94\x46\x01\x80\x91", value].concat()).is_silent();
        no_violation(script, &[b"\x95\x46\x01\x80\x90\x81", value, b"\xc0"].concat()).is_silent();
        violation(script, &[b"\x94\x46\x01\x80\x91", &value[..value.len() - 1]].concat());
    }
}

fn unformed(script: &mut Script) {
    script.heading("MessagePack: no byte, hex C1, cut and left-over bytes; seven elements and eight");
    violation(script, b"");
    violation(script, b"\xc1");
    violation(script, b"\x91\xc1");
    violation(script, b"\x90");
    violation(script, b"\x80");
    violation(script, b"\x06");
    violation(script, b"\x94\x46\x01\x80\x91\xc1");
    let error = b"\x97\x08\x44\x01\x80\xa3e.f\x91\xc0\x81\xa1k\x01";
    no_violation(script, error).is_silent();
    for cut in 1..error.len() {
        violation(script, &error[..cut]);
    }
    for left in [b"\xc0" as &[u8], b"\x00", b"\xc1", b"\x90", b"\x97"] {
        violation(script, &[&error[..], left].concat());
    }
    for outer in [b"\xdc\x00\x07" as &[u8], b"\xdd\x00\x00\x00\x07"] {
        no_violation(script, &[outer, &error[1..]].concat()).is_silent();
    }
    for outer in
        [b"\x98" as &[u8], b"\xdc\x00\x08", b"\xdd\x00\x00\x00\x08", b"\xdd\xff\xff\xff\xff", b"\x96"]
    {
        violation(script, &[outer, &error[1..], b"\xc0"].concat());
    }
}

fn texts(script: &mut Script) {
    script.heading("MessagePack: a str anywhere is UTF-8; bin, ext and float are not looked at");
    for (text, is_good) in [
        (b"\xa2\xc3\xa9" as &[u8], true),
        (b"\xa3\xed\x9f\xbf", true),
        (b"\xa4\xf4\x8f\xbf\xbf", true),
        (b"\xa1\xff", false),
        (b"\xa1\xc3", false),
        (b"\xd9\x02\xc0\xaf", false),
        (b"\xda\x00\x03\xed\xa0\x80", false),
        (b"\xa4\xf4\x90\x80\x80", false),
    ] {
        for (before, after) in [
            (b"\x93\x46\x01\x81\xa1a" as &[u8], b"" as &[u8]),
            (b"\x94\x46\x01\x80\x91", b""),
            (b"\x95\x46\x01\x80\x90\x81\x91", b"\xc0"),
        ] {
            let bytes = [before, text, after].concat();
            if is_good {
                no_violation(script, &bytes).is_no_violation();
            } else {
                violation(script, &bytes);
            }
        }
    }
    violation(script, b"\x93\x06\x80\xa1\xff");
    violation(script, b"\x93\x06\x81\xa1\xff\xc0\xa0");
    no_violation(script, b"\x94\x46\x01\x80\x92\xc4\x01\xff\xd4\xff\xff").is_silent();
}

fn depths(script: &mut Script) {
    script.heading("MessagePack: depth 8 and 9, in values and in keys");
    let levels: [(&[u8], &[u8]); 5] = [
        (b"\x91", b""),
        (b"\xdd\x00\x00\x00\x01", b""),
        (b"\x81\xa1k", b""),
        (b"\x81", b"\xc0"),
        (b"\x92\xc0", b""),
    ];
    for (open, close) in levels {
        let nested = |depth: usize| {
            // The outer array, the list, so many levels, and the innermost value.
            let (open, close) = (open.repeat(depth - 3), close.repeat(depth - 3));
            [b"\x94\x46\x01\x80\x91", &*open, b"\x80", &*close].concat()
        };
        no_violation(script, &nested(8)).is_silent();
        violation(script, &nested(9));
    }
}

fn lengths(script: &mut Script) {
    script.heading("MessagePack: messages of 2,048 and 2,049 bytes");
    let yielded = |length: usize| {
        let text = vec![b'y'; length - 8];
        [b"\x94\x46\x01\x80\x91\xda", &(text.len() as u16).to_be_bytes()[..], &text].concat()
    };
    no_violation(script, &yielded(2048)).is_silent();
    violation(script, &yielded(2049));
}

fn keys(script: &mut Script) {
    script.heading(
        "MessagePack: two equal str keys, whatever their forms; keys that are no str are not compared",
    );
    let forms: [&[u8]; 4] = [b"\xa1k", b"\xd9\x01k", b"\xda\x00\x01k", b"\xdb\x00\x00\x00\x01k"];
    for (one, other) in forms.iter().zip(forms.iter().cycle().skip(1)).chain(forms.iter().zip(&forms)) {
        let twins = [b"\x82", *one, b"\x00", other, b"\x01"].concat();
        violation(script, &[b"\x95\x46\x01\x80\x90", &*twins].concat());
    }
    for before in [b"\x93\x46\x01" as &[u8], b"\x94\x46\x01\x80\x91", b"\x94\x46\x01\x80\x91\x91"] {
        violation(script, &[before, b"\x82\xa1k\x00\xd9\x01k\x01"].concat());
        no_violation(script, &[before, b"\x82\xa1k\x00\xa1l\x01"].concat()).is_silent();
    }
    for twins in [
        b"\x82\xa1k\x00\xc4\x01k\x01" as &[u8],
        b"\x82\xc4\x01k\x00\xc4\x01k\x01",
        b"\x83\x01\x00\x01\x00\xcc\x01\x00",
        b"\x82\xc0\x00\xc0\x00",
        b"\x82\x90\x00\x90\x00",
        b"\x82\xa1k\x81\xa1k\x00\xa1l\x00",
    ] {
        no_violation(script, &[b"\x95\x46\x01\x80\x90", twins].concat()).is_silent();
    }
    violation(script, b"\x95\x46\x01\x80\x90\x81\x82\xa1k\x00\xa1k\x00\xc0");
}

fn options(script: &mut Script) {
    script.heading("MessagePack: match and acknowledge; keys that are no str are unknown");
    for (options, is_known) in [
        (b"\x80" as &[u8], true),
        (b"\x81\xa5match\xa6prefix", true),
        (b"\x81\xd9\x05match\xda\x00\x08wildcard", true),
        (b"\x82\x01\x91\xc0\xa5match\xa5exact", true),
        (b"\x81\xc4\x05match\xc0", true),
        (b"\x82\xc0\xa5match\xc0\xc0", true),
        (b"\x81\xa5match\xa5Exact", false),
        (b"\x81\xa5match\xc4\x06prefix", false),
        (b"\x81\xa5match\xabpre\\u0066ix", false),
        (b"\x81\xa5match\xc0", false),
        (b"\x81\xa5match\x00", false),
    ] {
        let bytes = [b"\x94\x20\x01", options, b"\xa1a"].concat();
        let error = r#"mp[8,32,1,{},"wamp.error.invalid_argument"]"#;
        no_violation(script, &bytes).says(if is_known { "mp[33,1,1]" } else { error });
    }
    no_violation(script, b"\x94\x40\x01\x81\xa5match\xa6prefix\xa2a.").says("mp[65,1,1]");
    let error = r#"mp[8,64,1,{},"wamp.error.invalid_argument"]"#;
    no_violation(script, b"\x94\x40\x01\x81\xa5match\xc4\x06prefix\xa1a").says(error);
    for (options, is_true) in [
        (b"\x81\xabacknowledge\xc3" as &[u8], true),
        (b"\x82\xc0\xc0\xd9\x0backnowledge\xc3", true),
        (b"\x81\xabacknowledge\xc2", false),
        (b"\x81\xabacknowledge\x01", false),
        (b"\x81\xabacknowledge\xa4true", false),
        (b"\x81\xc4\x0backnowledge\xc3", false),
    ] {
        let outcome = no_violation(script, &[b"\x94\x10\x01", options, b"\xa1a"].concat());
        if is_true {
            outcome.says("mp[17,1,4711]");
        } else {
            outcome.is_silent();
        }
    }
}

fn uris(script: &mut Script) {
    script.heading("MessagePack: a str is its bytes: nothing is undone, and the URI rule reads them");
    for (text, is_good) in [
        ("a\\u002e", true),
        ("a\\\"/é", true),
        (&"t".repeat(128), true),
        (&"t".repeat(129), false),
        ("a\n", false),
        ("a b", false),
        ("a#", false),
        ("a.", false),
        ("", false),
    ] {
        let quoted = format!("\"{}\"", text.replace('\\', "\\\\").replace('"', "\\\"").replace('\n', "\\n"));
        let answer = if is_good { "wamp.error.no_such_procedure" } else { "wamp.error.invalid_uri" };
        no_violation(script, &packed(&format!("[48,1,{{}},{quoted}]")))
            .says(&format!(r#"mp[8,48,1,{{}},"{answer}"]"#));
        if text.len() > 8 {
            continue;
        }
        let error = packed(&format!("[8,68,1,{{}},{quoted}]"));
        if is_good {
            no_violation(script, &error).is_silent();
        } else {
            violation(script, &error);
        }
    }
    no_violation(script, &packed(r#"[64,1,{},"wamp.x"]"#)).says(r#"mp[8,64,1,{},"wamp.error.invalid_uri"]"#);
    script.heading("MessagePack: a row of one format serves both");
    open(script, &[MsgPack, Json]);
    script.bytes(0, b"\x94\x20\x01\x80\xa5a\\\"\xc3\xa9").says("mp[33,1,1]");
    script.send(1, r#"[32,1,{},"a\\\"\u00e9"]"#).says("[33,1,1]");
    script.send(1, r#"[16,2,{},"a\\\"\u00e9"]"#).sends(&[(0, "mp[36,1,4711,{}]")]);
}

fn written(script: &mut Script) {
    script.heading("MessagePack: numbers and texts go out in the shortest form");
    for number in [1, 127, 128, 255, 256, 65535, 65536, (1 << 32) - 1, 1 << 32, LAST] {
        alone(script, number - 1);
        script.poke_number(Table::Subscriptions.counter(), number - 1);
        let (first, answer) = (&integer_forms(number)[0], format!("mp[33,{number},{number}]"));
        script.bytes(0, &[b"\x94\x20", &**first, b"\x80\xa1t"].concat()).says(&answer);
    }
    open(script, &[Json, MsgPack]);
    script.say(1, r#"[64,1,{"match":"prefix"},"p"]"#).says("mp[65,1,1]");
    script.say(1, r#"[32,2,{"match":"prefix"},"p"]"#).says("mp[33,2,1]");
    for (turn, length) in (0..).zip([31, 32, 128]) {
        let uri = format!("p{}", "q".repeat(length - 1));
        let invocation = format!(r#"mp[68,{},1,{{"procedure":"{uri}"}}]"#, 2 * turn + 1);
        script.say(0, &format!(r#"[48,{},{{}},"{uri}"]"#, 2 * turn + 1)).sends(&[(1, &invocation)]);
        let event = format!(r#"mp[36,1,4711,{{"topic":"{uri}"}}]"#);
        script.say(0, &format!(r#"[16,{},{{}},"{uri}"]"#, 2 * turn + 2)).sends(&[(1, &event)]);
        script.say(1, &format!("[48,{},{{}},\"p\"]", 3 + turn)).says("mp[68,");
        let error = format!(r#"mp[8,48,{},{{}},"{uri}"]"#, 3 + turn);
        script.say(1, &format!(r#"[8,68,{},{{}},"{uri}"]"#, 2 * turn + 2)).sends(&[(1, &error)]);
    }
    every_message(script);
}

fn every_message(script: &mut Script) {
    script.heading("MessagePack: every message that is sent, and to whom");
    for [one, other] in [FORMATS[1], FORMATS[2]] {
        let told = |format: Format, text: &str| match format {
            Json => text.to_string(),
            MsgPack => format!("mp{text}"),
        };
        open(script, &[one, other]);
        for (slot, text, to, answer) in [
            (0, r#"[32,1,{"match":"prefix"},"t"]"#, 0, "[33,1,1]"),
            (0, r#"[64,2,{"match":"wildcard"},"p."]"#, 0, "[65,2,1]"),
            (
                0,
                r#"[64,3,{"match":"wildcard"},"p."]"#,
                0,
                r#"[8,64,3,{},"wamp.error.procedure_already_exists"]"#,
            ),
            (1, r#"[16,1,{},"t\"",[1,"x"],{"k":[]}]"#, 0, r#"[36,1,4711,{"topic":"t\""},[1,"x"],{"k":[]}]"#),
            (1, r#"[48,2,{},"p.q",[null,-1]]"#, 0, r#"[68,1,1,{"procedure":"p.q"},[null,-1]]"#),
            (0, r#"[70,1,{},[],{"a":true}]"#, 1, r#"[50,2,{},[],{"a":true}]"#),
            (1, r#"[48,3,{},"p.q"]"#, 0, r#"[68,2,1,{"procedure":"p.q"}]"#),
            (0, r#"[8,68,2,{},"e.\\f",["x"]]"#, 1, r#"[8,48,3,{},"e.\\f",["x"]]"#),
            (0, "[34,4,1]", 0, "[35,4]"),
            (0, "[66,5,1]", 0, "[67,5]"),
            (0, "[34,6,1]", 0, r#"[8,34,6,{},"wamp.error.no_such_subscription"]"#),
        ] {
            let format = if to == 0 { one } else { other };
            script.say(slot, text).sends(&[(to, &told(format, answer))]);
        }
    }
}

fn as_it_came(script: &mut Script) {
    script.heading("MessagePack: within a format a payload goes as it came, longer forms and all");
    let list = b"\xdc\x00\x05\xd0\x05\xca\0\0\0\0\xc4\x01\xff\xd4\x00\xc1\xde\x00\x01\xda\x00\x01k\xc0";
    let dict = b"\x82\xc4\x01k\xcf\0\0\0\0\0\0\0\x07\x91\x90\xc0";
    let with = |before: &[u8]| [before, &list[..], dict].concat();
    pair(script, FORMATS[3]);
    script.tight(|s| s.bytes(0, &with(b"\x96\x30\x01\x80\xa1p"))).says("mp");
    script.tight(|s| s.bytes(0, &with(b"\x96\x10\x02\x80\xa1t"))).says("mp");
    script.tight(|s| s.bytes(1, &with(b"\x95\x46\x01\x80"))).says("mp");
    pair(script, FORMATS[0]);
    let list = r#"[ -0, 1.50e3 ,"\ud800\/",99999999999999999999,{"\udc00":1}]"#;
    script.send(0, &format!("[48,1,{{}},\"p\",{list}]")).says(&format!("[68,1,1,{{}},{list}]"));
}

/// Payloads of JSON, and what they are converted to and back.
const CONVERTED: [(&str, &str); 12] = [
    ("[]", "[]"),
    ("[ null , true,false ]", "[null,true,false]"),
    ("[-0,0]", "[0,0]"),
    ("[127,128,255,256,65535,65536]", "[127,128,255,256,65535,65536]"),
    ("[4294967295,4294967296,9007199254740993]", "[4294967295,4294967296,9007199254740993]"),
    ("[9223372036854775807,9223372036854775808]", "[9223372036854775807,9223372036854775808]"),
    ("[18446744073709551615,-9223372036854775808]", "[18446744073709551615,-9223372036854775808]"),
    ("[-1,-32,-33,-128,-129,-32768,-32769]", "[-1,-32,-33,-128,-129,-32768,-32769]"),
    ("[-2147483648,-2147483649]", "[-2147483648,-2147483649]"),
    (r#"["\u0061\/\n\u001F\u007f\"\\\ud834\udd1e"]"#, "[\"a/\\u000a\\u001f\u{7f}\\\"\\\\\u{1d11e}\"]"),
    (r#"[[[[[[[]]]]]],[{"":{}}]]"#, r#"[[[[[[[]]]]]],[{"":{}}]]"#),
    (r#"[],{ "b" : 1 , "a" : [ "é" ] }"#, r#"[],{"b":1,"a":["é"]}"#),
];

fn converted(script: &mut Script) {
    script.heading("MessagePack: a payload is converted, there and back");
    pair(script, FORMATS[1]);
    for (k, (came, goes)) in (1..).zip(CONVERTED) {
        let invocation = format!("mp[68,{k},1,{{}},{goes}]");
        script.say(0, &format!("[48,{k},{{}},\"p\",{came}]")).sends(&[(1, &invocation)]);
        let result = format!("[50,{k},{{}},{goes}]");
        script.say(1, &format!("[70,{k},{{}},{goes}]")).sends(&[(0, &result)]);
    }
    let event = r#"mp[36,1,4711,{},[0],{"a":"b"}]"#;
    script.tight(|s| s.say(0, r#"[16,13,{},"t",[ -0 ],{"\u0061":"b"}]"#)).sends(&[(1, event)]);
    script.heading("MessagePack: longer forms are converted by their value");
    pair(script, FORMATS[2]);
    for (k, (list, goes)) in (1..).zip([
        (b"\xdc\x00\x00" as &[u8], "[]"),
        (b"\xdd\x00\x00\x00\x01\xdf\x00\x00\x00\x01\xdb\x00\x00\x00\x01k\xda\x00\x01v", r#"[{"k":"v"}]"#),
        (b"\x94\xcc\x05\xd0\x05\xcf\0\0\0\0\0\0\0\x05\xd3\xff\xff\xff\xff\xff\xff\xff\xff", "[5,5,5,-1]"),
        (b"\x91\xa3\0\x7f\x1f", "[\"\\u0000\u{7f}\\u001f\"]"),
    ]) {
        let call = [&[0x95, 0x30, k, 0x80, 0xa1, b'p'], list].concat();
        script.tight(|s| s.bytes(0, &call)).sends(&[(1, &format!("[68,{k},1,{{}},{goes}]"))]);
    }
}

fn lengths_converted(script: &mut Script) {
    script.heading("MessagePack: texts of 31, 32, 255 and 256 bytes, lists and dicts of 15 and 16");
    let mut payloads: Vec<String> =
        [31, 32, 255, 256].map(|length| format!("[\"{}\"]", "x".repeat(length))).into();
    for count in [15, 16] {
        let members: Vec<_> = (b'a'..).take(count).map(|key| format!("\"{}\":0", char::from(key))).collect();
        payloads.push(format!("[{}]", vec!["7"; count].join(",")));
        payloads.push(format!("[],{{{}}}", members.join(",")));
    }
    pair(script, FORMATS[1]);
    for (k, payload) in (1..).zip(payloads) {
        let invocation = format!("mp[68,{k},1,{{}},{payload}]");
        script.say(0, &format!("[48,{k},{{}},\"p\",{payload}]")).sends(&[(1, &invocation)]);
        let payload = if k == 3 { "[]" } else { &payload };
        let result = format!("[50,{k},{{}},{payload}]");
        script.say(1, &format!("[70,{k},{{}},{payload}]")).sends(&[(0, &result)]);
    }
    script.heading("MessagePack: a text of 40 bytes that takes 240 of JSON");
    pair(script, FORMATS[2]);
    let call = [b"\x95\x30\x01\x80\xa1p\x91\xd9\x28", &[0; 40][..]].concat();
    let invocation = format!("[68,1,1,{{}},[\"{}\"]]", "\\u0000".repeat(40));
    script.tight(|s| s.bytes(0, &call)).sends(&[(1, &invocation)]);
}

/// Payloads of each format that do not convert.
const STAYING: [(Format, &[u8]); 18] = [
    (Json, b"[1.0]"),
    (Json, b"[-0.0]"),
    (Json, b"[1e0]"),
    (Json, b"[1E+2]"),
    (Json, b"[18446744073709551616]"),
    (Json, b"[-9223372036854775809]"),
    (Json, br#"["\ud800"]"#),
    (Json, br#"["\udd1e\ud834"]"#),
    (Json, br#"[[{"\udc00":1}]]"#),
    (Json, br#"[],{"a":0.5}"#),
    (MsgPack, b"\x91\xca\0\0\0\0"),
    (MsgPack, b"\x91\xcb\0\0\0\0\0\0\0\0"),
    (MsgPack, b"\x91\xc4\0"),
    (MsgPack, b"\x91\xc7\0\0"),
    (MsgPack, b"\x91\xd4\0\0"),
    (MsgPack, b"\x91\x81\x01\x01"),
    (MsgPack, b"\x91\x81\x90\xc0"),
    (MsgPack, b"\x90\x81\xc4\x01k\x01"),
];

/// Sends the message, given in JSON without one, with that payload.
pub fn carry(script: &mut Script, slot: u64, format: Format, text: &str, payload: &[u8]) -> Outcome {
    match format {
        Json => {
            let payload = std::str::from_utf8(payload).expect("JSON");
            script.send(slot, &format!("{},{payload}]", &text[..text.len() - 1]))
        }
        MsgPack => {
            let mut bytes = [&*packed(text), payload].concat();
            bytes[0] += if payload[0] == 0x90 { 2 } else { 1 };
            script.bytes(slot, &bytes)
        }
    }
}

fn told(format: Format, request: u64, uri: &str) -> String {
    let mark = if format == MsgPack { "mp" } else { "" };
    format!("{mark}[8,48,{request},{{}},\"{uri}\"]")
}

const NOT_CONVERTIBLE: &str = "hub.error.not_convertible";

/// The payloads of a format that do not convert, with a number each.
fn staying(wanted: Format) -> impl Iterator<Item = (u64, &'static [u8])> {
    (1..).zip(STAYING.into_iter().filter(move |(format, _)| *format == wanted).map(|(_, payload)| payload))
}

fn calls_that_stay(script: &mut Script) {
    script.heading("MessagePack: a call that does not convert for its callee; nothing is held or issued");
    for format in [Json, MsgPack] {
        pair(script, [format, format.other()]);
        for (k, payload) in staying(format) {
            let stays = told(format, k, NOT_CONVERTIBLE);
            let call = format!(r#"[48,{k},{{}},"p"]"#);
            if k == 1 {
                script.tight(|s| carry(s, 0, format, &call, payload)).sends(&[(0, &stays)]);
            } else {
                carry(script, 0, format, &call, payload).sends(&[(0, &stays)]);
            }
        }
        pair(script, [format, format]);
        for (k, payload) in staying(format).take(4) {
            carry(script, 0, format, &format!(r#"[48,{k},{{}},"p"]"#), payload).reaches(&[1]);
        }
    }
    calls_in_order(script);
}

fn calls_in_order(script: &mut Script) {
    script.heading("MessagePack: not_convertible stands after no_such_procedure and before no_room");
    for (format, payload) in [STAYING[0], STAYING[12]] {
        pair(script, [format, format.other()]);
        carry(script, 0, format, r#"[48,1,{},"p."]"#, payload).says(&told(
            format,
            1,
            "wamp.error.invalid_uri",
        ));
        let none = told(format, 2, "wamp.error.no_such_procedure");
        carry(script, 0, format, r#"[48,2,{},"q"]"#, payload).says(&none);
        let invocations = layout::session(1) + layout::SESSION_INVOCATIONS;
        script.poke_number(invocations, LAST - 1);
        script.say(0, r#"[48,3,{},"p"]"#).reaches(&[1]);
        script.say(0, r#"[48,4,{},"p"]"#).says(&told(format, 4, "hub.error.no_room"));
        carry(script, 0, format, r#"[48,5,{},"p"]"#, payload).says(&told(format, 5, NOT_CONVERTIBLE));
        if format == Json {
            continue;
        }
        // The same with a full table: its rows are put into the state.
        let row = |number: u8| [0, 0, 0, 0, 0, 0, 0, 0, number, 1, 0, 0, 0, 0, 0, 0, 0, number];
        let rows: Vec<u8> = (1..=ROWS as u8).flat_map(row).collect();
        script.poke_number(invocations, 40);
        script.poke_number(layout::session(0) + layout::SESSION_REQUESTS, 40);
        script.poke(layout::call(0), &rows);
        script.say(0, r#"[48,41,{},"p"]"#).says(&told(format, 41, "hub.error.no_room"));
        carry(script, 0, format, r#"[48,42,{},"p"]"#, payload).says(&told(format, 42, NOT_CONVERTIBLE));
    }
}

fn answers_that_stay(script: &mut Script) {
    script.heading("MessagePack: an answer that does not convert for the caller; the call is freed");
    for format in [Json, MsgPack] {
        for error in [false, true] {
            pair(script, [format.other(), format]);
            let count = if error { 3 } else { STAYING.len() };
            for (k, payload) in staying(format).take(count) {
                let answer = if error { format!(r#"[8,68,{k},{{}},"e"]"#) } else { format!("[70,{k},{{}}]") };
                script.say(0, &format!(r#"[48,{k},{{}},"p"]"#)).reaches(&[1]);
                let stays = told(format.other(), k, NOT_CONVERTIBLE);
                if k > 1 {
                    carry(script, 1, format, &answer, payload).sends(&[(0, &stays)]);
                    continue;
                }
                script.tight(|s| carry(s, 1, format, &answer, payload)).sends(&[(0, &stays)]);
                carry(script, 1, format, &answer, payload).is_silent();
            }
        }
    }
}

fn events_that_stay(script: &mut Script) {
    script.heading(
        "MessagePack: an event passes over the members that it does not convert for; PUBLISHED stays",
    );
    for format in [Json, MsgPack] {
        let other = format.other();
        open(script, &[format, other, format, other, format]);
        for slot in 1..5 {
            script.say(slot, r#"[32,1,{},"t"]"#).is_no_violation();
        }
        for slot in [3, 4] {
            script.say(slot, r#"[32,2,{"match":"prefix"},"t"]"#).is_no_violation();
        }
        script.say(0, r#"[16,1,{"acknowledge":true},"t",[1]]"#).reaches(&[0, 1, 2, 3, 4, 3, 4]);
        let payload = staying(format).next().expect("a payload").1;
        let publish = r#"[16,2,{"acknowledge":true},"t"]"#;
        script.tight(|s| carry(s, 0, format, publish, payload)).reaches(&[0, 2, 4, 4]);
        for (k, payload) in staying(format).take(4) {
            carry(script, 0, format, &format!(r#"[16,{},{{}},"t"]"#, k + 2), payload).reaches(&[2, 4, 4]);
        }
        let next = 7;
        script.detach(2).is_silent();
        script.detach(4).is_silent();
        let publish = format!(r#"[16,{next},{{"acknowledge":true}},"t"]"#);
        carry(script, 0, format, &publish, payload).reaches(&[0]);
        carry(script, 0, format, &format!(r#"[16,{},{{}},"t"]"#, next + 1), payload).is_silent();
    }
}

fn ends(script: &mut Script) {
    script.heading("MessagePack: a session's end tells each caller in its own format");
    type End = fn(&mut Script) -> Outcome;
    let all: [(End, &[u8]); 4] = [
        (|s| s.bytes(1, b"\xc1"), &[1, 0, 2]),
        (|s| s.say(1, r#"[6,{},"r"]"#), &[1, 0, 2]),
        (|s| s.say(1, r#"[3,{},"r"]"#), &[0, 2]),
        (|s| s.detach(1), &[0, 2]),
    ];
    for (end, receivers) in all {
        open(script, &[Json, MsgPack, MsgPack]);
        script.say(1, r#"[64,1,{},"a"]"#).says("mp[65,1,1]");
        script.say(0, r#"[48,1,{},"a"]"#).says("mp[68,1,1,{}]");
        script.say(2, r#"[48,1,{},"a"]"#).says("mp[68,2,1,{}]");
        script.tight(end).reaches(receivers);
    }
}

fn rules(script: &mut Script) {
    script.heading("MessagePack: status bytes 4 and 5, and their neighbours 3 and 6");
    open(script, &[Json, MsgPack]);
    script.attach_msgpack(2).is_silent();
    script.say(1, r#"[32,1,{},"t"]"#).says("mp[33,1,1]");
    // A closed slot, an attached one, and open ones of either format.
    for (slot, status, broken) in [
        (7, 4, None),
        (7, 5, Some(2)),
        (7, 3, Some(0)),
        (7, 6, Some(0)),
        (2, 1, None),
        (2, 0, None),
        (2, 2, Some(2)),
        (2, 5, Some(2)),
        (1, 2, None),
        (1, 4, Some(1)),
        (1, 1, Some(1)),
        (1, 6, Some(0)),
        (0, 5, None),
        (0, 4, Some(1)),
        (0, 3, Some(0)),
    ] {
        poked(script, layout::session(slot), status, broken);
    }
    for field in [layout::SESSION_ID, layout::SESSION_REQUESTS, layout::SESSION_INVOCATIONS] {
        poked(script, layout::session(2) + field + 7, 1, Some(1));
    }
    poked(script, Table::Subscriptions.row(0) + layout::ROW_HOLDER, 0b110, Some(3));
}

/// The state breaks this rule, or none, with another byte at a place. The byte that stood there is put back.
fn poked(script: &mut Script, at: usize, byte: u8, broken: Option<usize>) {
    let stood = script.state[at];
    script.poke(at, &[byte]);
    assert_eq!(script.broken_rule(), broken, "{at} {byte}");
    match broken {
        Some(_) => script.attach_msgpack(6).refuses(1),
        None => {
            script.attach_msgpack(6).is_silent();
            script.detach(6).is_silent();
        }
    }
    script.poke(at, &[stood]);
}
