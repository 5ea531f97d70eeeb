//! The options of PUBLISH that choose an event's receivers: `exclude_me`, `exclude` and `eligible`, right and wrong, alone
//! and together, in either format; and the most messages that a step has.

use super::{msgpack, HELLO, LAST};
use crate::script::{packed, Outcome, Script};
use reference::format::Format::{Json, MsgPack};
use reference::layout::{self, Table};

/// The options in JSON.
pub fn all(script: &mut Script) {
    who_is_left(script);
    nobody(script);
    lists(script);
    wrong_values(script);
    wrong_entries(script);
    order(script);
    keys(script);
    room(script);
}

/// The options in MessagePack, and slots of both formats.
pub fn of_both_formats(script: &mut Script) {
    packed_booleans(script);
    packed_ids(script);
    packed_lists(script);
    packed_wrong(script);
    across_formats(script);
    most_messages(script);
}

const ARGUMENT: &str = "wamp.error.invalid_argument";

/// An empty hub with open sessions of these IDs on the first slots.
fn open(script: &mut Script, ids: &[u64]) {
    script.empty();
    for (slot, &id) in (0..).zip(ids) {
        script.attach(slot).is_silent();
        script.lent(slot, id, HELLO).says("[2,");
    }
}

/// The number of the slot's next request.
fn next(script: &Script, slot: u64) -> u64 {
    layout::number(&script.state, layout::session(slot as usize) + layout::SESSION_REQUESTS) + 1
}

/// A PUBLISH in JSON with these options, written as the members of a dict.
fn publish(script: &mut Script, slot: u64, options: &str, topic: &str) -> Outcome {
    let request = next(script, slot);
    script.send(slot, &format!(r#"[16,{request},{{{options}}},"{topic}"]"#))
}

/// Five sessions, each of another ID than its slot's number. Row 0 has them all as its members, row 1 the slots 0 and
/// 2, row 2 the slots 1 and 3. Slot 1, with the ID 5, is the publisher.
fn five(script: &mut Script) {
    open(script, &[3, 5, 1, LAST, 2]);
    for slot in 0..5 {
        script.send(slot, r#"[32,1,{},"a.b.c"]"#).says("[33,1,1]");
    }
    for (slot, policy, text) in
        [(0, "prefix", "a.b"), (2, "prefix", "a.b"), (1, "wildcard", "a..c"), (3, "wildcard", "a..c")]
    {
        script.send(slot, &format!(r#"[32,2,{{"match":"{policy}"}},"{text}"]"#)).says("[33,2,");
    }
}

fn who_is_left(script: &mut Script) {
    script.heading(
        "exclude_me, exclude, eligible: who is left, by rows of different members; IDs are no slots",
    );
    five(script);
    let plain: &[u8] = &[0, 2, 3, 4, 0, 2, 3];
    let cases: [(&str, &[u8]); 22] = [
        ("", plain),
        (r#""exclude_me":true"#, plain),
        (r#""exclude_me":false"#, &[0, 1, 2, 3, 4, 0, 2, 1, 3]),
        (r#""exclude":[]"#, plain),
        (r#""exclude":[3]"#, &[2, 3, 4, 2, 3]),
        (r#""exclude":[1]"#, &[0, 3, 4, 0, 3]),
        (r#""exclude":[2]"#, &[0, 2, 3, 0, 2, 3]),
        (r#""exclude":[5]"#, plain),
        (r#""exclude":[4,6,100]"#, plain),
        (r#""exclude":[9007199254740992,3]"#, &[2, 4, 2]),
        (r#""eligible":[]"#, &[]),
        (r#""eligible":[3]"#, &[0, 0]),
        (r#""eligible":[5]"#, &[]),
        (r#""eligible":[4,6,100]"#, &[]),
        (r#""eligible":[1,9007199254740992]"#, &[2, 3, 2, 3]),
        (r#""exclude_me":false,"eligible":[5]"#, &[1, 1]),
        (r#""exclude_me":false,"eligible":[2,3]"#, &[0, 4, 0]),
        (r#""exclude_me":false,"exclude":[5]"#, plain),
        (r#""exclude_me":true,"eligible":[5,3]"#, &[0, 0]),
        (r#""exclude":[3],"eligible":[3,1]"#, &[2, 2]),
        (r#""exclude":[1,2],"exclude_me":false,"eligible":[1,5,3]"#, &[0, 1, 0, 1]),
        (r#""eligible":[1,5],"exclude_me":false,"exclude":[5,5]"#, &[2, 2]),
    ];
    for (options, receivers) in cases {
        publish(script, 1, options, "a.b.c").reaches(receivers);
    }
    let acknowledged = r#""acknowledge":true,"exclude_me":false,"exclude":[1],"eligible":[5,1,2]"#;
    publish(script, 1, acknowledged, "a.b.c").reaches(&[1, 1, 4, 1]);
    publish(script, 1, r#""exclude_me":false,"exclude":[1]"#, "a.b").reaches(&[0]);
    script.heading("exclude_me: a publisher that is no member");
    publish(script, 4, r#""exclude_me":false"#, "a.x.c").reaches(&[1, 3]);
    publish(script, 4, r#""exclude_me":false,"eligible":[2,5]"#, "a.x.c").reaches(&[1]);
}

fn nobody(script: &mut Script) {
    script
        .heading("exclude, eligible: an ended session's ID is nobody's; the slot's next session has another");
    five(script);
    publish(script, 1, r#""eligible":[3,1]"#, "a.b.c").reaches(&[0, 2, 0, 2]);
    script.send(0, r#"[6,{},"r"]"#).says("[6,");
    script.lent(0, 8, HELLO).says("[2,8,");
    script.send(0, r#"[32,1,{},"a.b.c"]"#).says("[33,1,1]");
    publish(script, 1, r#""eligible":[3,1]"#, "a.b.c").reaches(&[2, 2]);
    publish(script, 1, r#""exclude":[3,1]"#, "a.b.c").reaches(&[0, 3, 4, 3]);
    script.attach(5).is_silent();
    script.lent(5, 3, HELLO).says("[2,3,");
    script.send(5, r#"[32,1,{},"a.b.c"]"#).says("[33,1,1]");
    publish(script, 1, r#""eligible":[3,1]"#, "a.b.c").reaches(&[2, 5, 2]);
}

/// An empty hub but for a session, of the ID 100, that is the one member of `t`. It publishes to itself.
fn itself(script: &mut Script) {
    open(script, &[100]);
    script.send(0, r#"[32,1,{},"t"]"#).says("[33,1,1]");
}

fn lists(script: &mut Script) {
    script.heading("exclude, eligible: 0 to 8 IDs and 9, equal ones counted each; 1 and 2^53; white space");
    itself(script);
    let with = |name: &str, list: &str| format!(r#""acknowledge":true,"exclude_me":false,"{name}":{list}"#);
    for (list, names_it) in [
        ("[]", false),
        ("[ ]", false),
        ("[100]", true),
        ("[100,100]", true),
        ("[1,9007199254740992]", false),
        ("[9007199254740992,1,100]", true),
        ("[ 100 , 7 ]", true),
        ("[\t7\r,\t100 ]", true),
        ("[1,2,3,4,5,6,7,8]", false),
        ("[1,2,3,4,5,6,7,100]", true),
        ("[100,100,100,100,100,100,100,100]", true),
        ("[10,1000,1001,99,101,200,4711]", false),
    ] {
        let both: &[u8] = &[0, 0];
        publish(script, 0, &with("exclude", list), "t").reaches(if names_it { &[0] } else { both });
        publish(script, 0, &with("eligible", list), "t").reaches(if names_it { both } else { &[0] });
    }
    for list in ["[1,2,3,4,5,6,7,8,9]", "[100,100,100,100,100,100,100,100,100]", "[1,2,3,4,5,6,7,8,null]"] {
        publish(script, 0, &with("exclude", list), "t").errs(ARGUMENT);
        publish(script, 0, &with("eligible", list), "t").errs(ARGUMENT);
    }
    let lines = format!("[16,{},{{\"exclude_me\":false,\"eligible\":[\n100\n]\n}},\"t\"]", next(script, 0));
    script.bytes(0, lines.as_bytes()).says("[36,1,");
}

fn wrong_values(script: &mut Script) {
    script
        .heading("exclude_me, exclude, eligible: a value of another kind; told only if acknowledge is true");
    itself(script);
    for (name, values) in [
        ("exclude_me", [r#""false""#, "[false]", "[]"]),
        ("exclude", ["false", r#""100""#, r#"{"100":100}"#]),
        ("eligible", ["true", r#""[100]""#, r#"{"100":100}"#]),
    ] {
        for value in values.into_iter().chain(["null", "0", "1", "100", "1.0", r#""""#, "{}"]) {
            publish(script, 0, &format!(r#""acknowledge":true,"{name}":{value}"#), "t").errs(ARGUMENT);
            publish(script, 0, &format!(r#""{name}":{value},"acknowledge":1"#), "t").is_silent();
        }
    }
    publish(script, 0, r#""exclude_me":true"#, "t").is_silent();
    publish(script, 0, r#""exclude_me":false"#, "t").says("[36,1,");
}

fn wrong_entries(script: &mut Script) {
    script.heading("exclude, eligible: an entry that is no ID");
    itself(script);
    for entry in [
        "0",
        "9007199254740993",
        "18446744073709551617",
        "1.0",
        "100.0",
        "1e0",
        "1E2",
        "-1",
        "-0",
        r#""1""#,
        r#""100""#,
        "null",
        "true",
        "[100]",
        "[]",
        "{}",
    ] {
        publish(script, 0, &format!(r#""acknowledge":true,"exclude":[{entry}]"#), "t").errs(ARGUMENT);
        let eligible = format!(r#""acknowledge":true,"exclude_me":false,"eligible":[100,{entry}]"#);
        publish(script, 0, &eligible, "t").errs(ARGUMENT);
        publish(script, 0, &format!(r#""exclude_me":false,"eligible":[{entry},100]"#), "t").is_silent();
    }
    script.heading("exclude, eligible: a number that is none is a violation");
    for entry in ["01", "+1", "0x1", "1.", ""] {
        itself(script);
        publish(script, 0, &format!(r#""exclude":[1,{entry}]"#), "t").violates();
    }
}

fn order(script: &mut Script) {
    script.heading("a wrong option comes before a bad topic, and both advance the request number");
    five(script);
    for (options, topic, error) in [
        (r#""exclude":0"#, "a.b.c", ARGUMENT),
        (r#""exclude":0"#, "a..c", ARGUMENT),
        (r#""exclude_me":null"#, "", ARGUMENT),
        (r#""eligible":[0]"#, "wamp.c", ARGUMENT),
        (r#""exclude":[3],"eligible":[0]"#, "a.b.c", ARGUMENT),
        (r#""exclude_me":false,"exclude":[3],"eligible":[1]"#, "a..c", "wamp.error.invalid_uri"),
        (r#""eligible":[]"#, "wamp.c", "wamp.error.invalid_uri"),
    ] {
        let before = next(script, 1);
        publish(script, 1, &format!(r#"{options},"acknowledge":true"#), topic).errs(error);
        publish(script, 1, options, topic).is_silent();
        assert_eq!(next(script, 1), before + 2);
    }
    publish(script, 1, r#""eligible":[3]"#, "a.b.c").reaches(&[0, 0]);
    script.heading("a wrong option does not hide a violation: the request number, the payload");
    let request = next(script, 1);
    script.send(2, r#"[16,9,{"exclude":0},"a.b.c"]"#).violates();
    script.send(1, &format!(r#"[16,{request},{{"exclude":0}},"a.b.c",{{}}]"#)).violates();
}

fn keys(script: &mut Script) {
    script.heading("exclude_me, exclude, eligible: keys are compared undone, and whole");
    itself(script);
    for options in [
        r#""exclud\u0065_me":false"#,
        r#""\u0065xclude_me":false,"\u0065ligible":[100]"#,
        r#""exclude\u005fme":false,"exclud\u0065":[1]"#,
    ] {
        publish(script, 0, options, "t").says("[36,1,");
    }
    for options in [
        r#""exclude_me":false,"exclud\u0065":[100]"#,
        r#""exclude_me":false,"\u0065ligibl\u0065":[]"#,
        r#""exclude_m\\u0065":false"#,
        r#""Exclude_me":false"#,
        r#""exclude_me ":false"#,
        r#""x":{"exclude_me":false}"#,
    ] {
        publish(script, 0, options, "t").is_silent();
    }
    for key in [r"exclud\u0065", r"eligibl\u0065", r"exclude_m\u0065"] {
        publish(script, 0, &format!(r#""acknowledge":true,"{key}":0"#), "t").errs(ARGUMENT);
    }
    let unknown = r#""acknowledge":true,"exclude_authid":0,"eligible_authrole":0,"exclud":0,"eligibles":0"#;
    publish(script, 0, unknown, "t").says("[17,");
    let request = next(script, 0);
    script.send(0, &format!(r#"[32,{request},{{"exclude":0,"eligible":null}},"u"]"#)).says("[33,");
    violations(script);
}

fn violations(script: &mut Script) {
    script.heading("exclude_me, exclude, eligible: equal keys, depth 9 and a lone half are violations");
    for (options, is_read) in [
        (r#""exclude":[],"exclude":[]"#, false),
        (r#""exclude":[],"exclud\u0065":[]"#, false),
        (r#""eligible":[{"a":0,"a":0}]"#, false),
        (r#""eligible":[{"a":0}]"#, true),
        (r#""exclude":[[[[[[[]]]]]]]"#, false),
        (r#""exclude":[[[[[[]]]]]]"#, true),
        (r#""exclude\ud800":[]"#, false),
        (r#""exclude":["\ud800"]"#, true),
    ] {
        itself(script);
        let outcome = publish(script, 0, options, "t");
        if is_read {
            outcome.is_silent();
        } else {
            outcome.violates();
        }
    }
}

fn room(script: &mut Script) {
    script.heading("NO ROOM: events to those that the options leave, one byte short and just enough");
    five(script);
    for options in [
        r#""exclude_me":false"#,
        r#""exclude":[3],"acknowledge":true"#,
        r#""eligible":[5,3],"exclude_me":false"#,
        r#""eligible":[]"#,
        r#""acknowledge":true,"eligible":[0]"#,
    ] {
        script.tight(|s| publish(s, 1, options, "a.b.c")).is_no_violation();
    }
}

/// A PUBLISH in MessagePack of slot 0 with these options, the members of a map of so many.
fn publish_packed(script: &mut Script, count: u8, members: &[&[u8]]) -> Outcome {
    let request = packed(&next(script, 0).to_string());
    let options = [&[0x80 | count], &*members.concat()].concat();
    script.bytes(0, &[b"\x94\x10", &*request, &*options, b"\xa1t"].concat())
}

/// An empty hub but for a session of MessagePack, of the ID 100, that is the one member of `t`.
fn itself_packed(script: &mut Script) {
    msgpack::open(script, &[MsgPack]);
    script.say(0, r#"[32,1,{},"t"]"#).says("mp[33,1,1]");
}

const ERROR: &str = r#",{},"wamp.error.invalid_argument"]"#;

/// It was done, and was answered with the error of a wrong option, in MessagePack.
#[track_caller]
fn is_wrong(outcome: Outcome, request: u64) {
    outcome.sends(&[(0, &format!("mp[8,16,{request}{ERROR}"))]);
}

const ACKNOWLEDGE: &[u8] = b"\xabacknowledge\xc3";
const ME_TOO: &[u8] = b"\xaaexclude_me\xc2";

fn packed_booleans(script: &mut Script) {
    script.heading("MessagePack: exclude_me is hex C2 or C3; keys of every form of str, and of bin");
    itself_packed(script);
    for (member, is_sent) in [
        (b"\xaaexclude_me\xc2" as &[u8], true),
        (b"\xd9\x0aexclude_me\xc2", true),
        (b"\xda\x00\x0aexclude_me\xc2", true),
        (b"\xdb\x00\x00\x00\x0aexclude_me\xc2", true),
        (b"\xaaexclude_me\xc3", false),
        (b"\xc4\x0aexclude_me\xc2", false),
        (b"\xc4\x0aexclude_me\x00", false),
        (b"\x91\xaaexclude_me\xc2", false),
        (b"\xafexclud\\u0065_me\xc2", false),
    ] {
        let outcome = publish_packed(script, 1, &[member]);
        if is_sent {
            outcome.sends(&[(0, "mp[36,1,4711,{}]")]);
        } else {
            outcome.is_silent();
        }
    }
    for value in [
        b"\xc0" as &[u8],
        b"\x00",
        b"\x01",
        b"\xcc\xc2",
        b"\xa5false",
        b"\xc4\x01\xc2",
        b"\xd4\x00\xc2",
        b"\xca\x00\x00\x00\x00",
        b"\x90",
        b"\x91\xc2",
        b"\x80",
    ] {
        let request = next(script, 0);
        is_wrong(publish_packed(script, 2, &[ACKNOWLEDGE, b"\xaaexclude_me", value]), request);
        publish_packed(script, 1, &[b"\xaaexclude_me", value]).is_silent();
    }
}

fn packed_ids(script: &mut Script) {
    script.heading("MessagePack: an ID of exclude and eligible is an integer of any form");
    itself_packed(script);
    for id in [1, 127, 128, 256, 65536, 1 << 32, LAST] {
        script.poke_number(layout::SESSION_ID, id);
        let forms = msgpack::integer_forms(id);
        for form in &forms {
            publish_packed(script, 2, &[ME_TOO, b"\xa8eligible\x91", form]).reaches(&[0]);
            publish_packed(script, 2, &[ME_TOO, b"\xa7exclude\x92\x05", form]).is_silent();
        }
    }
    for number in [0, LAST + 1, u64::MAX] {
        for form in msgpack::integer_forms(number) {
            let request = next(script, 0);
            is_wrong(publish_packed(script, 2, &[ACKNOWLEDGE, b"\xa8eligible\x91", &form]), request);
        }
    }
}

fn packed_lists(script: &mut Script) {
    script.heading("MessagePack: exclude and eligible of each form of array; 8 IDs and 9");
    itself_packed(script);
    let heads = |count: u8| [vec![0x90 | count], vec![0xdc, 0, count], vec![0xdd, 0, 0, 0, count]];
    for (count, entries, names_it) in [
        (0, b"" as &[u8], false),
        (1, b"\x64", true),
        (8, b"\x01\x02\x03\x04\x05\x06\x07\x64", true),
        (8, b"\x01\x02\x03\x04\x05\x06\x07\x08", false),
        (8, b"\x64\x64\x64\x64\x64\x64\x64\x64", true),
    ] {
        for head in heads(count) {
            let outcome = publish_packed(script, 2, &[ME_TOO, b"\xa8eligible", &head, entries]);
            outcome.reaches(if names_it { &[0] } else { &[] });
            let outcome = publish_packed(script, 2, &[b"\xd9\x07exclude", &head, entries, ME_TOO]);
            outcome.reaches(if names_it { &[] } else { &[0] });
        }
    }
    for head in heads(9) {
        for key in [b"\xa8eligible" as &[u8], b"\xa7exclude"] {
            let request = next(script, 0);
            is_wrong(publish_packed(script, 2, &[key, &head, &[100; 9], ACKNOWLEDGE]), request);
        }
    }
}

fn packed_wrong(script: &mut Script) {
    script.heading("MessagePack: exclude and eligible of another kind, and entries that are no ID");
    itself_packed(script);
    for value in [
        b"\xc0" as &[u8],
        b"\x64",
        b"\xc3",
        b"\xa1\x64",
        b"\xc4\x02\x91\x64",
        b"\xd5\x00\x91\x64",
        b"\x81\x64\x64",
        b"\x80",
        b"\x91\xc0",
        b"\x91\xff",
        b"\x91\xd0\xff",
        b"\x91\xd3\xff\xff\xff\xff\xff\xff\xff\xff",
        b"\x91\xca\x3f\x80\x00\x00",
        b"\x91\xcb\x40\x59\x00\x00\x00\x00\x00\x00",
        b"\x91\xa3100",
        b"\x91\xc4\x01\x64",
        b"\x91\xd4\x00\x64",
        b"\x91\xc2",
        b"\x91\x91\x64",
        b"\x91\x90",
        b"\x92\x64\x00",
        b"\xdc\x00\x02\x00\x64",
    ] {
        let request = next(script, 0);
        is_wrong(publish_packed(script, 2, &[ACKNOWLEDGE, b"\xa7exclude", value]), request);
        publish_packed(script, 2, &[ME_TOO, b"\xa8eligible", value]).is_silent();
    }
    let request = packed(&next(script, 0).to_string());
    let topic = [b"\x94\x10", &*request, b"\x82", ACKNOWLEDGE, b"\xa7exclude\xc0\xa2t."].concat();
    script.bytes(0, &topic).says("mp[8,16,");
    publish_packed(script, 2, &[b"\xa8eligible\x91\x64", ME_TOO]).reaches(&[0]);
    script.heading("MessagePack: equal keys and depth 9 in these options are violations");
    publish_packed(script, 1, &[b"\xa8eligible\x91\x91\x91\x91\x91\x90"]).is_silent();
    publish_packed(script, 1, &[b"\xa8eligible\x91\x91\x91\x91\x91\x91\x90"]).violates_packed();
    itself_packed(script);
    publish_packed(script, 2, &[b"\xa7exclude\x90", b"\xd9\x07exclude\x90"]).violates_packed();
}

fn across_formats(script: &mut Script) {
    script.heading("MessagePack: who is left does not depend on formats; an event still passes over");
    for [one, other] in [[Json, MsgPack], [MsgPack, Json]] {
        msgpack::open(script, &[one, other, one, other]);
        for slot in 0..4 {
            script.say(slot, r#"[32,1,{},"t"]"#).is_no_violation();
        }
        script.say(2, r#"[32,2,{"match":"prefix"},"t"]"#).is_no_violation();
        let cases: [(u64, &str, &[u8]); 4] = [
            (2, r#""exclude_me":false"#, &[0, 1, 2, 3, 2]),
            (3, r#""exclude":[101]"#, &[2, 3, 2]),
            (4, r#""eligible":[102,101]"#, &[1, 2, 2]),
            (5, r#""exclude_me":false,"exclude":[101],"eligible":[103,101,100]"#, &[0, 3]),
        ];
        for (request, options, receivers) in cases {
            let publish = format!(r#"[16,{request},{{{options}}},"t",[1]]"#);
            script.say(0, &publish).reaches(receivers);
        }
        let publish = r#"[16,6,{"exclude_me":false,"exclude":[102],"acknowledge":true},"t"]"#;
        let payload: &[u8] = if one == Json { b"[1.5]" } else { b"\x91\xc4\x00" };
        msgpack::carry(script, 0, one, publish, payload).reaches(&[0, 0]);
    }
}

/// Rows that fit the topic `a.b.c.d.e`: one exact, its 9 prefixes, and 22 wildcards.
fn rows() -> Vec<(u8, String)> {
    let topic = "a.b.c.d.e";
    let mut rows = vec![(0, topic.to_string())];
    rows.extend((1..=topic.len()).map(|length| (1, topic[..length].to_string())));
    for empty in 0..22 {
        let one = |(k, component): (usize, &'static str)| if empty >> k & 1 == 1 { "" } else { component };
        let components: Vec<_> = topic.split('.').enumerate().map(one).collect();
        rows.push((2, components.join(".")));
    }
    rows
}

fn most_messages(script: &mut Script) {
    script.heading(
        "Output layout: an event to 8 members by each of 32 rows, 257 messages; one byte short and just enough",
    );
    msgpack::open(script, &[Json, MsgPack, Json, MsgPack, Json, MsgPack, Json, MsgPack]);
    for (row, (policy, text)) in rows().into_iter().enumerate() {
        let id = (row as u64 + 1).to_be_bytes();
        let bytes = [&id[..], &[policy, 0xff, text.len() as u8], text.as_bytes()].concat();
        script.poke(Table::Subscriptions.row(row), &bytes);
    }
    script.poke_number(Table::Subscriptions.counter(), 32);
    let by_rows = |slots: &[u8]| [&[2], &*slots.repeat(32)].concat();
    let publish = |request: u64, options: &str| {
        format!(r#"[16,{request},{{"acknowledge":true{options}}},"a.b.c.d.e"]"#)
    };
    let all = script.tight(|s| s.lent(2, 1, &publish(1, r#","exclude_me":false"#)));
    all.reaches(&by_rows(&[0, 1, 2, 3, 4, 5, 6, 7]));
    script.lent(2, 1, &publish(2, "")).reaches(&by_rows(&[0, 1, 3, 4, 5, 6, 7]));
    let eight = "[100,101,102,103,104,105,106,107]";
    let eligible = publish(3, &format!(r#","exclude_me":false,"eligible":{eight},"exclude":[103]"#));
    script.lent(2, 1, &eligible).reaches(&by_rows(&[0, 1, 2, 4, 5, 6, 7]));
    let excluded = publish(4, &format!(r#","exclude_me":false,"exclude":{eight}"#));
    script.lent(2, 1, &excluded).sends(&[(2, "[17,4,1]")]);
}
