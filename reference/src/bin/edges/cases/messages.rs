//! Reading a message: its length, its UTF-8 and JSON, depth, equal keys, IDs, message numbers and shapes.

use super::{alone, open, LAST};
use crate::script::{Outcome, Script};

pub fn all(script: &mut Script) {
    lengths(script);
    depths(script);
    bytes(script);
    keys(script);
    request_numbers(script);
    last_request_number(script);
    other_ids(script);
    message_numbers(script);
    shapes(script);
    payloads(script);
}

/// A message of one session alone is a violation.
#[track_caller]
fn violation(script: &mut Script, text: &str) {
    alone(script, 0);
    script.send(0, text).violates();
}

/// A message of one session alone is answered so.
#[track_caller]
fn taken(script: &mut Script, text: &str, start: &str) {
    alone(script, 0);
    script.send(0, text).says(start);
}

fn lengths(script: &mut Script) {
    script.heading("length: 0 and 1 byte, 2,048 and 2,049, by a payload and by white space at either end");
    violation(script, "");
    alone(script, 0);
    script.bytes(0, b"").violates();
    violation(script, "1");
    violation(script, "[");
    let begin = r#"[16,1,{"acknowledge":true},"t",[""#;
    let end = r#""]]"#;
    let filled = |length: usize| format!("{begin}{}{end}", "x".repeat(length - begin.len() - end.len()));
    taken(script, &filled(2048), "[17,1,");
    violation(script, &filled(2049));
    let hello = r#"[16,1,{"acknowledge":true},"t"]"#;
    let blank = |length: usize| " ".repeat(length - hello.len());
    taken(script, &format!("{}{hello}", blank(2048)), "[17,1,");
    violation(script, &format!("{}{hello}", blank(2049)));
    taken(script, &format!("{hello}{}", blank(2048)), "[17,1,");
    violation(script, &format!("{hello}{}", blank(2049)));
    script.heading("length: an event of a message of 2,048 bytes is longer");
    open(script, 2);
    script.send(0, r#"[32,1,{"match":"prefix"},"t"]"#).says("[33,1,1]");
    script.tight(|s| s.lent(1, LAST, &filled(2048))).says("[17,1,");
}

fn depths(script: &mut Script) {
    script.heading("depth: 8 and 9, the outer list being depth 1, by lists, by dicts and by both");
    let lists = |depth: usize| format!("{}{}", "[".repeat(depth), "]".repeat(depth));
    let dicts = |depth: usize| format!("{}{{}}{}", r#"{"k":"#.repeat(depth - 1), "}".repeat(depth - 1));
    let publish = |payload: &str| format!(r#"[16,1,{{"acknowledge":true}},"t",{payload}]"#);
    taken(script, &publish(&lists(7)), "[17,1,");
    violation(script, &publish(&lists(8)));
    taken(script, &publish(&format!("[],{}", dicts(7))), "[17,1,");
    violation(script, &publish(&format!("[],{}", dicts(8))));
    taken(script, &publish(&format!("[{}]", dicts(6))), "[17,1,");
    violation(script, &publish(&format!("[{}]", dicts(7))));
    script.heading("depth: in an option that is passed over");
    let option = |value: &str| format!(r#"[32,1,{{"x":{value}}},"t"]"#);
    taken(script, &option(&lists(6)), "[33,1,1]");
    violation(script, &option(&lists(7)));
    taken(script, &option(&dicts(6)), "[33,1,1]");
    violation(script, &option(&dicts(7)));
    script.heading("depth: many lists side by side are not deep");
    taken(script, &publish(&format!("[{}[]]", "[],".repeat(40))), "[17,1,");
}

fn bytes(script: &mut Script) {
    script.heading(
        "bytes: well-formed UTF-8, cut short, overlong, a surrogate; a byte order mark; white space",
    );
    let publish = |text: &[u8]| [br#"[16,1,{"acknowledge":true},"t",[""#, text, br#""]]"#].concat();
    for good in ["\u{e9}", "\u{20ac}", "\u{1d11e}", "\u{7f}", "\\u0000", "\\ud834\\udd1e"] {
        alone(script, 0);
        script.bytes(0, &publish(good.as_bytes())).says("[17,1,");
    }
    for bad in [b"\xc3" as &[u8], b"\xc0\x80", b"\xed\xa0\x80", b"\xf4\x90\x80\x80", b"\xff", b"\x1f", b"\n"]
    {
        alone(script, 0);
        script.bytes(0, &publish(bad)).violates();
    }
    alone(script, 0);
    script.bytes(0, b"\xef\xbb\xbf[34,1,1]").violates();
    alone(script, 0);
    script.bytes(0, b" \t\r\n[ \t\r\n34 , 1\r\n,\t1 ] \t\r\n").errs("wamp.error.no_such_subscription");
    for space in [b"\x0b" as &[u8], b"\x0c", b"\xc2\xa0"] {
        alone(script, 0);
        script.bytes(0, &[space, b"[34,1,1]"].concat()).violates();
    }
    script.heading("bytes: one value and no more, and a list");
    for text in ["[34,1,1] ]", "[34,1,1],", "[34,1,1][]", "[34,1,1", "[34,1,1,]", "[34,1 1]", "{}", "null"] {
        violation(script, text);
    }
}

fn keys(script: &mut Script) {
    script.heading("two equal keys in one dict, compared undone");
    violation(script, r#"[32,1,{"match":"exact","match":"exact"},"t"]"#);
    violation(script, r#"[32,1,{"x":1,"y":2,"x":3},"t"]"#);
    violation(script, r#"[16,1,{},"t",[{"":0,"":0}]]"#);
    violation(script, r#"[16,1,{},"t",[],{"a":{"b":{},"b":{}}}]"#);
    taken(script, r#"[32,1,{"x":1,"X":2,"x ":3,"":4},"t"]"#, "[33,1,1]");
    taken(script, r#"[32,1,{"x":{"x":{"x":0}}},"t"]"#, "[33,1,1]");
    violation(script, r#"[32,1,{"x":1,"\u0078":2},"t"]"#);
    violation(script, r#"[32,1,{"\u0078":1,"\u0078":2},"t"]"#);
    script.heading("an escaped spelling of an option's key or value is the same one");
    taken(script, r#"[32,1,{"m\u0061tch":"none"},"t"]"#, "[8,32,1,");
    taken(script, r#"[32,1,{"match":"ex\u0061ct"},"t"]"#, "[33,1,1]");
    taken(script, r#"[16,1,{"acknowledg\u0065":true},"t"]"#, "[17,1,");
}

fn request_numbers(script: &mut Script) {
    script.heading("request numbers: the first is 1, then each is the last plus 1");
    for number in ["0", "2", "01", "1.0", "1e0", "-1", "+1", "\"1\"", "null", "18446744073709551617", ""] {
        violation(script, &format!(r#"[32,{number},{{}},"t"]"#));
    }
    open(script, 1);
    for request in 1..=3 {
        script.send(0, &format!(r#"[32,{request},{{}},"t"]"#)).says("[33,");
    }
    script.send(0, r#"[32,3,{},"t"]"#).violates();
    for wrong in [3, 5, 1] {
        alone(script, 3);
        script.send(0, &format!(r#"[48,{wrong},{{}},"t"]"#)).violates();
    }
    script.heading("request numbers: refused and unanswered requests advance it, other messages do not");
    open(script, 1);
    script.send(0, r#"[32,1,{"match":0},"t"]"#).errs("wamp.error.invalid_argument");
    script.send(0, r#"[64,2,{},""]"#).errs("wamp.error.invalid_uri");
    script.send(0, "[34,3,9]").errs("wamp.error.no_such_subscription");
    script.send(0, "[66,4,9]").errs("wamp.error.no_such_registration");
    script.send(0, r#"[48,5,{},"p"]"#).errs("wamp.error.no_such_procedure");
    script.send(0, r#"[16,6,{},""]"#).is_silent();
    script.send(0, r#"[16,7,{},"t"]"#).is_silent();
    script.send(0, r#"[64,8,{},"p"]"#).says("[65,8,1]");
    script.send(0, r#"[48,9,{},"p"]"#).says("[68,1,1,{}]");
    script.send(0, "[70,1,{}]").says("[50,9,{}]");
    script.send(0, "[70,1,{}]").is_silent();
    script.send(0, "[66,10,1]").says("[67,10]");
}

fn last_request_number(script: &mut Script) {
    script.heading("request numbers: 2^53 is read and is the last, 2^53 + 1 is a violation");
    for (request, answer) in [
        (r#"[16,9007199254740992,{"acknowledge":true},"t"]"#, "[17,9007199254740992,4711]"),
        (r#"[32,9007199254740992,{},"t"]"#, "[33,9007199254740992,1]"),
        ("[34,9007199254740992,1]", "[8,34,9007199254740992,"),
        (r#"[48,9007199254740992,{},"p"]"#, "[8,48,9007199254740992,"),
        (r#"[64,9007199254740992,{},"p"]"#, "[65,9007199254740992,1]"),
        ("[66,9007199254740992,1]", "[8,66,9007199254740992,"),
    ] {
        alone(script, LAST - 1);
        script.send(0, request).says(answer);
        script.send(0, &request.replace("9007199254740992", "9007199254740993")).violates();
    }
    for wrong in [LAST - 1, LAST] {
        alone(script, LAST);
        script.send(0, &format!(r#"[32,{wrong},{{}},"t"]"#)).violates();
    }
}

fn other_ids(script: &mut Script) {
    script.heading("subscription and registration IDs: 0, 2^53 and 2^53 + 1");
    for (number, error) in [(34, "no_such_subscription"), (66, "no_such_registration")] {
        alone(script, 0);
        script.send(0, &format!("[{number},1,{LAST}]")).errs(&format!("wamp.error.{error}"));
        for id in ["0", "9007199254740993", "18446744073709551617", "01", "1.0", "-1", "\"1\""] {
            violation(script, &format!("[{number},1,{id}]"));
        }
    }
    script.heading("invocation numbers: up to the last one issued; 0, 2^53 and 2^53 + 1");
    for (number, last, good) in [("1", 0, false), ("1", 1, true), ("2", 1, false), ("0", 1, false)] {
        invocation(script, number, last, good);
    }
    invocation(script, "9007199254740992", LAST, true);
    invocation(script, "9007199254740992", LAST - 1, false);
    invocation(script, "9007199254740993", LAST, false);
    invocation(script, "18446744073709551617", LAST, false);
    invocation(script, "01", LAST, false);
}

/// Both answers of a callee to whom so many invocations were issued, none of which is held.
#[track_caller]
fn invocation(script: &mut Script, number: &str, last: u64, is_good: bool) {
    for text in [format!("[70,{number},{{}}]"), format!(r#"[8,68,{number},{{}},"e"]"#)] {
        alone(script, 0);
        script.poke_number(17, last);
        let outcome = script.send(0, &text);
        if is_good {
            outcome.is_silent();
        } else {
            outcome.violates();
        }
    }
}

fn message_numbers(script: &mut Script) {
    script.heading("message numbers that are not taken in, each with the rest of one that is");
    for (number, rest) in [
        ("0", r#","hub.bus",{}"#),
        ("2", r#","hub.bus",{}"#),
        ("2", r#",{},"r""#),
        ("4", r#",{},"r""#),
        ("5", r#",{},"r""#),
        ("7", r#",{},"r""#),
        ("9", r#",68,1,{},"e""#),
        ("15", r#",1,{},"t""#),
        ("17", ",1,1"),
        ("31", r#",1,{},"t""#),
        ("33", ",1,1"),
        ("35", ",1,1"),
        ("36", ",1,1,{}"),
        ("47", r#",1,{},"t""#),
        ("49", r#",1,{},"t""#),
        ("50", ",1,{}"),
        ("63", r#",1,{},"t""#),
        ("65", ",1,1"),
        ("67", ",1,1"),
        ("68", ",1,1,{}"),
        ("69", ",1,{}"),
        ("71", ",1,{}"),
        ("256", r#",1,{},"t""#),
        ("288", r#",1,{},"t""#),
        ("9007199254740992", r#",1,{},"t""#),
        ("18446744073709551648", r#",1,{},"t""#),
        ("032", r#",1,{},"t""#),
        ("32.0", r#",1,{},"t""#),
        ("-32", r#",1,{},"t""#),
        ("\"32\"", r#",1,{},"t""#),
        ("null", r#",1,{},"t""#),
    ] {
        violation(script, &format!("[{number}{rest}]"));
    }
}

fn shapes(script: &mut Script) {
    script.heading("shapes: each message with an element too few, one too many, and one of another kind");
    for (whole, wrong) in [
        (r#"3,{},"r""#, [r#"3,{}"#, r#"3,{},"r",0"#, r#"3,[],"r""#]),
        (r#"6,{},"r""#, [r#"6,{}"#, r#"6,{},"r",0"#, r#"6,{},null"#]),
        (r#"32,1,{},"t""#, ["32,1,{}", r#"32,1,{},"t",[]"#, r#"32,1,[],"t""#]),
        ("34,1,1", ["34,1", "34,1,1,{}", r#"34,1,"1""#]),
        (r#"64,1,{},"t""#, ["64,1,{}", r#"64,1,{},"t",[]"#, "64,1,{},1"]),
        ("66,1,1", ["66,1", "66,1,1,{}", "66,1,{}"]),
        (r#"16,1,{"acknowledge":true},"t""#, ["16,1,{}", r#"16,1,{},"t",[],{},0"#, r#"16,1,null,"t""#]),
        (r#"48,1,{},"t""#, ["48,1,{}", r#"48,1,{},"t",[],{},0"#, "48,1,{},t"]),
    ] {
        alone(script, 0);
        script.send(0, &format!("[{whole}]")).is_no_violation();
        for text in wrong {
            violation(script, &format!("[{text}]"));
        }
    }
    for text in ["70,1", "70,1,{},[],{},0", "70,1,[]", r#"8,68,1,{}"#, r#"8,68,1,{},"e",[],{},0"#] {
        answer(script, text).violates();
    }
    for text in
        [r#"8,48,1,{},"e""#, r#"8,67,1,{},"e""#, r#"8,"68",1,{},"e""#, r#"8,68,1,[],"e""#, "8,68,1,{},1"]
    {
        answer(script, text).violates();
    }
    answer(script, "70,1,{}").is_silent();
    answer(script, r#"8,68,1,{},"e""#).is_silent();
    script.heading("shapes: HELLO on an attached slot; the empty list");
    for text in
        [r#"[1,"hub.bus"]"#, r#"[1,"hub.bus",{},0]"#, r#"[1,"hub.bus",[]]"#, r#"[1,1,{}]"#, "[1]", "[]"]
    {
        script.empty();
        script.attach(0).is_silent();
        script.send(0, text).violates();
    }
}

/// The answer of a callee to whom one invocation was issued, which is not held.
fn answer(script: &mut Script, text: &str) -> Outcome {
    alone(script, 0);
    script.poke_number(17, 1);
    script.send(0, &format!("[{text}]"))
}

fn payloads(script: &mut Script) {
    script
        .heading("payloads: none, a list, a list and a dict; copied from the first to the last byte of each");
    open(script, 2);
    script.send(0, r#"[32,1,{},"t"]"#).says("[33,1,1]");
    for (request, payload, copied) in [
        (1, "", ""),
        (2, ",[]", ",[]"),
        (3, ",[],{}", ",[],{}"),
        (4, ", [ 1 , 2 ] , { \"k\" : [ ] } ", ",[ 1 , 2 ],{ \"k\" : [ ] }"),
        (5, ",[1e5,\"\\u00e9\u{e9}\",-0.0]", ",[1e5,\"\\u00e9\u{e9}\",-0.0]"),
    ] {
        let event = format!("[36,1,4711,{{}}{copied}]");
        script.send(1, &format!(r#"[16,{request},{{}},"t"{payload}]"#)).says(&event);
    }
    script.heading("payloads of other kinds, or in another order");
    for payload in ["{}", "1", "null", "\"a\"", "[],[]", "[],1", "[],null", "{},[]", "[],{},{}"] {
        for message in [r#"16,1,{},"t""#, r#"48,1,{},"t""#] {
            violation(script, &format!("[{message},{payload}]"));
        }
        for message in ["70,1,{}", r#"8,68,1,{},"e""#] {
            answer(script, &format!("{message},{payload}")).violates();
        }
    }
}
