//! Requests and answers: URI texts by their use, `match` and `acknowledge`, events, calls, their choice and their
//! answers, and the 32 held calls.

use super::{alone, open, text, LAST};
use crate::script::{Outcome, Script};

pub const POLICIES: [&str; 3] = ["exact", "prefix", "wildcard"];

const INVALID: &str = "wamp.error.invalid_uri";

pub fn all(script: &mut Script) {
    text_lengths(script);
    components(script);
    reserved(script);
    refused_bytes(script);
    match_option(script);
    acknowledge_option(script);
    events(script);
    marked_calls(script);
    most_components(script);
    answers(script);
    held_calls(script);
}

/// A use of a text: the message that it stands in, and how the answer begins where the text is good.
pub struct Use {
    before: String,
    good: &'static str,
}

impl Use {
    /// SUBSCRIBE and REGISTER of a policy.
    pub fn rows(policy: &str) -> [Use; 2] {
        [(32, "[33,1,1]"), (64, "[65,1,1]")]
            .map(|(number, good)| Use { before: format!(r#"[{number},1,{{"match":"{policy}"}},"#), good })
    }

    pub fn publish() -> Use {
        Use { before: r#"[16,1,{"acknowledge":true},"#.to_string(), good: "[17,1,4711]" }
    }

    /// CALL, for which a good text has no fit.
    pub fn call() -> Use {
        Use { before: "[48,1,{},".to_string(), good: r#"[8,48,1,{},"wamp.error.no_such_procedure"]"# }
    }

    /// The message with this text, as it stands between the quotes, of a session alone.
    fn send(&self, script: &mut Script, text: &str) -> Outcome {
        alone(script, 0);
        script.send(0, &format!(r#"{}"{text}"]"#, self.before))
    }

    #[track_caller]
    pub fn expect(&self, script: &mut Script, text: &str, is_good: bool) {
        let outcome = self.send(script, text);
        if is_good {
            outcome.says(self.good);
        } else {
            outcome.errs(INVALID);
        }
    }
}

/// The error URI of a callee's answer, to an invocation that is not held. A bad one is a violation.
#[track_caller]
pub fn error_uri(script: &mut Script, text: &str, is_good: bool) {
    alone(script, 0);
    script.poke_number(17, 1);
    let outcome = script.send(0, &format!(r#"[8,68,1,{{}},"{text}"]"#));
    if is_good {
        outcome.is_silent();
    } else {
        outcome.violates();
    }
}

/// A text in every use, good or not by each policy; what is published, called or an error's goes by the first.
#[track_caller]
pub fn every_use(script: &mut Script, text: &str, good: [bool; 3]) {
    for (policy, is_good) in POLICIES.into_iter().zip(good) {
        for used in Use::rows(policy) {
            used.expect(script, text, is_good);
        }
    }
    Use::publish().expect(script, text, good[0]);
    Use::call().expect(script, text, good[0]);
    error_uri(script, text, good[0]);
}

fn text_lengths(script: &mut Script) {
    script.heading("texts of 0, 1, 128 and 129 bytes, of each policy and use");
    for (length, is_good) in [(0, false), (1, true), (128, true), (129, false)] {
        for policy in POLICIES {
            for used in Use::rows(policy) {
                used.expect(script, &text(length), is_good);
            }
        }
        Use::publish().expect(script, &text(length), is_good);
        Use::call().expect(script, &text(length), is_good);
        error_uri(script, &text(length), is_good);
    }
    script.heading("texts: bytes are counted, not characters; a text of 128 bytes matches itself");
    let (long, longer) = ("\u{e9}".repeat(64), format!("{}t", "\u{e9}".repeat(64)));
    for policy in POLICIES {
        Use::rows(policy)[1].expect(script, &long, true);
        Use::rows(policy)[1].expect(script, &longer, false);
    }
    for policy in POLICIES {
        open(script, 2);
        let procedure = text(128);
        let register = format!(r#"[64,1,{{"match":"{policy}"}},"{procedure}"]"#);
        script.send(1, &register).says("[65,1,1]");
        script.send(0, &format!(r#"[48,1,{{}},"{procedure}"]"#)).says("[68,1,1,");
        script.send(0, &format!(r#"[48,2,{{}},"{}"]"#, text(127))).errs("wamp.error.no_such_procedure");
    }
}

fn components(script: &mut Script) {
    script.heading("empty components: none in an exact text, the last of a prefix, any of a wildcard");
    for (text, good) in [
        ("a.b", [true, true, true]),
        ("a.", [false, true, true]),
        ("a.b.", [false, true, true]),
        (".", [false, false, true]),
        ("..", [false, false, true]),
        (".a", [false, false, true]),
        ("a..b", [false, false, true]),
        ("a..", [false, false, true]),
    ] {
        every_use(script, text, good);
    }
}

fn reserved(script: &mut Script) {
    script.heading("the first component wamp: refused by REGISTER and PUBLISH, not by the others");
    for (text, is_free) in [
        ("wamp", false),
        ("wamp.a", false),
        ("wam", true),
        ("wampa", true),
        ("wamp-a.b", true),
        ("Wamp.a", true),
        ("a.wamp", true),
    ] {
        for policy in POLICIES {
            let [subscribe, register] = Use::rows(policy);
            subscribe.expect(script, text, true);
            register.expect(script, text, is_free);
        }
        Use::publish().expect(script, text, is_free);
        Use::call().expect(script, text, true);
        error_uri(script, text, true);
    }
    for (policy, text, is_free) in [
        ("prefix", "wamp.", false),
        ("prefix", "wam.", true),
        ("wildcard", "wamp.", false),
        ("wildcard", "wamp..a", false),
        ("wildcard", ".wamp", true),
        ("wildcard", "..wamp", true),
    ] {
        let [subscribe, register] = Use::rows(policy);
        subscribe.expect(script, text, true);
        register.expect(script, text, is_free);
    }
}

fn refused_bytes(script: &mut Script) {
    script.heading("bytes of a text: space and # are refused; their neighbours, quote and backslash are not");
    for (text, is_good) in [
        ("a b", false),
        (" a", false),
        ("a ", false),
        ("a!b", true),
        ("a#b", false),
        ("#", false),
        ("a$b", true),
        ("a\\\"b", true),
        ("a\\\\b", true),
        ("\\u0061", true),
        ("a\\/b", true),
        ("a/b", true),
        ("a\u{7f}b", true),
        ("\u{80}", true),
        ("\u{10ffff}", true),
    ] {
        for policy in POLICIES {
            for used in Use::rows(policy) {
                used.expect(script, text, is_good);
            }
        }
        Use::publish().expect(script, text, is_good);
        Use::call().expect(script, text, is_good);
        error_uri(script, text, is_good);
    }
    script.heading("bytes of a text: a control byte is no JSON");
    for byte in [b"\x00", b"\x1f", b"\t"] {
        alone(script, 0);
        script.bytes(0, &[br#"[32,1,{},"a"# as &[u8], byte, br#""]"#].concat()).violates();
    }
}

fn match_option(script: &mut Script) {
    script.heading("match: absent means exact; a value other than the three comes before the text's fault");
    for (number, answered) in [(32, 33), (64, 65)] {
        for options in ["", r#""x":"prefix""#, r#""match":"exact""#, r#""x":0,"match":"wildcard","y":0"#] {
            alone(script, 0);
            script.send(0, &format!(r#"[{number},1,{{{options}}},"t"]"#)).says(&format!("[{answered},1,1]"));
        }
        for value in
            [r#""""#, r#""Exact""#, r#""exact ""#, r#""regex""#, "null", "true", "0", r#"["exact"]"#, "{}"]
        {
            for text in ["t", ""] {
                alone(script, 0);
                let message = format!(r#"[{number},1,{{"match":{value}}},"{text}"]"#);
                script.send(0, &message).errs("wamp.error.invalid_argument");
            }
        }
    }
    script.heading(
        "match: one text with three policies has three rows; a text and policy again has the same row",
    );
    open(script, 2);
    for (request, policy) in (1..).zip(POLICIES) {
        let id = request;
        let asking = |number| format!(r#"[{number},{request},{{"match":"{policy}"}},"t"]"#);
        script.send(0, &asking(32)).says(&format!("[33,{request},{id}]"));
        script.send(1, &asking(64)).says(&format!("[65,{request},{id}]"));
    }
    script.send(0, r#"[32,4,{},"t"]"#).says("[33,4,1]");
    script.send(1, r#"[32,4,{"match":"wildcard"},"t"]"#).says("[33,4,3]");
    script.send(1, r#"[64,5,{},"t"]"#).errs("wamp.error.procedure_already_exists");
    script.send(0, r#"[64,5,{"match":"prefix"},"t"]"#).errs("wamp.error.procedure_already_exists");
}

fn acknowledge_option(script: &mut Script) {
    script.heading("acknowledge: an answer, even an error, only if it is literally true");
    open(script, 2);
    script.send(1, r#"[32,1,{},"t"]"#).says("[33,1,1]");
    let mut request = 0;
    for value in ["true", "false", r#""true""#, "1", "null", "[true]"] {
        for topic in ["t", "q", "", "wamp.t"] {
            request += 1;
            let outcome = script.send(0, &format!(r#"[16,{request},{{"acknowledge":{value}}},"{topic}"]"#));
            match (value, topic) {
                ("true", "t" | "q") => outcome.says(&format!("[17,{request},4711]")),
                ("true", _) => outcome.errs(INVALID),
                (_, "t") => outcome.says("[36,1,4711,{}]"),
                _ => outcome.is_silent(),
            }
        }
    }
}

fn events(script: &mut Script) {
    script.heading(
        "events: by row, then by slot, not to the publisher; the topic is told but for an exact row",
    );
    open(script, 4);
    for (slot, request, policy, text) in [
        (3, 1, "exact", "a.b.c"),
        (0, 1, "exact", "a.b.c"),
        (2, 1, "prefix", "a.b"),
        (1, 1, "wildcard", "a..c"),
        (0, 2, "prefix", "a.b"),
        (2, 2, "wildcard", "a..c"),
        (3, 2, "prefix", "a.b.c.d"),
        (1, 2, "wildcard", "..."),
    ] {
        script.send(slot, &format!(r#"[32,{request},{{"match":"{policy}"}},"{text}"]"#)).says("[33,");
    }
    let publish = |request: u64, topic: &str| format!(r#"[16,{request},{{}},"{topic}",["e"]]"#);
    script.send(1, &publish(3, "a.b.c")).reaches(&[0, 3, 0, 2, 2]);
    script.send(0, &publish(3, "a.b.c")).reaches(&[3, 2, 1, 2]);
    script.send(3, &publish(3, "a.b.c.d")).reaches(&[0, 2, 1]);
    script.send(3, &publish(4, "a.bc")).reaches(&[0, 2]);
    script.send(3, &publish(5, "a.x.c")).reaches(&[1, 2]);
    script.send(3, &publish(6, "a.x.c.d")).reaches(&[1]);
    script.send(3, &publish(7, "a")).is_silent();
    script.heading("events: the publisher alone is a member");
    open(script, 1);
    script.send(0, r#"[32,1,{},"t"]"#).says("[33,1,1]");
    script.send(0, r#"[16,2,{},"t"]"#).is_silent();
    script.send(0, r#"[16,3,{"acknowledge":true},"t"]"#).says("[17,3,4711]");
}

fn marked_calls(script: &mut Script) {
    script.heading("Matching: M1 to M8 as calls; M6 is M5 with 2 and 3 removed");
    open(script, 2);
    for (request, (policy, text)) in (1..).zip([
        ("exact", "a1.b2.c3.d4.e55"),
        ("prefix", "a1.b2.c3"),
        ("prefix", "a1.b2.c3.d4"),
        ("wildcard", "a1.b2..d4.e5"),
        ("wildcard", "a1.b2.c3..e5"),
        ("wildcard", "a1.b2..d4.e5..g7"),
        ("wildcard", "a1.b2..d4..f6.g7"),
    ]) {
        let message = format!(r#"[64,{request},{{"match":"{policy}"}},"{text}"]"#);
        script.send(1, &message).says(&format!("[65,{request},{request}]"));
    }
    let call = |request: u64, uri: &str| format!(r#"[48,{request},{{}},"{uri}"]"#);
    for (request, (uri, row)) in (1..).zip([
        ("a1.b2.c3.d4.e55", 1),
        ("a1.b2.c3.d98.e74", 2),
        ("a1.b2.c3.d4.e325", 3),
        ("a1.b2.c55.d4.e5", 4),
        ("a1.b2.c3.d4.e5", 3),
        ("a1.b2.c88.d4.e5.f6.g7", 6),
    ]) {
        script.send(0, &call(request, uri)).says(&format!("[68,{request},{row},"));
    }
    script.send(0, &call(7, "a2.b2.c2.d2.e2")).errs("wamp.error.no_such_procedure");
    script.send(1, "[66,8,2]").says("[67,8]");
    script.send(1, "[66,9,3]").says("[67,9]");
    script.send(0, &call(8, "a1.b2.c3.d4.e5")).says("[68,7,5,");
    script.heading("Matching: M9 to M11");
    open(script, 2);
    script.send(1, r#"[64,1,{"match":"prefix"},"com.myapp.myobject1"]"#).says("[65,1,1]");
    script.send(0, &call(1, "com.myapp.myobject1-mysubobject1")).says("[68,1,1,");
    script.send(0, &call(2, "com.myapp.myobject")).errs("wamp.error.no_such_procedure");
    script.send(1, r#"[64,2,{"match":"wildcard"},"com.myapp..myprocedure1"]"#).says("[65,2,2]");
    let longer = "com.myapp.myobject2.myprocedure1.mysubprocedure1";
    script.send(0, &call(3, longer)).errs("wamp.error.no_such_procedure");
    script.send(0, &call(4, "com.myapp.myobject2.myprocedure1")).says("[68,2,2,");
}

fn most_components(script: &mut Script) {
    script.heading(
        "Matching: a called URI of 63 components, of 64, which are the most, and a wildcard text of 129",
    );
    open(script, 2);
    for (request, components) in (1..).zip([63, 64, 65, 129]) {
        let text = ".".repeat(components - 1);
        let message = format!(r#"[64,{request},{{"match":"wildcard"}},"{text}"]"#);
        script.send(1, &message).says(&format!("[65,{request},{request}]"));
    }
    let uri = |components: usize| vec!["a"; components].join(".");
    for (request, components, row) in [(1, 63, 1), (2, 64, 2)] {
        let message = format!(r#"[48,{request},{{}},"{}"]"#, uri(components));
        script.send(0, &message).says(&format!("[68,{request},{row},"));
    }
    let message = format!(r#"[48,3,{{}},"{}"]"#, uri(62));
    script.send(0, &message).errs("wamp.error.no_such_procedure");
    let message = format!(r#"[48,4,{{}},"{}"]"#, uri(65));
    script.send(0, &message).errs("wamp.error.invalid_uri");
}

fn answers(script: &mut Script) {
    script.heading(
        "YIELD and ERROR: of a session's own invocation, of another's, of one answered, of none issued",
    );
    open(script, 3);
    script.send(1, r#"[64,1,{},"a"]"#).says("[65,1,1]");
    script.send(2, r#"[64,1,{},"b"]"#).says("[65,1,2]");
    script.send(0, r#"[48,1,{},"a",[1]]"#).says("[68,1,1,{},[1]]");
    script.send(0, r#"[48,2,{},"a",[2]]"#).says("[68,2,1,{},[2]]");
    script.send(0, r#"[48,3,{},"a",[3]]"#).says("[68,3,1,{},[3]]");
    script.send(0, r#"[48,4,{},"b",[4]]"#).says("[68,1,2,{},[4]]");
    script.send(0, r#"[48,5,{},"b",[5]]"#).says("[68,2,2,{},[5]]");
    script.send(1, "[70,2,{},[\"of 2\"]]").says("[50,2,{},[\"of 2\"]]");
    script.send(1, "[70,2,{}]").is_silent();
    script.send(1, r#"[8,68,2,{},"e"]"#).is_silent();
    script.send(2, "[70,2,{},[],{}]").says("[50,5,{},[],{}]");
    script.send(1, r#"[8,68,1,{"x":0},"wamp.e.f",["no"]]"#).says(r#"[8,48,1,{},"wamp.e.f",["no"]]"#);
    script.send(1, r#"[8,68,3,{},"e",[],{"k":1}]"#).says(r#"[8,48,3,{},"e",[],{"k":1}]"#);
    script.send(1, "[70,3,{}]").is_silent();
    script.send(0, "[70,1,{}]").violates();
    script.send(2, "[70,1,{}]").is_silent();
    script.send(2, "[70,3,{}]").violates();
    script.heading("an answer from a slot taken over: its session was issued no invocation");
    open(script, 2);
    script.send(1, r#"[64,1,{},"a"]"#).says("[65,1,1]");
    script.send(0, r#"[48,1,{},"a"]"#).says("[68,1,1,{}]");
    script.send(1, r#"[6,{},"r"]"#).says("[6,");
    script.lent(1, 101, super::HELLO).says("[2,101,");
    script.send(1, "[70,1,{}]").violates();
    script.heading("a caller's slot taken over: the answer to the ended session's call is dropped");
    open(script, 2);
    script.send(1, r#"[64,1,{},"a"]"#).says("[65,1,1]");
    script.send(0, r#"[48,1,{},"a",["old"]]"#).says("[68,1,1,");
    script.detach(0).is_silent();
    script.attach(0).is_silent();
    script.lent(0, 200, super::HELLO).says("[2,200,");
    script.send(0, r#"[48,1,{},"a",["new"]]"#).says("[68,2,1,");
    script.send(1, r#"[70,1,{},["old"]]"#).is_silent();
    script.send(1, r#"[70,2,{},["new"]]"#).says(r#"[50,1,{},["new"]]"#);
    script.heading("a session that calls itself; unregistering does not disturb a held call");
    open(script, 1);
    script.send(0, r#"[64,1,{},"a"]"#).says("[65,1,1]");
    script.send(0, r#"[48,2,{},"a"]"#).says("[68,1,1,{}]");
    script.send(0, "[66,3,1]").says("[67,3]");
    script.send(0, r#"[48,4,{},"a"]"#).errs("wamp.error.no_such_procedure");
    script.send(0, "[66,5,1]").errs("wamp.error.no_such_registration");
    script.send(0, "[70,1,{}]").says("[50,2,{}]");
}

fn held_calls(script: &mut Script) {
    script.heading("held call 32 is routed, the next gets no room, and is routed again after one answer");
    open(script, 3);
    script.send(1, r#"[64,1,{},"p"]"#).says("[65,1,1]");
    let call = |request: u64| format!(r#"[48,{request},{{}},"p"]"#);
    for request in 1..=32 {
        script.send(0, &call(request)).says(&format!("[68,{request},1,{{}}]"));
    }
    let full = script.state.clone();
    script.send(0, &call(33)).errs("hub.error.no_room");
    script.send(2, &call(1)).errs("hub.error.no_room");
    script.send(0, r#"[48,34,{},"q"]"#).errs("wamp.error.no_such_procedure");
    script.send(0, r#"[48,35,{},"p."]"#).errs(INVALID);
    script.send(1, "[70,33,{}]").violates();
    script.restore(&full);
    script.send(1, "[70,7,{}]").says("[50,7,{}]");
    script.send(0, &call(33)).says("[68,33,1,{}]");
    script.send(0, &call(34)).errs("hub.error.no_room");
    script.send(1, r#"[8,68,32,{},"e"]"#).says(r#"[8,48,32,{},"e"]"#);
    script.send(2, &call(1)).says("[68,34,1,{}]");
    script.send(2, &call(2)).errs("hub.error.no_room");
    script.heading("the callee's invocation counter at 2^53 - 1 and at 2^53");
    open(script, 2);
    script.send(1, r#"[64,1,{},"p"]"#).says("[65,1,1]");
    script.poke_number(25 + 17, LAST - 1);
    script.tight(|s| s.send(0, &call(1))).says("[68,9007199254740992,1,{}]");
    script.send(0, &call(2)).errs("hub.error.no_room");
    script.send(0, r#"[48,3,{},"q"]"#).errs("wamp.error.no_such_procedure");
    script.send(1, "[70,9007199254740991,{}]").is_silent();
    script.send(1, "[70,9007199254740992,{}]").says("[50,1,{}]");
    script.send(0, &call(4)).errs("hub.error.no_room");
}
