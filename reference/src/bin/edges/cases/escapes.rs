//! Strings spelled with escapes (RFC 8259, section 7): names that are one however they are spelled, 128 and 129 undone
//! bytes, the codes either side of each length of UTF-8, lone surrogate halves, keys that are equal undone, and what
//! goes out.

use super::requests::{error_uri, every_use, Use, POLICIES};
use super::{alone, open, HELLO};
use crate::script::Script;

pub fn all(script: &mut Script) {
    names(script);
    lengths(script);
    codes(script);
    refused_bytes(script);
    components(script);
    reserved(script);
    realms(script);
    options(script);
    lone_halves(script);
    lone_halves_before_other_faults(script);
    lone_halves_elsewhere(script);
    keys(script);
    written(script);
}

/// Each character by its code, in either case.
fn by_code(text: &str) -> String {
    let units: Vec<u16> = text.encode_utf16().collect();
    let spelled = units.iter().enumerate().map(|(place, unit)| match place % 2 {
        0 => format!("\\u{unit:04x}"),
        _ => format!("\\u{unit:04X}"),
    });
    spelled.collect()
}

#[track_caller]
fn violation(script: &mut Script, text: &str) {
    alone(script, 0);
    script.send(0, text).violates();
}

#[track_caller]
fn no_violation(script: &mut Script, text: &str) {
    alone(script, 0);
    // An invocation was issued, so that its answer is none.
    script.poke_number(17, 1);
    script.send(0, text).is_no_violation();
}

fn names(script: &mut Script) {
    script.heading("escapes: a name is one however it is spelled, and a row holds it undone");
    open(script, 2);
    script.send(1, r#"[64,1,{},"hub.donor.defer"]"#).says("[65,1,1]");
    let whole = by_code("hub.donor.defer");
    let spellings = ["hub.donor.\\u0064efer", "hub\\u002edonor\\u002Edefer", &whole];
    for (request, spelled) in (1..).zip(spellings) {
        script
            .send(0, &format!(r#"[48,{request},{{}},"{spelled}"]"#))
            .says(&format!("[68,{request},1,{{}}]"));
    }
    script.send(0, r#"[48,4,{},"hub.donor.\\u0064efer"]"#).errs("wamp.error.no_such_procedure");
    script.send(0, r#"[48,5,{},"hub.donor.\u0044efer"]"#).errs("wamp.error.no_such_procedure");
    script.send(0, &format!(r#"[64,6,{{}},"{whole}"]"#)).errs("wamp.error.procedure_already_exists");
    script.send(0, r#"[32,7,{"match":"prefix"},"caf\u00e9"]"#).says("[33,7,1]");
    script.send(1, "[32,2,{\"match\":\"prefix\"},\"caf\u{e9}\"]").says("[33,2,1]");
    script.send(1, r#"[32,3,{"match":"prefix"},"caf\u00E9"]"#).says("[33,3,1]");
    script.send(1, r#"[16,4,{},"caf\u00e9\u002fx"]"#).says("[36,1,4711,{\"topic\":\"caf\u{e9}/x\"}]");
    script.send(1, "[16,5,{},\"caf\u{e9}\\/x\"]").says("[36,1,4711,{\"topic\":\"caf\u{e9}/x\"}]");
    script.send(1, r#"[16,6,{},"cafe\u0301"]"#).is_silent();
}

fn lengths(script: &mut Script) {
    script.heading("escapes: texts of 128 and 129 undone bytes, of each policy and use");
    for (text, is_good) in [("\\u0074".repeat(128), true), ("\\u0074".repeat(129), false)] {
        for policy in POLICIES {
            for used in Use::rows(policy) {
                used.expect(script, &text, is_good);
            }
        }
        Use::publish().expect(script, &text, is_good);
        Use::call().expect(script, &text, is_good);
        error_uri(script, &text, is_good);
    }
    script.heading(
        "escapes: 128 and 129 undone bytes by one escape at the end, and by characters of 2, 3 and 4 bytes",
    );
    let t = |count: usize| "t".repeat(count);
    for (text, is_good) in [
        (t(127) + "\\/", true),
        (t(128) + "\\/", false),
        (t(126) + "\\u00e9", true),
        (t(127) + "\\u00e9", false),
        ("\\u00E9".repeat(64), true),
        ("\\u00e9".repeat(64) + "t", false),
        ("\\u20ac".repeat(42) + "tt", true),
        ("\\u20AC".repeat(43), false),
        ("\\ud834\\udd1e".repeat(32), true),
        ("\\uD834\\uDD1E".repeat(32) + "t", false),
        ("\\\"".repeat(128), true),
        ("\\\\".repeat(129), false),
    ] {
        Use::rows("prefix")[0].expect(script, &text, is_good);
        Use::call().expect(script, &text, is_good);
        error_uri(script, &text, is_good);
    }
    script.heading("escapes: a text of 128 quotes is twice as long when it goes out");
    open(script, 2);
    script.send(1, r#"[32,1,{"match":"prefix"},"\u0022"]"#).says("[33,1,1]");
    let quotes = "\\u0022".repeat(128);
    let topic = format!(r#"[36,1,4711,{{"topic":"{}"}}]"#, "\\\"".repeat(128));
    script.tight(|s| s.send(0, &format!(r#"[16,1,{{}},"{quotes}"]"#))).is(5 + topic.len(), 1, &topic);
}

fn codes(script: &mut Script) {
    script.heading(
        "escapes: codes either side of each length of UTF-8 and of the halves, as topic and procedure",
    );
    open(script, 2);
    let (mut of_0, mut of_1, mut row) = (0, 0, 0);
    let next = |request: &mut u64| {
        *request += 1;
        *request
    };
    for (spelled, upper, raw) in [
        ("\\u007f", "\\u007F", "\u{7f}"),
        ("\\u0080", "\\u0080", "\u{80}"),
        ("\\u07ff", "\\u07FF", "\u{7ff}"),
        ("\\u0800", "\\u0800", "\u{800}"),
        ("\\ud7ff", "\\uD7FF", "\u{d7ff}"),
        ("\\ue000", "\\uE000", "\u{e000}"),
        ("\\uffff", "\\uFfFf", "\u{ffff}"),
        ("\\ud800\\udc00", "\\uD800\\uDC00", "\u{10000}"),
        ("\\ud800\\udfff", "\\ud800\\uDFFF", "\u{103ff}"),
        ("\\udbff\\udc00", "\\uDBFF\\udc00", "\u{10fc00}"),
        ("\\udbff\\udfff", "\\uDBFF\\uDFFF", "\u{10ffff}"),
        ("\\ud83d\\ude00", "\\ud83D\\uDe00", "\u{1f600}"),
    ] {
        row += 1;
        let prefix = |kind: u64, request: u64, text: &str| {
            format!(r#"[{kind},{request},{{"match":"prefix"}},"{text}"]"#)
        };
        let request = next(&mut of_1);
        script.send(1, &prefix(32, request, spelled)).says(&format!("[33,{request},{row}]"));
        let request = next(&mut of_1);
        script.send(1, &prefix(64, request, upper)).says(&format!("[65,{request},{row}]"));
        let topic = format!(r#"[36,{row},4711,{{"topic":"{raw}"}}]"#);
        for text in [raw, upper] {
            script.send(0, &format!(r#"[16,{},{{}},"{text}"]"#, next(&mut of_0))).says(&topic);
        }
        let procedure = format!(r#"[68,{row},{row},{{"procedure":"{raw}.p"}}]"#);
        script.send(0, &format!(r#"[48,{},{{}},"{spelled}.p"]"#, next(&mut of_0))).says(&procedure);
    }
}

fn refused_bytes(script: &mut Script) {
    script.heading(
        "escapes: hex 00 to 20 and # are refused however they are written; each of the short escapes",
    );
    for (escape, is_good) in [
        ("\\u0000", false),
        ("\\u0001", false),
        ("\\u001f", false),
        ("\\u0020", false),
        ("\\u0021", true),
        ("\\u0022", true),
        ("\\u0023", false),
        ("\\u0024", true),
        ("\\u005b", true),
        ("\\u005c", true),
        ("\\u005C", true),
        ("\\u005d", true),
        ("\\u00a0", true),
        ("\\\"", true),
        ("\\\\", true),
        ("\\/", true),
        ("\\b", false),
        ("\\f", false),
        ("\\n", false),
        ("\\r", false),
        ("\\t", false),
    ] {
        let text = format!("a{escape}b");
        Use::rows("exact")[0].expect(script, &text, is_good);
        Use::rows("prefix")[1].expect(script, &text, is_good);
        Use::rows("wildcard")[1].expect(script, &text, is_good);
        Use::publish().expect(script, &text, is_good);
        Use::call().expect(script, &text, is_good);
        error_uri(script, &text, is_good);
    }
}

fn components(script: &mut Script) {
    script.heading("escapes: an undone dot separates components");
    for (text, good) in [
        ("a\\u002eb", [true, true, true]),
        ("a\\u002E", [false, true, true]),
        ("\\u002e", [false, false, true]),
        ("a.\\u002eb", [false, false, true]),
        ("\\u002ea", [false, false, true]),
        ("a\\\\u002e", [true, true, true]),
    ] {
        every_use(script, text, good);
    }
    open(script, 2);
    script.send(1, r#"[64,1,{"match":"wildcard"},"a\u002e\u002ec"]"#).says("[65,1,1]");
    script.send(0, r#"[48,1,{},"a\u002eb.c"]"#).says(r#"[68,1,1,{"procedure":"a.b.c"}]"#);
    script.send(0, r#"[48,2,{},"a.b.b\u002ec"]"#).errs("wamp.error.no_such_procedure");
}

fn reserved(script: &mut Script) {
    script.heading("escapes: the first component wamp is tested undone");
    for (text, is_free) in [
        ("\\u0077amp", false),
        ("w\\u0061mp.a", false),
        ("wamp\\u002ea", false),
        ("\\u0077\\u0061\\u006d\\u0070\\u002e\\u0061", false),
        ("\\\\u0077amp", true),
        ("\\u0057amp.a", true),
        ("wamp\\u002fa", true),
        ("a\\u002ewamp", true),
    ] {
        for policy in POLICIES {
            Use::rows(policy)[1].expect(script, text, is_free);
        }
        Use::rows("exact")[0].expect(script, text, true);
        Use::publish().expect(script, text, is_free);
        Use::call().expect(script, text, true);
        error_uri(script, text, true);
    }
}

fn realms(script: &mut Script) {
    script.heading(
        "escapes: the realm is compared undone, for BAD NUMBER too; a lone half in it is a violation",
    );
    let whole = by_code("hub.bus");
    for realm in ["hub\\u002ebus", "\\u0068ub.bus", "hub\\u002Ebu\\u0073", &whole] {
        script.empty();
        script.attach(0).is_silent();
        script.send(0, &format!(r#"[1,"{realm}",{{}}]"#)).says("[2,4711,");
    }
    script.empty();
    script.attach(0).is_silent();
    for realm in ["hub\\\\u002ebus", "hub.bus\\u0000", "\\u0048ub.bus", "hub.bus\\/", "\\n"] {
        script.send(0, &format!(r#"[1,"{realm}",{{}}]"#)).says(r#"[3,{},"wamp.error.no_such_realm"]"#);
        script.attach(0).is_silent();
    }
    for realm in ["\\ud800", "hub.bus\\udfff", "x\\ud834\\u0061", "hub\\udd1e\\ud834"] {
        script.send(0, &format!(r#"[1,"{realm}",{{}}]"#)).violates();
        script.attach(0).is_silent();
    }
    open(script, 1);
    script.attach(1).is_silent();
    script.lent(1, 100, r#"[1,"hub\u002ebus",{}]"#).refuses(4);
    script.lent(1, 101, r#"[1,"hub\u002ebus",{}]"#).says("[2,101,");
    script.attach(2).is_silent();
    script.lent(2, 100, r#"[1,"hub.bus\ud800",{}]"#).violates();
    script.attach(2).is_silent();
    script.lent(2, 100, HELLO).refuses(4);
}

fn options(script: &mut Script) {
    script.heading("escapes: the keys of options and the value of match are compared undone");
    let whole = format!(r#"{{"{}":"{}"}}"#, by_code("match"), by_code("prefix"));
    for (number, answered) in [(32, 33), (64, 65)] {
        // The text is a prefix, and no exact one.
        for options in [r#"{"m\u0061tch":"prefix"}"#, r#"{"match":"pre\u0066ix"}"#, &whole] {
            alone(script, 0);
            script.send(0, &format!(r#"[{number},1,{options},"a."]"#)).says(&format!("[{answered},1,1]"));
        }
        for options in [
            r#"{"m\u0061tch":"none"}"#,
            r#"{"m\u0061tch":0}"#,
            r#"{"match":"pre\\u0066ix"}"#,
            r#"{"match":"\u0050refix"}"#,
            r#"{"match":"prefix\u0000"}"#,
            r#"{"match":"\"prefix\""}"#,
        ] {
            alone(script, 0);
            script.send(0, &format!(r#"[{number},1,{options},"a."]"#)).errs("wamp.error.invalid_argument");
        }
        alone(script, 0);
        script
            .send(0, &format!(r#"[{number},1,{{"m\\u0061tch":0}},"a"]"#))
            .says(&format!("[{answered},1,1]"));
    }
    for options in [r#"{"acknowledg\u0065":true}"#, r#"{"\u0061cknowledge":true,"x\n":0}"#] {
        alone(script, 0);
        script.send(0, &format!(r#"[16,1,{options},"t"]"#)).says("[17,1,4711]");
    }
    for options in [r#"{"acknowledg\\u0065":true}"#, r#"{"acknowledge":"tru\u0065"}"#] {
        alone(script, 0);
        script.send(0, &format!(r#"[16,1,{options},"t"]"#)).is_silent();
    }
}

/// Strings with a lone half: each end of the halves, the low one first, a high one before another escape, before raw
/// text and before a pair, a low one behind a pair.
const LONE: [&str; 11] = [
    "\\ud800",
    "\\uDBFF",
    "\\udc00",
    "\\uDFFF",
    "\\udd1e\\ud834",
    "\\ud834\\u0061",
    "\\ud834\\n\\udd1e",
    "\\ud834udd1e",
    "\\ud834\\\\udd1e",
    "\\ud834\\ud834\\udd1e",
    "\\ud834\\udd1e\\udd1e",
];

fn lone_halves(script: &mut Script) {
    script.heading(
        "escapes: a lone half in a topic, procedure, error URI, key of options or match is a violation",
    );
    for lone in LONE {
        for text in [
            format!(r#"[32,1,{{}},"{lone}"]"#),
            format!(r#"[64,1,{{}},"a{lone}"]"#),
            format!(r#"[16,1,{{}},"a.{lone}"]"#),
            format!(r#"[48,1,{{}},"{lone}.a"]"#),
            format!(r#"[32,1,{{"match":"{lone}"}},"t"]"#),
            format!(r#"[16,1,{{"{lone}":0}},"t"]"#),
        ] {
            violation(script, &text);
        }
        error_uri(script, lone, false);
    }
    for lone in ["\\ud800", "x\\uDFFF", "\\udd1e\\ud834"] {
        for text in [
            format!(r#"[32,1,{{"{lone}":0}},"t"]"#),
            format!(r#"[48,1,{{"x":0,"{lone}":0}},"t"]"#),
            format!(r#"[64,1,{{"{lone}":0,"match":"exact"}},"t"]"#),
            format!(r#"[64,1,{{"match":"{lone}"}},"t"]"#),
            format!(r#"[64,1,{{"\u006datch":"exact{lone}"}},"t"]"#),
        ] {
            violation(script, &text);
        }
        alone(script, 0);
        script.poke_number(17, 1);
        script.send(0, &format!(r#"[70,1,{{"{lone}":0}}]"#)).violates();
    }
    script.heading("escapes: a lone half behind the 128th byte");
    for behind in ["t".repeat(128), "\\u0074".repeat(128), "\\ud834\\udd1e".repeat(33)] {
        for text in [
            format!(r#"[32,1,{{}},"{behind}\ud800"]"#),
            format!(r#"[48,1,{{}},"{behind}\udfff"]"#),
            format!(r#"[48,1,{{"{behind}\ud800":0}},"t"]"#),
            format!(r#"[64,1,{{"match":"{behind}\ud800"}},"t"]"#),
        ] {
            violation(script, &text);
        }
    }
    alone(script, 0);
    script.send(0, &format!(r#"[32,1,{{"{}":0}},"t"]"#, "\\u0074".repeat(129))).says("[33,1,1]");
    script.empty();
    script.attach(0).is_silent();
    script.send(0, &format!(r#"[1,"{}\ud800",{{}}]"#, "t".repeat(128))).violates();
}

fn lone_halves_before_other_faults(script: &mut Script) {
    script.heading("escapes: a lone half is a violation whatever else is wrong");
    for text in [
        r#"[32,1,{"match":0},"\ud800"]"#,
        r#"[32,1,{"match":"none"},"a b\ud800"]"#,
        r#"[32,1,{"match":"\ud800"},""]"#,
        r#"[64,1,{"match":null},"\ud800"]"#,
        r#"[64,1,{},"wamp.\ud800"]"#,
        r#"[64,1,{"\ud800":0,"match":0},""]"#,
        r#"[48,1,{"\ud800":0},"a#"]"#,
        r#"[48,1,{},"a..\ud800"]"#,
        r#"[16,1,{},"wamp.\ud800"]"#,
        r#"[16,1,{"acknowledge":true},"\ud800"]"#,
        r#"[16,1,{"acknowledge":true,"\ud800":0},""]"#,
    ] {
        violation(script, text);
    }
}

fn lone_halves_elsewhere(script: &mut Script) {
    script.heading(
        "escapes: a lone half in Reason, Details, a payload, a deeper key or another value is no violation",
    );
    for lone in ["\\ud800", "\\uDFFF", "\\udd1e\\ud834"] {
        for text in [
            format!(r#"[6,{{"{lone}":"{lone}"}},"{lone}"]"#),
            format!(r#"[3,{{"{lone}":"{lone}"}},"{lone}"]"#),
            format!(r#"[8,68,1,{{"{lone}":"{lone}"}},"e",["{lone}"],{{"{lone}":"{lone}"}}]"#),
            format!(r#"[70,1,{{"match":"{lone}","x":{{"{lone}":0}}}},["{lone}"],{{"{lone}":0}}]"#),
            format!(r#"[16,1,{{"match":"{lone}","acknowledge":"{lone}"}},"t",["{lone}"],{{"{lone}":0}}]"#),
            format!(r#"[48,1,{{"match":"{lone}","x":["{lone}"]}},"t",[{{"{lone}":0}}]]"#),
            format!(r#"[32,1,{{"x":"{lone}","y":{{"{lone}":0}}}},"t"]"#),
            format!(r#"[32,1,{{"match":["{lone}"]}},"t"]"#),
            format!(r#"[64,1,{{"match":{{"{lone}":"{lone}"}}}},"t"]"#),
        ] {
            no_violation(script, &text);
        }
        script.empty();
        script.attach(0).is_silent();
        script.send(0, &format!(r#"[1,"hub.bus",{{"{lone}":["{lone}"]}}]"#)).says("[2,4711,");
    }
}

fn keys(script: &mut Script) {
    script.heading("escapes: keys of one dict that are equal undone, in options, Details and payloads");
    for (one, other) in [
        ("a", "\\u0061"),
        ("\\u0061", "\\u0061"),
        ("\\/", "/"),
        ("\\\"", "\\u0022"),
        ("\\\\", "\\u005C"),
        ("\\n", "\\u000a"),
        ("\u{e9}", "\\u00e9"),
        ("\\u07ff", "\u{7ff}"),
        ("\\u0800", "\u{800}"),
        ("\\ud83d\\ude00", "\u{1f600}"),
        ("\\ud800\\udc00", "\u{10000}"),
    ] {
        violation(script, &format!(r#"[32,1,{{"{one}":0,"x":0,"{other}":0}},"t"]"#));
        violation(script, &format!(r#"[16,1,{{}},"t",[],{{"{one}":0,"{other}":0}}]"#));
        violation(script, &format!(r#"[16,1,{{}},"t",[[{{"k":{{"{other}":0,"{one}":0}}}}]]]"#));
        violation(script, &format!(r#"[6,{{"{one}":0,"{other}":0}},"r"]"#));
        no_violation(script, &format!(r#"[32,1,{{"{one}":{{"{other}":0}},"x":{{"{one}":0}}}},"t"]"#));
    }
    violation(script, r#"[16,1,{"acknowledge":true,"\u0061cknowledge":true},"t"]"#);
    violation(script, r#"[32,1,{"match":"exact","m\u0061tch":"exact"},"t"]"#);
    for (one, other) in [
        ("\\ud800", "\\uD800"),
        ("\\udc00", "\\uDc00"),
        ("\\udfff\\udbff", "\\uDFFF\\uDBFF"),
        ("\\ud800\\u0061", "\\ud800a"),
    ] {
        violation(script, &format!(r#"[16,1,{{}},"t",[],{{"{one}":0,"{other}":0}}]"#));
        violation(script, &format!(r#"[3,{{"{one}":0,"{other}":0}},"r"]"#));
    }
    script.heading("escapes: keys that are not equal undone");
    for (one, other) in [
        ("\\\\u0061", "\\u0061"),
        ("a", "\\u0041"),
        ("\\n", "n"),
        ("", "\\u0000"),
        ("\\ud800", "\\udc00"),
        ("\\ud83d\\ude00", "\\ude00\\ud83d"),
        ("\\ud83d\\ude00", "\\ud83d"),
    ] {
        no_violation(script, &format!(r#"[16,1,{{}},"t",[],{{"{one}":0,"{other}":0}}]"#));
    }
}

fn written(script: &mut Script) {
    script
        .heading("escapes: quote and backslash go out with a backslash before, and nothing else is escaped");
    open(script, 2);
    script.send(1, r#"[32,1,{"match":"prefix"},"a"]"#).says("[33,1,1]");
    script.send(1, r#"[64,2,{"match":"prefix"},"a"]"#).says("[65,2,1]");
    script.send(1, r#"[32,3,{},"a\"\\"]"#).says("[33,3,2]");
    let mut request = 0;
    for (invocation, (spelled, written)) in (1..).zip([
        ("a\\\"", "a\\\""),
        ("a\\\\", "a\\\\"),
        ("a\\u0022b", "a\\\"b"),
        ("a\\u005cb", "a\\\\b"),
        ("a\\\\\\\"\\\\", "a\\\\\\\"\\\\"),
        ("a\\\\u0022", "a\\\\u0022"),
        ("a\\/\\u002f/", "a///"),
        ("a\\u00e9\\u20AC\\ud834\\udd1e\\u007f", "a\u{e9}\u{20ac}\u{1d11e}\u{7f}"),
    ]) {
        request += 1;
        let event = format!(r#"[36,1,4711,{{"topic":"{written}"}},["\u0022\/"]]"#);
        script.tight(|s| s.send(0, &format!(r#"[16,{request},{{}},"{spelled}",["\u0022\/"]]"#))).is(
            5 + event.len(),
            1,
            &event,
        );
        request += 1;
        let call = format!(r#"[68,{invocation},1,{{"procedure":"{written}"}}]"#);
        script.tight(|s| s.send(0, &format!(r#"[48,{request},{{}},"{spelled}"]"#))).is(
            5 + call.len(),
            1,
            &call,
        );
        let error = format!(r#"[8,48,{request},{{}},"{written}",["\u0065"]]"#);
        let answer = format!(r#"[8,68,{invocation},{{}},"{spelled}",["\u0065"]]"#);
        script.tight(|s| s.send(1, &answer)).is(5 + error.len(), 0, &error);
    }
    script.heading("escapes: the exact row and the prefix, by any spelling");
    request += 1;
    script.send(0, &format!(r#"[16,{request},{{}},"a\u0022\u005c"]"#)).reaches(&[1, 1]);
    script.heading("escapes: a row's text that has a quote and a backslash, put into the state");
    let row = reference::layout::Table::Registrations.row(1);
    let text = b"q\"\\";
    script.poke(reference::layout::Table::Registrations.counter(), &2u64.to_be_bytes());
    script.poke(row, &[&2u64.to_be_bytes()[..], &[2, 1, text.len() as u8], text].concat());
    request += 1;
    script.send(0, &format!(r#"[48,{request},{{}},"q\"\u005c"]"#)).says(r#"[68,9,2,{"procedure":"q\"\\"}]"#);
}
