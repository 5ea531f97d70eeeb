//! The cases: each a state to begin with, and steps to run from it.

use against::side::Step;
use reference::format::Format;
use reference::message::MAX_LENGTH;
use reference::state::{HeldCall, Row, Session, State, Status, BYTES, ROWS, SLOTS};
use reference::uri::Policy;
use reference::values;

/// A turn of a case puts the start into the lent state and runs the steps in order. A case of many steps in a
/// turn has next to nothing of the copying in its time; a case of one step has it, on both sides alike.
pub struct Case {
    /// What `--count` knows it by.
    pub name: String,
    pub title: String,
    pub start: Vec<u8>,
    pub steps: Vec<Step>,
    /// The turns of one round. A round takes well below a millisecond, so that few of them are interrupted.
    pub turns: usize,
}

/// Any lent number.
const NUMBER: u64 = 4711;

pub fn all() -> Vec<Case> {
    let called = "hub.donor.defer";
    let mut cases = vec![
        call_and_yield("call", "CALL and YIELD, three sessions", three_sessions(), called),
        call_and_yield("call-full", "CALL and YIELD, every table full", full(), called),
        publish(),
        violation("violation", "a violation, three sessions", three_sessions()),
        violation("violation-full", "a violation, every table full", full()),
        read_only("nested", "a message of 2,048 bytes nested to depth 8", nested()),
        read_only("keys", "a message of 2,048 bytes with as many keys as fit", keys()),
    ];
    cases.extend([1, 2, 4, 8, 16, 32].map(growing));
    cases.extend([
        wildcards("wildcards-last", "one CALL, 32 wildcard registrations, the last one fits", ROWS - 1),
        wildcards("wildcards-none", "one CALL, 32 wildcard registrations, none fits", ROWS),
    ]);
    let topic = format!("hub.{}", "sheet".repeat(25).split_at(124).0);
    let options = "{\"timeout\":5000,\"disclose_me\":true}";
    cases.extend([
        one_step(
            "topic-long",
            "one SUBSCRIBE to a topic of 128 bytes",
            three_sessions(),
            format!("[32,1,{{}},\"{topic}\"]"),
        ),
        one_step(
            "call-options",
            "one CALL with two options",
            three_sessions(),
            format!("[48,1,{options},\"{called}\",[\"D17\"]]"),
        ),
        one_step(
            "call-accent",
            "one CALL of a procedure with an accent that is not escaped",
            three_sessions(),
            "[48,1,{},\"hub.donor.d\u{e9}fer\",[\"D17\"]]".to_string(),
        ),
        read_only(
            "keys-mark",
            "a message of 2,048 bytes with as many keys of one mark as fit",
            one_mark_keys(),
        ),
    ]);
    let one = "hub.donor.\\u0064efer";
    let whole: String = called.chars().map(|character| format!("\\u{:04x}", u32::from(character))).collect();
    cases.extend([
        call_and_yield("call-escape", "the same CALL with one escape, three sessions", three_sessions(), one),
        call_and_yield(
            "call-escapes",
            "the same CALL all in escapes, three sessions",
            three_sessions(),
            &whole,
        ),
        publish_quotes(),
        read_only(
            "keys-escapes",
            "a message of 2,048 bytes with as many keys as fit, in escapes",
            escaped_keys(),
        ),
        read_only("text-escapes", "a message of 2,048 bytes whose payload is all in escapes", escaped_text()),
    ]);
    cases.extend(of_msgpack());
    cases.extend(publish_chosen());
    cases
}

/// Those of slots that speak MessagePack, among themselves and with slots of JSON.
fn of_msgpack() -> Vec<Case> {
    use Format::{Json, MsgPack};
    let calls = |name, title, formats| {
        let mut start = three_sessions();
        [start.sessions[0].format, start.sessions[1].format] = formats;
        call_and_yield(name, title, start, "hub.donor.defer")
    };
    vec![
        calls("call-msgpack", "CALL and YIELD in MessagePack, three sessions", [MsgPack, MsgPack]),
        calls("call-converted", "CALL of JSON, YIELD of MessagePack, three sessions", [Json, MsgPack]),
        publish_converted(
            "publish-to-msgpack",
            "PUBLISH of 1 KB of JSON to 224 receivers of MessagePack",
            Json,
        ),
        publish_converted(
            "publish-to-json",
            "PUBLISH of 1 KB of MessagePack to 224 receivers of JSON",
            MsgPack,
        ),
    ]
}

/// The bytes of a message that is given in JSON.
fn in_format(format: Format, text: String) -> Vec<u8> {
    match format {
        Format::Json => text.into_bytes(),
        Format::MsgPack => {
            let converted = values::convert(Format::Json, format, 8, text.as_bytes(), 0);
            converted.expect("a message that converts").0
        }
    }
}

impl Case {
    fn new(name: &str, title: &str, start: State, steps: Vec<Step>, turns: usize) -> Case {
        assert_eq!(start.broken_rule(), None, "{name}");
        let mut bytes = vec![0; BYTES];
        start.print(&mut bytes);
        Case { name: name.to_string(), title: title.to_string(), start: bytes, steps, turns }
    }
}

/// Slot 0 calls, slot 1 answers, each in its format; 50 calls in a turn. The procedure is given as it stands between its
/// quotes.
fn call_and_yield(name: &str, title: &str, start: State, procedure: &str) -> Case {
    let [caller, callee, ..] = start.sessions;
    let steps = (1..=50).flat_map(|k| {
        let call = format!("[48,{},{{}},\"{procedure}\",[\"D17\"]]", caller.requests + k);
        let answer = format!("[70,{},{{}},[\"held\"]]", callee.invocations + k);
        [
            Step::message(0, NUMBER, in_format(caller.format, call)),
            Step::message(1, NUMBER, in_format(callee.format, answer)),
        ]
    });
    Case::new(name, title, start, steps.collect(), 1)
}

/// Slot 7 publishes a payload of 1 KB to seven sessions, all of them members of 32 rows that fit.
fn publish() -> Case {
    published("publish", "PUBLISH of 1 KB to 224 receivers", full(), "", ["e", "e"])
}

/// The same with an option of 8 session IDs, which are looked for: `exclude` names two of the members, `eligible` all.
fn publish_chosen() -> [Case; 2] {
    let excluded = r#""exclude":[11,12,13,14,15,16,1,7]"#;
    let eligible = r#""eligible":[11,7,6,5,4,3,2,1]"#;
    let (name, title) = ("publish-exclude", "PUBLISH of 1 KB with exclude of 8 IDs, to 160 receivers");
    let exclude = published(name, title, full(), excluded, ["e", "e"]);
    let (name, title) = ("publish-eligible", "PUBLISH of 1 KB with eligible of 8 IDs, to 224 receivers");
    [exclude, published(name, title, full(), eligible, ["e", "e"])]
}

/// The same, from a slot of a format to those of the other.
fn publish_converted(name: &str, title: &str, format: Format) -> Case {
    let mut start = full();
    start.sessions.iter_mut().for_each(|session| session.format = format.other());
    start.sessions[7].format = format;
    published(name, title, start, "", ["e", "e"])
}

/// The same with a topic that has a quote and a backslash, which every event tells.
fn publish_quotes() -> Case {
    published(
        "publish-quotes",
        "the same PUBLISH with a quote and a backslash in its topic",
        full(),
        "",
        ["\"\\", "\\\"\\\\"],
    )
}

/// The options are given as the members of a dict, and the topic's last component undone and as it stands between the
/// quotes.
fn published(name: &str, title: &str, mut start: State, options: &str, [last, written]: [&str; 2]) -> Case {
    for (place, row) in start.subscriptions.rows.iter_mut().enumerate() {
        *row = Row::new(place as u64 + 1, Policy::Wildcard, 0x7f, wildcard_of_five(place, last).as_bytes());
    }
    let publisher = start.sessions[7];
    let payload = format!("[\"{}\"]", "x".repeat(1020));
    let steps = (1..=10).map(|k| {
        let request = publisher.requests + k;
        let text = format!("[16,{request},{{{options}}},\"a.b.c.d.{written}\",{payload}]");
        Step::message(7, NUMBER, in_format(publisher.format, text))
    });
    Case::new(name, title, start, steps.collect(), 1)
}

/// Slot 1, the procedure's owner, sends a request out of turn. Its session ends, so each turn is one step.
fn violation(name: &str, title: &str, start: State) -> Case {
    let text = b"[48,9999,{},\"hub.donor.defer\"]".to_vec();
    Case::new(name, title, start, vec![Step::message(1, NUMBER, text)], 100)
}

/// Slot 1 answers an invocation that was answered before: the message is read, and nothing follows.
fn read_only(name: &str, title: &str, text: String) -> Case {
    assert_eq!(text.len(), MAX_LENGTH, "{name}");
    let mut start = three_sessions();
    start.sessions[1].invocations = 1;
    Case::new(name, title, start, vec![Step::message(1, NUMBER, text.into_bytes()); 20], 1)
}

/// Slot 0 calls, with so many registrations.
fn growing(count: usize) -> Case {
    let mut start = three_sessions();
    register(&mut start, count, |_| 1);
    let (name, title) = (format!("registrations-{count}"), format!("one CALL, {count} of 32 registrations"));
    one_step(&name, &title, start, "[48,1,{},\"hub.donor.defer\",[\"D17\"]]".to_string())
}

/// Slot 0 calls, with 32 wildcard registrations of ten components. Each has one empty, and fits the URI up to its last component,
/// which is the place of the row that fits.
fn wildcards(name: &str, title: &str, fitting: usize) -> Case {
    let procedure =
        |second: &str, last: usize| format!("hub.{second}.sheet.page.row.field.crew.shift.tablet.bed{last}");
    let mut start = three_sessions();
    for place in 0..ROWS {
        let text = procedure("", place);
        start.registrations.rows[place] = Row::new(place as u64 + 1, Policy::Wildcard, 1, text.as_bytes());
    }
    start.registrations.counter = ROWS as u64;
    one_step(name, title, start, format!("[48,1,{{}},\"{}\",[\"D17\"]]", procedure("donor", fitting)))
}

/// Slot 0 sends a message; each turn is one step.
fn one_step(name: &str, title: &str, start: State, text: String) -> Case {
    Case::new(name, title, start, vec![Step::message(0, NUMBER, text.into_bytes())], 100)
}

/// Three sessions, of which slot 1 has registered a procedure.
fn three_sessions() -> State {
    let mut state = State::empty();
    for (session, id) in state.sessions.iter_mut().zip(1..=3) {
        *session = Session { status: Status::Open, id, ..Session::default() };
    }
    register(&mut state, 1, |_| 1);
    state.sessions[1].requests = 1;
    state
}

/// Eight sessions, 32 subscriptions of which each session holds some, 32 registrations, 31 held calls.
fn full() -> State {
    let mut state = State::empty();
    for (session, id) in state.sessions.iter_mut().zip(1..) {
        *session =
            Session { status: Status::Open, format: Format::Json, id, requests: 100, invocations: 100 };
    }
    // The procedure that is called is slot 1's.
    register(&mut state, ROWS, |place| if place == 0 { 1 } else { (place % SLOTS) as u8 });
    for place in 0..ROWS {
        let (policy, text) = row(place);
        let members = 1 << (place % SLOTS) | 1 << (place / SLOTS);
        state.subscriptions.rows[place] = Row::new(place as u64 + 1, policy, members, text.as_bytes());
    }
    state.subscriptions.counter = ROWS as u64;
    for place in 0..ROWS - 1 {
        let number = place as u64 + 1;
        let (caller, callee) = (place as u8 % 8, (place as u8 / 4) % 8);
        state.calls[place] = HeldCall { caller, request: number, callee, invocation: number };
    }
    state
}

/// Fills the first places of the registrations.
fn register(state: &mut State, count: usize, owner: impl Fn(usize) -> u8) {
    for place in 0..count {
        let (policy, text) = row(place);
        state.registrations.rows[place] = Row::new(place as u64 + 1, policy, owner(place), text.as_bytes());
    }
    state.registrations.counter = count as u64;
}

/// A policy and a text for a place of a table: the first is the exact one that is called; the others are of
/// each policy in turn, and those that are not exact mostly fit nothing.
fn row(place: usize) -> (Policy, String) {
    match place % 3 {
        _ if place == 0 => (Policy::Exact, "hub.donor.defer".to_string()),
        0 => (Policy::Exact, format!("hub.donor.sheet{place}.read")),
        1 => (Policy::Prefix, format!("hub.donor.crew{place}.")),
        _ => (Policy::Wildcard, format!("hub..defer.tablet{place}")),
    }
}

/// The k-th of the 32 wildcard texts that fit `a.b.c.d.` and the last component: each bit empties a component.
fn wildcard_of_five(k: usize, last: &str) -> String {
    let parts = ["a", "b", "c", "d", last].into_iter().enumerate();
    let kept = parts.map(|(place, part)| if k >> place & 1 == 1 { "" } else { part });
    kept.collect::<Vec<_>>().join(".")
}

/// A YIELD of 2,048 bytes whose payload goes to depth 8 again and again.
fn nested() -> String {
    let unit = "{\"a\":[{\"b\":[{\"c\":[1]}]}]},";
    filled("[70,1,{},[", unit.repeat(MAX_LENGTH / unit.len() - 1), "1]]")
}

/// A YIELD of 2,048 bytes with one dict of many keys, no two of which may be equal.
fn keys() -> String {
    let members: String = (100..).map(|k| format!("\"{k}\":1,")).take(250).collect();
    filled("[70,1,{},[],{", members, "\"end\":1}]")
}

/// The same with keys of four bytes that the archive cannot tell apart by their marks (crates/strings/specs/Places.antt):
/// the last byte is the one that makes the mark 0.
fn one_mark_keys() -> String {
    let letters = || (b'0'..=b'~').filter(|&byte| byte != b'\\');
    let triples = letters().flat_map(|a| letters().flat_map(move |b| letters().map(move |c| [a, b, c])));
    let keys = triples.filter_map(|[a, b, c]| {
        let mark = [a, b, c].iter().fold(0u32, |mark, &byte| (mark + u32::from(byte)) * 251 % 65536);
        let last = (65536 - mark) % 65536;
        let fits = letters().any(|byte| u32::from(byte) == last);
        fits.then(|| [a, b, c, last as u8].map(char::from))
    });
    let members: String = keys.take(224).map(|key| format!("\"{}\":1,", String::from_iter(key))).collect();
    filled("[70,1,{},[],{", members, "\"end\":1}]")
}

/// The same with keys that are all in escapes, characters of two bytes and of three.
fn escaped_keys() -> String {
    let members: String = (0x7c0..).map(|code| format!("\"\\u{code:04x}\":1,")).take(180).collect();
    filled("[70,1,{},[],{", members, "\"end\":1}]")
}

/// A YIELD of 2,048 bytes with one string in its payload, of pairs of surrogate halves.
fn escaped_text() -> String {
    filled("[70,1,{},[\"", "\\ud834\\udd1e".repeat(168), "\"]]")
}

/// The three parts, with white space before the last of them up to 2,048 bytes.
fn filled(first: &str, middle: String, last: &str) -> String {
    let room = MAX_LENGTH - first.len() - middle.len() - last.len();
    [first, &middle, &" ".repeat(room), last].concat()
}
