//! What a run did, counted.

use crate::breaches;
use crate::choices::Choices;
use crate::fates::Fates;
use crate::filed::Filed;
use crate::guarded::CALLS;
use crate::pair::{Mode, Outcome};
use crate::permissions::Permissions;
use crate::{sent, spelling};
use against::side::Step;
use reference::format::Format;
use reference::output::uris;
use reference::state::{State, Status, Table, ROWS, SLOTS};
use reference::{ids, json, strings};
use std::fmt;

/// The kinds of step.
#[derive(Clone, Copy, Debug, PartialEq, Eq)]
pub enum Kind {
    Valid,
    Spoilt,
    RandomBytes,
    SmallRoom,
    OneByteShort,
    ExactRoom,
    WrongSlot,
    WrongTime,
    NumberOutOfRange,
    NumberInUse,
    BrokenState,
    ChangedState,
    Deep,
    BrokenSettings,
    ChangedSettings,
}

pub const KINDS: [(Kind, &str); 15] = [
    (Kind::Valid, "valid"),
    (Kind::Spoilt, "spoilt message"),
    (Kind::RandomBytes, "random bytes"),
    (Kind::SmallRoom, "small room"),
    (Kind::OneByteShort, "one byte short"),
    (Kind::ExactRoom, "exact room"),
    (Kind::WrongSlot, "wrong slot"),
    (Kind::WrongTime, "wrong time"),
    (Kind::NumberOutOfRange, "number out of range"),
    (Kind::NumberInUse, "number in use"),
    (Kind::BrokenState, "broken state"),
    (Kind::ChangedState, "changed state bytes"),
    (Kind::Deep, "deep, wide and long"),
    (Kind::BrokenSettings, "broken settings"),
    (Kind::ChangedSettings, "changed settings bytes"),
];

const REFUSALS: [&str; 6] = ["done", "BAD STATE", "BAD SLOT", "WRONG TIME", "BAD NUMBER", "NO ROOM"];

const SENT: [(&str, &str); 12] = [
    ("[2,", "WELCOME"),
    ("[3,", "ABORT"),
    ("[6,", "GOODBYE"),
    ("[8,", "ERROR"),
    ("[17,", "PUBLISHED"),
    ("[33,", "SUBSCRIBED"),
    ("[35,", "UNSUBSCRIBED"),
    ("[36,", "EVENT"),
    ("[50,", "RESULT"),
    ("[65,", "REGISTERED"),
    ("[67,", "UNREGISTERED"),
    ("[68,", "INVOCATION"),
];

/// What a PUBLISH with a wrong option is answered.
const WRONG_OPTION: (&str, &[u8]) = ("[8,16,", uris::INVALID_ARGUMENT);

/// The hub's own URIs, told apart by what they answer where one answers several.
const URIS: [(&str, &[u8]); 22] = [
    ("[3,", uris::PROTOCOL_VIOLATION),
    ("[3,", uris::NO_SUCH_REALM),
    ("[6,", uris::GOODBYE_AND_OUT),
    WRONG_OPTION,
    ("[8,32,", uris::INVALID_ARGUMENT),
    ("[8,64,", uris::INVALID_ARGUMENT),
    ("[8,16,", uris::INVALID_URI),
    ("[8,32,", uris::INVALID_URI),
    ("[8,48,", uris::INVALID_URI),
    ("[8,64,", uris::INVALID_URI),
    ("[8,64,", uris::PROCEDURE_ALREADY_EXISTS),
    ("[8,48,", uris::NO_SUCH_PROCEDURE),
    ("[8,34,", uris::NO_SUCH_SUBSCRIPTION),
    ("[8,66,", uris::NO_SUCH_REGISTRATION),
    ("[8,48,", uris::CANCELED),
    ("[8,32,", uris::NO_ROOM),
    ("[8,48,", uris::NO_ROOM),
    ("[8,64,", uris::NO_ROOM),
    ("[8,16,", uris::NOT_AUTHORIZED),
    ("[8,32,", uris::NOT_AUTHORIZED),
    ("[8,48,", uris::NOT_AUTHORIZED),
    ("[8,64,", uris::NOT_AUTHORIZED),
];

/// The strings of the messages that were read: those of the outer list (realms, topics, procedures, error URIs and
/// reasons), the keys of dicts, and all others; of each, how many were spelled with escapes, and with a lone half.
const STRINGS: [&str; 9] = [
    "names",
    "names spelled with escapes",
    "names with a lone half",
    "keys",
    "keys spelled with escapes",
    "keys with a lone half",
    "other strings",
    "other strings spelled with escapes",
    "other strings with a lone half",
];

/// The texts that went out with a backslash in them.
const ESCAPED: [(&str, &str); 3] = [
    ("[8,", "ERROR whose URI is escaped"),
    ("[36,", "EVENT whose topic is escaped"),
    ("[68,", "INVOCATION whose procedure is escaped"),
];

/// What the states that traffic went through were like.
const STATES: [&str; 10] = [
    "empty hub",
    "8 sessions open",
    "32 subscriptions",
    "32 registrations",
    "32 held calls",
    "all of these full",
    "table counter at 2^53",
    "request counter at 2^53",
    "invocation counter at 2^53",
    "backslash in a row's text",
];

/// The messages sent, counted.
#[derive(Clone, Default)]
struct Counts {
    sent: [u64; SENT.len()],
    uris: [u64; URIS.len()],
    /// Call errors of a payload that does not convert, and those that carry the callee's own URI.
    not_convertible: u64,
    callee_errors: u64,
    escaped: [u64; ESCAPED.len()],
}

#[derive(Clone)]
pub struct Tally {
    mode: Mode,
    steps: u64,
    kinds: [u64; KINDS.len()],
    refusals: [u64; REFUSALS.len()],
    /// All messages, and of these the ones in MessagePack, which are told where slots speak it.
    counts: Counts,
    packed: Counts,
    fates: Fates,
    choices: Choices,
    pub permissions: Permissions,
    strings: [u64; STRINGS.len()],
    /// The messages that were read, and those of them that have no escape.
    read: u64,
    read_without_escape: u64,
    states: [u64; STATES.len()],
    breaches: Vec<u64>,
    most_messages: usize,
    longest_output: usize,
    /// The calls of settings functions, which are no steps.
    pub filed: Filed,
    /// The most bytes of stack that a call of each kind used.
    deepest: [usize; CALLS.len()],
}

impl Counts {
    /// Counts a message, which is given in JSON.
    fn message(&mut self, message: &[u8]) {
        let begins = |begin: &str| message.starts_with(begin.as_bytes());
        if let Some(place) = SENT.iter().position(|(begin, _)| begins(begin)) {
            self.sent[place] += 1;
        }
        // `..,{},"URI"..` or `..,{"key":"URI"}..`, if there is one: no brace comes earlier.
        let dict = message.iter().position(|&byte| byte == b'{').unwrap_or(message.len());
        let text = &message[dict..];
        let key = text.iter().position(|&byte| byte == b'}' || byte == b':').unwrap_or(0);
        let uri = match text[key..].iter().position(|&byte| byte == b'"') {
            Some(quote) if quote <= 2 => &text[key + quote + 1..],
            _ => b"",
        };
        let uri = &uri[..spelling::end(uri).unwrap_or(0)];
        if let Some(place) = ESCAPED.iter().position(|(begin, _)| begins(begin)) {
            self.escaped[place] += u64::from(uri.contains(&b'\\'));
        }
        if !["[3,", "[6,", "[8,"].into_iter().any(begins) {
            return;
        }
        match URIS.iter().position(|(begin, known)| begins(begin) && uri == *known) {
            Some(place) => self.uris[place] += 1,
            None if uri == uris::NOT_CONVERTIBLE => self.not_convertible += 1,
            None => self.callee_errors += 1,
        }
    }

    fn add(&mut self, other: &Counts) {
        sum(&mut self.sent, &other.sent);
        sum(&mut self.uris, &other.uris);
        self.not_convertible += other.not_convertible;
        self.callee_errors += other.callee_errors;
        sum(&mut self.escaped, &other.escaped);
    }

    /// The messages by kind.
    fn kinds(&self) -> Vec<(String, u64)> {
        lines(SENT.iter().map(|(_, name)| name), &self.sent)
    }

    /// The URIs that messages carry. No option of a PUBLISH is wrong where it has none that may be, and everybody may do
    /// everything where settings are the default ones.
    fn uris(&self, mode: Mode) -> Vec<(String, u64)> {
        let may_be = |uri: &(&str, &[u8])| {
            (mode.receivers || *uri != WRONG_OPTION) && (mode.settings || uri.1 != uris::NOT_AUTHORIZED)
        };
        let counted = URIS.iter().zip(self.uris);
        let counted = counted.filter(|(uri, count)| may_be(uri) || *count > 0);
        let told = |((begin, uri), count): (&(&str, &[u8]), u64)| {
            (format!("{begin}..\"{}\"", uri.escape_ascii()), count)
        };
        let mut uri_lines: Vec<_> = counted.map(told).collect();
        uri_lines.push(("[8,48,..a callee's own".to_string(), self.callee_errors));
        uri_lines
    }
}

/// A title, and lines of what was counted and how often it was met.
pub type Section = (&'static str, Vec<(String, u64)>);

pub fn sum(counts: &mut [u64], others: &[u64]) {
    for (count, other) in counts.iter_mut().zip(others) {
        *count += other;
    }
}

pub fn lines(names: impl Iterator<Item = impl ToString>, counts: &[u64]) -> Vec<(String, u64)> {
    names.map(|name| name.to_string()).zip(counts.iter().copied()).collect()
}

impl Tally {
    pub fn new(mode: Mode) -> Tally {
        Tally {
            mode,
            steps: 0,
            kinds: Default::default(),
            refusals: Default::default(),
            counts: Counts::default(),
            packed: Counts::default(),
            fates: Fates::default(),
            choices: Choices::default(),
            permissions: Permissions::default(),
            strings: Default::default(),
            read: 0,
            read_without_escape: 0,
            states: Default::default(),
            breaches: vec![0; breaches::all(mode.msgpack).len()],
            most_messages: 0,
            longest_output: 0,
            filed: Filed::default(),
            deepest: Default::default(),
        }
    }

    pub fn steps(&self) -> u64 {
        self.steps
    }

    /// Counts a step from settings and a state, its message if it has one, and what it made.
    pub fn step(&mut self, kind: Kind, step: &Step, settings: &[u8], state: &[u8], outcome: &Outcome) {
        self.steps += 1;
        self.kinds[kind as usize] += 1;
        self.refusals[outcome.refusal() as usize] += 1;
        self.longest_output = self.longest_output.max(outcome.count());
        if outcome.refusal() != 0 {
            return;
        }
        if json::elements(step.bytes(), |_| ()).is_some() {
            self.strings(step.bytes());
        }
        let sent = sent::messages(outcome.written()).expect("an output");
        self.most_messages = self.most_messages.max(sent.len());
        for (_, message) in sent {
            // A message of JSON begins with its bracket, and none of MessagePack does.
            if message[0] == b'[' {
                self.counts.message(message);
            } else {
                let message = sent::in_json(Format::MsgPack, message).expect("a message");
                self.counts.message(&message);
                self.packed.message(&message);
            }
        }
        if self.mode.msgpack {
            self.fates.step(step, state, outcome);
        }
        if self.mode.receivers {
            self.choices.step(step, state, outcome);
        }
        if self.mode.settings {
            self.permissions.step(step, settings, state, outcome);
        }
    }

    /// Counts the strings of a message that was read and is JSON.
    fn strings(&mut self, message: &[u8]) {
        self.read += 1;
        self.read_without_escape += u64::from(!message.contains(&b'\\'));
        let (mut at, mut depth) = (0, 0);
        while at < message.len() {
            let byte = message[at];
            at += 1;
            match byte {
                b'[' | b'{' => depth += 1,
                b']' | b'}' => depth -= 1,
                b'"' => {
                    let written = &message[at..at + spelling::end(&message[at..]).expect("JSON")];
                    at += written.len() + 1;
                    let kind = match message[at..].trim_ascii_start().first() {
                        Some(b':') => 1,
                        _ if depth == 1 => 0,
                        _ => 2,
                    };
                    self.strings[3 * kind] += 1;
                    self.strings[3 * kind + 1] += u64::from(written.contains(&b'\\'));
                    self.strings[3 * kind + 2] += u64::from(strings::undone(written).has_lone_half);
                }
                _ => {}
            }
        }
    }

    /// How many strings there were in the messages that were read, and how many of them were spelled with escapes.
    fn all_strings(&self) -> (u64, u64) {
        let sum = |first: usize| self.strings.iter().skip(first).step_by(3).sum();
        (sum(0), sum(1))
    }

    /// Counts a state that traffic goes on from.
    pub fn state(&mut self, state: &State) {
        self.fates.state(state);
        let is_full = |table: &Table| table.used().count() == ROWS;
        let sessions = || state.sessions.iter();
        let open = sessions().filter(|session| session.status == Status::Open).count() == SLOTS;
        let (subscriptions, registrations) = (is_full(&state.subscriptions), is_full(&state.registrations));
        let calls = state.calls.iter().all(|call| call.is_used());
        let found = [
            *state == State::empty(),
            open,
            subscriptions,
            registrations,
            calls,
            open && subscriptions && registrations && calls,
            [&state.subscriptions, &state.registrations].iter().any(|table| table.counter == ids::MAX),
            sessions().any(|session| session.requests == ids::MAX),
            sessions().any(|session| session.invocations == ids::MAX),
            [&state.subscriptions, &state.registrations]
                .iter()
                .any(|table| table.used().any(|row| row.text().contains(&b'\\'))),
        ];
        for (count, found) in self.states.iter_mut().zip(found) {
            *count += u64::from(found);
        }
    }

    /// Counts a breach by its place in the list.
    pub fn breach(&mut self, place: usize) {
        self.breaches[place] += 1;
    }

    /// Counts what each kind of call used of the stack.
    pub fn stack(&mut self, deepest: [usize; CALLS.len()]) {
        for (count, other) in self.deepest.iter_mut().zip(deepest) {
            *count = (*count).max(other);
        }
    }

    /// Adds another run's counts.
    pub fn add(&mut self, other: &Tally) {
        self.steps += other.steps;
        sum(&mut self.kinds, &other.kinds);
        sum(&mut self.refusals, &other.refusals);
        self.counts.add(&other.counts);
        self.packed.add(&other.packed);
        self.fates.add(&other.fates);
        self.choices.add(&other.choices);
        self.permissions.add(&other.permissions);
        sum(&mut self.strings, &other.strings);
        self.read += other.read;
        self.read_without_escape += other.read_without_escape;
        sum(&mut self.states, &other.states);
        sum(&mut self.breaches, &other.breaches);
        self.most_messages = self.most_messages.max(other.most_messages);
        self.longest_output = self.longest_output.max(other.longest_output);
        self.filed.add(&other.filed);
        self.stack(other.deepest);
    }

    /// What each kind of call used of the stack, in a line.
    pub fn told_stack(&self) -> String {
        let kinds = CALLS.iter().zip(self.deepest).map(|((_, name), most)| format!("{name} {most}"));
        format!("the most stack that a call used: {}", kinds.collect::<Vec<_>>().join(", "))
    }

    /// Everything that the run should have met and did not.
    pub fn missing(&self) -> Vec<String> {
        let calls = CALLS.iter().zip(self.deepest).map(|((_, name), most)| (name.to_string(), most as u64));
        let calls = if self.mode.dry || self.mode.files { Vec::new() } else { calls.collect() };
        self.sections()
            .into_iter()
            .chain([("calls", calls)])
            .flat_map(|(title, lines)| lines.into_iter().map(move |(name, count)| (title, name, count)))
            .filter(|&(_, _, count)| count == 0)
            .map(|(title, name, _)| format!("{title}: {name}"))
            .chain(self.too_few_escapes())
            .collect()
    }

    /// At least a tenth of the strings should be spelled with escapes.
    fn too_few_escapes(&self) -> Option<String> {
        let (strings, spelled) = self.all_strings();
        (10 * spelled < strings).then(|| "strings: escapes in a tenth of them".to_string())
    }

    fn sections(&self) -> Vec<Section> {
        if self.mode.files {
            return self.filed.sections();
        }
        let mut uris = self.counts.uris(self.mode);
        uris.extend(lines(ESCAPED.iter().map(|(_, name)| name), &self.counts.escaped));
        let all = breaches::all(self.mode.msgpack);
        let breaches = all.iter().map(|(rule, name, _)| format!("rule {rule}: {name}"));
        // The last two are of settings.
        let kinds = KINDS.len() - if self.mode.settings { 0 } else { 2 };
        let mut sections = vec![
            ("steps", lines(KINDS[..kinds].iter().map(|(_, name)| name), &self.kinds)),
            ("answers", lines(REFUSALS.iter(), &self.refusals)),
            ("messages sent", self.counts.kinds()),
            ("URIs sent", uris),
            ("strings", lines(STRINGS.iter(), &self.strings)),
            ("states gone on from", lines(STATES.iter(), &self.states)),
            ("states broken", lines(breaches, &self.breaches)),
        ];
        if self.mode.msgpack {
            let mut uris = self.packed.uris(self.mode);
            uris.push((String::from_utf8_lossy(uris::NOT_CONVERTIBLE).into(), self.packed.not_convertible));
            sections.push(("messages sent in MessagePack", self.packed.kinds()));
            sections.push(("URIs sent in MessagePack", uris));
            sections.extend(self.fates.sections());
        }
        if self.mode.receivers {
            let formats: &[Format] = if self.mode.msgpack { &Format::BOTH } else { &[Format::Json] };
            sections.push(("options of PUBLISH that choose receivers", self.choices.lines(formats)));
        }
        if self.mode.settings {
            sections.extend(self.permissions.sections());
        }
        sections.extend(self.filed.sections());
        sections
    }
}

impl fmt::Display for Tally {
    fn fmt(&self, f: &mut fmt::Formatter) -> fmt::Result {
        for (title, lines) in self.sections() {
            writeln!(f, "{title}:")?;
            for (name, count) in lines {
                writeln!(f, "  {count:>10}  {name}")?;
            }
        }
        let (strings, spelled) = self.all_strings();
        let share = 100.0 * spelled as f64 / strings.max(1) as f64;
        writeln!(f, "strings spelled with escapes: {spelled} of {strings}, {share:.1} %")?;
        writeln!(f, "messages without an escape: {} of {}", self.read_without_escape, self.read)?;
        writeln!(f, "most messages of one step: {}", self.most_messages)?;
        writeln!(f, "longest output: {} bytes", self.longest_output)
    }
}

#[cfg(test)]
mod tests {
    use super::*;

    #[test]
    fn each_kind_has_its_name() {
        assert!(KINDS.iter().enumerate().all(|(place, (kind, _))| *kind as usize == place));
    }

    #[test]
    fn uris_are_told_apart() {
        let mut tally = Counts::default();
        tally.message(br#"[8,48,7,{},"hub.error.no_room"]"#);
        tally.message(br#"[8,48,7,{},"x.y",[{"a":"wamp.error.canceled"}]]"#);
        tally.message(br#"[3,{},"wamp.error.no_such_realm"]"#);
        tally.message(br#"[36,1,2,{"topic":"hub.error.no_room"}]"#);
        assert_eq!(tally.uris.iter().sum::<u64>(), 2);
        assert_eq!((tally.uris[1], tally.uris[16], tally.callee_errors), (1, 1, 1));
        assert_eq!(tally.sent.iter().sum::<u64>(), 4);
        tally.message(br#"[8,48,7,{},"hub.error.not_convertible"]"#);
        assert_eq!((tally.not_convertible, tally.callee_errors), (1, 1));
    }

    #[test]
    fn escaped_texts_are_seen() {
        let mut tally = Counts::default();
        tally.message(br#"[8,48,7,{},"wamp.error.canceled\"x"]"#);
        tally.message(br#"[8,48,7,{},"x.y",["\\"]]"#);
        tally.message(br#"[36,1,2,{"topic":"a\\"}]"#);
        tally.message(br#"[36,1,2,{"topic":"a"},["\\"]]"#);
        tally.message(br#"[36,1,2,{},["\\"]]"#);
        tally.message(br#"[68,1,2,{"procedure":"\""},[]]"#);
        tally.message(br#"[68,1,2,{"procedure":"a"}]"#);
        tally.message(br#"[68,1,2,{}]"#);
        assert_eq!((tally.escaped, tally.callee_errors), ([1, 1, 1], 2));
    }

    #[test]
    fn strings_are_counted() {
        let mut tally =
            Tally::new(Mode { msgpack: false, receivers: true, settings: false, files: false, dry: true });
        tally.strings(br#"[48,1,{"x" : "\ud800","\u0061":[]},"hub\\","[\"{",{"\ud800":{"":"]"}}]"#);
        assert_eq!(tally.strings, [2, 2, 0, 4, 2, 1, 2, 1, 1]);
        assert_eq!(tally.all_strings(), (8, 5));
        assert_eq!(tally.too_few_escapes(), None);
        (0..43).for_each(|_| tally.strings(br#"[70,1,{},["a"]]"#));
        assert!(tally.too_few_escapes().is_some());
    }
}
