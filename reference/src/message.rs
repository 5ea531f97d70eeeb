//! The eleven messages taken in: bytes of a format to a message, or a violation.
//!
//! Payloads are the message's own bytes. In JSON, realm, topic, procedure and error URI have their escapes undone, and
//! so have the keys of Options and the value of `match` when they are compared; a lone surrogate half in one of these
//! strings is a violation, whatever else the message is. In MessagePack a str is its bytes. What depends on the session
//! (its request number, its last invocation, whether it is open) is judged by `hub`, and so is an option that is wrong.

use crate::format::Format;
use crate::json::{self, Item, Kind};
use crate::msgpack::{self, Head};
use crate::payload::Payload;
use crate::receivers::{Choice, Ids, Receivers};
use crate::strings::{self, Text};
use crate::uri::{self, Policy};
use crate::{ids, utf8};

/// The longest message, in bytes.
pub const MAX_LENGTH: usize = 2048;

/// The most elements that a message has: an ERROR with both parts of its payload.
const MAX_ELEMENTS: usize = 7;

/// What the option `match` asks for. Absent, it asks for `exact`.
#[derive(Clone, Copy, Debug, PartialEq, Eq)]
pub enum Match {
    Policy(Policy),
    /// A value other than the strings `exact`, `prefix` and `wildcard`.
    Unknown,
}

/// A message taken in.
#[derive(Clone, Debug, PartialEq, Eq)]
pub enum Incoming<'m> {
    Hello { realm: Text<'m> },
    Abort,
    Goodbye,
    Error { invocation: u64, uri: Text<'m>, payload: Payload<'m> },
    Publish { request: u64, acknowledge: bool, receivers: Receivers, topic: Text<'m>, payload: Payload<'m> },
    Subscribe { request: u64, matching: Match, topic: Text<'m> },
    Unsubscribe { request: u64, subscription: u64 },
    Call { request: u64, procedure: Text<'m>, payload: Payload<'m> },
    Register { request: u64, matching: Match, procedure: Text<'m> },
    Unregister { request: u64, registration: u64 },
    Yield { invocation: u64, payload: Payload<'m> },
}

/// The message breaks a rule of reading.
#[derive(Clone, Copy, Debug, PartialEq, Eq)]
pub struct Violation;

impl<'m> Incoming<'m> {
    /// The payload, of a message that may have one.
    pub fn payload(&self) -> Payload<'m> {
        match *self {
            Incoming::Error { payload, .. }
            | Incoming::Publish { payload, .. }
            | Incoming::Call { payload, .. }
            | Incoming::Yield { payload, .. } => payload,
            _ => Payload::None,
        }
    }
}

/// Reads a message of a format.
pub fn read(format: Format, bytes: &[u8]) -> Result<Incoming<'_>, Violation> {
    if bytes.is_empty() || bytes.len() > MAX_LENGTH {
        return Err(Violation);
    }
    let message = Elements::split(format, bytes).ok_or(Violation)?;
    message.incoming().ok_or(Violation)
}

/// The elements of the outer list: at least one, and no more than a message has.
struct Elements<'m> {
    format: Format,
    message: &'m [u8],
    items: [Item; MAX_ELEMENTS],
    count: usize,
}

impl<'m> Elements<'m> {
    fn split(format: Format, message: &'m [u8]) -> Option<Self> {
        let mut items = [Item::default(); MAX_ELEMENTS];
        let mut count = 0;
        let each = |item| {
            if let Some(place) = items.get_mut(count) {
                *place = item;
            }
            count += 1;
        };
        match format {
            Format::Json if !utf8::well_formed(message) => return None,
            Format::Json => json::elements(message, each)?,
            Format::MsgPack => msgpack::elements(message, each)?,
        }
        (1..=MAX_ELEMENTS).contains(&count).then_some(Elements { format, message, items, count })
    }

    /// The message that the elements make; `None` if their number or kinds are not those of its shape.
    fn incoming(&self) -> Option<Incoming<'m>> {
        match self.id(0)? {
            1 => {
                self.dict(2)?;
                self.ends(3)?;
                Some(Incoming::Hello { realm: self.text(1)? })
            }
            3 => {
                self.details_and_reason()?;
                Some(Incoming::Abort)
            }
            6 => {
                self.details_and_reason()?;
                Some(Incoming::Goodbye)
            }
            8 => {
                // Only an INVOCATION, 68, is answered by an ERROR.
                if self.id(1)? != 68 {
                    return None;
                }
                self.dict(3)?;
                let uri = self.text(4)?;
                if !uri::is_error_uri(&uri) {
                    return None;
                }
                Some(Incoming::Error { invocation: self.id(2)?, uri, payload: self.payload(5)? })
            }
            16 => {
                let (acknowledge, receivers) = self.publishing(2)?;
                let (request, topic, payload) = (self.id(1)?, self.text(3)?, self.payload(4)?);
                Some(Incoming::Publish { request, acknowledge, receivers, topic, payload })
            }
            32 => {
                self.ends(4)?;
                let (request, matching, topic) = (self.id(1)?, self.matching(2)?, self.text(3)?);
                Some(Incoming::Subscribe { request, matching, topic })
            }
            34 => {
                self.ends(3)?;
                Some(Incoming::Unsubscribe { request: self.id(1)?, subscription: self.id(2)? })
            }
            48 => {
                self.passed_over(2)?;
                let (request, procedure, payload) = (self.id(1)?, self.text(3)?, self.payload(4)?);
                Some(Incoming::Call { request, procedure, payload })
            }
            64 => {
                self.ends(4)?;
                let (request, matching, procedure) = (self.id(1)?, self.matching(2)?, self.text(3)?);
                Some(Incoming::Register { request, matching, procedure })
            }
            66 => {
                self.ends(3)?;
                Some(Incoming::Unregister { request: self.id(1)?, registration: self.id(2)? })
            }
            70 => {
                self.passed_over(2)?;
                Some(Incoming::Yield { invocation: self.id(1)?, payload: self.payload(3)? })
            }
            _ => None,
        }
    }

    /// The k-th element, if there is one.
    fn item(&self, k: usize) -> Option<Item> {
        self.items[..self.count].get(k).copied()
    }

    /// The k-th element's bytes, if it is of that kind.
    fn of_kind(&self, k: usize, kind: Kind) -> Option<&'m [u8]> {
        let item = self.item(k)?;
        (item.kind == kind).then(|| item.span.of(self.message))
    }

    /// There are `count` elements and no more.
    fn ends(&self, count: usize) -> Option<()> {
        (self.count == count).then_some(())
    }

    fn id(&self, k: usize) -> Option<u64> {
        self.id_of(self.of_kind(k, Kind::Number)?)
    }

    /// The ID that a value is; in MessagePack an integer of any form.
    fn id_of(&self, number: &[u8]) -> Option<u64> {
        if self.format == Format::Json {
            return ids::read(number);
        }
        let (Head::Integer(integer), _) = msgpack::head(number, 0)? else {
            return None;
        };
        u64::try_from(integer).ok().filter(|&number| ids::in_range(number))
    }

    /// The text of a string.
    fn text(&self, k: usize) -> Option<Text<'m>> {
        self.text_of(self.of_kind(k, Kind::String)?)
    }

    /// The text of a value that is a string; `None` where it has a lone half.
    fn text_of(&self, string: &'m [u8]) -> Option<Text<'m>> {
        match self.format {
            Format::Json => text(&string[1..string.len() - 1]),
            Format::MsgPack => msgpack::str_at(string, 0).map(|(text, _)| Text::Borrowed(text)),
        }
    }

    fn dict(&self, k: usize) -> Option<&'m [u8]> {
        self.of_kind(k, Kind::Dict)
    }

    /// `[_,Details,Reason]`
    fn details_and_reason(&self) -> Option<()> {
        self.dict(1)?;
        self.of_kind(2, Kind::String)?;
        self.ends(3)
    }

    /// The payload, from the k-th element to the end.
    fn payload(&self, k: usize) -> Option<Payload<'m>> {
        match self.count - k.min(self.count) {
            0 => Some(Payload::None),
            1 => Some(Payload::List(self.of_kind(k, Kind::List)?)),
            2 => Some(Payload::ListAndDict(self.of_kind(k, Kind::List)?, self.dict(k + 1)?)),
            _ => None,
        }
    }

    /// Hands over the options in the k-th element: the key's text and the value. `None` if the element is no dict, or
    /// a key has a lone half. A key of MessagePack that is no str is passed over.
    fn options(&self, k: usize, mut each: impl FnMut(&[u8], Item)) -> Option<()> {
        self.dict(k)?;
        let from = self.items[k].span.from;
        if self.format == Format::MsgPack {
            return msgpack::members(self.message, from, each);
        }
        let mut has_lone_half = false;
        json::members(self.message, from, |key, value| {
            has_lone_half |= key.has_lone_half;
            each(&key.text, value);
        })?;
        (!has_lone_half).then_some(())
    }

    /// The k-th element is options of which none is looked at.
    fn passed_over(&self, k: usize) -> Option<()> {
        // Where no escape stands there is no half, and the keys need not be gone through.
        if self.format == Format::MsgPack || !self.dict(k)?.contains(&b'\\') {
            return self.dict(k).map(|_| ());
        }
        self.options(k, |_, _| ())
    }

    /// The value of an option in the k-th element. The outer `None` is that of `options`.
    fn option(&self, k: usize, key: &[u8]) -> Option<Option<Item>> {
        let mut found = None;
        self.options(k, |name, value| {
            if name == key {
                found = Some(value);
            }
        })?;
        Some(found)
    }

    /// The options of a PUBLISH, in the k-th element: whether it wants an answer, and who receives its events.
    fn publishing(&self, k: usize) -> Option<(bool, Receivers)> {
        let (mut acknowledge, mut receivers) = (false, Receivers::default());
        self.options(k, |key, value| match key {
            b"acknowledge" => acknowledge = self.boolean(value) == Choice::Right(true),
            b"exclude_me" => receivers.exclude_me = self.boolean(value),
            b"exclude" => receivers.exclude = self.ids(value),
            b"eligible" => receivers.eligible = self.ids(value),
            _ => {}
        })?;
        Some((acknowledge, receivers))
    }

    /// An option that is literally true or false.
    fn boolean(&self, value: Item) -> Choice<bool> {
        match (self.format, value.span.of(self.message)) {
            (Format::Json, b"true") | (Format::MsgPack, b"\xc3") => Choice::Right(true),
            (Format::Json, b"false") | (Format::MsgPack, b"\xc2") => Choice::Right(false),
            _ => Choice::Wrong,
        }
    }

    /// An option that is a list of IDs.
    fn ids(&self, value: Item) -> Choice<Ids> {
        let list = value.span.of(self.message);
        let mut ids = Some(Ids::default());
        let each = |entry: Item| ids = ids.and_then(|ids| ids.with(self.id_of(entry.span.of(list))?));
        let is_list = match self.format {
            Format::Json => json::elements(list, each),
            Format::MsgPack => msgpack::elements(list, each),
        };
        is_list.and(ids).map_or(Choice::Wrong, Choice::Right)
    }

    /// The option `match` of the k-th element.
    fn matching(&self, k: usize) -> Option<Match> {
        let Some(value) = self.option(k, b"match")? else {
            return Some(Match::Policy(Policy::Exact));
        };
        if value.kind != Kind::String {
            return Some(Match::Unknown);
        }
        Some(match &*self.text_of(value.span.of(self.message))? {
            b"exact" => Match::Policy(Policy::Exact),
            b"prefix" => Match::Policy(Policy::Prefix),
            b"wildcard" => Match::Policy(Policy::Wildcard),
            _ => Match::Unknown,
        })
    }
}

/// The text of what stands between a string's quotes; `None` where it has a lone half.
fn text(written: &[u8]) -> Option<Text<'_>> {
    let undone = strings::undone(written);
    (!undone.has_lone_half).then_some(undone.text)
}

#[cfg(test)]
mod tests {
    use super::*;
    use crate::values::convert;

    fn is_violation(text: &str) -> bool {
        read(text.as_bytes()) == Err(Violation)
    }

    /// Reads a message of JSON.
    fn read(bytes: &[u8]) -> Result<Incoming<'_>, Violation> {
        super::read(Format::Json, bytes)
    }

    fn own(text: &str) -> Text<'_> {
        Text::Borrowed(text.as_bytes())
    }

    /// A PUBLISH of request number 1.
    fn publish<'m>(
        acknowledge: bool,
        receivers: Receivers,
        topic: &'m str,
        payload: Payload<'m>,
    ) -> Incoming<'m> {
        Incoming::Publish { request: 1, acknowledge, receivers, topic: own(topic), payload }
    }

    /// One message of each kind, with the most elements that it may have.
    const FULL: [&str; 11] = [
        r#"[1,"hub.bus",{}]"#,
        r#"[3,{},"a.b"]"#,
        r#"[6,{},"a.b"]"#,
        r#"[8,68,1,{},"a.b",[1],{"k":2}]"#,
        r#"[16,1,{},"a.b",[1],{"k":2}]"#,
        r#"[32,1,{},"a.b"]"#,
        r#"[34,1,2]"#,
        r#"[48,1,{},"a.b",[1],{"k":2}]"#,
        r#"[64,1,{},"a.b"]"#,
        r#"[66,1,2]"#,
        r#"[70,1,{},[1],{"k":2}]"#,
    ];

    /// What `FULL` means, with the payload as its format has it.
    fn meant_by_full(payload: Payload<'_>) -> [Incoming<'_>; 11] {
        let matching = Match::Policy(Policy::Exact);
        [
            Incoming::Hello { realm: own("hub.bus") },
            Incoming::Abort,
            Incoming::Goodbye,
            Incoming::Error { invocation: 1, uri: own("a.b"), payload },
            publish(false, Receivers::default(), "a.b", payload),
            Incoming::Subscribe { request: 1, matching, topic: own("a.b") },
            Incoming::Unsubscribe { request: 1, subscription: 2 },
            Incoming::Call { request: 1, procedure: own("a.b"), payload },
            Incoming::Register { request: 1, matching, procedure: own("a.b") },
            Incoming::Unregister { request: 1, registration: 2 },
            Incoming::Yield { invocation: 1, payload },
        ]
    }

    #[test]
    fn the_eleven_messages() {
        let payload = Payload::ListAndDict(b"[1]", br#"{"k":2}"#);
        for (text, message) in FULL.into_iter().zip(meant_by_full(payload)) {
            assert_eq!(read(text.as_bytes()), Ok(message), "{text}");
        }
    }

    #[test]
    fn payloads() {
        for (text, wanted) in [
            (r#"[70,1,{}]"#, Payload::None),
            (r#"[70,1,{}, [ 1 ] ]"#, Payload::List(b"[ 1 ]")),
            (r#"[70,1,{},[],{ }]"#, Payload::ListAndDict(b"[]", b"{ }")),
        ] {
            assert_eq!(read(text.as_bytes()), Ok(Incoming::Yield { invocation: 1, payload: wanted }));
        }
        for text in [r#"[70,1,{},{}]"#, r#"[70,1,{},[],[]]"#, r#"[70,1,{},1]"#, r#"[70,1,{},[],{},1]"#] {
            assert!(is_violation(text), "{text}");
        }
    }

    #[test]
    fn shapes() {
        for text in FULL {
            let elements: Vec<_> = split(text);
            // Another element at the end, and each element in turn of another kind.
            assert!(is_violation(&format!("[{},null]", elements.join(","))), "{text}");
            for k in 0..elements.len() {
                let mut changed = elements.clone();
                changed[k] = "null".to_string();
                assert!(is_violation(&format!("[{}]", changed.join(","))), "{text} {k}");
            }
        }
        for text in [
            "",
            " ",
            "1",
            "{}",
            "[]",
            "[[]]",
            "[0]",
            "[2,1,{}]",
            "[7]",
            "[8,48,1,{},\"a\"]",
            "[01,\"hub.bus\",{}]",
        ] {
            assert!(is_violation(text), "{text}");
        }
        // Two kinds that only look alike: a number that is no ID.
        for number in ["0", "01", "-1", "1.0", "1e0", "9007199254740993", "\"1\""] {
            assert!(is_violation(&format!("[34,1,{number}]")), "{number}");
        }
        assert!(!is_violation("[34,1,9007199254740992]"));
    }

    /// The elements of the messages above, none of which has a comma inside an element.
    fn split(text: &str) -> Vec<String> {
        text[1..text.len() - 1].split(',').map(str::to_string).collect()
    }

    #[test]
    fn options() {
        for (options, matching) in [
            ("{}", Match::Policy(Policy::Exact)),
            (r#"{"match":"exact"}"#, Match::Policy(Policy::Exact)),
            (r#"{ "x" : [ "match" ] , "match" : "prefix" }"#, Match::Policy(Policy::Prefix)),
            (r#"{"match":"wildcard"}"#, Match::Policy(Policy::Wildcard)),
            (r#"{"match":"Exact"}"#, Match::Unknown),
            (r#"{"match":null}"#, Match::Unknown),
            (r#"{"match":"\u0065xact"}"#, Match::Policy(Policy::Exact)),
            (r#"{"match":"pre\u0066ix"}"#, Match::Policy(Policy::Prefix)),
            (r#"{"\u006datch":"prefix"}"#, Match::Policy(Policy::Prefix)),
            (r#"{"m\u0061tch":"\u0077ildcard"}"#, Match::Policy(Policy::Wildcard)),
            (r#"{"match":"prefi\\u0078"}"#, Match::Unknown),
            (r#"{"match":"\"prefix\""}"#, Match::Unknown),
            (r#"{"m\\u0061tch":"prefix"}"#, Match::Policy(Policy::Exact)),
            (r#"{"x":{"match":"prefix"}}"#, Match::Policy(Policy::Exact)),
        ] {
            let text = format!("[32,1,{options},\"a\"]");
            let wanted = Incoming::Subscribe { request: 1, matching, topic: own("a") };
            assert_eq!(read(text.as_bytes()), Ok(wanted), "{text}");
            let text = format!("[64,1,{options},\"a\"]");
            let wanted = Incoming::Register { request: 1, matching, procedure: own("a") };
            assert_eq!(read(text.as_bytes()), Ok(wanted), "{text}");
        }
        for (options, wanted) in [
            ("{}", false),
            (r#"{"acknowledge":true}"#, true),
            (r#"{"acknowledge": true }"#, true),
            (r#"{"acknowledge":false}"#, false),
            (r#"{"acknowledge":1}"#, false),
            (r#"{"acknowledge":"true"}"#, false),
            (r#"{"\u0061cknowledge":true}"#, true),
            (r#"{"\\u0061cknowledge":true}"#, false),
        ] {
            let text = format!("[16,1,{options},\"a\"]");
            match read(text.as_bytes()) {
                Ok(Incoming::Publish { acknowledge, .. }) => assert_eq!(acknowledge, wanted, "{text}"),
                other => panic!("{text}: {other:?}"),
            }
        }
    }

    /// The IDs of these numbers.
    fn listed(ids: &[u64]) -> Choice<Ids> {
        let with = |listed: Ids, id: &u64| listed.with(*id);
        ids.iter().try_fold(Ids::default(), with).map_or(Choice::Wrong, Choice::Right)
    }

    /// The options of a PUBLISH give these receivers.
    #[track_caller]
    fn chooses(options: &str, receivers: Receivers) {
        let text = format!("[16,1,{{{options}}},\"a\"]");
        assert_eq!(read(text.as_bytes()), Ok(publish(false, receivers, "a", Payload::None)), "{text}");
    }

    #[test]
    fn exclude_me() {
        let none = Receivers::default();
        chooses("", none);
        for (value, exclude_me) in [
            ("true", Choice::Right(true)),
            (" false ", Choice::Right(false)),
            ("null", Choice::Wrong),
            ("0", Choice::Wrong),
            ("1", Choice::Wrong),
            (r#""false""#, Choice::Wrong),
            ("[false]", Choice::Wrong),
            ("[]", Choice::Wrong),
            ("{}", Choice::Wrong),
        ] {
            chooses(&format!(r#""exclude_me":{value}"#), Receivers { exclude_me, ..none });
            chooses(&format!(r#""x":0,"exclud\u0065_me":{value}"#), Receivers { exclude_me, ..none });
        }
        chooses(r#""exclude_m\\u0065":false,"Exclude_me":false,"x":{"exclude_me":false}"#, none);
    }

    #[test]
    fn lists_of_ids() {
        let none = Receivers::default();
        let (last, eight) = (ids::MAX, "1,2,3,4,5,6,7,8");
        for (value, ids) in [
            ("[]", listed(&[])),
            ("[ ]", listed(&[])),
            ("[1]", listed(&[1])),
            ("[ 1 ,\t9007199254740992\r\n]", listed(&[1, last])),
            ("[7,7,7,7,7,7,7,7]", listed(&[7; 8])),
            ("[7,7,7,7,7,7,7,7,7]", Choice::Wrong),
            (&format!("[{eight}]"), listed(&[1, 2, 3, 4, 5, 6, 7, 8])),
            (&format!("[{eight},9]"), Choice::Wrong),
            (&format!("[{eight},\"9\"]"), Choice::Wrong),
            ("[0]", Choice::Wrong),
            ("[9007199254740993]", Choice::Wrong),
            ("[18446744073709551617]", Choice::Wrong),
            ("[1.0]", Choice::Wrong),
            ("[1e0]", Choice::Wrong),
            ("[-1]", Choice::Wrong),
            ("[-0]", Choice::Wrong),
            (r#"["1"]"#, Choice::Wrong),
            ("[null]", Choice::Wrong),
            ("[true]", Choice::Wrong),
            ("[[1]]", Choice::Wrong),
            ("[[]]", Choice::Wrong),
            ("[{}]", Choice::Wrong),
            ("[1,0]", Choice::Wrong),
            ("[0,1]", Choice::Wrong),
            ("null", Choice::Wrong),
            ("1", Choice::Wrong),
            ("true", Choice::Wrong),
            (r#""[1]""#, Choice::Wrong),
            (r#"{"1":1}"#, Choice::Wrong),
        ] {
            chooses(&format!(r#""exclude":{value}"#), Receivers { exclude: ids, ..none });
            chooses(&format!(r#""eligible":{value}"#), Receivers { eligible: ids, ..none });
            chooses(&format!(r#""exclud\u0065":{value}"#), Receivers { exclude: ids, ..none });
            chooses(&format!(r#""\u0065ligibl\u0065" : {value}"#), Receivers { eligible: ids, ..none });
        }
        chooses(r#""exclud\\u0065":[1],"Eligible":0,"exclude ":0,"exclude_authid":["a"]"#, none);
        let receivers =
            Receivers { exclude_me: Choice::Right(false), exclude: listed(&[5]), eligible: listed(&[6, 7]) };
        chooses(r#""eligible":[6,7],"exclude_me":false,"exclude":[5]"#, receivers);
    }

    #[test]
    fn options_of_publish_are_read_like_all_else() {
        for text in [
            r#"[16,1,{"exclude":[1],"exclude":[1]},"a"]"#,
            r#"[16,1,{"exclude":[1],"exclud\u0065":[1]},"a"]"#,
            r#"[16,1,{"exclude_me":[[[[[[[]]]]]]]},"a"]"#,
            r#"[16,1,{"eligible":[{"a":1,"a":1}]},"a"]"#,
            r#"[16,1,{"exclude":[01]},"a"]"#,
            r#"[16,1,{"exclude\ud800":[]},"a"]"#,
        ] {
            assert!(is_violation(text), "{text}");
        }
        let wrong = Receivers { exclude: Choice::Wrong, ..Receivers::default() };
        chooses(r#""exclude":[[[[[[]]]]]]"#, wrong);
        chooses(r#""exclude":["\ud800"]"#, wrong);
        // They are options of PUBLISH alone.
        assert!(
            !is_violation(r#"[32,1,{"exclude":0},"a"]"#) && !is_violation(r#"[48,1,{"eligible":0},"a"]"#)
        );
    }

    #[test]
    fn lengths() {
        let padded = |n: usize| {
            let rest = r#"[6,{},"a"]"#;
            " ".repeat(n - rest.len()) + rest
        };
        assert_eq!(read(padded(2048).as_bytes()), Ok(Incoming::Goodbye));
        assert!(is_violation(&padded(2049)));
    }

    #[test]
    fn depths() {
        // The outer list is depth 1.
        let nested = |depth: usize| format!("[70,1,{{}},{}{}]", "[".repeat(depth - 1), "]".repeat(depth - 1));
        assert!(!is_violation(&nested(8)));
        assert!(is_violation(&nested(9)));
    }

    #[test]
    fn error_uris() {
        for (uri, good) in [
            ("a", true),
            ("a.", false),
            ("", false),
            ("a#", false),
            ("wamp.x", true),
            (r"\u0061", true),
            (r#"a\"\\"#, true),
            (r"a\u0023", false),
            (r"a\u002e", false),
            (r"a\n", false),
        ] {
            assert_eq!(!is_violation(&format!("[8,68,1,{{}},\"{uri}\"]")), good, "{uri}");
        }
        let text = |n: usize| format!("[8,68,1,{{}},\"{}\"]", "a".repeat(n));
        assert!(!is_violation(&text(128)));
        assert!(is_violation(&text(129)));
    }

    #[test]
    fn texts_are_undone() {
        let (payload, matching) = (Payload::None, Match::Policy(Policy::Exact));
        let (procedure, topic) = (own("hub.donor.defer"), "a\\\"/é😀");
        for (text, wanted) in [
            (r#"[1,"hub\u002ebus",{}]"#, Incoming::Hello { realm: own("hub.bus") }),
            (
                r#"[8,68,1,{},"a\"b\u002e\u00e9"]"#,
                Incoming::Error { invocation: 1, uri: own("a\"b.é"), payload },
            ),
            (
                r#"[48,1,{},"hub.donor.\u0064efer"]"#,
                Incoming::Call { request: 1, procedure: procedure.clone(), payload },
            ),
            (
                r#"[64,1,{},"hub\u002Edonor\u002edefer"]"#,
                Incoming::Register { request: 1, matching, procedure },
            ),
            (
                r#"[32,1,{},"a\\\"\/\u00e9\ud83d\ude00"]"#,
                Incoming::Subscribe { request: 1, matching, topic: own(topic) },
            ),
            (
                r#"[16,1,{},"\u0061\u005c\u0022\u002f\u00E9\uD83D\uDE00"]"#,
                publish(false, Receivers::default(), topic, payload),
            ),
        ] {
            assert_eq!(read(text.as_bytes()), Ok(wanted), "{text}");
        }
    }

    /// Strings with a lone half.
    const LONE: [&str; 5] = [r"\ud800", r"a.\uDFFF", r"\udd1e\ud834", r"\ud834a\udd1e", r"\ud834\u0061"];

    #[test]
    fn a_lone_half_is_a_violation() {
        let behind = "a".repeat(128) + r"\ud800";
        for lone in LONE.into_iter().chain([behind.as_str()]) {
            for text in [
                format!(r#"[1,"{lone}",{{}}]"#),
                format!(r#"[8,68,1,{{}},"{lone}"]"#),
                format!(r#"[16,1,{{}},"{lone}"]"#),
                format!(r#"[16,1,{{"{lone}":0}},"a"]"#),
                format!(r#"[32,1,{{}},"{lone}"]"#),
                format!(r#"[32,1,{{"match":0}},"{lone}"]"#),
                format!(r#"[32,1,{{"x":0,"{lone}":0}},"a"]"#),
                format!(r#"[32,1,{{"match":"{lone}"}},"a"]"#),
                format!(r#"[32,1,{{"\u006datch":"{lone}"}},""]"#),
                format!(r#"[48,1,{{}},"{lone}"]"#),
                format!(r#"[48,1,{{"x":0,"{lone}":0}},"a"]"#),
                format!(r#"[64,1,{{}},"{lone}"]"#),
                format!(r#"[64,1,{{"{lone}":0}},"a"]"#),
                format!(r#"[64,1,{{"match":"{lone}"}},"a"]"#),
                format!(r#"[70,1,{{"{lone}":0}}]"#),
            ] {
                assert!(is_violation(&text), "{text}");
            }
        }
    }

    #[test]
    fn a_lone_half_elsewhere_is_none() {
        for lone in LONE {
            for text in [
                format!(r#"[1,"hub.bus",{{"{lone}":"{lone}"}}]"#),
                format!(r#"[3,{{"{lone}":"{lone}"}},"{lone}"]"#),
                format!(r#"[6,{{"{lone}":"{lone}"}},"{lone}"]"#),
                format!(r#"[8,68,1,{{"{lone}":"{lone}"}},"a",["{lone}"],{{"{lone}":"{lone}"}}]"#),
                format!(r#"[16,1,{{"x":{{"{lone}":0}}}},"a",["{lone}"],{{"{lone}":"{lone}"}}]"#),
                format!(r#"[16,1,{{"match":"{lone}","acknowledge":"{lone}"}},"a"]"#),
                format!(r#"[32,1,{{"x":"{lone}","y":[{{"{lone}":0}}]}},"a"]"#),
                format!(r#"[32,1,{{"match":["{lone}"]}},"a"]"#),
                format!(r#"[48,1,{{"match":"{lone}"}},"a",[{{"{lone}":0}}]]"#),
                format!(r#"[64,1,{{"match":{{"{lone}":"{lone}"}}}},"a"]"#),
                format!(r#"[70,1,{{"match":"{lone}","x":{{"{lone}":0}}}},[],{{"{lone}":0}}]"#),
            ] {
                assert!(!is_violation(&text), "{text}");
            }
        }
        // Two equal keys are a violation there too.
        assert!(is_violation(r#"[70,1,{},[],{"\ud800":0,"\uD800":0}]"#));
        assert!(is_violation(r#"[3,{"\ud800":0,"\uD800":0},""]"#));
        assert!(!is_violation(r#"[70,1,{},[],{"\ud800":0,"\udc00":0}]"#));
    }

    #[test]
    fn ill_formed_bytes() {
        assert_eq!(read(b"[6,{},\"\xff\"]"), Err(Violation));
        assert_eq!(read("\u{feff}[6,{},\"a\"]".as_bytes()), Err(Violation));
        assert!(is_violation(r#"[6,{"a":1,"a":1},"a"]"#));
    }

    /// A message of JSON converted, which gives it the shortest forms.
    fn packed(text: &str) -> Vec<u8> {
        let (bytes, end) =
            convert(Format::Json, Format::MsgPack, 8, text.as_bytes(), 0).expect("it converts");
        assert_eq!(end, text.len());
        bytes
    }

    fn read_packed(bytes: &[u8]) -> Result<Incoming<'_>, Violation> {
        super::read(Format::MsgPack, bytes)
    }

    #[track_caller]
    fn packed_violation(bytes: &[u8]) {
        assert_eq!(read_packed(bytes), Err(Violation), "{bytes:02x?}");
    }

    #[track_caller]
    fn packed_is(bytes: &[u8], wanted: Incoming) {
        assert_eq!(read_packed(bytes), Ok(wanted), "{bytes:02x?}");
    }

    #[test]
    fn the_eleven_messages_in_messagepack() {
        let payload = Payload::ListAndDict(b"\x91\x01", b"\x81\xa1k\x02");
        for (text, message) in FULL.into_iter().zip(meant_by_full(payload)) {
            let bytes = packed(text);
            packed_is(&bytes, message);
            // Cut at each place, and with bytes left over.
            (0..bytes.len()).for_each(|cut| packed_violation(&bytes[..cut]));
            packed_violation(&[&*bytes, b"\xc0"].concat());
            packed_violation(&[&*bytes, b"\x00"].concat());
            // No format is taken for the other.
            packed_violation(text.as_bytes());
            assert_eq!(read(&bytes), Err(Violation));
        }
    }

    #[test]
    fn shapes_in_messagepack() {
        for text in FULL {
            let elements = split(text);
            packed_violation(&packed(&format!("[{},null]", elements.join(","))));
            for k in 0..elements.len() {
                let mut changed = elements.clone();
                changed[k] = "null".to_string();
                packed_violation(&packed(&format!("[{}]", changed.join(","))));
            }
        }
        for bytes in [b"" as &[u8], b"\xc1", b"\xc0", b"\x01", b"\x80", b"\x90", b"\x91\x90", b"\x91\xc1"] {
            packed_violation(bytes);
        }
        for text in ["[0]", "[2,1,{}]", "[7]", "[8,48,1,{},\"a\"]", "[-1,\"hub.bus\",{}]"] {
            packed_violation(&packed(text));
        }
        // Seven elements and eight, counted in each form.
        for head in [b"\x97" as &[u8], b"\xdc\x00\x07", b"\xdd\x00\x00\x00\x07"] {
            let rest = b"\x08\x44\x01\x80\xa1a\x90\x80";
            let payload = Payload::ListAndDict(b"\x90", b"\x80");
            let bytes = [head, rest].concat();
            packed_is(&bytes, Incoming::Error { invocation: 1, uri: own("a"), payload });
            packed_violation(&[head, &rest[..rest.len() - 1]].concat());
            packed_violation(&[&*bytes, b"\xc0"].concat());
        }
        for head in [b"\x98" as &[u8], b"\xdc\x00\x08", b"\xdd\x00\x00\x00\x08"] {
            packed_violation(&[head, b"\x08\x44\x01\x80\xa1a\x90\x80\xc0"].concat());
        }
        packed_violation(b"\xdd\xff\xff\xff\xff\x06\x80\xa0");
    }

    /// Every form that an integer from 0 up has.
    fn forms(number: u64) -> Vec<Vec<u8>> {
        let mut forms = Vec::new();
        if number < 128 {
            forms.push(vec![number as u8]);
        }
        for (width, unsigned, signed) in [(1, 0xcc, 0xd0), (2, 0xcd, 0xd1), (4, 0xce, 0xd2), (8, 0xcf, 0xd3)]
        {
            let low = &number.to_be_bytes()[8 - width..];
            if width == 8 || number >> (8 * width) == 0 {
                forms.push([&[unsigned], low].concat());
            }
            if number >> (8 * width - 1) == 0 {
                forms.push([&[signed], low].concat());
            }
        }
        forms
    }

    #[test]
    fn numbers_of_every_form() {
        assert_eq!(forms(5).len(), 9);
        for id in [1, 5, 127, 128, 255, 256, 32767, 32768, 65535, 65536, 1 << 31, 1 << 32, ids::MAX] {
            for number in forms(id) {
                let bytes = [b"\x93\x22\x01", &*number].concat();
                packed_is(&bytes, Incoming::Unsubscribe { request: 1, subscription: id });
                let bytes = [b"\x93\x22", &*number, b"\x01"].concat();
                packed_is(&bytes, Incoming::Unsubscribe { request: id, subscription: 1 });
                let bytes = [b"\x93\x46", &*number, b"\x80"].concat();
                packed_is(&bytes, Incoming::Yield { invocation: id, payload: Payload::None });
            }
        }
        // The message number, and the 68 of an ERROR.
        for number in forms(6) {
            packed_is(&[b"\x93", &*number, b"\x80\xa0"].concat(), Incoming::Goodbye);
        }
        for number in forms(68) {
            let bytes = [b"\x95\x08", &*number, b"\x01\x80\xa1a"].concat();
            packed_is(&bytes, Incoming::Error { invocation: 1, uri: own("a"), payload: Payload::None });
        }
        for number in [0, ids::MAX + 1, 1 << 54, 1 << 63, u64::MAX].into_iter().flat_map(forms) {
            packed_violation(&[b"\x93\x22\x01", &*number].concat());
            packed_violation(&[b"\x93\x22", &*number, b"\x01"].concat());
        }
        for number in [
            b"\xff" as &[u8],
            b"\xe0",
            b"\xd0\xff",
            b"\xd1\xff\xff",
            b"\xd2\xff\xff\xff\xff",
            b"\xd3\xff\xff\xff\xff\xff\xff\xff\xff",
            b"\xd3\x80\x00\x00\x00\x00\x00\x00\x01",
            b"\xca\x3f\x80\x00\x00",
            b"\xcb\x3f\xf0\x00\x00\x00\x00\x00\x00",
            b"\xc4\x01\x01",
            b"\xd4\x00\x01",
            b"\xa11",
            b"\xc3",
            b"\x91\x01",
        ] {
            packed_violation(&[b"\x93\x22\x01", number].concat());
            packed_violation(&[b"\x93\x22", number, b"\x01"].concat());
            packed_violation(&[b"\x93", number, b"\x80\xa0"].concat());
        }
    }

    #[test]
    fn strings_arrays_and_maps_of_every_form() {
        let strings: [&[u8]; 4] =
            [b"\xa3a.b", b"\xd9\x03a.b", b"\xda\x00\x03a.b", b"\xdb\x00\x00\x00\x03a.b"];
        let maps: [&[u8]; 3] = [b"\x80", b"\xde\x00\x00", b"\xdf\x00\x00\x00\x00"];
        let lists: [&[u8]; 3] = [b"\x90", b"\xdc\x00\x00", b"\xdd\x00\x00\x00\x00"];
        for string in strings {
            for map in maps {
                for list in lists {
                    let bytes = [b"\x96\x30\x01", map, string, list, map].concat();
                    let payload = Payload::ListAndDict(list, map);
                    packed_is(&bytes, Incoming::Call { request: 1, procedure: own("a.b"), payload });
                }
            }
        }
        // What only looks like a string, a list or a dict.
        for other in [b"\xc4\x03a.b" as &[u8], b"\xc7\x03\x00a.b", b"\xd4\x00a", b"\xc0", b"\x01"] {
            packed_violation(&[b"\x94\x30\x01\x80", other].concat());
            packed_violation(&[b"\x94\x30\x01", other, b"\xa1a"].concat());
            packed_violation(&[b"\x95\x30\x01\x80\xa1a", other].concat());
            packed_violation(&[b"\x93\x01", other, b"\x80"].concat());
            packed_violation(&[b"\x93\x06\x80", other].concat());
        }
    }

    #[test]
    fn a_str_anywhere_is_utf8() {
        for bad in [b"\xa1\xff" as &[u8], b"\xd9\x02\xc0\xaf", b"\xda\x00\x03\xed\xa0\x80", b"\xa1\xc3"] {
            let packed = |before: &[u8], after: &[u8]| packed_violation(&[before, bad, after].concat());
            packed(b"\x93\x01", b"\x80");
            packed(b"\x93\x06\x80", b"");
            packed(b"\x93\x06\x81\xa1a", b"\xa0");
            packed(b"\x93\x06\x81", b"\xc0\xa0");
            packed(b"\x94\x30\x01\x81\xa1a\x91", b"\xa1a");
            packed(b"\x95\x30\x01\x80\xa1a\x91", b"");
            packed(b"\x96\x30\x01\x80\xa1a\x90\x81", b"\xc0");
            packed(b"\x96\x30\x01\x80\xa1a\x90\x81\x91", b"\xc0");
        }
        // The bytes of a bin, an ext or a float are not looked at.
        let payload = b"\x93\xc4\x01\xff\xc7\x01\xff\xff\xca\xff\xff\xff\xff";
        let bytes = [b"\x94\x46\x01\x80", &payload[..]].concat();
        packed_is(&bytes, Incoming::Yield { invocation: 1, payload: Payload::List(payload) });
        packed_violation(b"\x94\x46\x01\x80\x91\xc1");
    }

    #[test]
    fn depths_in_messagepack() {
        // The outer list is depth 1, and the payload's list is depth 2.
        let openings: [(&[u8], &[u8]); 4] =
            [(b"\x91", b""), (b"\xdc\x00\x01", b""), (b"\x81\xa1k", b""), (b"\x81", b"\xc0")];
        for (open, close) in openings {
            let nested = |depth: usize| {
                let (open, close) = (open.repeat(depth - 3), close.repeat(depth - 3));
                [b"\x94\x46\x01\x80\x91", &*open, b"\x90", &*close].concat()
            };
            assert!(read_packed(&nested(8)).is_ok(), "{open:02x?}");
            packed_violation(&nested(9));
            let nested = |depth: usize| {
                let (open, close) = (open.repeat(depth - 3), close.repeat(depth - 3));
                [b"\x93\x46\x01\x81\xa1a", &*open, b"\x80", &*close].concat()
            };
            assert!(read_packed(&nested(8)).is_ok(), "{open:02x?}");
            packed_violation(&nested(9));
        }
    }

    #[test]
    fn lengths_in_messagepack() {
        let long = |length: usize| {
            let text = vec![b'r'; length - 6];
            [b"\x93\x06\x80\xda", &(text.len() as u16).to_be_bytes()[..], &text].concat()
        };
        assert_eq!((long(2048).len(), read_packed(&long(2048))), (2048, Ok(Incoming::Goodbye)));
        packed_violation(&long(2049));
        packed_violation(b"");
    }

    #[test]
    fn options_in_messagepack() {
        let exact = Match::Policy(Policy::Exact);
        let prefix = Match::Policy(Policy::Prefix);
        for (options, matching) in [
            (b"\x80" as &[u8], exact),
            (b"\x81\xa5match\xa5exact", exact),
            (b"\x81\xa5match\xa6prefix", prefix),
            (b"\x81\xd9\x05match\xda\x00\x06prefix", prefix),
            (b"\xde\x00\x01\xdb\x00\x00\x00\x05match\xd9\x06prefix", prefix),
            (b"\x81\xa5match\xa8wildcard", Match::Policy(Policy::Wildcard)),
            (b"\x82\x01\x91\xa5match\xa5match\xa6prefix", prefix),
            (b"\x81\xa5match\xa6Prefix", Match::Unknown),
            (b"\x81\xa5match\xa0", Match::Unknown),
            (b"\x81\xa5match\xabpre\\u0066ix", Match::Unknown),
            (b"\x81\xa5match\xc4\x06prefix", Match::Unknown),
            (b"\x81\xa5match\xc0", Match::Unknown),
            (b"\x81\xa5match\x01", Match::Unknown),
            (b"\x81\xa5match\x91\xa6prefix", Match::Unknown),
            // Keys that are no str are unknown, and equal ones are no violation.
            (b"\x81\xc4\x05match\xa6prefix", exact),
            (b"\x83\xc4\x05match\xa6prefix\xc4\x05match\xc0\xa5match\xa6prefix", prefix),
            (b"\x81\x91\xa5match\xa6prefix", exact),
            (b"\x82\xc0\xa5match\xc0\xa6prefix", exact),
            (b"\x81\xaam\\u0061tch\xa6prefix", exact),
            (b"\x81\xa1x\x81\xa5match\xa6prefix", exact),
        ] {
            let bytes = [b"\x94\x20\x01", options, b"\xa1a"].concat();
            packed_is(&bytes, Incoming::Subscribe { request: 1, matching, topic: own("a") });
            let bytes = [b"\x94\x40\x01", options, b"\xa1a"].concat();
            packed_is(&bytes, Incoming::Register { request: 1, matching, procedure: own("a") });
        }
        for (options, acknowledge) in [
            (b"\x80" as &[u8], false),
            (b"\x81\xabacknowledge\xc3", true),
            (b"\x82\x00\x00\xd9\x0backnowledge\xc3", true),
            (b"\x81\xabacknowledge\xc2", false),
            (b"\x81\xabacknowledge\x01", false),
            (b"\x81\xabacknowledge\xa4true", false),
            (b"\x81\xabacknowledge\x91\xc3", false),
            (b"\x81\xc4\x0backnowledge\xc3", false),
        ] {
            let bytes = [b"\x94\x10\x01", options, b"\xa1a"].concat();
            packed_is(&bytes, publish(acknowledge, Receivers::default(), "a", Payload::None));
        }
    }

    /// The options of a PUBLISH, a map of so many members, give these receivers.
    #[track_caller]
    fn packed_chooses(count: u8, members: &[&[u8]], receivers: Receivers) {
        let bytes = [b"\x94\x10\x01", &[0x80 | count][..], &members.concat(), b"\xa1a"].concat();
        packed_is(&bytes, publish(false, receivers, "a", Payload::None));
    }

    #[test]
    fn exclude_me_in_messagepack() {
        let none = Receivers::default();
        for (value, exclude_me) in [
            (b"\xc3" as &[u8], Choice::Right(true)),
            (b"\xc2", Choice::Right(false)),
            (b"\xc0", Choice::Wrong),
            (b"\x00", Choice::Wrong),
            (b"\x01", Choice::Wrong),
            (b"\xa5false", Choice::Wrong),
            (b"\xc4\x01\xc2", Choice::Wrong),
            (b"\xd4\x00\xc2", Choice::Wrong),
            (b"\x91\xc2", Choice::Wrong),
            (b"\xca\x00\x00\x00\x00", Choice::Wrong),
        ] {
            packed_chooses(1, &[b"\xaaexclude_me", value], Receivers { exclude_me, ..none });
            packed_chooses(2, &[b"\x00\x00\xd9\x0aexclude_me", value], Receivers { exclude_me, ..none });
            packed_chooses(1, &[b"\xc4\x0aexclude_me", value], none);
        }
    }

    /// Both options with that list.
    #[track_caller]
    fn lists_choose(list: &[u8], ids: Choice<Ids>) {
        let none = Receivers::default();
        packed_chooses(1, &[b"\xa7exclude", list], Receivers { exclude: ids, ..none });
        packed_chooses(1, &[b"\xda\x00\x08eligible", list], Receivers { eligible: ids, ..none });
        packed_chooses(2, &[b"\xc4\x07exclude", list, b"\x91\xa8eligible", list], none);
    }

    #[test]
    fn lists_of_ids_in_messagepack() {
        let both = lists_choose;
        for head in [b"\x90" as &[u8], b"\xdc\x00\x00", b"\xdd\x00\x00\x00\x00"] {
            both(head, listed(&[]));
        }
        for id in [1, 127, 128, 255, 256, 65535, 65536, 1 << 32, ids::MAX] {
            for form in forms(id) {
                for head in [b"\x91" as &[u8], b"\xdc\x00\x01", b"\xdd\x00\x00\x00\x01"] {
                    both(&[head, &*form].concat(), listed(&[id]));
                }
            }
        }
        for head in [b"\x98" as &[u8], b"\xdc\x00\x08", b"\xdd\x00\x00\x00\x08"] {
            both(&[head, &[7; 8]].concat(), listed(&[7; 8]));
        }
        for head in [b"\x99" as &[u8], b"\xdc\x00\x09", b"\xdd\x00\x00\x00\x09"] {
            both(&[head, &[7; 9]].concat(), Choice::Wrong);
        }
        let receivers =
            Receivers { exclude_me: Choice::Right(false), exclude: listed(&[5]), eligible: listed(&[6, 7]) };
        let members: [&[u8]; 3] =
            [b"\xa8eligible\x92\x06\x07", b"\xaaexclude_me\xc2", b"\xa7exclude\x91\x05"];
        packed_chooses(3, &members, receivers);
    }

    #[test]
    fn lists_of_ids_that_are_none_in_messagepack() {
        let both = lists_choose;
        for entry in [0, ids::MAX + 1, 1 << 63, u64::MAX].into_iter().flat_map(forms) {
            both(&[b"\x91", &*entry].concat(), Choice::Wrong);
        }
        for value in [
            b"\xff" as &[u8],
            b"\xd0\xff",
            b"\xd3\xff\xff\xff\xff\xff\xff\xff\xff",
            b"\xca\x3f\x80\x00\x00",
            b"\xcb\x3f\xf0\x00\x00\x00\x00\x00\x00",
            b"\xa11",
            b"\xc4\x01\x01",
            b"\xd4\x00\x01",
            b"\xc0",
            b"\xc3",
            b"\x91\x01",
            b"\x80",
        ] {
            both(&[b"\x91", value].concat(), Choice::Wrong);
            both(&[b"\x92\x01", value].concat(), Choice::Wrong);
        }
        for value in [b"\xc0" as &[u8], b"\x01", b"\xc3", b"\xa0", b"\xc4\x01\x90", b"\x80", b"\x81\x01\x01"]
        {
            both(value, Choice::Wrong);
        }
        packed_violation(b"\x94\x10\x01\x82\xa7exclude\x90\xd9\x07exclude\x90\xa1a");
        packed_violation(b"\x94\x10\x01\x81\xa7exclude\x91\x91\x91\x91\x91\x91\x90\xa1a");
        packed_violation(b"\x94\x10\x01\x81\xa7exclude\x91\xc1\xa1a");
    }

    #[test]
    fn equal_keys_in_messagepack() {
        let keys: [&[u8]; 4] = [b"\xa1k", b"\xd9\x01k", b"\xda\x00\x01k", b"\xdb\x00\x00\x00\x01k"];
        for one in keys {
            for other in keys {
                let twins = [b"\x82", one, b"\x00", other, b"\x01"].concat();
                packed_violation(&[b"\x93\x06", &*twins, b"\xa0"].concat());
                packed_violation(&[b"\x94\x30\x01", &*twins, b"\xa1a"].concat());
                packed_violation(&[b"\x95\x46\x01\x80\x90", &*twins].concat());
                packed_violation(&[b"\x94\x46\x01\x80\x91", &*twins].concat());
            }
        }
        assert!(read_packed(b"\x95\x46\x01\x80\x90\x82\xa1k\x00\xc4\x01k\x00").is_ok());
        assert!(read_packed(b"\x95\x46\x01\x80\x90\x83\x01\x00\x01\x00\xcc\x01\x00").is_ok());
    }

    #[test]
    fn a_str_is_its_bytes() {
        // Nothing is undone, and a backslash is a byte like any other.
        let topic = own("a\\u0062\\n\"");
        let bytes = b"\x94\x20\x01\x80\xaaa\\u0062\\n\"";
        packed_is(bytes, Incoming::Subscribe { request: 1, matching: Match::Policy(Policy::Exact), topic });
        packed_is(
            b"\x93\x01\xafhub\\u002ebus\xc3\xa9\0\x80",
            Incoming::Hello { realm: own("hub\\u002ebusé\0") },
        );
        for (uri, good) in [
            ("a", true),
            ("a.", false),
            ("", false),
            ("a#", false),
            ("wamp.x", true),
            ("a\\\"é", true),
            ("a\n", false),
            (&"a".repeat(128), true),
            (&"a".repeat(129), false),
        ] {
            let bytes = packed(&format!("[8,68,1,{{}},{:?}]", uri));
            assert_eq!(read_packed(&bytes).is_ok(), good, "{uri}");
        }
    }
}
