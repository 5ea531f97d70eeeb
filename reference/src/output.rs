//! The messages sent, each in its receiver's format, and the layout of a step's output: contents first, then bodies.

use crate::format::Format;
use crate::msgpack;
use crate::payload::Payload;
use crate::state::SLOTS;
use std::cell::OnceCell;

/// The error URIs and reasons that the hub itself gives.
pub mod uris {
    pub const PROTOCOL_VIOLATION: &[u8] = b"wamp.error.protocol_violation";
    pub const NO_SUCH_REALM: &[u8] = b"wamp.error.no_such_realm";
    pub const GOODBYE_AND_OUT: &[u8] = b"wamp.close.goodbye_and_out";
    pub const INVALID_ARGUMENT: &[u8] = b"wamp.error.invalid_argument";
    pub const INVALID_URI: &[u8] = b"wamp.error.invalid_uri";
    pub const NOT_AUTHORIZED: &[u8] = b"wamp.error.not_authorized";
    pub const PROCEDURE_ALREADY_EXISTS: &[u8] = b"wamp.error.procedure_already_exists";
    pub const NO_SUCH_PROCEDURE: &[u8] = b"wamp.error.no_such_procedure";
    pub const NO_SUCH_SUBSCRIPTION: &[u8] = b"wamp.error.no_such_subscription";
    pub const NO_SUCH_REGISTRATION: &[u8] = b"wamp.error.no_such_registration";
    pub const CANCELED: &[u8] = b"wamp.error.canceled";
    pub const NO_ROOM: &[u8] = b"hub.error.no_room";
    pub const NOT_CONVERTIBLE: &[u8] = b"hub.error.not_convertible";
}

/// A message sent. Payloads are in its receiver's format, texts are what the strings of the message that caused it
/// stand for.
#[derive(Clone, Copy, Debug, PartialEq, Eq)]
pub enum Outgoing<'m> {
    Welcome {
        session: u64,
    },
    Abort {
        reason: &'m [u8],
    },
    Goodbye {
        reason: &'m [u8],
    },
    /// `kind` is the number of the message that is answered.
    Error {
        kind: u64,
        request: u64,
        uri: &'m [u8],
        payload: Payload<'m>,
    },
    Published {
        request: u64,
        publication: u64,
    },
    Subscribed {
        request: u64,
        subscription: u64,
    },
    Unsubscribed {
        request: u64,
    },
    /// `topic` is told where the row is not exact.
    Event {
        subscription: u64,
        publication: u64,
        topic: Option<&'m [u8]>,
        payload: Payload<'m>,
    },
    Result {
        request: u64,
        payload: Payload<'m>,
    },
    Registered {
        request: u64,
        registration: u64,
    },
    Unregistered {
        request: u64,
    },
    /// `procedure` is told where the row is not exact.
    Invocation {
        invocation: u64,
        registration: u64,
        procedure: Option<&'m [u8]>,
        payload: Payload<'m>,
    },
}

/// What the hub says of itself in WELCOME, in each format.
const ROLES: &[u8] = br#"{"roles":{"broker":{"features":{"pattern_based_subscription":true}},"dealer":{"features":{"pattern_based_registration":true}}}}"#;
const PACKED_ROLES: &[u8] = b"\x81\xa5roles\x82\
    \xa6broker\x81\xa8features\x81\xbapattern_based_subscription\xc3\
    \xa6dealer\x81\xa8features\x81\xbapattern_based_registration\xc3";

/// The key of Details that have a member: what stands before the value, in each format.
struct Key {
    json: &'static [u8],
    msgpack: &'static [u8],
}

static TOPIC: Key = Key { json: br#"{"topic":"#, msgpack: b"\x81\xa5topic" };
static PROCEDURE: Key = Key { json: br#"{"procedure":"#, msgpack: b"\x81\xa9procedure" };

/// An element of a message sent.
#[derive(Clone, Copy)]
enum Part<'m> {
    Number(u64),
    Text(&'m [u8]),
    Roles,
    /// A dict without members.
    Empty,
    /// A dict of one member, whose value is a text.
    Member(&'static Key, &'m [u8]),
    /// A payload's list or dict, in the message's format.
    Whole(&'m [u8]),
}

/// Where the bytes of a message go: into the output, or into a count of them.
trait Sink {
    fn put(&mut self, bytes: &[u8]);

    /// A number in decimal digits.
    fn number(&mut self, number: u64) {
        // 2^64 has 20 digits; they come from the last to the first.
        let mut digits = [0; 20];
        let mut from = digits.len();
        let mut rest = number;
        loop {
            from -= 1;
            digits[from] = b'0' + (rest % 10) as u8;
            rest /= 10;
            if rest == 0 {
                return self.put(&digits[from..]);
            }
        }
    }

    /// A text in quotes: a backslash goes before each quote and each backslash of it, and nothing else is escaped.
    fn string(&mut self, text: &[u8]) {
        self.put(b"\"");
        let mut rest = text;
        while let Some(place) = rest.iter().position(|byte| matches!(byte, b'"' | b'\\')) {
            self.put(&rest[..place]);
            self.put(&[b'\\', rest[place]]);
            rest = &rest[place + 1..];
        }
        self.put(rest);
        self.put(b"\"");
    }

    fn json(&mut self, part: Part) {
        match part {
            Part::Number(number) => self.number(number),
            Part::Text(text) => self.string(text),
            Part::Roles => self.put(ROLES),
            Part::Empty => self.put(b"{}"),
            Part::Member(key, text) => {
                self.put(key.json);
                self.string(text);
                self.put(b"}");
            }
            Part::Whole(bytes) => self.put(bytes),
        }
    }

    /// A text as a str in its shortest form.
    fn str(&mut self, text: &[u8]) {
        let (head, length) = msgpack::str_head(text.len());
        self.put(&head[..length]);
        self.put(text);
    }

    fn msgpack(&mut self, part: Part) {
        match part {
            Part::Number(number) => {
                let (bytes, length) = msgpack::integer(number.into());
                self.put(&bytes[..length]);
            }
            Part::Text(text) => self.str(text),
            Part::Roles => self.put(PACKED_ROLES),
            Part::Empty => self.put(b"\x80"),
            Part::Member(key, text) => {
                self.put(key.msgpack);
                self.str(text);
            }
            Part::Whole(bytes) => self.put(bytes),
        }
    }
}

/// Counts the bytes.
struct Count(usize);

impl Sink for Count {
    fn put(&mut self, bytes: &[u8]) {
        self.0 += bytes.len();
    }
}

/// Writes the bytes from the front of a buffer, which has room for them.
struct Writer<'o> {
    out: &'o mut [u8],
    at: usize,
}

impl Sink for Writer<'_> {
    fn put(&mut self, bytes: &[u8]) {
        let end = self.at + bytes.len();
        self.out[self.at..end].copy_from_slice(bytes);
        self.at = end;
    }
}

/// Details: empty, or the URI under its key.
fn details<'m>(key: &'static Key, uri: Option<&'m [u8]>) -> Part<'m> {
    uri.map_or(Part::Empty, |uri| Part::Member(key, uri))
}

impl<'m> Outgoing<'m> {
    /// Hands over the elements, in order.
    fn parts(&self, mut each: impl FnMut(Part<'m>)) {
        use Part::{Empty, Number, Roles, Text};
        let mut parts = |parts: &[Part<'m>], payload: Payload<'m>| {
            parts.iter().copied().for_each(&mut each);
            payload.parts().for_each(|part| each(Part::Whole(part)));
        };
        let none = Payload::None;
        match *self {
            Outgoing::Welcome { session } => parts(&[Number(2), Number(session), Roles], none),
            Outgoing::Abort { reason } => parts(&[Number(3), Empty, Text(reason)], none),
            Outgoing::Goodbye { reason } => parts(&[Number(6), Empty, Text(reason)], none),
            Outgoing::Error { kind, request, uri, payload } => {
                parts(&[Number(8), Number(kind), Number(request), Empty, Text(uri)], payload)
            }
            Outgoing::Published { request, publication } => {
                parts(&[Number(17), Number(request), Number(publication)], none)
            }
            Outgoing::Subscribed { request, subscription } => {
                parts(&[Number(33), Number(request), Number(subscription)], none)
            }
            Outgoing::Unsubscribed { request } => parts(&[Number(35), Number(request)], none),
            Outgoing::Event { subscription, publication, topic, payload } => {
                let details = details(&TOPIC, topic);
                parts(&[Number(36), Number(subscription), Number(publication), details], payload)
            }
            Outgoing::Result { request, payload } => parts(&[Number(50), Number(request), Empty], payload),
            Outgoing::Registered { request, registration } => {
                parts(&[Number(65), Number(request), Number(registration)], none)
            }
            Outgoing::Unregistered { request } => parts(&[Number(67), Number(request)], none),
            Outgoing::Invocation { invocation, registration, procedure, payload } => {
                let details = details(&PROCEDURE, procedure);
                parts(&[Number(68), Number(invocation), Number(registration), details], payload)
            }
        }
    }

    /// Writes the message in a format: in JSON without spaces, in MessagePack in the shortest forms.
    fn write(&self, format: Format, sink: &mut impl Sink) {
        match format {
            Format::Json => {
                let mut is_first = true;
                self.parts(|part| {
                    sink.put(if is_first { b"[" } else { b"," });
                    sink.json(part);
                    is_first = false;
                });
                sink.put(b"]");
            }
            Format::MsgPack => {
                let mut count = 0;
                self.parts(|_| count += 1);
                // A message has at most 7 elements.
                sink.put(&[0x90 | count]);
                self.parts(|part| sink.msgpack(part));
            }
        }
    }

    fn length(&self, format: Format) -> usize {
        let mut count = Count(0);
        self.write(format, &mut count);
        count.0
    }
}

/// A message on its way to a slot, in the slot's format and with its length there.
struct Sent<'m> {
    slot: u8,
    format: Format,
    length: usize,
    message: Outgoing<'m>,
}

/// The messages of one step, in order.
pub struct Outbox<'m> {
    /// The format of each slot as it was before the step: the step may close a slot that it writes to.
    formats: [Format; SLOTS],
    sent: Vec<Sent<'m>>,
}

impl<'m> Outbox<'m> {
    /// No messages, to slots of these formats.
    pub fn new(formats: [Format; SLOTS]) -> Outbox<'m> {
        Outbox { formats, sent: Vec::new() }
    }

    /// The format of messages to the slot.
    pub fn format(&self, slot: usize) -> Format {
        self.formats[slot]
    }

    /// Adds a message to a slot, after those that are there.
    pub fn send(&mut self, slot: usize, message: Outgoing<'m>) {
        self.send_to_each([slot], |_| Some(message));
    }

    /// Adds to each of the slots, in their order, the message of its format, after those that are there. A slot for
    /// whose format there is none is passed over. A message is made once for a format.
    pub fn send_to_each(
        &mut self,
        slots: impl IntoIterator<Item = usize>,
        message: impl Fn(Format) -> Option<Outgoing<'m>>,
    ) {
        let made = [OnceCell::new(), OnceCell::new()];
        for slot in slots {
            let format = self.formats[slot];
            let made = made[format as usize].get_or_init(|| {
                let message = message(format)?;
                Some((message, message.length(format)))
            });
            if let Some((message, length)) = *made {
                self.sent.push(Sent { slot: slot as u8, format, length, message });
            }
        }
    }

    /// The number of output bytes that the messages need.
    pub fn needed(&self) -> usize {
        2 + self.sent.iter().map(|sent| 3 + sent.length).sum::<usize>()
    }

    /// Writes the whole output to the front of `out`, which has room for it, and answers its length.
    ///
    /// A message of at most 2,048 bytes leads to messages far below 2^16 bytes (a payload of MessagePack is at most 6
    /// times as long in JSON), and to at most 257 of them (PUBLISHED, and an event by each of 32 rows to each of 8
    /// slots): both fit their 2 bytes.
    pub fn write(&self, out: &mut [u8]) -> usize {
        let mut writer = Writer { out, at: 0 };
        writer.put(&(self.sent.len() as u16).to_be_bytes());
        for sent in &self.sent {
            writer.put(&[sent.slot]);
            writer.put(&(sent.length as u16).to_be_bytes());
        }
        for sent in &self.sent {
            sent.message.write(sent.format, &mut writer);
        }
        writer.at
    }
}

#[cfg(test)]
mod tests {
    use super::*;

    fn written(format: Format, message: Outgoing) -> Vec<u8> {
        let mut out = vec![0; message.length(format)];
        let mut writer = Writer { out: &mut out, at: 0 };
        message.write(format, &mut writer);
        assert_eq!(writer.at, message.length(format));
        out
    }

    fn text(message: Outgoing) -> String {
        String::from_utf8(written(Format::Json, message)).unwrap()
    }

    #[test]
    fn shapes() {
        let both = Payload::ListAndDict(b"[1, 2]", br#"{"k": 3}"#);
        let list = Payload::List(b"[]");
        let table = [
            (
                Outgoing::Welcome { session: 9007199254740992 },
                r#"[2,9007199254740992,{"roles":{"broker":{"features":{"pattern_based_subscription":true}},"dealer":{"features":{"pattern_based_registration":true}}}}]"#,
            ),
            (Outgoing::Abort { reason: b"a.b" }, r#"[3,{},"a.b"]"#),
            (Outgoing::Goodbye { reason: b"a.b" }, r#"[6,{},"a.b"]"#),
            (
                Outgoing::Error { kind: 48, request: 7, uri: b"a.b", payload: both },
                r#"[8,48,7,{},"a.b",[1, 2],{"k": 3}]"#,
            ),
            (Outgoing::Published { request: 1, publication: 20 }, "[17,1,20]"),
            (Outgoing::Subscribed { request: 1, subscription: 2 }, "[33,1,2]"),
            (Outgoing::Unsubscribed { request: 1 }, "[35,1]"),
            (
                Outgoing::Event { subscription: 1, publication: 2, topic: None, payload: Payload::None },
                "[36,1,2,{}]",
            ),
            (
                Outgoing::Event { subscription: 1, publication: 2, topic: Some(b"a"), payload: list },
                r#"[36,1,2,{"topic":"a"},[]]"#,
            ),
            (Outgoing::Result { request: 3, payload: Payload::None }, "[50,3,{}]"),
            (Outgoing::Registered { request: 1, registration: 2 }, "[65,1,2]"),
            (Outgoing::Unregistered { request: 10 }, "[67,10]"),
            (
                Outgoing::Invocation { invocation: 1, registration: 2, procedure: None, payload: list },
                "[68,1,2,{},[]]",
            ),
            (
                Outgoing::Invocation { invocation: 1, registration: 2, procedure: Some(b"p"), payload: both },
                r#"[68,1,2,{"procedure":"p"},[1, 2],{"k": 3}]"#,
            ),
        ];
        for (message, wanted) in table {
            assert_eq!(text(message), wanted);
        }
    }

    #[test]
    fn quotes_and_backslashes_are_escaped_and_nothing_else() {
        for (uri, wanted) in [
            ("a\"b", r#"a\"b"#),
            (r"a\b", r"a\\b"),
            ("\"", r#"\""#),
            (r"\", r"\\"),
            (r#"\"\"#, r#"\\\"\\"#),
            (r"\u0061", r"\\u0061"),
            ("a/b", "a/b"),
            ("é€𝄞\u{7f}", "é€𝄞\u{7f}"),
        ] {
            let uri = uri.as_bytes();
            let error = Outgoing::Error { kind: 48, request: 1, uri, payload: Payload::List(br#"["\/"]"#) };
            assert_eq!(text(error), format!(r#"[8,48,1,{{}},"{wanted}",["\/"]]"#));
            let payload = Payload::None;
            let event = Outgoing::Event { subscription: 1, publication: 2, topic: Some(uri), payload };
            assert_eq!(text(event), format!(r#"[36,1,2,{{"topic":"{wanted}"}}]"#));
            let call = Outgoing::Invocation { invocation: 1, registration: 2, procedure: Some(uri), payload };
            assert_eq!(text(call), format!(r#"[68,1,2,{{"procedure":"{wanted}"}}]"#));
        }
    }

    #[test]
    fn layout() {
        let mut outbox = Outbox::new([Format::Json; SLOTS]);
        let mut out = [0xee; 64];
        assert_eq!(outbox.needed(), 2);
        assert_eq!(outbox.write(&mut out), 2);
        assert_eq!(out[..3], [0, 0, 0xee]);
        outbox.send(3, Outgoing::Unsubscribed { request: 1 });
        outbox.send(0, Outgoing::Unregistered { request: 22 });
        assert_eq!(outbox.needed(), 2 + 3 + 6 + 3 + 7);
        assert_eq!(outbox.write(&mut out), 21);
        assert_eq!(&out[..22], b"\x00\x02\x03\x00\x06\x00\x00\x07[35,1][67,22]\xee");
    }

    #[test]
    fn shapes_in_messagepack() {
        let list = Payload::List(b"\x91\xcc\x05");
        let both = Payload::ListAndDict(b"\x90", b"\x81\xc4\x01k\xca\0\0\0\0");
        let table: [(Outgoing, &[u8]); 14] = [
            (
                Outgoing::Welcome { session: 9007199254740992 },
                b"\x93\x02\xcf\x00\x20\x00\x00\x00\x00\x00\x00\x81\xa5roles\x82\xa6broker\x81\xa8features\x81\
                  \xbapattern_based_subscription\xc3\xa6dealer\x81\xa8features\x81\xbapattern_based_registration\xc3",
            ),
            (Outgoing::Abort { reason: b"a.b" }, b"\x93\x03\x80\xa3a.b"),
            (Outgoing::Goodbye { reason: b"a.b" }, b"\x93\x06\x80\xa3a.b"),
            (
                Outgoing::Error { kind: 48, request: 7, uri: b"a.b", payload: Payload::None },
                b"\x95\x08\x30\x07\x80\xa3a.b",
            ),
            (
                Outgoing::Error { kind: 48, request: 7, uri: b"a.b", payload: both },
                b"\x97\x08\x30\x07\x80\xa3a.b\x90\x81\xc4\x01k\xca\0\0\0\0",
            ),
            (Outgoing::Published { request: 127, publication: 128 }, b"\x93\x11\x7f\xcc\x80"),
            (Outgoing::Subscribed { request: 255, subscription: 256 }, b"\x93\x21\xcc\xff\xcd\x01\x00"),
            (Outgoing::Unsubscribed { request: 65535 }, b"\x92\x23\xcd\xff\xff"),
            (
                Outgoing::Event { subscription: 1, publication: 65536, topic: None, payload: Payload::None },
                b"\x94\x24\x01\xce\x00\x01\x00\x00\x80",
            ),
            (
                Outgoing::Event { subscription: 1, publication: 2, topic: Some(b"a\"\\"), payload: list },
                b"\x95\x24\x01\x02\x81\xa5topic\xa3a\"\\\x91\xcc\x05",
            ),
            (
                Outgoing::Result { request: 4294967295, payload: Payload::None },
                b"\x93\x32\xce\xff\xff\xff\xff\x80",
            ),
            (
                Outgoing::Registered { request: 4294967296, registration: 2 },
                b"\x93\x41\xcf\x00\x00\x00\x01\x00\x00\x00\x00\x02",
            ),
            (Outgoing::Unregistered { request: 10 }, b"\x92\x43\x0a"),
            (
                Outgoing::Invocation { invocation: 1, registration: 2, procedure: Some(b"p"), payload: both },
                b"\x96\x44\x01\x02\x81\xa9procedure\xa1p\x90\x81\xc4\x01k\xca\0\0\0\0",
            ),
        ];
        for (message, wanted) in table {
            let bytes = written(Format::MsgPack, message);
            assert_eq!(bytes.escape_ascii().to_string(), wanted.escape_ascii().to_string());
            assert_eq!(msgpack::value(&bytes, 0, 8), Some(bytes.len()));
        }
    }

    #[test]
    fn texts_in_their_shortest_form() {
        for (length, head) in
            [(1, b"\xa1" as &[u8]), (31, b"\xbf"), (32, b"\xd9\x20"), (127, b"\xd9\x7f"), (128, b"\xd9\x80")]
        {
            let uri = vec![b'u'; length];
            let error = Outgoing::Error { kind: 48, request: 1, uri: &uri, payload: Payload::None };
            let wanted = [b"\x95\x08\x30\x01\x80", head, &uri].concat();
            assert_eq!(written(Format::MsgPack, error), wanted, "{length}");
            let payload = Payload::None;
            let event = Outgoing::Event { subscription: 1, publication: 2, topic: Some(&uri), payload };
            let wanted = [b"\x94\x24\x01\x02\x81\xa5topic", head, &uri].concat();
            assert_eq!(written(Format::MsgPack, event), wanted, "{length}");
        }
    }

    #[test]
    fn the_roles_are_one_value() {
        use crate::values::{convert, Format};
        let wanted = Some((PACKED_ROLES.to_vec(), ROLES.len()));
        assert_eq!(convert(Format::Json, Format::MsgPack, 8, ROLES, 0), wanted);
        let wanted = Some((ROLES.to_vec(), PACKED_ROLES.len()));
        assert_eq!(convert(Format::MsgPack, Format::Json, 8, PACKED_ROLES, 0), wanted);
    }

    #[test]
    fn each_slot_gets_its_own_format_or_is_passed_over() {
        let mut formats = [Format::Json; SLOTS];
        formats[1] = Format::MsgPack;
        formats[2] = Format::MsgPack;
        let mut out = [0xee; 64];
        let mut outbox = Outbox::new(formats);
        outbox.send(1, Outgoing::Unsubscribed { request: 1 });
        outbox.send_to_each([3, 2], |_| Some(Outgoing::Unregistered { request: 200 }));
        assert_eq!(outbox.needed(), 2 + 3 + 3 + 3 + 8 + 3 + 4);
        assert_eq!(outbox.write(&mut out), 26);
        let wanted = b"\0\x03\x01\0\x03\x03\0\x08\x02\0\x04\x92\x23\x01[67,200]\x92\x43\xcc\xc8\xee";
        assert_eq!(&out[..27], wanted);
        let mut outbox = Outbox::new(formats);
        let only_json = |format| (format == Format::Json).then_some(Outgoing::Unsubscribed { request: 1 });
        outbox.send_to_each([0, 1, 2, 3], only_json);
        assert_eq!(outbox.write(&mut out), 20);
        assert_eq!(&out[..20], b"\0\x02\0\0\x06\x03\0\x06[35,1][35,1]");
    }
}
