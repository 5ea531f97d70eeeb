//! The payload of a message, as it came and as it goes to receivers of either format.

use crate::format::Format;
use crate::json::MAX_DEPTH;
use crate::values;
use std::cell::OnceCell;

/// The optional payload: a list, then optionally a dict, each from its first to its last byte.
#[derive(Clone, Copy, Debug, PartialEq, Eq)]
pub enum Payload<'m> {
    None,
    List(&'m [u8]),
    ListAndDict(&'m [u8], &'m [u8]),
}

impl<'m> Payload<'m> {
    /// Its values, in order.
    pub fn parts(self) -> impl Iterator<Item = &'m [u8]> {
        let (list, dict) = match self {
            Payload::None => (None, None),
            Payload::List(list) => (Some(list), None),
            Payload::ListAndDict(list, dict) => (Some(list), Some(dict)),
        };
        list.into_iter().chain(dict)
    }
}

/// A payload converted: it has its own bytes.
#[derive(Clone, Debug, PartialEq, Eq)]
struct Converted {
    parts: Vec<Vec<u8>>,
}

impl Converted {
    /// The payload in the other format; `None` if a part does not convert.
    fn new(payload: Payload, from: Format) -> Option<Converted> {
        let convert = |part| {
            // The outer list is one of the levels.
            let (bytes, end) = values::convert(from, from.other(), MAX_DEPTH - 1, part, 0)?;
            assert_eq!(end, part.len(), "a part is one value");
            Some(bytes)
        };
        payload.parts().map(convert).collect::<Option<_>>().map(|parts| Converted { parts })
    }

    fn payload(&self) -> Payload<'_> {
        match &*self.parts {
            [] => Payload::None,
            [list] => Payload::List(list),
            [list, dict, ..] => Payload::ListAndDict(list, dict),
        }
    }
}

/// A payload that came in a format, and goes out as it came to receivers of that format and converted to others. It is
/// converted at most once, when the first of them needs it.
pub struct Passed<'m> {
    format: Format,
    payload: Payload<'m>,
    converted: OnceCell<Option<Converted>>,
}

impl<'m> Passed<'m> {
    pub fn new(format: Format, payload: Payload<'m>) -> Passed<'m> {
        Passed { format, payload, converted: OnceCell::new() }
    }

    /// The payload for a receiver of a format; `None` if it does not convert.
    pub fn to(&self, format: Format) -> Option<Payload<'_>> {
        if format == self.format {
            return Some(self.payload);
        }
        let converted = self.converted.get_or_init(|| Converted::new(self.payload, self.format));
        converted.as_ref().map(Converted::payload)
    }
}

#[cfg(test)]
mod tests {
    use super::Format::{Json, MsgPack};
    use super::*;

    #[test]
    fn as_it_came_within_a_format() {
        for payload in [
            Payload::None,
            Payload::List(b"[ -0 , 1.5 , \"\\ud800\" ]"),
            Payload::ListAndDict(b"[]", b"{ \"a\" : 1e3 }"),
        ] {
            assert_eq!(Passed::new(Json, payload).to(Json), Some(payload));
        }
        for payload in
            [Payload::List(b"\x91\xc4\x00"), Payload::ListAndDict(b"\x90", b"\x81\x01\xca\0\0\0\0")]
        {
            assert_eq!(Passed::new(MsgPack, payload).to(MsgPack), Some(payload));
        }
    }

    #[test]
    fn converted_across() {
        for (json, msgpack) in [
            (Payload::None, Payload::None),
            (Payload::List(b"[]"), Payload::List(b"\x90")),
            (Payload::List(b"[\"D17\"]"), Payload::List(b"\x91\xa3D17")),
            (Payload::ListAndDict(b"[]", b"{}"), Payload::ListAndDict(b"\x90", b"\x80")),
            (
                Payload::ListAndDict(b"[-1,[null]]", b"{\"b\":true,\"a\":{}}"),
                Payload::ListAndDict(b"\x92\xff\x91\xc0", b"\x82\xa1b\xc3\xa1a\x80"),
            ),
        ] {
            assert_eq!(Passed::new(Json, json).to(MsgPack), Some(msgpack));
            assert_eq!(Passed::new(MsgPack, msgpack).to(Json), Some(json));
        }
        let spaced = Payload::ListAndDict(b"[ -0 ]", b"{ \"a\" : \"\\u0061\" }");
        let wanted = Payload::ListAndDict(b"\x91\0", b"\x81\xa1a\xa1a");
        assert_eq!(Passed::new(Json, spaced).to(MsgPack), Some(wanted));
    }

    #[test]
    fn both_parts_must_convert() {
        let (list, dict) = (b"[1.0]", b"{\"a\":1.0}");
        assert_eq!(Passed::new(Json, Payload::List(list)).to(MsgPack), None);
        assert_eq!(Passed::new(Json, Payload::ListAndDict(list, b"{}")).to(MsgPack), None);
        assert_eq!(Passed::new(Json, Payload::ListAndDict(b"[]", dict)).to(MsgPack), None);
        let (list, dict) = (b"\x91\xc4\0", b"\x81\0\0");
        assert_eq!(Passed::new(MsgPack, Payload::List(list)).to(Json), None);
        assert_eq!(Passed::new(MsgPack, Payload::ListAndDict(list, b"\x80")).to(Json), None);
        assert_eq!(Passed::new(MsgPack, Payload::ListAndDict(b"\x90", dict)).to(Json), None);
    }

    #[test]
    fn it_is_converted_once() {
        let passed = Passed::new(Json, Payload::List(b"[1]"));
        assert!(passed.converted.get().is_none());
        passed.to(Json);
        assert!(passed.converted.get().is_none());
        let [one, other] = [passed.to(MsgPack), passed.to(MsgPack)];
        let (Some(Payload::List(one)), Some(Payload::List(other))) = (one, other) else {
            panic!("it converts")
        };
        assert!(std::ptr::eq(one, other));
    }
}
