//! The values that JSON and MessagePack have in common, by which a payload is converted from the one to the other
//! (PROTOCOL, "Values"). What only one of them can say has no value here: a number with a fraction or an exponent, or
//! outside -2^63 to 2^64 - 1, a string with a lone surrogate half, a float, a bin, an ext, a map with a key that is
//! no str. Equal keys are not judged: the reader of messages has done so.

pub use crate::format::Format;
use crate::json::{self, Kind};
use crate::msgpack::{self, Head};
use crate::strings;
use crate::utf8;

/// A value. Texts are UTF-8.
#[derive(Clone, Debug, PartialEq, Eq)]
pub enum Value {
    Null,
    Bool(bool),
    /// From -2^63 to 2^64 - 1.
    Integer(i128),
    Text(Vec<u8>),
    List(Vec<Value>),
    /// The members in their order.
    Dict(Vec<(Vec<u8>, Value)>),
}

/// Where the integers end that convert.
const LEAST: i128 = -(1 << 63);
const LARGEST: i128 = (1 << 64) - 1;

/// The value that begins at a place of the bytes, written anew in a format, and the place past it. `None` if no value
/// begins there, or one that does not convert. `depth` says how many more lists or dicts may open inside each other.
pub fn convert(from: Format, to: Format, depth: usize, bytes: &[u8], at: usize) -> Option<(Vec<u8>, usize)> {
    let (value, end) = read(from, bytes, at, depth)?;
    Some((write(to, &value), end))
}

/// The value that begins at a place of the bytes, and the place past it.
pub fn read(format: Format, bytes: &[u8], at: usize, depth: usize) -> Option<(Value, usize)> {
    match format {
        Format::Json => read_json(bytes, at, depth),
        Format::MsgPack => read_msgpack(bytes, at, depth),
    }
}

/// The value as it is written in a format.
pub fn write(format: Format, value: &Value) -> Vec<u8> {
    let mut out = Vec::new();
    match format {
        Format::Json => put_json(&mut out, value),
        Format::MsgPack => put_msgpack(&mut out, value),
    }
    out
}

fn read_json(text: &[u8], at: usize, depth: usize) -> Option<(Value, usize)> {
    match text.get(at)? {
        b'[' => {
            let depth = depth.checked_sub(1)?;
            let (items, end) = json_parts(text, at + 1, b']', |at| read_json(text, at, depth))?;
            Some((Value::List(items), end))
        }
        b'{' => {
            let depth = depth.checked_sub(1)?;
            let (members, end) = json_parts(text, at + 1, b'}', |at| json_member(text, at, depth))?;
            Some((Value::Dict(members), end))
        }
        _ => json_scalar(text, at),
    }
}

/// The parts of a list or a dict from behind its opening byte on, each read by `part`, and the place past the closing
/// byte. White space may stand around each part, and a comma stands between any two.
fn json_parts<T>(
    text: &[u8],
    at: usize,
    close: u8,
    part: impl Fn(usize) -> Option<(T, usize)>,
) -> Option<(Vec<T>, usize)> {
    let mut parts = Vec::new();
    let mut at = json::past_white(text, at);
    if *text.get(at)? == close {
        return Some((parts, at + 1));
    }
    loop {
        let (one, end) = part(json::past_white(text, at))?;
        parts.push(one);
        at = json::past_white(text, end);
        let byte = *text.get(at)?;
        at += 1;
        if byte == close {
            return Some((parts, at));
        }
        if byte != b',' {
            return None;
        }
    }
}

/// A member of a dict: a string, a colon and a value.
fn json_member(text: &[u8], at: usize, depth: usize) -> Option<((Vec<u8>, Value), usize)> {
    let (Value::Text(key), end) = json_scalar(text, at)? else {
        return None;
    };
    let colon = json::past_white(text, end);
    if *text.get(colon)? != b':' {
        return None;
    }
    let (value, end) = read_json(text, json::past_white(text, colon + 1), depth)?;
    Some(((key, value), end))
}

fn json_scalar(text: &[u8], at: usize) -> Option<(Value, usize)> {
    let item = json::scalar(text, at)?;
    let written = item.span.of(text);
    let value = match item.kind {
        Kind::Number => Value::Integer(json_integer(written)?),
        Kind::String => Value::Text(json_text(&written[1..written.len() - 1])?),
        _ if written == b"null" => Value::Null,
        _ => Value::Bool(written == b"true"),
    };
    Some((value, item.span.to))
}

/// The integer that a number of any length is.
fn json_integer(written: &[u8]) -> Option<i128> {
    let (sign, digits) = match written {
        [b'-', digits @ ..] => (-1, digits),
        digits => (1, digits),
    };
    let mut number = 0;
    for digit in digits {
        // A point or an `e` is none.
        if !digit.is_ascii_digit() {
            return None;
        }
        number = number * 10 + i128::from(digit - b'0');
        if number > LARGEST {
            return None;
        }
    }
    let integer = sign * number;
    (integer >= LEAST).then_some(integer)
}

/// The text that a string is, of which what stands between the quotes is given.
fn json_text(written: &[u8]) -> Option<Vec<u8>> {
    let undone = strings::undone(written);
    (!undone.has_lone_half && utf8::well_formed(&undone.text)).then(|| undone.text.into_owned())
}

fn read_msgpack(bytes: &[u8], at: usize, depth: usize) -> Option<(Value, usize)> {
    let (head, behind) = msgpack::head(bytes, at)?;
    match head {
        Head::Nil => Some((Value::Null, behind)),
        Head::Bool(bool) => Some((Value::Bool(bool), behind)),
        Head::Integer(integer) => Some((Value::Integer(integer), behind)),
        Head::Str(_) => msgpack_text(bytes, at).map(|(text, end)| (Value::Text(text), end)),
        Head::Opaque(_) => None,
        Head::Array(count) => {
            let depth = depth.checked_sub(1)?;
            let (items, end) = msgpack_parts(behind, count, |at| read_msgpack(bytes, at, depth))?;
            Some((Value::List(items), end))
        }
        Head::Map(count) => {
            let depth = depth.checked_sub(1)?;
            let (members, end) = msgpack_parts(behind, count, |at| msgpack_member(bytes, at, depth))?;
            Some((Value::Dict(members), end))
        }
    }
}

/// So many parts from a place on, each read by `part`, and the place past them.
fn msgpack_parts<T>(
    mut at: usize,
    count: usize,
    part: impl Fn(usize) -> Option<(T, usize)>,
) -> Option<(Vec<T>, usize)> {
    let mut parts = Vec::new();
    for _ in 0..count {
        let (one, end) = part(at)?;
        parts.push(one);
        at = end;
    }
    Some((parts, at))
}

/// A key, which is a str, and its value.
fn msgpack_member(bytes: &[u8], at: usize, depth: usize) -> Option<((Vec<u8>, Value), usize)> {
    let (key, behind) = msgpack_text(bytes, at)?;
    let (value, end) = read_msgpack(bytes, behind, depth)?;
    Some(((key, value), end))
}

fn msgpack_text(bytes: &[u8], at: usize) -> Option<(Vec<u8>, usize)> {
    msgpack::str_at(bytes, at).map(|(text, end)| (text.to_vec(), end))
}

/// Writes a value in JSON, without white space.
fn put_json(out: &mut Vec<u8>, value: &Value) {
    match value {
        Value::Null => out.extend_from_slice(b"null"),
        Value::Bool(false) => out.extend_from_slice(b"false"),
        Value::Bool(true) => out.extend_from_slice(b"true"),
        Value::Integer(integer) => out.extend_from_slice(integer.to_string().as_bytes()),
        Value::Text(text) => put_json_string(out, text),
        Value::List(items) => put_json_parts(out, *b"[]", items, put_json),
        Value::Dict(members) => put_json_parts(out, *b"{}", members, |out, (key, value)| {
            put_json_string(out, key);
            out.push(b':');
            put_json(out, value);
        }),
    }
}

/// Writes the parts of a list or a dict between its two bytes, each by `put`.
fn put_json_parts<T>(out: &mut Vec<u8>, around: [u8; 2], parts: &[T], put: impl Fn(&mut Vec<u8>, &T)) {
    out.push(around[0]);
    for (part, number) in parts.iter().zip(0..) {
        if number > 0 {
            out.push(b',');
        }
        put(out, part);
    }
    out.push(around[1]);
}

/// Writes a text between quotes. A quote, a backslash and the bytes below hex 20 are escaped, and nothing else.
fn put_json_string(out: &mut Vec<u8>, text: &[u8]) {
    out.push(b'"');
    for &byte in text {
        match byte {
            b'"' | b'\\' => out.extend([b'\\', byte]),
            0x00..=0x1f => out.extend_from_slice(format!("\\u{byte:04x}").as_bytes()),
            _ => out.push(byte),
        }
    }
    out.push(b'"');
}

/// Writes a value in MessagePack, in the shortest forms.
fn put_msgpack(out: &mut Vec<u8>, value: &Value) {
    match value {
        Value::Null => out.push(0xc0),
        Value::Bool(false) => out.push(0xc2),
        Value::Bool(true) => out.push(0xc3),
        Value::Integer(integer) => msgpack::put_integer(out, *integer),
        Value::Text(text) => msgpack::put_str(out, text),
        Value::List(items) => {
            msgpack::put_array(out, items.len());
            items.iter().for_each(|item| put_msgpack(out, item));
        }
        Value::Dict(members) => {
            msgpack::put_map(out, members.len());
            for (key, value) in members {
                msgpack::put_str(out, key);
                put_msgpack(out, value);
            }
        }
    }
}

#[cfg(test)]
mod tests {
    use super::Format::{Json, MsgPack};
    use super::*;

    const FORMATS: [Format; 2] = [Json, MsgPack];

    /// The JSON text converts to these bytes, whole, and they back to this text.
    #[track_caller]
    fn both_ways(text: &str, bytes: &[u8]) {
        goes_to(text, bytes);
        comes_from(bytes, text);
    }

    /// The JSON text converts to these bytes, whole and between others.
    #[track_caller]
    fn goes_to(text: &str, bytes: &[u8]) {
        let wanted = Some((bytes.to_vec(), text.len()));
        assert_eq!(convert(Json, MsgPack, 8, text.as_bytes(), 0), wanted, "{text}");
        let wanted = Some((bytes.to_vec(), text.len() + 1));
        assert_eq!(convert(Json, MsgPack, 8, format!("[{text}]").as_bytes(), 1), wanted, "{text}");
    }

    /// The MessagePack bytes convert to this text, whole and between others.
    #[track_caller]
    fn comes_from(bytes: &[u8], text: &str) {
        let wanted = Some((text.as_bytes().to_vec(), bytes.len()));
        assert_eq!(convert(MsgPack, Json, 8, bytes, 0), wanted, "{text}");
        let wanted = Some((text.as_bytes().to_vec(), bytes.len() + 1));
        assert_eq!(convert(MsgPack, Json, 8, &[b"\xc1", bytes, b"\xc1"].concat(), 1), wanted, "{text}");
    }

    /// The JSON text does not convert, nor does what holds it.
    #[track_caller]
    fn json_stays(text: &str) {
        for text in [text, &format!("[0,{text}]"), &format!(r#"{{"a":[],"b":{text}}}"#)] {
            assert_eq!(convert(Json, MsgPack, 8, text.as_bytes(), 0), None, "{text}");
        }
    }

    /// The MessagePack bytes do not convert, nor does what holds them.
    #[track_caller]
    fn msgpack_stays(bytes: &[u8]) {
        for bytes in [bytes, &[b"\x92\x00", bytes].concat(), &[b"\x82\xa1a\x90\xa1b", bytes].concat()] {
            assert_eq!(convert(MsgPack, Json, 8, bytes, 0), None, "{bytes:02x?}");
        }
    }

    #[test]
    fn values() {
        both_ways("null", b"\xc0");
        both_ways("false", b"\xc2");
        both_ways("true", b"\xc3");
        both_ways(r#""""#, b"\xa0");
        both_ways(r#""D17""#, b"\xa3D17");
        both_ways("[]", b"\x90");
        both_ways("{}", b"\x80");
        both_ways("[1,[2,[]],{}]", b"\x93\x01\x92\x02\x90\x80");
        both_ways(r#"{"b":1,"a":{"b":[null]}}"#, b"\x82\xa1b\x01\xa1a\x81\xa1b\x91\xc0");
        both_ways(r#"[[{"":""}],true]"#, b"\x92\x91\x81\xa0\xa0\xc3");
        goes_to("[ 1 ,\t2\n, { \"a\" :\r3 , \"b\":[ ]} , { } ]", b"\x94\x01\x02\x82\xa1a\x03\xa1b\x90\x80");
        comes_from(b"\xdc\x00\x01\xde\x00\x01\xd9\x01a\xdd\x00\x00\x00\x00", r#"[{"a":[]}]"#);
        comes_from(b"\xdf\x00\x00\x00\x01\xda\x00\x01a\xdb\x00\x00\x00\x01b", r#"{"a":"b"}"#);
    }

    #[test]
    fn integers() {
        for power in 0..=64 {
            for integer in [(1i128 << power) - 1, 1 << power, (1 << power) + 1] {
                for integer in [integer, -integer] {
                    let text = integer.to_string();
                    if !(LEAST..=LARGEST).contains(&integer) {
                        json_stays(&text);
                        continue;
                    }
                    let bytes = write(MsgPack, &Value::Integer(integer));
                    both_ways(&text, &bytes);
                }
            }
        }
        for text in ["18446744073709551616", "-9223372036854775809", &"9".repeat(2000)] {
            json_stays(text);
            json_stays(&format!("-{text}"));
        }
        goes_to("-0", b"\x00");
        both_ways("18446744073709551615", b"\xcf\xff\xff\xff\xff\xff\xff\xff\xff");
        both_ways("-9223372036854775808", b"\xd3\x80\x00\x00\x00\x00\x00\x00\x00");
    }

    #[test]
    fn integers_of_longer_forms() {
        for bytes in [b"\x05" as &[u8], b"\xcc\x05", b"\xcd\x00\x05", b"\xd0\x05", b"\xd1\x00\x05"] {
            comes_from(bytes, "5");
        }
        comes_from(b"\xcf\x00\x00\x00\x00\x00\x00\x00\x05", "5");
        comes_from(b"\xd3\x00\x00\x00\x00\x00\x00\x00\x05", "5");
        comes_from(b"\xd3\xff\xff\xff\xff\xff\xff\xff\xff", "-1");
        comes_from(b"\xd1\xff\xe0", "-32");
        comes_from(b"\xd3\x7f\xff\xff\xff\xff\xff\xff\xff", "9223372036854775807");
    }

    #[test]
    fn numbers_that_do_not_convert() {
        for text in ["1.0", "0.0", "-0.0", "1.5", "1e0", "1E2", "0e0", "10e-1", "1.5e1", "-1e+2"] {
            json_stays(text);
        }
        msgpack_stays(b"\xca\x00\x00\x00\x00");
        msgpack_stays(b"\xcb\x00\x00\x00\x00\x00\x00\x00\x00");
    }

    #[test]
    fn bin_and_ext_do_not_convert() {
        for bytes in [b"\xc4\x00" as &[u8], b"\xc4\x01a", b"\xc5\x00\x01a", b"\xc6\x00\x00\x00\x01a"] {
            msgpack_stays(bytes);
        }
        for bytes in [b"\xc7\x00\x01" as &[u8], b"\xc8\x00\x01\x01a", b"\xc9\x00\x00\x00\x00\x01"] {
            msgpack_stays(bytes);
        }
        for (first, length) in [(0xd4, 1), (0xd5, 2), (0xd6, 4), (0xd7, 8), (0xd8, 16)] {
            msgpack_stays(&[vec![first, 0x01], vec![b'a'; length]].concat());
        }
    }

    #[test]
    fn keys_that_do_not_convert() {
        for key in [b"\x01" as &[u8], b"\xc0", b"\xc3", b"\xc4\x01a", b"\xd4\x01a", b"\x90", b"\x80"] {
            msgpack_stays(&[b"\x81", key, b"\x00"].concat());
            msgpack_stays(&[b"\x82\xa1a\x00", key, b"\x00"].concat());
        }
        json_stays(r#"{"\ud800":1}"#);
        json_stays(r#"{"a":1,"b\udc00":1}"#);
    }

    #[test]
    fn strings_undone() {
        goes_to(r#""\"\\\/\b\f\n\r\t""#, b"\xa8\"\\/\x08\x0c\n\r\t");
        goes_to(r#""\u0061\u00e9\u00E9\u20ac""#, b"\xa8a\xc3\xa9\xc3\xa9\xe2\x82\xac");
        goes_to(r#""\ud834\uDD1E""#, b"\xa4\xf0\x9d\x84\x9e");
        goes_to(r#""\ud7ff\ue000""#, b"\xa6\xed\x9f\xbf\xee\x80\x80");
        goes_to(r#"{"\u006b":"\u0000"}"#, b"\x81\xa1k\xa1\x00");
        for text in [
            r#""\ud800""#,
            r#""\udc00""#,
            r#""a\udbff""#,
            r#""\udfffa""#,
            r#""\udd1e\ud834""#,
            r#""\ud834\ud834\udd1e""#,
            r#""\ud834 \udd1e""#,
            r#""\ud834\u0061""#,
        ] {
            json_stays(text);
        }
    }

    #[test]
    fn strings_escaped() {
        for byte in 0x00..0x80 {
            let text = match byte {
                0x00..=0x1f => format!(r#""\u00{byte:02x}""#),
                b'"' => r#""\"""#.to_string(),
                b'\\' => r#""\\""#.to_string(),
                _ => format!("\"{}\"", char::from(byte)),
            };
            both_ways(&text, &[0xa1, byte]);
        }
        both_ways(r#""\u001f\u000a""#, b"\xa2\x1f\n");
        both_ways("\"/é€𝄞\u{2028}\"", b"\xad/\xc3\xa9\xe2\x82\xac\xf0\x9d\x84\x9e\xe2\x80\xa8");
        both_ways(r#"{"\"":"\\\""}"#, b"\x81\xa1\"\xa2\\\"");
    }

    #[test]
    fn both_sides_of_each_change_of_form() {
        for (length, before) in [
            (31, b"\xbf" as &[u8]),
            (32, b"\xd9\x20"),
            (255, b"\xd9\xff"),
            (256, b"\xda\x01\x00"),
            (65535, b"\xda\xff\xff"),
            (65536, b"\xdb\x00\x01\x00\x00"),
        ] {
            let text = "a".repeat(length);
            both_ways(&format!("\"{text}\""), &[before, text.as_bytes()].concat());
            goes_to(&format!("\"{}\"", r"\u0061".repeat(length)), &[before, text.as_bytes()].concat());
        }
        for (count, array, map) in [
            (15, b"\x9f" as &[u8], b"\x8f" as &[u8]),
            (16, b"\xdc\x00\x10", b"\xde\x00\x10"),
            (65535, b"\xdc\xff\xff", b"\xde\xff\xff"),
            (65536, b"\xdd\x00\x01\x00\x00", b"\xdf\x00\x01\x00\x00"),
        ] {
            both_ways(&format!("[{}]", vec!["7"; count].join(",")), &[array, &vec![7; count]].concat());
            let members = vec![r#""a":7"#; count].join(",");
            both_ways(&format!("{{{members}}}"), &[map, &b"\xa1a\x07".repeat(count)].concat());
        }
    }

    #[test]
    fn depth() {
        for depth in 1..=8 {
            let lists = "[".repeat(depth) + &"]".repeat(depth);
            let dicts = r#"{"a":"#.repeat(depth) + "0" + &"}".repeat(depth);
            for text in [lists, dicts] {
                let (bytes, end) = convert(Json, MsgPack, depth, text.as_bytes(), 0).expect("it converts");
                assert_eq!(end, text.len());
                assert_eq!(convert(Json, MsgPack, depth - 1, text.as_bytes(), 0), None, "{text}");
                let back = Some((text.into_bytes(), bytes.len()));
                assert_eq!(convert(MsgPack, Json, depth, &bytes, 0), back);
                assert_eq!(convert(MsgPack, Json, depth - 1, &bytes, 0), None);
            }
        }
    }

    #[test]
    fn what_is_no_value() {
        for text in ["", "x", "tru", "-", "1.", "\"a", "\"\n\"", "[", "[1", "[1,", "[1,]", "[1 2]", "[,]"] {
            assert_eq!(read(Json, text.as_bytes(), 0, 8), None, "{text}");
        }
        for text in ["{", "{\"a\"}", "{\"a\":}", "{\"a\":1", "{\"a\":1,}", "{a:1}", "{1:1}", "[}", "{]", " 1"]
        {
            assert_eq!(read(Json, text.as_bytes(), 0, 8), None, "{text}");
        }
        for bytes in [b"" as &[u8], b"\xc1", b"\xa1", b"\xa1\xff", b"\x91", b"\x81\xa1a", b"\xcc", b"\xdc"] {
            assert_eq!(read(MsgPack, bytes, 0, 8), None, "{bytes:02x?}");
        }
        assert_eq!(read(Json, b"\"\xff\"", 0, 8), None);
        for format in FORMATS {
            assert_eq!(read(format, b"00", 2, 8), None);
            assert_eq!(read(format, b"00", 3, 8), None);
        }
    }

    #[test]
    fn equal_keys_are_not_judged() {
        both_ways(r#"{"a":1,"a":2}"#, b"\x82\xa1a\x01\xa1a\x02");
        goes_to(r#"{"a":1,"\u0061":2}"#, b"\x82\xa1a\x01\xa1a\x02");
    }

    /// Draws numbers, the same ones in each run (xorshift).
    struct Drawn(u64);

    impl Drawn {
        /// A number below the limit.
        fn below(&mut self, limit: usize) -> usize {
            self.0 ^= self.0 << 13;
            self.0 ^= self.0 >> 7;
            self.0 ^= self.0 << 17;
            (self.0 >> 16) as usize % limit
        }

        /// An integer of any size, one next to a power of 2 now and then.
        fn integer(&mut self) -> i128 {
            let power = 1i128 << self.below(65);
            let integer =
                if self.below(2) == 0 { power } else { (self.below(1 << 40) as i128) << 24 & (power - 1) };
            let integer = integer + self.below(3) as i128 - 1;
            let integer = if self.below(2) == 0 { integer } else { -integer };
            integer.clamp(LEAST, LARGEST)
        }

        fn text(&mut self) -> Vec<u8> {
            const CHARACTERS: [&str; 12] =
                ["a", "Z", "\"", "\\", "/", "\0", "\n", "\u{1f}", "\u{7f}", "é", "€", "𝄞"];
            let length = if self.below(20) == 0 { self.below(300) } else { self.below(6) };
            (0..length).flat_map(|_| CHARACTERS[self.below(12)].bytes()).collect()
        }

        /// A value with at most so many lists and dicts inside each other, and no two equal keys in a dict.
        fn value(&mut self, depth: usize) -> Value {
            let count = if self.below(20) == 0 { self.below(20) } else { self.below(4) };
            match self.below(if depth == 0 { 4 } else { 8 }) {
                0 => Value::Null,
                1 => Value::Bool(self.below(2) == 0),
                2 => Value::Integer(self.integer()),
                3 => Value::Text(self.text()),
                4 | 5 => Value::List((0..count).map(|_| self.value(depth - 1)).collect()),
                _ => Value::Dict((0..count).map(|k| (self.key(k), self.value(depth - 1))).collect()),
            }
        }

        /// The key of the k-th member.
        fn key(&mut self, k: usize) -> Vec<u8> {
            [self.text(), k.to_string().into_bytes()].concat()
        }
    }

    fn depth_of(value: &Value) -> usize {
        match value {
            Value::List(items) => 1 + items.iter().map(depth_of).max().unwrap_or(0),
            Value::Dict(members) => 1 + members.iter().map(|(_, value)| depth_of(value)).max().unwrap_or(0),
            _ => 0,
        }
    }

    #[test]
    fn reading_what_was_written_gives_the_value_back() {
        let mut drawn = Drawn(0x5eed);
        for _ in 0..20_000 {
            let value = drawn.value(5);
            let depth = depth_of(&value);
            let [json, msgpack] = FORMATS.map(|format| write(format, &value));
            for (format, bytes) in [(Json, &json), (MsgPack, &msgpack)] {
                let wanted = Some((value.clone(), bytes.len()));
                assert_eq!(read(format, bytes, 0, depth), wanted, "{value:?}");
                let between = [b"[" as &[u8], bytes, b"]"].concat();
                let wanted = Some((value.clone(), bytes.len() + 1));
                assert_eq!(read(format, &between, 1, depth), wanted, "{value:?}");
                if depth > 0 {
                    assert_eq!(read(format, bytes, 0, depth - 1), None, "{value:?}");
                    assert_eq!(read(format, &bytes[..bytes.len() - 1], 0, depth), None, "{value:?}");
                }
            }
            assert_eq!(convert(Json, MsgPack, depth, &json, 0), Some((msgpack.clone(), json.len())));
            assert_eq!(convert(MsgPack, Json, depth, &msgpack, 0), Some((json.clone(), msgpack.len())));
            assert!(json.len() <= 6 * msgpack.len() && msgpack.len() <= 2 * json.len(), "{value:?}");
        }
    }

    #[test]
    fn what_was_written_is_one_value_of_its_format() {
        let mut drawn = Drawn(0x5eed + 1);
        for _ in 0..20_000 {
            let value = drawn.value(4);
            let [json, msgpack] = FORMATS.map(|format| write(format, &value));
            assert!(utf8::well_formed(&json) && json::is_text(&json), "{value:?}");
            let wanted = (msgpack.len() <= crate::message::MAX_LENGTH).then_some(msgpack.len());
            assert_eq!(msgpack::value(&msgpack, 0, depth_of(&value)), wanted, "{value:?}");
        }
    }
}
