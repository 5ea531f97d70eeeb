//! MessagePack values, and their bytes in any of the forms that the format has for them.

use crate::random::Random;
use crate::spelling;

/// A value, of any kind that the format has. Nothing says that it is good: texts may be no UTF-8, keys equal.
#[derive(Clone, Debug, PartialEq, Eq)]
pub enum Pack {
    Nil,
    Bool(bool),
    /// From -2^63 to 2^64 - 1.
    Integer(i128),
    Float32(u32),
    Float64(u64),
    Str(Vec<u8>),
    Bin(Vec<u8>),
    /// The type, and the bytes.
    Ext(u8, Vec<u8>),
    Array(Vec<Pack>),
    Map(Vec<(Pack, Pack)>),
    /// Bytes as they are, mostly of no value.
    Raw(Vec<u8>),
}

/// How often a longer form is taken than is needed: once in so many; never where it is 0.
#[derive(Clone, Copy, Debug, PartialEq, Eq)]
pub struct Longer(pub usize);

/// A form: its first byte, and how many bytes of a number stand behind it.
type Form = (u8, usize);

/// The forms that hold an integer, the shortest first, one that is unsigned before one that is not.
fn integer_forms(integer: i128) -> Vec<Form> {
    let mut forms = Vec::new();
    if (-32..128).contains(&integer) {
        forms.push((integer as u8, 0));
    }
    for (place, width) in [1, 2, 4, 8].into_iter().enumerate() {
        let above = 1i128 << (8 * width);
        if (0..above).contains(&integer) {
            forms.push((0xcc + place as u8, width));
        }
        if (-above / 2..above / 2).contains(&integer) {
            forms.push((0xd0 + place as u8, width));
        }
    }
    forms
}

/// The forms that hold a length: the one with the length in its first byte, if that is short enough, and then those
/// with 1, 2 and 4 bytes of length, of which 0 stands for none.
fn length_forms(length: usize, fixed: (u8, usize), firsts: [u8; 3]) -> Vec<Form> {
    let (first, below) = fixed;
    let mut forms = Vec::new();
    if length < below {
        forms.push((first | length as u8, 0));
    }
    let wide = firsts.into_iter().zip([1, 2, 4]);
    forms.extend(wide.filter(|&(first, width)| first != 0 && (length as u64) >> (8 * width) == 0));
    forms
}

fn put_form(random: &mut Random, longer: Longer, out: &mut Vec<u8>, forms: &[Form], number: u64) {
    let is_longer = longer.0 > 0 && random.once_in(longer.0);
    let (first, width) = if is_longer { random.pick(forms) } else { forms[0] };
    out.push(first);
    out.extend_from_slice(&number.to_be_bytes()[8 - width..]);
}

impl Pack {
    pub fn text(text: &str) -> Pack {
        Pack::Str(text.as_bytes().to_vec())
    }

    /// Puts the value's bytes behind others.
    pub fn put(&self, random: &mut Random, longer: Longer, out: &mut Vec<u8>) {
        let mut head = |forms: Vec<Form>, number: u64, out: &mut Vec<u8>| {
            put_form(random, longer, out, &forms, number);
        };
        match self {
            Pack::Nil => out.push(0xc0),
            Pack::Bool(bool) => out.push(0xc2 + u8::from(*bool)),
            Pack::Integer(integer) => head(integer_forms(*integer), *integer as u64, out),
            Pack::Float32(bits) => {
                out.push(0xca);
                out.extend(bits.to_be_bytes());
            }
            Pack::Float64(bits) => {
                out.push(0xcb);
                out.extend(bits.to_be_bytes());
            }
            Pack::Str(text) => {
                let forms = length_forms(text.len(), (0xa0, 32), [0xd9, 0xda, 0xdb]);
                head(forms, text.len() as u64, out);
                out.extend(text);
            }
            Pack::Bin(bytes) => {
                let forms = length_forms(bytes.len(), (0, 0), [0xc4, 0xc5, 0xc6]);
                head(forms, bytes.len() as u64, out);
                out.extend(bytes);
            }
            Pack::Ext(kind, bytes) => {
                let mut forms = length_forms(bytes.len(), (0, 0), [0xc7, 0xc8, 0xc9]);
                if let Some(power) = [1, 2, 4, 8, 16].iter().position(|&length| length == bytes.len()) {
                    forms.insert(0, (0xd4 + power as u8, 0));
                }
                head(forms, bytes.len() as u64, out);
                out.push(*kind);
                out.extend(bytes);
            }
            Pack::Array(items) => {
                head(length_forms(items.len(), (0x90, 16), [0, 0xdc, 0xdd]), items.len() as u64, out);
                items.iter().for_each(|item| item.put(random, longer, out));
            }
            Pack::Map(members) => {
                head(length_forms(members.len(), (0x80, 16), [0, 0xde, 0xdf]), members.len() as u64, out);
                for (key, value) in members {
                    key.put(random, longer, out);
                    value.put(random, longer, out);
                }
            }
            Pack::Raw(bytes) => out.extend(bytes),
        }
    }

    /// The value as a JSON text; `None` where it does not convert. Zero is now and then written with a minus.
    pub fn json(&self, random: &mut Random) -> Option<String> {
        let string = |text: &[u8]| Some(format!("\"{}\"", spelling::plain(std::str::from_utf8(text).ok()?)));
        Some(match self {
            Pack::Nil => "null".to_string(),
            Pack::Bool(bool) => bool.to_string(),
            Pack::Integer(0) if random.once_in(4) => "-0".to_string(),
            Pack::Integer(integer) => integer.to_string(),
            Pack::Str(text) => string(text)?,
            Pack::Array(items) => {
                let items: Option<Vec<_>> = items.iter().map(|item| item.json(random)).collect();
                format!("[{}]", items?.join(random.pick(&[",", ",", " , ", ",\n"])))
            }
            Pack::Map(members) => {
                let member = |random: &mut Random, key: &Pack, value: &Pack| {
                    let Pack::Str(key) = key else { return None };
                    Some(format!("{}:{}", string(key)?, value.json(random)?))
                };
                let members: Option<Vec<_>> =
                    members.iter().map(|(key, value)| member(random, key, value)).collect();
                format!("{{{}}}", members?.join(random.pick(&[",", " , "])))
            }
            Pack::Float32(_) | Pack::Float64(_) | Pack::Bin(_) | Pack::Ext(..) | Pack::Raw(_) => return None,
        })
    }
}

/// The integers either side of each change of form, and of the IDs' end.
pub const EDGES: [i128; 28] = [
    0,
    1,
    127,
    128,
    255,
    256,
    32767,
    32768,
    65535,
    65536,
    (1 << 31) - 1,
    1 << 31,
    (1 << 32) - 1,
    1 << 32,
    1 << 53,
    (1 << 53) + 1,
    (1 << 63) - 1,
    1 << 63,
    (1 << 64) - 1,
    -1,
    -32,
    -33,
    -128,
    -129,
    -32768,
    -32769,
    -(1 << 31) - 1,
    -(1 << 63),
];

/// Makes values. One scalar or key in so many does not convert to JSON; none where it is 0.
#[derive(Clone, Copy, Debug, PartialEq, Eq)]
pub struct Odd(pub usize);

impl Odd {
    fn comes(self, random: &mut Random) -> bool {
        self.0 > 0 && random.once_in(self.0)
    }

    /// A value that opens at most `depth` arrays and maps inside each other.
    pub fn value(self, random: &mut Random, depth: usize) -> Pack {
        match random.below(if depth == 0 { 5 } else { 8 }) {
            _ if self.comes(random) => odd_scalar(random),
            0 => [Pack::Nil, Pack::Bool(false), Pack::Bool(true)][random.below(3)].clone(),
            1 => Pack::Integer(random.below(1000) as i128 - 200),
            2 => Pack::Integer(random.pick(&EDGES)),
            3 => Pack::Str(text(random)),
            4 => Pack::text("D17"),
            5 | 6 => self.array(random, depth - 1),
            _ => self.map(random, depth - 1),
        }
    }

    /// An array whose values open at most `depth` more: of few values, or of so many that its form changes.
    pub fn array(self, random: &mut Random, depth: usize) -> Pack {
        let (count, depth) = match random.below(24) {
            0 => (random.between(14, 17), 0),
            _ => (random.below(4), depth),
        };
        Pack::Array((0..count).map(|_| self.value(random, depth)).collect())
    }

    /// A map with str keys that are distinct, and now and then others, whose values open at most `depth` more.
    pub fn map(self, random: &mut Random, depth: usize) -> Pack {
        let (count, depth) = match random.below(24) {
            0 => (random.between(14, 17), 0),
            _ => (random.below(4), depth),
        };
        let keys =
            ["k", "", "a", "é", "match", "topic", "b\\", "€", "\n", "\0", "\"", "x/y", "𝄞", "acknowledge"];
        let first = random.below(keys.len());
        let key = |random: &mut Random, place: usize| match keys.get((first + place) % 18) {
            _ if self.comes(random) => odd_key(random, depth),
            Some(key) => Pack::text(key),
            None => Pack::text(&"k".repeat(2 + (first + place) % 18 * 2)),
        };
        Pack::Map((0..count).map(|place| (key(random, place), self.value(random, depth))).collect())
    }

    /// The optional payload: nothing, an array, or an array and a map. Its values stand at depth 2.
    pub fn payload(self, random: &mut Random) -> Vec<Pack> {
        match random.below(24) {
            0..=5 => vec![],
            6..=8 => vec![Pack::Array(vec![])],
            9..=13 => vec![self.array(random, 3)],
            14..=18 => vec![self.array(random, 6), self.map(random, 2)],
            19..=22 => vec![Pack::Array(vec![]), self.map(random, 6)],
            _ => {
                // A long one, of bytes that are written as one, two or six in JSON.
                let length = random.pick(&[30, 31, 32, 33, 254, 255, 256, 257, 1000, 1900]);
                let byte = random.pick(b"x\"\\\0\n\x1f\x7f/");
                vec![Pack::Array(vec![Pack::Str(vec![byte; length])])]
            }
        }
    }
}

fn text(random: &mut Random) -> Vec<u8> {
    let characters =
        ["a", "Z", "\"", "\\", "/", "\0", "\n", "\u{1f}", " ", "\u{7f}", "é", "€", "𝄞", "\\u0061"];
    let length = if random.once_in(16) { random.between(20, 40) } else { random.below(6) };
    (0..length).flat_map(|_| random.pick(&characters).bytes()).collect()
}

/// A float, a bin or an ext.
fn odd_scalar(random: &mut Random) -> Pack {
    let lengths = [0, 1, 2, 3, 4, 5, 8, 16, 17];
    let bytes = |random: &mut Random| {
        let length = if random.once_in(24) { random.pick(&[255, 256]) } else { random.pick(&lengths) };
        let byte = random.byte();
        vec![byte; length]
    };
    match random.below(4) {
        0 => Pack::Float32(random.pick(&[0, 0x3f80_0000, 0x7fc0_0000, 0xffff_ffff])),
        1 => Pack::Float64(random.pick(&[0, 0x3ff0 << 48, 0x4330 << 48, u64::MAX])),
        2 => Pack::Bin(bytes(random)),
        _ => Pack::Ext(random.byte(), bytes(random)),
    }
}

/// A key that is no str: any other value, a bin of a str's bytes, an array or a map.
pub fn odd_key(random: &mut Random, depth: usize) -> Pack {
    match random.below(8) {
        0 => Pack::Nil,
        1 => Pack::Bool(true),
        2 => Pack::Integer(random.pick(&EDGES)),
        3 => Pack::Bin(random.pick(&["k", "match", "acknowledge"]).into()),
        4 if depth > 0 => Pack::Array(vec![Pack::text("k")]),
        5 if depth > 0 => Pack::Map(vec![(Pack::text("k"), Pack::Nil)]),
        _ => odd_scalar(random),
    }
}

/// Arrays or maps inside each other, in values or in keys, `depth` of them, which is not 0.
pub fn nested(random: &mut Random, depth: usize) -> Pack {
    let mut pack = if random.once_in(2) { Pack::Array(vec![]) } else { Pack::Map(vec![]) };
    for _ in 1..depth {
        pack = match random.below(4) {
            0 => Pack::Map(vec![(Pack::text("a"), pack)]),
            1 => Pack::Map(vec![(pack, Pack::Nil)]),
            2 => Pack::Array(vec![pack]),
            _ => Pack::Array(vec![pack, Pack::Integer(1)]),
        };
    }
    pack
}

/// The same with as many as are drawn.
pub fn nested_between(random: &mut Random, fewest: usize, most: usize) -> Pack {
    let depth = random.between(fewest, most);
    nested(random, depth)
}

/// A map, or one in an array or a map, with two str keys that are mostly equal; the caller chooses their forms.
pub fn twins(random: &mut Random) -> Pack {
    let key = random.pick(&[
        "a",
        "",
        "match",
        "acknowledge",
        "é",
        "\\u0061",
        "long key long key long key long key",
    ]);
    let other = match random.below(4) {
        // Another key: one byte more, or a bin.
        0 => Pack::text(&format!("{key}x")),
        1 => Pack::Bin(key.into()),
        _ => Pack::text(key),
    };
    let mut members = vec![(Pack::text(key), Pack::Integer(1)), (other, Pack::Bool(true))];
    if random.once_in(3) {
        members.insert(1, (Pack::text("k"), Pack::Map(vec![])));
    }
    let map = Pack::Map(members);
    match random.below(5) {
        0 => Pack::Array(vec![map]),
        1 => Pack::Map(vec![(Pack::text("x"), Pack::Array(vec![Pack::Nil, map]))]),
        2 => Pack::Map(vec![(map, Pack::Nil)]),
        _ => map,
    }
}

/// A text as the bytes of a str that are no UTF-8, or nearly not.
pub fn bad_text(random: &mut Random) -> Vec<u8> {
    let texts: [&[u8]; 12] = [
        b"\xff",
        b"\x80",
        b"a\xc3",
        b"\xc0\xaf",
        b"\xed\xa0\x80",
        b"\xed\x9f\xbf",
        b"\xf4\x90\x80\x80",
        b"\xf4\x8f\xbf\xbf",
        b"\xe2\x82",
        b"a.b\xf0\x9d\x84",
        b"\xe0\x9f\xbf",
        b"\xee\x80\x80",
    ];
    random.pick(&texts).to_vec()
}

#[cfg(test)]
mod tests {
    use super::*;
    use reference::json;
    use reference::msgpack::{self, Head};
    use reference::values::{self, Format};

    fn written(random: &mut Random, longer: Longer, pack: &Pack) -> Vec<u8> {
        let mut out = Vec::new();
        pack.put(random, longer, &mut out);
        out
    }

    #[test]
    fn the_forms_of_an_integer() {
        let mut random = Random::new(1);
        for integer in EDGES {
            let mut shortest = Vec::new();
            msgpack::put_integer(&mut shortest, integer);
            assert_eq!(written(&mut random, Longer(0), &Pack::Integer(integer)), shortest);
            let forms: Vec<_> =
                (0..200).map(|_| written(&mut random, Longer(1), &Pack::Integer(integer))).collect();
            for bytes in &forms {
                assert_eq!(msgpack::head(bytes, 0), Some((Head::Integer(integer), bytes.len())));
            }
            let mut distinct = forms.clone();
            distinct.sort();
            distinct.dedup();
            assert_eq!(distinct.len(), integer_forms(integer).len(), "{integer}");
        }
        assert_eq!(integer_forms(5).len(), 9);
        assert_eq!(integer_forms((1 << 64) - 1), [(0xcf, 8)]);
    }

    #[test]
    fn values_are_those_of_the_format_to_their_depth() {
        let mut random = Random::new(2);
        let mut firsts = [0; 256];
        for _ in 0..20_000 {
            let odd = Odd(random.pick(&[0, 3, 20]));
            let longer = Longer(random.pick(&[0, 1, 4]));
            let pack = match random.below(3) {
                0 => odd.array(&mut random, 6),
                1 => odd.map(&mut random, 6),
                _ => odd.value(&mut random, 7),
            };
            let bytes = written(&mut random, longer, &pack);
            assert_eq!(msgpack::past(&bytes, 0, 7), Some(bytes.len()), "{pack:?}");
            firsts[usize::from(bytes[0])] += 1;
            let value = values::read(Format::MsgPack, &bytes, 0, 7);
            if odd.0 == 0 {
                let (value, _) = value.expect("it converts");
                let text = pack.json(&mut random).expect("it converts");
                assert!(json::is_text(text.as_bytes()), "{text}");
                assert_eq!(values::read(Format::Json, text.as_bytes(), 0, 7), Some((value, text.len())));
            } else {
                assert_eq!(pack.json(&mut random).is_some(), value.is_some(), "{pack:?}");
            }
        }
        assert_eq!(firsts[0xc1], 0);
        for first in [0xdc, 0xdd, 0xde, 0xdf, 0x90, 0x80, 0xca, 0xcb, 0xc4, 0xc9, 0xd8, 0xd9, 0xdb, 0xd3] {
            assert!(firsts[first] > 0, "{first:02x}");
        }
    }

    #[test]
    fn twins_and_nesting() {
        let mut random = Random::new(3);
        let mut equal = 0;
        for _ in 0..1000 {
            let bytes = {
                let pack = twins(&mut random);
                written(&mut random, Longer(2), &pack)
            };
            equal += usize::from(msgpack::past(&bytes, 0, 8).is_none());
            for depth in 1..=9 {
                let pack = nested(&mut random, depth);
                let bytes = written(&mut random, Longer(2), &pack);
                assert_eq!(msgpack::past(&bytes, 0, depth), Some(bytes.len()));
                assert_eq!(msgpack::past(&bytes, 0, depth - 1), None);
            }
        }
        assert!((300..700).contains(&equal), "{equal}");
    }
}
