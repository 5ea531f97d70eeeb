//! MessagePack (PROTOCOL, "MessagePack"): where a value ends, and the shortest forms. All forms of the format are
//! read, the longer ones too. A str is UTF-8 wherever it stands, and no two str keys of one map are equal, whatever
//! their forms. A map's key may be any value. What a float, a bin or an ext holds is not looked at.

use crate::json::{are_distinct, Item, Kind, Span, MAX_DEPTH};
use crate::message::MAX_LENGTH;
use crate::utf8;

/// What the first bytes of a value say: of what kind it is, and what follows them.
#[derive(Clone, Copy, Debug, PartialEq, Eq)]
pub enum Head {
    Nil,
    Bool(bool),
    Integer(i128),
    /// A text of so many bytes follows.
    Str(usize),
    /// A float, a bin or an ext: so many bytes follow, the type of an ext among them.
    Opaque(usize),
    /// So many values follow.
    Array(usize),
    /// So many keys follow, each with its value behind it.
    Map(usize),
}

/// The place past the value that begins at a place of the text. `depth` says how many more arrays or maps may open
/// inside each other. `None` if no value begins there, or the text is longer than a message may be.
pub fn value(text: &[u8], at: usize, depth: usize) -> Option<usize> {
    if text.len() > MAX_LENGTH {
        return None;
    }
    past(text, at, depth)
}

/// If the text is one array with nothing behind it, hands its values over in order.
pub fn elements(text: &[u8], mut each: impl FnMut(Item)) -> Option<()> {
    let (Head::Array(count), mut at) = head(text, 0)? else {
        return None;
    };
    for _ in 0..count {
        let item = item(text, at, MAX_DEPTH - 1)?;
        at = item.span.to;
        each(item);
    }
    (at == text.len()).then_some(())
}

/// Hands over the members of the map at a place of the text whose key is a str, in order: the key and the value. The
/// map is an element of the outer array, so that it stands at depth 2. `None` if there is no map.
pub fn members<'t>(text: &'t [u8], at: usize, mut each: impl FnMut(&'t [u8], Item)) -> Option<()> {
    let (Head::Map(count), mut at) = head(text, at)? else {
        return None;
    };
    for _ in 0..count {
        let behind = past(text, at, MAX_DEPTH - 2)?;
        let value = item(text, behind, MAX_DEPTH - 2)?;
        if let Some((key, _)) = str_at(text, at) {
            each(key, value);
        }
        at = value.span.to;
    }
    Some(())
}

/// The value at a place, with its kind.
fn item(text: &[u8], at: usize, depth: usize) -> Option<Item> {
    let to = past(text, at, depth)?;
    let kind = match head(text, at)?.0 {
        Head::Integer(_) => Kind::Number,
        Head::Str(_) => Kind::String,
        Head::Array(_) => Kind::List,
        Head::Map(_) => Kind::Dict,
        Head::Nil | Head::Bool(_) | Head::Opaque(_) => Kind::Other,
    };
    Some(Item { kind, span: Span { from: at, to } })
}

/// The head of the value that begins at a place of the text, and the place past the head.
pub fn head(text: &[u8], at: usize) -> Option<(Head, usize)> {
    let first = *text.get(at)?;
    // Many forms have a number directly behind the first byte: an integer's value, or a length.
    let width = width(first);
    let number = big_endian(text.get(at + 1..at + 1 + width)?);
    let length = number as usize;
    let head = match first {
        0x00..=0x7f => Head::Integer(first.into()),
        0x80..=0x8f => Head::Map((first & 0x0f).into()),
        0x90..=0x9f => Head::Array((first & 0x0f).into()),
        0xa0..=0xbf => Head::Str((first & 0x1f).into()),
        0xc0 => Head::Nil,
        0xc1 => return None,
        0xc2 => Head::Bool(false),
        0xc3 => Head::Bool(true),
        0xc4..=0xc6 => Head::Opaque(length),
        0xc7..=0xc9 => Head::Opaque(1 + length),
        0xca => Head::Opaque(4),
        0xcb => Head::Opaque(8),
        0xcc..=0xcf => Head::Integer(number.into()),
        0xd0..=0xd3 => Head::Integer(signed(number, width).into()),
        0xd4..=0xd8 => Head::Opaque(1 + (1 << (first - 0xd4))),
        0xd9..=0xdb => Head::Str(length),
        0xdc..=0xdd => Head::Array(length),
        0xde..=0xdf => Head::Map(length),
        0xe0..=0xff => Head::Integer(signed(first.into(), 1).into()),
    };
    Some((head, at + 1 + width))
}

/// The text of the str that begins at a place, and the place past it. `None` if no str does.
pub fn str_at(text: &[u8], at: usize) -> Option<(&[u8], usize)> {
    let (Head::Str(length), at) = head(text, at)? else {
        return None;
    };
    let bytes = text[at..].get(..length)?;
    utf8::well_formed(bytes).then_some((bytes, at + length))
}

/// How many bytes the number has that stands behind the first byte.
fn width(first: u8) -> usize {
    match first {
        0xc4..=0xc6 => 1 << (first - 0xc4),
        0xc7..=0xc9 => 1 << (first - 0xc7),
        0xcc..=0xcf => 1 << (first - 0xcc),
        0xd0..=0xd3 => 1 << (first - 0xd0),
        0xd9..=0xdb => 1 << (first - 0xd9),
        0xdc | 0xde => 2,
        0xdd | 0xdf => 4,
        _ => 0,
    }
}

fn big_endian(bytes: &[u8]) -> u64 {
    bytes.iter().fold(0, |number, &byte| number << 8 | u64::from(byte))
}

/// The number of so many bytes, in two's complement.
fn signed(number: u64, width: usize) -> i64 {
    let above = 64 - 8 * width;
    (number << above) as i64 >> above
}

/// The place past the value at a place of a text of any length.
pub fn past(text: &[u8], at: usize, depth: usize) -> Option<usize> {
    let (head, behind) = head(text, at)?;
    match head {
        Head::Nil | Head::Bool(_) | Head::Integer(_) => Some(behind),
        Head::Str(_) => str_at(text, at).map(|(_, end)| end),
        Head::Opaque(length) => text[behind..].get(..length).map(|_| behind + length),
        Head::Array(count) => past_values(text, behind, count, depth.checked_sub(1)?),
        Head::Map(count) => past_members(text, behind, count, depth.checked_sub(1)?),
    }
}

/// The place past so many values.
fn past_values(text: &[u8], at: usize, count: usize, depth: usize) -> Option<usize> {
    (0..count).try_fold(at, |at, _| past(text, at, depth))
}

/// The place past so many keys and their values. No two of the keys that are a str are equal.
fn past_members(text: &[u8], mut at: usize, count: usize, depth: usize) -> Option<usize> {
    let mut keys = Vec::new();
    for _ in 0..count {
        keys.extend(str_at(text, at).map(|(key, _)| key));
        at = past_values(text, at, 2, depth)?;
    }
    are_distinct(&mut keys).then_some(at)
}

/// The bytes of a head, and how many of them count. The longest has a number of 8 bytes.
pub type Form = ([u8; 9], usize);

/// A first byte and the lowest bytes of a number, so many, the highest of them first.
fn form(first: u8, number: u64, width: usize) -> Form {
    let mut bytes = [first; 9];
    bytes[1..=width].copy_from_slice(&number.to_be_bytes()[8 - width..]);
    (bytes, 1 + width)
}

/// An integer in its shortest form, one from 0 up unsigned. It is from -2^63 to 2^64 - 1.
pub fn integer(integer: i128) -> Form {
    // Its lowest bytes are the same in two's complement and unsigned.
    let number = integer as u64;
    match integer {
        -0x20..=0x7f => form(number as u8, 0, 0),
        0x80..=0xff => form(0xcc, number, 1),
        0x100..=0xffff => form(0xcd, number, 2),
        0x1_0000..=0xffff_ffff => form(0xce, number, 4),
        0x1_0000_0000.. => form(0xcf, number, 8),
        -0x80..=-0x21 => form(0xd0, number, 1),
        -0x8000..=-0x81 => form(0xd1, number, 2),
        -0x8000_0000..=-0x8001 => form(0xd2, number, 4),
        ..=-0x8000_0001 => form(0xd3, number, 8),
    }
}

/// What stands before a text of so many bytes: the shortest form of a str.
pub fn str_head(length: usize) -> Form {
    let number = length as u64;
    match length {
        0..=0x1f => form(0xa0 | number as u8, 0, 0),
        0x20..=0xff => form(0xd9, number, 1),
        0x100..=0xffff => form(0xda, number, 2),
        _ => form(0xdb, number, 4),
    }
}

/// Writes an integer in its shortest form.
pub fn put_integer(out: &mut Vec<u8>, number: i128) {
    put(out, integer(number));
}

/// Writes a text as a str in its shortest form.
pub fn put_str(out: &mut Vec<u8>, text: &[u8]) {
    put(out, str_head(text.len()));
    out.extend_from_slice(text);
}

/// Writes the head of an array of so many values, in its shortest form.
pub fn put_array(out: &mut Vec<u8>, count: usize) {
    put_count(out, count, [0x90, 0xdc, 0xdd]);
}

/// Writes the head of a map of so many keys, in its shortest form.
pub fn put_map(out: &mut Vec<u8>, count: usize) {
    put_count(out, count, [0x80, 0xde, 0xdf]);
}

/// Writes a count in the shortest of three forms: in the first byte, in 2 bytes, in 4.
fn put_count(out: &mut Vec<u8>, count: usize, firsts: [u8; 3]) {
    let number = count as u64;
    put(
        out,
        match count {
            0..=0xf => form(firsts[0] | number as u8, 0, 0),
            0x10..=0xffff => form(firsts[1], number, 2),
            _ => form(firsts[2], number, 4),
        },
    );
}

fn put(out: &mut Vec<u8>, (bytes, length): Form) {
    out.extend_from_slice(&bytes[..length]);
}

#[cfg(test)]
mod tests {
    use super::*;

    /// A value, by itself, between other bytes, and cut at each place.
    #[track_caller]
    fn is(bytes: &[u8]) {
        assert_eq!(value(bytes, 0, 8), Some(bytes.len()), "{bytes:02x?}");
        let between = [b"\xc1\xc1", bytes, b"\xc1"].concat();
        assert_eq!(value(&between, 2, 8), Some(bytes.len() + 2), "{bytes:02x?}");
        for cut in 0..bytes.len() {
            assert_eq!(value(&bytes[..cut], 0, 8), None, "{:02x?}", &bytes[..cut]);
        }
    }

    #[track_caller]
    fn is_none(bytes: &[u8]) {
        assert_eq!(value(bytes, 0, 8), None, "{bytes:02x?}");
    }

    /// Bytes of a form: what stands before its content, and the content so many times.
    fn form(before: &[u8], content: &[u8], count: usize) -> Vec<u8> {
        [before, &content.repeat(count)].concat()
    }

    /// A map's keys and values, so many: each key another str.
    fn members(count: usize) -> Vec<u8> {
        let member = |k: usize| [0xa2, b'a' + (k / 26) as u8, b'a' + (k % 26) as u8, 0xc0];
        (0..count).flat_map(member).collect()
    }

    #[test]
    fn one_byte() {
        for first in (0x00..=0x7f).chain([0x80, 0x90, 0xa0, 0xc0, 0xc2, 0xc3]).chain(0xe0..=0xff) {
            is(&[first]);
        }
        is_none(b"\xc1");
        is_none(b"\xc1\x00");
        is_none(b"");
    }

    #[test]
    fn each_first_byte_with_its_content() {
        for n in 0..=15 {
            is(&form(&[0x80 | n], b"\xc0\xc0", n.into()));
            is(&[vec![0x80 | n], members(n.into())].concat());
            is(&form(&[0x90 | n], b"\xc0", n.into()));
        }
        for n in 0..=31 {
            is(&form(&[0xa0 | n], b"a", n.into()));
        }
        for (first, length) in [(0xca, 4), (0xcb, 8), (0xcc, 1), (0xcd, 2), (0xce, 4), (0xcf, 8)] {
            is(&form(&[first], b"\x00", length));
            is(&form(&[first], b"\xff", length));
        }
        for (first, length) in [(0xd0, 1), (0xd1, 2), (0xd2, 4), (0xd3, 8)] {
            is(&form(&[first], b"\x00", length));
            is(&form(&[first], b"\x80", length));
        }
        for (first, length) in [(0xd4, 1), (0xd5, 2), (0xd6, 4), (0xd7, 8), (0xd8, 16)] {
            is(&form(&[first, 0x00], b"\x00", length));
            is(&form(&[first, 0xff], b"\xc1", length));
        }
    }

    /// The form with a length of each width, of no content and of the most that a width, or a message, takes.
    #[track_caller]
    fn is_with_lengths(firsts: [u8; 3], between: &[u8], content: &[u8]) {
        for (first, width) in firsts.into_iter().zip([1, 2, 4]) {
            let most = (MAX_LENGTH - 3 - 1 - width - between.len()) / content.len();
            let most = if width == 1 { most.min(255) } else { most };
            for count in [0, 1, 3, most] {
                let length = (count as u32).to_be_bytes();
                let before = [&[first], &length[4 - width..], between].concat();
                is(&form(&before, content, count));
            }
        }
    }

    #[test]
    fn lengths_of_each_width() {
        is_with_lengths([0xd9, 0xda, 0xdb], b"", b"a");
        is_with_lengths([0xc4, 0xc5, 0xc6], b"", b"\xff");
        is_with_lengths([0xc7, 0xc8, 0xc9], b"\x05", b"\xff");
        for (first, width) in [(0xdc, 2), (0xdd, 4)] {
            for count in [0, 1, 15, 16, 300] {
                let length = (count as u32).to_be_bytes();
                is(&form(&[&[first], &length[4 - width..]].concat(), b"\x05", count));
                let before = [&[first + 2], &length[4 - width..]].concat();
                is(&form(&before, b"\x05\xc2", count));
                is(&[before, members(count)].concat());
            }
        }
    }

    #[test]
    fn lengths_above_what_follows() {
        for bytes in [
            b"\xd9\xffabc" as &[u8],
            b"\xda\xff\xffabc",
            b"\xdb\xff\xff\xff\xffabc",
            b"\xdb\x80\x00\x00\x00",
            b"\xc6\xff\xff\xff\xff\x00",
            b"\xc9\xff\xff\xff\xff\x00",
            b"\xdd\xff\xff\xff\xff\x00",
            b"\xdd\x80\x00\x00\x00",
            b"\xdf\xff\xff\xff\xff\x00\x00",
            b"\xdf\x80\x00\x00\x00",
            b"\xdf\x80\x00\x00\x00\xc0\xc0",
        ] {
            is_none(bytes);
        }
    }

    #[test]
    fn texts() {
        is(b"\xa2\xc3\xa9");
        is(b"\xda\x00\x04\xf0\x9d\x84\x9e");
        is(b"\xa4\x00\x1f\"\\");
        for text in [
            b"\xff" as &[u8],
            b"\x80",
            b"\xc3",
            b"\xc0\xaf",
            b"\xed\xa0\x80",
            b"\xf4\x90\x80\x80",
            b"a\xe2\x82",
        ] {
            let length = text.len() as u8;
            for before in [&[0xa0 | length] as &[u8], &[0xd9, length], &[0xda, 0, length]] {
                let bytes = [before, text].concat();
                is_none(&bytes);
                is_none(&[b"\x91", &*bytes].concat());
                is_none(&[b"\x81\xc0", &*bytes].concat());
                is_none(&[b"\x81", &*bytes, b"\xc0"].concat());
                is_none(&[b"\x81\x91", &*bytes, b"\xc0"].concat());
            }
            is(&[&[0xc4, length], text].concat());
            is(&[&[0xc7, length, 0x01], text].concat());
        }
        // The text ends where its length says.
        is_none(b"\xa1\xc3\xa9");
        is_none(b"\x92\xa1\xc3\xa1\xa9");
    }

    #[test]
    fn equal_keys() {
        let forms: [&[u8]; 4] = [b"\xa1k", b"\xd9\x01k", b"\xda\x00\x01k", b"\xdb\x00\x00\x00\x01k"];
        for one in forms {
            for other in forms {
                for before in [b"\x82" as &[u8], b"\xde\x00\x02", b"\xdf\x00\x00\x00\x02"] {
                    is_none(&[before, one, b"\xc0", other, b"\xc0"].concat());
                    is(&[before, one, b"\xc0\x91", other, b"\xc0"].concat());
                }
                is_none(&[b"\x83", one, b"\xc0\xa1b\xc0", other, b"\xc0"].concat());
                is_none(&[b"\x91\x81\xc0\x82", one, b"\xc0", other, b"\xc0"].concat());
                // In a map that is a key.
                is_none(&[b"\x81\x82", one, b"\xc0", other, b"\xc0\xc0"].concat());
                // In two maps.
                is(&[b"\x92\x81", one, b"\xc0\x81", other, b"\xc0"].concat());
                is(&[b"\x81", one, b"\x81", other, b"\xc0"].concat());
            }
        }
        is_none(b"\x82\xa0\x00\xd9\x00\x00");
    }

    #[test]
    fn only_str_keys_are_compared() {
        let keys: [&[u8]; 10] = [
            b"\xc4\x01k",
            b"\x01",
            b"\xcc\x01",
            b"\xc0",
            b"\xc3",
            b"\xca\x00\x00\x00\x00",
            b"\xd4\x01k",
            b"\x91\xa1k",
            b"\x81\xa1k\xc0",
            b"\x90",
        ];
        for key in keys {
            is(&[b"\x82", key, b"\x00", key, b"\x00"].concat());
            is(&[b"\x82", key, b"\x00\xa1k\x00"].concat());
            is(&[b"\x82\xa1k\x00", key, b"\x00"].concat());
            is_none(&[b"\x83\xa1k\x00", key, b"\x00\xa1k\x00"].concat());
        }
    }

    #[test]
    fn depth() {
        let openings: [(&[u8], &[u8]); 9] = [
            (b"\x91", b""),
            (b"\xdc\x00\x01", b""),
            (b"\xdd\x00\x00\x00\x01", b""),
            (b"\x81\xc0", b""),
            (b"\xde\x00\x01\xc0", b""),
            (b"\xdf\x00\x00\x00\x01\xc0", b""),
            (b"\x81", b"\xc0"),
            (b"\xde\x00\x01", b"\xc0"),
            (b"\x92\x00", b""),
        ];
        for (open, close) in openings {
            for depth in 0..=9 {
                for (inner, inside) in [(b"\xc0", 0), (b"\x90", 1), (b"\x80", 1)] {
                    let bytes = [&open.repeat(depth), &inner[..], &close.repeat(depth)].concat();
                    let whole = Some(bytes.len());
                    assert_eq!(value(&bytes, 0, depth + inside), whole, "{bytes:02x?}");
                    assert_eq!(value(&bytes, 0, depth + inside + 1), whole, "{bytes:02x?}");
                    if depth + inside > 0 {
                        assert_eq!(value(&bytes, 0, depth + inside - 1), None, "{bytes:02x?}");
                    }
                }
            }
        }
        // Depth is of what stands inside each other, not of what was opened.
        let bytes = [b"\x93" as &[u8], &b"\x91".repeat(6), b"\x90", &b"\x91".repeat(6), b"\x90\x90"].concat();
        is(&bytes);
        assert_eq!(value(&bytes, 0, 7), None);
    }

    #[test]
    fn the_longest_text() {
        let longest = form(&[0xda, 0x07, 0xfd], b"a", MAX_LENGTH - 3);
        assert_eq!(value(&longest, 0, 0), Some(MAX_LENGTH));
        assert_eq!(value(&form(&[0xda, 0x07, 0xfe], b"a", MAX_LENGTH - 2), 0, 0), None);
        let zeros = vec![0; MAX_LENGTH + 1];
        assert_eq!(value(&zeros, 0, 0), None);
        assert_eq!(value(&zeros, MAX_LENGTH, 0), None);
        assert_eq!(value(&zeros[1..], MAX_LENGTH - 1, 0), Some(MAX_LENGTH));
        assert_eq!(value(&zeros[1..], MAX_LENGTH, 0), None);
        assert_eq!(value(&zeros[1..], usize::MAX, 0), None);
    }

    #[track_caller]
    fn is_integer(bytes: &[u8], integer: i128) {
        assert_eq!(head(bytes, 0), Some((Head::Integer(integer), bytes.len())), "{bytes:02x?}");
    }

    #[test]
    fn integers_of_each_form() {
        for first in 0x00..=0x7f {
            is_integer(&[first], first.into());
        }
        for first in 0xe0..=0xff {
            is_integer(&[first], i128::from(first) - 256);
        }
        for (first, width) in [(0xcc, 1), (0xcd, 2), (0xce, 4), (0xcf, 8)] {
            let above = 1i128 << (8 * width);
            let filled = |byte: u8| form(&[first], &[byte], width);
            is_integer(&filled(0x00), 0);
            is_integer(&filled(0xff), above - 1);
            is_integer(&[filled(0x00)[..width].to_vec(), vec![5]].concat(), 5);
            is_integer(&[vec![first, 0x80], vec![0; width - 1]].concat(), above / 2);
            let filled = |byte: u8| form(&[first + 4], &[byte], width);
            is_integer(&filled(0x00), 0);
            is_integer(&filled(0xff), -1);
            is_integer(&[filled(0x00)[..width].to_vec(), vec![5]].concat(), 5);
            is_integer(&[vec![first + 4, 0x80], vec![0; width - 1]].concat(), -above / 2);
            is_integer(&[vec![first + 4, 0x7f], vec![0xff; width - 1]].concat(), above / 2 - 1);
        }
    }

    #[test]
    fn the_shortest_form_of_an_integer() {
        let edges: [(i128, &[u8]); 20] = [
            (0, b"\x00"),
            (0x7f, b"\x7f"),
            (0x80, b"\xcc\x80"),
            (0xff, b"\xcc\xff"),
            (0x100, b"\xcd\x01\x00"),
            (0xffff, b"\xcd\xff\xff"),
            (0x10000, b"\xce\x00\x01\x00\x00"),
            (0xffff_ffff, b"\xce\xff\xff\xff\xff"),
            (1 << 32, b"\xcf\x00\x00\x00\x01\x00\x00\x00\x00"),
            (1 << 63, b"\xcf\x80\x00\x00\x00\x00\x00\x00\x00"),
            ((1 << 64) - 1, b"\xcf\xff\xff\xff\xff\xff\xff\xff\xff"),
            (-1, b"\xff"),
            (-32, b"\xe0"),
            (-33, b"\xd0\xdf"),
            (-128, b"\xd0\x80"),
            (-129, b"\xd1\xff\x7f"),
            (-32769, b"\xd2\xff\xff\x7f\xff"),
            (-(1 << 31), b"\xd2\x80\x00\x00\x00"),
            (-(1 << 31) - 1, b"\xd3\xff\xff\xff\xff\x7f\xff\xff\xff"),
            (-(1 << 63), b"\xd3\x80\x00\x00\x00\x00\x00\x00\x00"),
        ];
        for (integer, bytes) in edges {
            let mut out = Vec::new();
            put_integer(&mut out, integer);
            assert_eq!(out, bytes, "{integer}");
            is_integer(bytes, integer);
        }
    }

    #[test]
    fn the_shortest_form_of_a_length() {
        let edges: [(usize, [&[u8]; 3]); 9] = [
            (0, [b"\xa0", b"\x90", b"\x80"]),
            (15, [b"\xaf", b"\x9f", b"\x8f"]),
            (16, [b"\xb0", b"\xdc\x00\x10", b"\xde\x00\x10"]),
            (31, [b"\xbf", b"\xdc\x00\x1f", b"\xde\x00\x1f"]),
            (32, [b"\xd9\x20", b"\xdc\x00\x20", b"\xde\x00\x20"]),
            (255, [b"\xd9\xff", b"\xdc\x00\xff", b"\xde\x00\xff"]),
            (256, [b"\xda\x01\x00", b"\xdc\x01\x00", b"\xde\x01\x00"]),
            (65535, [b"\xda\xff\xff", b"\xdc\xff\xff", b"\xde\xff\xff"]),
            (65536, [b"\xdb\x00\x01\x00\x00", b"\xdd\x00\x01\x00\x00", b"\xdf\x00\x01\x00\x00"]),
        ];
        for (length, [text, array, map]) in edges {
            let mut out = Vec::new();
            put_str(&mut out, &vec![b'a'; length]);
            assert_eq!(out, form(text, b"a", length), "str {length}");
            assert_eq!(str_at(&out, 0), Some((&*vec![b'a'; length], out.len())), "str {length}");
            let mut out = Vec::new();
            put_array(&mut out, length);
            assert_eq!(out, array, "array {length}");
            assert_eq!(head(&out, 0), Some((Head::Array(length), out.len())), "array {length}");
            let mut out = Vec::new();
            put_map(&mut out, length);
            assert_eq!(out, map, "map {length}");
            assert_eq!(head(&out, 0), Some((Head::Map(length), out.len())), "map {length}");
        }
    }
}
