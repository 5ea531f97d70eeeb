//! Where MessagePack values end: each form, whole and cut, and each rule of PROTOCOL, "MessagePack".

use crate::lines::Lines;

pub fn all(lines: &mut Lines) {
    first_bytes(lines);
    cuts(lines);
    texts(lines);
    equal_keys(lines);
    other_keys(lines);
    depth(lines);
    depth_side_by_side(lines);
    lengths(lines);
    lengths_above(lines);
    places(lines);
}

fn first_bytes(lines: &mut Lines) {
    lines.heading(
        "MessagePack: each first byte, with as little behind it, and as little depth, as it asks for",
    );
    for first in 0x00..=0xff {
        let depth = u8::from(is_container(first));
        lines.msgpack(depth, &shortest(first), 0, &name(first));
    }
    lines.heading("MessagePack: the same with more in them, between two bytes that are no value");
    for first in 0x80..=0xdf {
        let bytes = fuller(first);
        if bytes.len() > 1 {
            lines.msgpack(8, &[b"\xc1", &*bytes, b"\xc1"].concat(), 1, &name(first));
        }
    }
}

fn cuts(lines: &mut Lines) {
    lines.heading("MessagePack: no byte, and values cut one byte short");
    lines.msgpack(8, b"", 0, "no byte");
    for first in 0x80..=0xdf {
        let bytes = shortest(first);
        if bytes.len() > 1 {
            lines.msgpack(8, &bytes[..bytes.len() - 1], 0, &name(first));
        }
    }
    for first in [0x81, 0x82, 0x8f, 0x91, 0x92, 0x9f, 0xa2, 0xbf] {
        let bytes = fuller(first);
        lines.msgpack(8, &bytes[..bytes.len() - 1], 0, &name(first));
    }
    lines.heading(
        "MessagePack: values with a length, cut at each place; others with no more than their first byte",
    );
    for first in 0xc4..=0xdf {
        let bytes = fuller(first);
        let places = if matches!(first, 0xca..=0xd8) { 1..2 } else { 1..bytes.len() };
        let told = shortest(first);
        for place in places.filter(|&place| bytes[..place] != told[..told.len() - 1]) {
            lines.msgpack(8, &bytes[..place], 0, &name(first));
        }
    }
}

fn is_container(first: u8) -> bool {
    matches!(first, 0x80..=0x9f | 0xdc..=0xdf)
}

/// A value with this first byte, as short as can be. The byte that begins none stands alone.
fn shortest(first: u8) -> Vec<u8> {
    let behind = match first {
        0x80..=0x8f => b"\xc0\xc0".repeat((first & 0x0f).into()),
        0x90..=0x9f => b"\xc0".repeat((first & 0x0f).into()),
        0xa0..=0xbf => b"a".repeat((first & 0x1f).into()),
        0xc4..=0xc6 => vec![0; 1 << (first - 0xc4)],
        0xc7..=0xc9 => vec![0; (1 << (first - 0xc7)) + 1],
        0xca => vec![0; 4],
        0xcb => vec![0; 8],
        0xcc..=0xcf => vec![0; 1 << (first - 0xcc)],
        0xd0..=0xd3 => vec![0; 1 << (first - 0xd0)],
        0xd4..=0xd8 => vec![0; (1 << (first - 0xd4)) + 1],
        0xd9..=0xdb => vec![0; 1 << (first - 0xd9)],
        0xdc | 0xde => vec![0; 2],
        0xdd | 0xdf => vec![0; 4],
        _ => vec![],
    };
    [vec![first], behind].concat()
}

/// A value with this first byte and more in it, where the byte lets it have more. Lengths have leading zero bytes.
fn fuller(first: u8) -> Vec<u8> {
    let mut bytes = shortest(first);
    match first {
        // Each key is another str.
        0x80..=0x8f => {
            bytes.truncate(1);
            bytes.extend((0..first & 0x0f).flat_map(|k| [0xa1, b'a' + k, k]));
        }
        0x90..=0x9f => {
            bytes.truncate(1);
            bytes.extend(
                (0..first & 0x0f).flat_map(|k| if k % 2 == 0 { [0x91, k] } else { [0xa1, b'a' + k] }),
            );
        }
        // Characters of two bytes, behind one of one byte where the length is odd.
        0xa0..=0xbf => {
            let length = usize::from(first & 0x1f);
            bytes.truncate(1 + length % 2);
            bytes.extend("é".repeat(length / 2).bytes());
        }
        0xc4..=0xc6 => {
            *bytes.last_mut().expect("a length") = 3;
            bytes.extend(b"\xff\xc1\x80");
        }
        0xc7..=0xc9 => {
            let last = bytes.len() - 1;
            bytes[last - 1] = 3;
            bytes[last] = 0xff;
            bytes.extend(b"\xff\xc1\x80");
        }
        0xca..=0xd8 => bytes[1..].fill(0xff),
        0xd9..=0xdb => {
            *bytes.last_mut().expect("a length") = 3;
            bytes.extend(b"\xe2\x82\xac");
        }
        0xdc | 0xdd => {
            *bytes.last_mut().expect("a length") = 3;
            bytes.extend(b"\x05\x91\xc0\xa1a");
        }
        0xde | 0xdf => {
            *bytes.last_mut().expect("a length") = 2;
            bytes.extend(b"\xa1a\x01\xa1b\x90");
        }
        _ => {}
    }
    bytes
}

/// What the format calls a first byte, for the reader.
fn name(first: u8) -> String {
    let with = |form: &str, number: u8| format!("{form} {number}");
    match first {
        0x00..=0x7f => with("fixint", first),
        0x80..=0x8f => with("fixmap", first & 0x0f),
        0x90..=0x9f => with("fixarray", first & 0x0f),
        0xa0..=0xbf => with("fixstr", first & 0x1f),
        0xc0 => "nil".to_string(),
        0xc1 => "never used".to_string(),
        0xc2 => "false".to_string(),
        0xc3 => "true".to_string(),
        0xc4..=0xc6 => with("bin", 8 << (first - 0xc4)),
        0xc7..=0xc9 => with("ext", 8 << (first - 0xc7)),
        0xca..=0xcb => with("float", 32 << (first - 0xca)),
        0xcc..=0xcf => with("uint", 8 << (first - 0xcc)),
        0xd0..=0xd3 => with("int", 8 << (first - 0xd0)),
        0xd4..=0xd8 => with("fixext", 1 << (first - 0xd4)),
        0xd9..=0xdb => with("str", 8 << (first - 0xd9)),
        0xdc..=0xdd => with("array", 16 << (first - 0xdc)),
        0xde..=0xdf => with("map", 16 << (first - 0xde)),
        0xe0..=0xff => format!("fixint {}", i16::from(first) - 256),
    }
}

/// A text in each form of str: its bytes, and the form's name.
fn strs(text: &[u8]) -> [(Vec<u8>, &'static str); 4] {
    let length = u8::try_from(text.len()).expect("a length of one byte");
    [
        ([&[0xa0 | length], text].concat(), "fixstr"),
        ([&[0xd9, length], text].concat(), "str 8"),
        ([&[0xda, 0, length], text].concat(), "str 16"),
        ([&[0xdb, 0, 0, 0, length], text].concat(), "str 32"),
    ]
}

fn texts(lines: &mut Lines) {
    lines.heading("MessagePack: a str is UTF-8, in each form");
    for text in
        ["é", "€", "\u{10000}", "\u{10ffff}", "\u{d7ff}\u{e000}", "\0\u{1f}", "\"\\\u{7f}"].map(str::as_bytes)
    {
        for (bytes, form) in strs(text) {
            lines.msgpack(0, &bytes, 0, form);
        }
    }
    lines.heading("MessagePack: a str that is not");
    let wrong: [&[u8]; 10] = [
        b"\xff",
        b"\x80",
        b"\xc3",
        b"a\xe2\x82",
        b"\xc0\x80",
        b"\xe0\x9f\xbf",
        b"\xed\xa0\x80",
        b"\xed\xa0\xb4\xed\xb4\x9e",
        b"\xf4\x90\x80\x80",
        b"\xc3\xa9\xa9",
    ];
    for text in wrong {
        for (bytes, form) in strs(text) {
            lines.msgpack(8, &bytes, 0, form);
        }
    }
    lines.heading(
        "MessagePack: a str that is not UTF-8, wherever it stands; a bin or an ext may hold anything",
    );
    for (text, what) in [(b"\xc3\xa9", "UTF-8"), (b"\xc3\xc3", "not UTF-8")] {
        for (before, after) in [
            (b"\x91\xa2" as &[u8], b"" as &[u8]),
            (b"\x93\xa1a\xa2", b"\xa1b"),
            (b"\x81\xa1a\xa2", b""),
            (b"\x81\xa2", b"\xc0"),
            (b"\x81\xc0\xa2", b""),
            (b"\x82\xc0\xc0\xa2", b"\xc0"),
            (b"\x81\x91\xa2", b"\xc0"),
            (b"\x81\x81\xa2", b"\xc0\xc0"),
            (b"\x81\x81\xc0\xa2", b"\xc0"),
            (b"\x91\x81\xa1a\x91\xd9\x02", b""),
            (b"\xc4\x02", b""),
            (b"\xc7\x02\x00", b""),
            (b"\xd5\x00", b""),
            (b"\x81\xc4\x02", b"\xc0"),
            (b"\xcd", b""),
        ] {
            lines.msgpack(8, &[before, text, after].concat(), 0, what);
        }
    }
    lines.heading("MessagePack: a character that the end of its str cuts");
    lines.msgpack(8, b"\xa1\xc3\xa9", 0, "the rest behind it");
    lines.msgpack(8, b"\x92\xa1\xc3\xa1\xa9", 0, "the rest in the next str");
    lines.msgpack(8, b"\x92\xa2\xe2\x82\xa1\xac", 0, "the rest in the next str");
    lines.msgpack(8, b"\x92\xa2a\xc3\xa9", 0, "the rest in the place of the next value");
}

fn equal_keys(lines: &mut Lines) {
    lines.heading("MessagePack: two keys of one map in each form of str, equal and not");
    for second in [b"k", b"j"] {
        for (one, form) in strs(b"k") {
            for (other, another) in strs(second) {
                let bytes = [b"\x82", &*one, b"\x00", &*other, b"\x00"].concat();
                lines.msgpack(1, &bytes, 0, &format!("{form}, {another}"));
            }
        }
    }
    lines.heading("MessagePack: equal keys in each form of map");
    for before in [b"\x83" as &[u8], b"\xde\x00\x03", b"\xdf\x00\x00\x00\x03"] {
        for keys in [b"aba", b"abb", b"aab", b"abc"] {
            let members = keys.iter().flat_map(|&key| [0xa1, key, 0xc0]);
            let bytes: Vec<u8> = before.iter().copied().chain(members).collect();
            lines.msgpack(1, &bytes, 0, &format!("{}, {}", name(before[0]), keys.escape_ascii()));
        }
    }
    lines.heading("MessagePack: equal keys, near and far, and keys that are nearly equal");
    let cases: [(&[u8], &str); 26] = [
        (b"\x82\xa0\xc0\xa0\xc0", "empty"),
        (b"\x82\xa0\xc0\xdb\0\0\0\0\xc0", "empty, fixstr and str 32"),
        (b"\x82\xa0\xc0\xa1a\xc0", "empty and a"),
        (b"\x82\xa1a\xc0\xa2aa\xc0", "a and aa"),
        (b"\x82\xa2aa\xc0\xa1a\xc0", "aa and a"),
        (b"\x82\xa2ab\xc0\xa2ba\xc0", "ab and ba"),
        (b"\x82\xa1a\xc0\xa2a\0\xc0", "a and a with hex 00"),
        (b"\x82\xa1a\xc0\xa1A\xc0", "a and A"),
        (b"\x82\xa1a\xc0\xa6\\u0061\xc0", "nothing is escaped"),
        (b"\x82\xa2\xc3\xa9\xc0\xd9\x02\xc3\xa9\xc0", "e with an accent"),
        (b"\x82\xa2\xc3\xa9\xc0\xa3e\xcc\x81\xc0", "e with an accent, one character and two"),
        (b"\x82\xa5match\xc0\xda\0\x05match\xc0", "match, fixstr and str 16"),
        (b"\x82\xa5match\xc0\xa5matcH\xc0", "match and matcH"),
        (b"\x91\x91\x82\xa1a\xc0\xa1a\xc0", "in arrays"),
        (b"\x81\xa1b\x82\xa1a\xc0\xa1a\xc0", "in a map in a map"),
        (b"\x81\x82\xa1a\xc0\xa1a\xc0\xc0", "in a map that is a key"),
        (b"\x81\x91\x82\xa1a\xc0\xa1a\xc0\xc0", "in a map in a key"),
        (b"\x82\xa1a\x81\xa1a\xc0\xa1a\xc0", "with a map between them"),
        (b"\x82\xa1a\x92\xa1b\x80\xd9\x01a\xc0", "with an array between them"),
        (b"\x81\xa1a\x81\xa1a\xc0", "a map and one within it"),
        (b"\x92\x81\xa1a\xc0\x81\xa1a\xc0", "two maps of an array"),
        (b"\x82\xa1a\x81\xa1c\xc0\xa1b\x81\xa1c\xc0", "two maps of a map"),
        (b"\x81\x81\xa1a\xc0\x81\xa1a\xc0", "a map that is a key, and its value"),
        (b"\x82\xa1a\xa1a\xa1b\xa1b", "keys equal to values"),
        (b"\x82\xa1a\xa1b\xa1b\xa1a", "keys equal to other values"),
        (b"\x82\xa1a\xc0\xa1b\x82\xa1a\xc0\xa1a\xc0", "in the last value"),
    ];
    for (bytes, what) in cases {
        lines.msgpack(8, bytes, 0, what);
    }
    let long = [b'k'; 32];
    for last in [b'k', b'j'] {
        let other = [&long[1..], &[last]].concat();
        let bytes = [b"\x82\xd9\x20", &long[..], b"\xc0\xda\x00\x20", &*other, b"\xc0"].concat();
        lines.msgpack(8, &bytes, 0, "32 bytes, str 8 and str 16");
    }
    let many = |last: u8| (b'a'..b'p').chain([last]).flat_map(|key| [0xa1, key, 0xc0]);
    for last in [b'p', b'a', b'h', b'o'] {
        let bytes: Vec<u8> = b"\xde\x00\x10".iter().copied().chain(many(last)).collect();
        lines.msgpack(8, &bytes, 0, &format!("16 keys, a to o and {}", char::from(last)));
    }
}

fn other_keys(lines: &mut Lines) {
    lines.heading(
        "MessagePack: keys that are no str, equal ones and with a str of the same bytes; then equal strs",
    );
    let keys: [(&[u8], &str); 15] = [
        (b"\xc4\x01k", "bin 8"),
        (b"\xc5\x00\x01k", "bin 16"),
        (b"\xc0", "nil"),
        (b"\xc3", "true"),
        (b"\x6b", "fixint"),
        (b"\xcc\x6b", "uint 8"),
        (b"\xd0\x6b", "int 8"),
        (b"\xca\0\0\0k", "float 32"),
        (b"\xd4\x01k", "fixext 1"),
        (b"\xc7\x01\x01k", "ext 8"),
        (b"\x91\xa1k", "array of a str"),
        (b"\x81\xa1k\xc0", "map of a str"),
        (b"\x90", "empty array"),
        (b"\x80", "empty map"),
        (b"\xc4\x02\xa1k", "bin of a str's bytes"),
    ];
    for (key, what) in keys {
        lines.msgpack(2, &[b"\x82", key, b"\xc0", key, b"\xc0"].concat(), 0, &format!("{what}, twice"));
        lines.msgpack(2, &[b"\x82", key, b"\xc0\xa1k\xc0"].concat(), 0, &format!("{what}, str"));
        let bytes = [b"\x83\xa1k\xc0", key, b"\xc0\xa1k\xc0"].concat();
        lines.msgpack(2, &bytes, 0, &format!("str, {what}, str"));
    }
    lines.msgpack(1, b"\x82\x01\xc0\xcc\x01\xc0", 0, "1 in two forms");
    lines.msgpack(1, b"\x81\xc1\xc0", 0, "a key that is no value");
    lines.msgpack(1, b"\x81\xa1k\xc1", 0, "a value that is none");
    lines.msgpack(1, b"\x82\xa1k\xc0\xc1\xc0", 0, "a second key that is no value");
}

fn depth(lines: &mut Lines) {
    lines.heading("MessagePack depth: arrays, maps and keys inside each other; at the limit and one past it");
    let openings: [(&[u8], &[u8], &str); 10] = [
        (b"\x91", b"", "fixarray"),
        (b"\xdc\x00\x01", b"", "array 16"),
        (b"\xdd\x00\x00\x00\x01", b"", "array 32"),
        (b"\x81\xc0", b"", "fixmap"),
        (b"\xde\x00\x01\xc0", b"", "map 16"),
        (b"\xdf\x00\x00\x00\x01\xc0", b"", "map 32"),
        (b"\x81", b"\x00", "fixmap, in keys"),
        (b"\xde\x00\x01", b"\x00", "map 16, in keys"),
        (b"\x81\xa1k", b"", "fixmap with a str key"),
        (b"\x92\xc2", b"", "fixarray, last"),
    ];
    for (open, close, what) in openings {
        for (levels, depth) in [(1, 0), (1, 1), (2, 1), (8, 7), (8, 8), (9, 8)] {
            let bytes = [&open.repeat(levels), b"\xc0" as &[u8], &close.repeat(levels)].concat();
            lines.msgpack(depth, &bytes, 0, &format!("{levels} {what}"));
        }
    }
    lines.heading("MessagePack depth: an empty array or map counts, whatever its form");
    for inner in [b"\x90" as &[u8], b"\x80", b"\xdc\0\0", b"\xdd\0\0\0\0", b"\xde\0\0", b"\xdf\0\0\0\0"] {
        lines.msgpack(0, inner, 0, &name(inner[0]));
        for levels in [7, 8] {
            let bytes = [&b"\x91".repeat(levels), inner].concat();
            lines.msgpack(8, &bytes, 0, &format!("{levels} fixarray, {}", name(inner[0])));
        }
    }
    lines.heading("MessagePack depth: what is no array and no map counts for nothing");
    for (inner, what) in [
        (b"\xa2[]" as &[u8], "str"),
        (b"\xcd\x91\x90", "uint 16 of fixarrays' bytes"),
        (b"\xc4\x02\x91\x90", "bin of fixarrays' bytes"),
        (b"\xd4\x00\x90", "fixext of a fixarray's byte"),
    ] {
        lines.msgpack(0, inner, 0, what);
        lines.msgpack(8, &[&b"\x91".repeat(8), inner].concat(), 0, &format!("8 fixarray, {what}"));
    }
}

fn depth_side_by_side(lines: &mut Lines) {
    lines.heading("MessagePack depth: of what stands inside each other, not of what was opened");
    let nested = |levels: usize| [b"\x91".repeat(levels - 1), vec![0x90]].concat();
    for (before, one, between, other) in [
        (b"\x92" as &[u8], 7, b"" as &[u8], 7),
        (b"\x92", 7, b"", 8),
        (b"\x92", 8, b"", 7),
        (b"\x81", 7, b"", 7),
        (b"\x81", 8, b"", 1),
        (b"\x81", 1, b"", 8),
        (b"\x82\xa1a", 7, b"\xa1b", 7),
        (b"\x82\xa1a", 7, b"\xa1b", 8),
        (b"\x92\x81", 6, b"\xc0", 7),
        (b"\x92\x81", 7, b"\xc0", 1),
    ] {
        let bytes = [before, &nested(one), between, &nested(other)].concat();
        lines.msgpack(8, &bytes, 0, &format!("{} of {one} and {other}", name(before[0])));
    }
    for (depth, bytes) in [
        (2, b"\x94\x90\x80\x90\x80" as &[u8]),
        (1, b"\x94\x90\x80\x90\x80"),
        (2, b"\x82\x90\x80\x80\x90"),
        (1, b"\x82\x90\x80\x80\x90"),
        (3, b"\x81\x81\x90\xc0\xc0"),
        (2, b"\x81\x81\x90\xc0\xc0"),
    ] {
        lines.msgpack(depth, bytes, 0, &format!("{} of empty ones", name(bytes[0])));
    }
}

fn lengths(lines: &mut Lines) {
    lines.heading("MessagePack lengths: whole, and one byte short");
    let cases: [(&[u8], &[u8], usize); 5] = [
        (b"\xd9\x20", b"a", 32),
        (b"\xda\x01\x00", b"a", 256),
        (b"\xc5\x01\x01", b"\xff", 257),
        (b"\xdd\x00\x00\x00\x10", b"\x00", 16),
        (b"\xde\x00\x80", b"\x00\x00", 128),
    ];
    for (before, content, count) in cases {
        let bytes = [before, &content.repeat(count)].concat();
        for end in [bytes.len(), bytes.len() - 1] {
            lines.msgpack(1, &bytes[..end], 0, &format!("{} of {count}", name(before[0])));
        }
    }
    longest(lines);
    lines.heading("MessagePack: a text of 2,049 bytes has no value");
    lines.msgpack(0, &[0; 2049], 0, "fixint 0, and 2,048 bytes behind it");
}

/// Of each form that tells its length, the longest value that a text of 2,048 bytes has room for, whole and cut. The other forms have one length.
fn longest(lines: &mut Lines) {
    lines.heading("MessagePack: the longest of each form in 2,048 bytes, whole, and one byte short");
    // The first byte, the bytes of its length, those of an ext's type, and an item.
    let forms: [(u8, usize, usize, &[u8]); 13] = [
        (0xc4, 1, 0, b"\xff"),
        (0xc5, 2, 0, b"\xff"),
        (0xc6, 4, 0, b"\xff"),
        (0xc7, 1, 1, b"\xff"),
        (0xc8, 2, 1, b"\xff"),
        (0xc9, 4, 1, b"\xff"),
        (0xd9, 1, 0, b"a"),
        (0xda, 2, 0, b"a"),
        (0xdb, 4, 0, b"a"),
        (0xdc, 2, 0, b"\xc0"),
        (0xdd, 4, 0, b"\xc0"),
        (0xde, 2, 0, b"\xc0\xc0"),
        (0xdf, 4, 0, b"\xc0\xc0"),
    ];
    for (first, width, kind, item) in forms {
        let most = if width == 1 { 255 } else { usize::MAX };
        let count = most.min((2048 - 1 - width - kind) / item.len());
        let length = (count as u32).to_be_bytes();
        let bytes = [&[first], &length[4 - width..], &vec![0; kind], &item.repeat(count)].concat();
        for end in [bytes.len(), bytes.len() - 1] {
            lines.msgpack(1, &bytes[..end], 0, &format!("{} of {count}", name(first)));
        }
    }
}

fn lengths_above(lines: &mut Lines) {
    lines.heading("MessagePack lengths: more than there is behind them, up to the largest");
    let most: [u8; 4] = [0xff; 4];
    let half: [u8; 4] = [0x80, 0, 0, 0];
    for (first, width) in [
        (0xc4, 1),
        (0xc5, 2),
        (0xc6, 4),
        (0xc7, 1),
        (0xc8, 2),
        (0xc9, 4),
        (0xd9, 1),
        (0xda, 2),
        (0xdb, 4),
        (0xdc, 2),
        (0xdd, 4),
        (0xde, 2),
        (0xdf, 4),
    ] {
        let longer = [0, 0, 0, 5];
        for length in [&longer[4 - width..], &most[..width], &half[..width]] {
            let bytes = [&[first], length, b"\x01\x02\x03\x04"].concat();
            lines.msgpack(8, &bytes, 0, &name(first));
        }
    }
    for bytes in [
        b"\xdf\x80\x00\x00\x01\xa1a\xc0" as &[u8],
        b"\xdd\x00\x01\x00\x01\xc0",
        b"\xde\x01\x00\xc0\xc0",
        b"\xdb\x00\x01\x00\x01a",
        b"\xc9\xff\xff\xff\xff",
        b"\xc9\xff\xff\xff\xff\x01",
        b"\x91\xdb\xff\xff\xff\xfe\x00",
        b"\xdf\x7f\xff\xff\xff\xc0\xc0",
    ] {
        lines.msgpack(8, bytes, 0, &name(bytes[0]));
    }
}

fn places(lines: &mut Lines) {
    lines.heading("MessagePack: values at each place of a text, and past its end");
    let text = b"\x93\x05\xa3abc\x81\xa1k\xcd\x01\x00";
    for at in 0..=text.len() + 2 {
        let at = u8::try_from(at).expect("a place of one byte");
        lines.msgpack(8, text, at, &format!("at {at}"));
    }
    lines.msgpack(8, text, 255, "at 255");
    lines.msgpack(8, b"", 1, "at 1");
    lines.msgpack(8, &[0; 256], 255, "at 255, the last byte");
}
