//! Conversions between JSON and MessagePack: each rule of PROTOCOL, "Values", both ways.

use crate::lines::Lines;
use reference::values::Format::{Json, MsgPack};

pub fn all(lines: &mut Lines) {
    values(lines);
    json_integers(lines);
    msgpack_integers(lines);
    json_strings(lines);
    msgpack_strings(lines);
    changes_of_form(lines);
    what_stays(lines);
    depth(lines);
}

/// JSON texts, with the depth of a message's list.
fn json(lines: &mut Lines, texts: &[&str]) {
    for text in texts {
        lines.convert(Json, 8, text.as_bytes());
    }
}

/// MessagePack texts, with the same depth.
fn msgpack(lines: &mut Lines, texts: &[&[u8]]) {
    for text in texts {
        lines.convert(MsgPack, 8, text);
    }
}

fn values(lines: &mut Lines) {
    lines.heading("Converted from JSON: null, booleans, strings, lists, and dicts in their order");
    json(
        lines,
        &[
            "null",
            "false",
            "true",
            "\"\"",
            "\"D17\"",
            "[]",
            "{}",
            r#"{"a":[]}"#,
            "[null,false,true,\"\",[],{}]",
            r#"["D17",412,{"unit":"g","ok":true}]"#,
            r#"{"b":1,"a":2,"c":{"b":[3,[4]],"a":{}}}"#,
            "[1,[2,[3,[]],[4]],5]",
        ],
    );
    lines.heading(
        "Converted from JSON: white space within a value goes, and what is behind it is no part of it",
    );
    json(
        lines,
        &[
            "[ ]",
            "{\t}",
            "[ 1 ,\r\n2\t, [ ] ]",
            "{ \"a\" : 1 ,\n\"b\"\t:\r[ 2 ] }",
            "[\" \"]",
            "[1] ",
            "\"a\":1",
            "{}}",
        ],
    );
    lines.heading("Converted from MessagePack: the same values, in the shortest forms and in longer ones");
    msgpack(
        lines,
        &[
            b"\xc0",
            b"\xc2",
            b"\xc3",
            b"\xa0",
            b"\xa3D17",
            b"\xd9\x03D17",
            b"\xda\x00\x03D17",
            b"\xdb\x00\x00\x00\x03D17",
            b"\x90",
            b"\xdc\x00\x00",
            b"\xdd\x00\x00\x00\x00",
            b"\x80",
            b"\xde\x00\x00",
            b"\xdf\x00\x00\x00\x00",
            b"\x96\xc0\xc2\xc3\xa0\x90\x80",
            b"\x93\xa3D17\xcd\x01\x9c\x82\xa4unit\xa1g\xa2ok\xc3",
            b"\x83\xa1b\x01\xa1a\x02\xa1c\x82\xa1b\x92\x03\x91\x04\xa1a\x80",
            b"\xdc\x00\x02\x01\xdd\x00\x00\x00\x01\xd9\x01a",
            b"\xde\x00\x02\xd9\x01b\x01\xdb\x00\x00\x00\x01a\xdf\x00\x00\x00\x01\xda\x00\x01c\x02",
        ],
    );
    lines.heading("Converted from MessagePack: what is behind a value is no part of it");
    msgpack(lines, &[b"\xc0\xc0", b"\x91\x01\xc1", b"\xa1aa", b"\x05\xff", b"\x80\x80"]);
}

/// Integers on both sides of each change of form, and of each limit.
const INTEGERS: [i128; 25] = [
    0,
    127,
    128,
    255,
    256,
    65535,
    65536,
    4294967295,
    4294967296,
    9007199254740993,
    9223372036854775807,
    9223372036854775808,
    18446744073709551615,
    18446744073709551616,
    -1,
    -32,
    -33,
    -128,
    -129,
    -32768,
    -32769,
    -2147483648,
    -2147483649,
    -9223372036854775808,
    -9223372036854775809,
];

fn json_integers(lines: &mut Lines) {
    lines.heading("Converted from JSON: integers");
    for integer in INTEGERS {
        lines.convert(Json, 0, integer.to_string().as_bytes());
    }
    json(lines, &["-0", "[-0,0]", "-10", "1000"]);
    lines.heading("Converted from JSON: integers far out");
    json(
        lines,
        &[
            "18446744073709551620",
            "-18446744073709551615",
            "36893488147419103233",
            "184467440737095516160",
            "340282366920938463463374607431768211457",
            "[1,18446744073709551616]",
            &"1".repeat(100),
            &format!("-{}", "9".repeat(100)),
        ],
    );
    lines.heading("Converted from JSON: no number with a fraction or an exponent");
    json(lines, &["1.0", "-0.0", "1.5", "1e0", "0E0", "1e+2", "10e-1", "1.0e1", "[1,2.0]", r#"{"a":1e1}"#]);
}

fn msgpack_integers(lines: &mut Lines) {
    lines.heading("Converted from MessagePack: integers, in each form at its edges");
    msgpack(lines, &[b"\x00", b"\x64", b"\x7f", b"\xff", b"\xe0"]);
    for (first, width) in [(0xcc, 1), (0xcd, 2), (0xce, 4), (0xcf, 8)] {
        // Unsigned: 5, the middle, the largest.
        lines.convert(MsgPack, 0, &[vec![first], vec![0; width - 1], vec![5]].concat());
        lines.convert(MsgPack, 0, &[vec![first, 0x80], vec![0; width - 1]].concat());
        lines.convert(MsgPack, 0, &[vec![first], vec![0xff; width]].concat());
        // Signed: 5, -1, the largest, the least.
        let first = first + 4;
        lines.convert(MsgPack, 0, &[vec![first], vec![0; width - 1], vec![5]].concat());
        lines.convert(MsgPack, 0, &[vec![first], vec![0xff; width]].concat());
        lines.convert(MsgPack, 0, &[vec![first, 0x7f], vec![0xff; width - 1]].concat());
        lines.convert(MsgPack, 0, &[vec![first, 0x80], vec![0; width - 1]].concat());
    }
    msgpack(
        lines,
        &[
            b"\xcf\x00\x20\x00\x00\x00\x00\x00\x01",
            b"\xcf\x8a\xc7\x23\x04\x89\xe7\xff\xff",
            b"\xcf\x8a\xc7\x23\x04\x89\xe8\x00\x00",
            b"\xd3\xf2\x1f\x49\x4c\x58\x9c\x00\x00",
            b"\x93\xd0\x05\xcf\x00\x00\x00\x00\x00\x00\x00\x05\xe0",
        ],
    );
}

fn json_strings(lines: &mut Lines) {
    lines.heading("Converted from JSON: strings undone, keys too");
    json(
        lines,
        &[
            r#""\"\\\/\b\f\n\r\t""#,
            r#""\\n""#,
            r#""\\\\u0061""#,
            r#""\u0000""#,
            r#""\u001f\u0020""#,
            r#""\u0022\u005c\u005C\u002f""#,
            r#""\u0080\u07ff""#,
            r#""\u0800\uffff""#,
            r#""\u00e9\u00E9""#,
            r#""\ud7ff\ue000""#,
            r#""\ud800\udc00""#,
            r#""\uDBFF\uDFFF""#,
            r#""\ud834\udd1e\udbff\udfff""#,
            "\"é€\u{10000}\u{10ffff}\"",
            "\"é\\u00e9€\"",
            r#"{"\u006b\"":"\u0076\\"}"#,
            r#"{"a":{"\n":["\/"]}}"#,
            r#"["'","[1,{]}"]"#,
        ],
    );
    lines.heading("Converted from JSON: no string with a lone half, wherever it stands");
    json(
        lines,
        &[
            r#""\ud800""#,
            r#""\udc00""#,
            r#""a\ud834""#,
            r#""\ud834a""#,
            r#""\udd1ea""#,
            r#""\udd1e\ud834""#,
            r#""\ud834\\udd1e""#,
            r#""\ud834\u0061""#,
            r#""\ud834\ud834\udd1e""#,
            r#""\ud834\udd1e\udd1e""#,
            r#"["a","\ud800"]"#,
            r#"[["\udc00"]]"#,
            r#"{"a":"\ud800"}"#,
            r#"{"\ud800":"a"}"#,
            r#"{"a":1,"\udc00":2}"#,
            r#"{"a":{"\ud800":1}}"#,
            r#"{"\ud834\udd1e":1}"#,
        ],
    );
}

fn msgpack_strings(lines: &mut Lines) {
    lines.heading(
        "Converted from MessagePack: each byte below hex 20, and others; what is escaped, and what is not",
    );
    let below: Vec<u8> = (0x00..=0x1f).collect();
    lines.convert(MsgPack, 0, &[b"\xd9\x20", &*below].concat());
    for byte in [0x00, b'\n', 0x1f, b' ', b'"', b'/', b'\\', b'~', 0x7f] {
        lines.convert(MsgPack, 0, &[0xa1, byte]);
    }
    msgpack(
        lines,
        &[
            b"\xa3a\"b",
            b"\xa3\"\\\"",
            b"\xa2\\n",
            b"\xa6\\u0061",
            b"\xa2\xc2\x80",
            b"\xa2\xc3\xa9",
            b"\xa3\xe2\x80\xa8",
            b"\xa3\xed\x9f\xbf",
            b"\xa3\xee\x80\x80",
            b"\xa4\xf0\x90\x80\x80",
            b"\xa4\xf4\x8f\xbf\xbf",
            b"\x82\xa1\"\xa1\\\xa1\x01\xa1\x1f",
            b"\x81\xd9\x02\\\"\x91\xda\x00\x01\x0a",
        ],
    );
}

fn changes_of_form(lines: &mut Lines) {
    lines.heading("Converted both ways: strings of 31 and 32 bytes, and of 255 and 256");
    for (length, before) in
        [(31, b"\xbf" as &[u8]), (32, b"\xd9\x20"), (255, b"\xd9\xff"), (256, b"\xda\x01\x00")]
    {
        let text = "a".repeat(length);
        lines.convert(Json, 0, format!("\"{text}\"").as_bytes());
        lines.convert(MsgPack, 0, &[before, text.as_bytes()].concat());
        if length < 255 {
            lines.convert(Json, 1, format!("{{\"{text}\":1}}").as_bytes());
            lines.convert(MsgPack, 1, &[b"\x81", before, text.as_bytes(), b"\x01"].concat());
        }
    }
    lines.heading("Converted both ways: a length is of the bytes that are written");
    for text in ["é".repeat(15) + "a", "é".repeat(16), r"\u0061".repeat(31), r"\u00e9".repeat(16)] {
        lines.convert(Json, 0, format!("\"{text}\"").as_bytes());
    }
    for text in [r"\\".repeat(31), r"\\".repeat(32), r"\n".repeat(32)] {
        lines.convert(Json, 0, format!("\"{text}\"").as_bytes());
    }
    lines.convert(MsgPack, 0, &[b"\xbf" as &[u8], &b"\x01".repeat(31)].concat());
    lines.convert(MsgPack, 0, &[b"\xd9\x20" as &[u8], &b"\"".repeat(32)].concat());
    lines.heading("Converted both ways: lists and dicts of 15 and 16");
    for (count, array, map) in [(15, b"\x9f" as &[u8], b"\x8f" as &[u8]), (16, b"\xdc\0\x10", b"\xde\0\x10")]
    {
        lines.convert(Json, 1, format!("[{}]", vec!["7"; count].join(",")).as_bytes());
        lines.convert(MsgPack, 1, &[array, &vec![7; count]].concat());
        let keys = || (b'a'..).take(count);
        let members: Vec<_> = keys().map(|key| format!("\"{}\":7", char::from(key))).collect();
        lines.convert(Json, 1, format!("{{{}}}", members.join(",")).as_bytes());
        let members: Vec<_> = keys().flat_map(|key| [0xa1, key, 7]).collect();
        lines.convert(MsgPack, 1, &[map, &members].concat());
    }
}

fn what_stays(lines: &mut Lines) {
    lines.heading("Converted from MessagePack: no float, no bin, no ext, wherever it stands");
    let cases: [&[u8]; 12] = [
        b"\xca\x00\x00\x00\x00",
        b"\xcb\x3f\xf0\x00\x00\x00\x00\x00\x00",
        b"\xc4\x00",
        b"\xc4\x01a",
        b"\xc5\x00\x01a",
        b"\xc6\x00\x00\x00\x01a",
        b"\xc7\x01\x01a",
        b"\xc8\x00\x01\x01a",
        b"\xc9\x00\x00\x00\x01\x01a",
        b"\xd4\x01a",
        b"\xd6\xff\x00\x00\x00\x00",
        b"\xd8\x01aaaaaaaaaaaaaaaa",
    ];
    msgpack(lines, &cases);
    for bytes in [cases[0], cases[3], cases[9]] {
        lines.convert(MsgPack, 8, &[b"\x92\x01", bytes].concat());
        lines.convert(MsgPack, 8, &[b"\x92", bytes, b"\x01"].concat());
        lines.convert(MsgPack, 8, &[b"\x81\xa1a", bytes].concat());
    }
    lines.heading("Converted from MessagePack: no map with a key that is no str");
    for key in [
        b"\x01" as &[u8],
        b"\xff",
        b"\xcc\x01",
        b"\xc0",
        b"\xc2",
        b"\xc4\x01a",
        b"\xca\x00\x00\x00\x00",
        b"\xd4\x01a",
        b"\x90",
        b"\x91\xa1a",
        b"\x80",
        b"\x81\xa1a\x01",
    ] {
        lines.convert(MsgPack, 8, &[b"\x81", key, b"\x01"].concat());
    }
    msgpack(lines, &[b"\x82\xa1a\x01\x01\x01", b"\x82\x01\x01\xa1a\x01"]);
    msgpack(lines, &[b"\x91\x81\x01\x01", b"\x81\xa1a\x81\xc4\x01a\x01"]);
    lines.heading("Converted both ways: equal keys are not judged here");
    json(lines, &[r#"{"a":1,"a":2}"#, r#"{"a":1,"\u0061":2}"#]);
    msgpack(lines, &[b"\x82\xa1a\x01\xa1a\x02"]);
    lines.heading("Converted both ways: what is no value");
    json(lines, &["", "tru", "-", "\"a", "[1", "[1,]", "[1 2]", r#"{"a"}"#, "{1:1}"]);
    msgpack(
        lines,
        &[b"", b"\xc1", b"\xa1", b"\xcd\x01", b"\x91", b"\x91\xc1", b"\x81\xa1a", b"\xdf\xff\xff"],
    );
}

fn depth(lines: &mut Lines) {
    lines.heading("Converted both ways: depth");
    for (levels, depth) in [(1, 0), (1, 1), (8, 7), (8, 8), (9, 8)] {
        lines.convert(Json, depth, super::nested("[", "", "]", levels).as_bytes());
        lines.convert(Json, depth, super::nested(r#"{"a":"#, "1", "}", levels).as_bytes());
        lines.convert(MsgPack, depth, &[b"\x91".repeat(levels - 1), vec![0x90]].concat());
        lines.convert(MsgPack, depth, &[&b"\x81\xa1a".repeat(levels), b"\x01" as &[u8]].concat());
    }
    for depth in [1, 2] {
        lines.convert(Json, depth, br#"[[],{},[1],{"a":1}]"#);
        lines.convert(MsgPack, depth, b"\x94\x90\x80\x91\x01\x81\xa1a\x01");
    }
    lines.convert(Json, 0, br#""[[[""#);
    lines.convert(MsgPack, 0, b"\xa3[[[");
}
