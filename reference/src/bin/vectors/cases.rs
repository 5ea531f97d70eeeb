//! The cases: the edges of the protocol that lie below the messages, the worked examples of WAMP's texts on
//! patterns, the forms of RFC 3629, RFC 8259 and MessagePack, and settings files, right and wrong.

mod conversions;
mod kept;
mod msgpack;
mod settings;

use crate::lines::Lines;
use reference::uri::Policy::{self, *};

const POLICIES: [Policy; 3] = [Exact, Prefix, Wildcard];

/// A row of a choice; `None` is an unused one.
type Row = Option<(Policy, &'static [u8])>;

pub fn all(lines: &mut Lines) {
    utf8(lines);
    json_values(lines);
    json_limits(lines);
    json_keys(lines);
    ids(lines);
    uris(lines);
    components(lines);
    fits(lines);
    better(lines);
    choices(lines);
    splits(lines);
    members(lines);
    members_that_choose_receivers(lines);
    msgpack::all(lines);
    conversions::all(lines);
}

/// The cases on settings, which are a program's of their own.
pub fn on_settings(lines: &mut Lines) {
    settings::all(lines);
    kept::all(lines);
}

fn utf8(lines: &mut Lines) {
    lines.heading("RFC 3629, section 7: its examples");
    lines.utf8(b"A\xe2\x89\xa2\xce\x91.");
    lines.utf8(b"\xed\x95\x9c\xea\xb5\xad\xec\x96\xb4");
    lines.utf8(b"\xe6\x97\xa5\xe6\x9c\xac\xe8\xaa\x9e");
    lines.utf8(b"\xef\xbb\xbf\xf0\xa3\x8e\xb4");
    lines.heading("RFC 3629, section 10: sequences that must not be taken for a NUL or a slash");
    lines.utf8(b"\xc0\x80");
    lines.utf8(b"/\xc0\xae./");
    lines.heading("UTF-8: the first and the last character of each length, and what lies just outside");
    for text in [
        b"" as &[u8],
        b"\x00",
        b"a",
        b"\x7f",
        b"\xc2\x80",
        b"\xdf\xbf",
        b"\xe0\xa0\x80",
        b"\xef\xbf\xbf",
        b"\xf0\x90\x80\x80",
        b"\xf4\x8f\xbf\xbf",
        b"\xc0\xaf",
        b"\xc1\xbf",
        b"\xe0\x80\xaf",
        b"\xe0\x9f\xbf",
        b"\xf0\x80\x80\xaf",
        b"\xf0\x8f\xbf\xbf",
        b"\xf4\x90\x80\x80",
        b"\xf8\x88\x80\x80\x80",
        b"\xfc\x84\x80\x80\x80\x80",
    ] {
        lines.utf8(text);
    }
    lines.heading("UTF-8: surrogates, alone and as a pair, and their neighbours");
    for text in [
        b"\xed\x9f\xbf" as &[u8],
        b"\xed\xa0\x80",
        b"\xed\xaf\xbf",
        b"\xed\xb0\x80",
        b"\xed\xbf\xbf",
        b"\xee\x80\x80",
        b"\xed\xa0\xb4\xed\xb4\x9e",
        b"\xf0\x9d\x84\x9e",
    ] {
        lines.utf8(text);
    }
    lines.heading("UTF-8: cut short, at the end and before another character; lone continuations");
    for text in [
        b"\xc3" as &[u8],
        b"\xe2",
        b"\xe2\x82",
        b"\xf0",
        b"\xf0\x9d",
        b"\xf0\x9d\x84",
        b"a\xc3",
        b"a\xe2\x82",
        b"a\xf0\x9d\x84",
        b"\xc3a",
        b"\xe2\x82a",
        b"\xe2a\x82",
        b"\xf0\x9d\x84a",
        b"\xf0\x9da\x84",
        b"\xc3\xc3\xa9",
        b"\xe2\x82\xc3\xa9",
        b"\xc3\xa9\xa9",
        b"\xe2\x82\xac\xac",
        b"\xf0\x9d\x84\x9e\x9e",
        b"\x80",
        b"\xbf",
        b"a\x80",
        b"\x80a",
    ] {
        lines.utf8(text);
    }
    lines.heading(
        "UTF-8: each byte from hex 80 as the first of a character, with as many continuations as it asks",
    );
    for first in 0x80..=0xff {
        let length = match first {
            0x00..=0xbf => 1,
            0xc0..=0xdf => 2,
            0xe0..=0xef => 3,
            _ => 4,
        };
        // A second byte that suits the four first bytes which narrow its range, where any does.
        let second = match first {
            0xed | 0xf4 => 0x80,
            _ => 0xbf,
        };
        lines.utf8(&[first, second, 0xbf, 0xbf][..length]);
    }
    lines.heading(
        "UTF-8: the range of the second byte after the first bytes that narrow it, and one that doesn't",
    );
    for first in [0xe0, 0xed, 0xf0, 0xf4, 0xe1] {
        for second in [0x7f, 0x80, 0x8f, 0x90, 0x9f, 0xa0, 0xbf, 0xc0] {
            lines.utf8(&[first, second, 0x80, 0x80][..if first < 0xf0 { 3 } else { 4 }]);
        }
    }
    lines.heading("UTF-8: the ranges of the later bytes");
    for later in [0x7f, 0x80, 0xbf, 0xc0] {
        lines.utf8(&[0xc2, later]);
        lines.utf8(&[0xe1, 0x80, later]);
        lines.utf8(&[0xf1, 0x80, later, 0x80]);
        lines.utf8(&[0xf1, 0x80, 0x80, later]);
    }
}

fn json_values(lines: &mut Lines) {
    lines.heading("RFC 8259, section 13: its examples");
    lines.json(
        br#"{
        "Image": {
            "Width":  800,
            "Height": 600,
            "Title":  "View from 15th Floor",
            "Thumbnail": {
                "Url":    "http://www.example.com/image/481989943",
                "Height": 125,
                "Width":  100
            },
            "Animated" : false,
            "IDs": [116, 943, 234, 38793]
          }
      }"#,
    );
    lines.json(
        br#"[
        {
           "precision": "zip",
           "Latitude":  37.7668,
           "Longitude": -122.3959,
           "Address":   "",
           "City":      "SAN FRANCISCO",
           "State":     "CA",
           "Zip":       "94107",
           "Country":   "US"
        },
        {
           "precision": "zip",
           "Latitude":  37.371991,
           "Longitude": -122.026020,
           "Address":   "",
           "City":      "SUNNYVALE",
           "State":     "CA",
           "Zip":       "94085",
           "Country":   "US"
        }
      ]"#,
    );
    for text in [r#""Hello world!""#, "42", "true"] {
        lines.json(text.as_bytes());
    }
    lines.heading("JSON numbers, right");
    for text in [
        "0",
        "-0",
        "1",
        "-1",
        "9",
        "10",
        "123",
        "-123",
        "0.0",
        "0.5",
        "-0.5",
        "1.5",
        "10.25",
        "1.00",
        "0e0",
        "0E0",
        "0e+0",
        "0e-0",
        "1e5",
        "1E5",
        "1e+5",
        "1e-5",
        "1E+05",
        "1.5e10",
        "-1.5E-10",
        "1e9999",
        "9007199254740993",
        "123456789012345678901234567890",
        "0.123456789012345678901234567890",
    ] {
        lines.json(text.as_bytes());
    }
    lines.heading("JSON numbers, wrong");
    for text in [
        "-",
        "+1",
        "+0",
        "--1",
        "- 1",
        "00",
        "01",
        "-00",
        "-01",
        "0123",
        ".5",
        "-.5",
        "1.",
        "-1.",
        "0.",
        "1..2",
        "1.2.3",
        "1.e5",
        "e5",
        "1e",
        "1E",
        "1e+",
        "1e-",
        "1e+-5",
        "1e5.5",
        "1e 5",
        "1 .5",
        "1e1e1",
        "0x1",
        "0b1",
        "1_000",
        "1,5",
        "1a",
        "1f",
        "0e",
        "0.e1",
        "Infinity",
        "-Infinity",
        "NaN",
        "inf",
        "\u{ff11}",
    ] {
        lines.json(text.as_bytes());
    }
    lines.heading("JSON literals");
    for text in [
        "true",
        "false",
        "null",
        "True",
        "TRUE",
        "FALSE",
        "Null",
        "tru",
        "truE",
        "truee",
        "true1",
        "fals",
        "falsey",
        "nul",
        "nulll",
        "nil",
        "t",
        "f",
        "n",
        "undefined",
        "[true,false,null]",
        "[truefalse]",
        "[true false]",
    ] {
        lines.json(text.as_bytes());
    }
    lines.heading("JSON strings, right: each escape, and what needs none");
    for text in [
        r#""""#,
        r#""a""#,
        r#"" ""#,
        r#""\"""#,
        r#""\\""#,
        r#""\/""#,
        r#""\b""#,
        r#""\f""#,
        r#""\n""#,
        r#""\r""#,
        r#""\t""#,
        r#""\u0000""#,
        r#""\u001f""#,
        r#""\u00e9""#,
        r#""\u00E9""#,
        r#""\uABCD""#,
        r#""\uabcd""#,
        r#""\uffff""#,
        r#""\uD834\uDD1E""#,
        r#""\ud800""#,
        r#""\udead""#,
        r#""\udd1e\ud834""#,
        r#""a\nb\tc""#,
        r#""\\\"""#,
        r#""\\\\""#,
        r#""\\u12""#,
        r#""/""#,
        r#""'""#,
        r#""[1,{]}""#,
        r#""//""#,
        "\"\u{7f}\"",
        "\"\u{80}\"",
        "\"é€𝄞\"",
        "\"\u{feff}\"",
        "\"\u{2028}\u{2029}\"",
        "\"\u{ffff}\"",
        "\"\u{10ffff}\"",
    ] {
        lines.json(text.as_bytes());
    }
    lines.heading("JSON strings, wrong: escapes that there are not");
    for text in [
        r#""\a""#,
        r#""\v""#,
        r#""\0""#,
        r#""\1""#,
        r#""\x41""#,
        r#""\'""#,
        r#""\ ""#,
        r#""\B""#,
        r#""\N""#,
        r#""\U0041""#,
        r#""\u""#,
        r#""\u0""#,
        r#""\u00""#,
        r#""\u004""#,
        r#""\u004g""#,
        r#""\u00G0""#,
        r#""\u{41}""#,
        r#""\u+041""#,
        r#""\u 041""#,
        r#""\u00 4""#,
        r#""\uD834\u""#,
        r#""\é""#,
    ] {
        lines.json(text.as_bytes());
    }
    lines.heading("JSON strings, wrong: cut short, in other quotes, without");
    for text in [
        r#"""#,
        r#""a"#,
        r#"a""#,
        r#""\"#,
        r#""\""#,
        r#""\\\""#,
        r#""\u"#,
        r#""\u0041"#,
        r#""a"b""#,
        r#""a""b""#,
        "'a'",
        "`a`",
        "a",
        r#"\"a""#,
        "\u{201c}a\u{201d}",
    ] {
        lines.json(text.as_bytes());
    }
    lines.heading(
        "JSON strings: each byte below hex 20 is written by an escape only; its neighbours stand as they are",
    );
    for byte in 0x00..=0x21 {
        lines.json(&[b'"', byte, b'"']);
    }
    lines.json(b"\"a\nb\"");
    lines.heading("JSON: bytes that are no UTF-8, within a string");
    for text in [
        b"\"\xff\"" as &[u8],
        b"\"\x80\"",
        b"\"\xc0\xaf\"",
        b"\"\xed\xa0\x80\"",
        b"\"\xe2\x82\"",
        b"[\"\xc3\xa9\"]",
    ] {
        lines.json(text);
    }
    lines.heading("JSON lists");
    for text in [
        "[]",
        "[ ]",
        "[1]",
        "[1,2]",
        "[[]]",
        "[[],[]]",
        "[[],{},\"\",0,null]",
        "[",
        "]",
        "[[]",
        "[]]",
        "[1",
        "[1,",
        "[,",
        "[,]",
        "[1,]",
        "[,1]",
        "[1,,2]",
        "[1 2]",
        "[1;2]",
        "[1:2]",
        "(1)",
        "[1}",
        "[\"a\":1]",
        "[][]",
        "[],[]",
        "1,2",
        "[1] 2",
    ] {
        lines.json(text.as_bytes());
    }
    lines.heading("JSON dicts");
    for text in [
        "{}",
        "{ }",
        r#"{"a":1}"#,
        r#"{"":1}"#,
        r#"{"a":1,"b":2}"#,
        r#"{"a":{}}"#,
        r#"{"a":[]}"#,
        r#"{"a":"b"}"#,
        "{",
        "}",
        "{{}",
        "{}}",
        "{,}",
        "{:}",
        r#"{"a"}"#,
        r#"{"a":}"#,
        r#"{:1}"#,
        r#"{"a":1,}"#,
        r#"{,"a":1}"#,
        r#"{"a":1,,"b":2}"#,
        r#"{"a":1 "b":2}"#,
        r#"{"a":1;"b":2}"#,
        r#"{"a",1}"#,
        r#"{"a"=1}"#,
        r#"{"a"::1}"#,
        r#"{"a":1:2}"#,
        r#"{"a" 1}"#,
        "{a:1}",
        "{'a':1}",
        "{1:1}",
        "{null:1}",
        "{[]:1}",
        "{{}:1}",
        r#"{"a":1]"#,
        r#"{"a":1"#,
        r#"{"a""#,
        r#"{"a":"#,
        r#"{"a":1}}"#,
        r#"{"\u00":1}"#,
    ] {
        lines.json(text.as_bytes());
    }
    lines.heading("JSON white space: the four kinds, at each place, and what is none");
    for text in [
        "",
        " ",
        "\n",
        " \t\n\r1\r\n\t ",
        " [ ] ",
        "[\t]",
        "[\n]",
        "[\r]",
        " [ 1 , 2 ] ",
        "\n{\t\"a\"\r:\n1 ,\t\"b\" : 2\r}\n",
        "[1\u{b}]",
        "[1\u{c}]",
        "[1\u{0}]",
        "[1]\u{0}",
        "[1\u{1f}]",
        "[1\u{a0}]",
        "[1\u{85}]",
        "[1\u{2028}]",
        "[1\u{3000}]",
        "[1\u{200b}]",
        "\u{b}1",
        "1\u{c}",
        "\u{a0}1",
        "t rue",
        "tr\nue",
        "1 2",
        "- 1",
        "1 e5",
        "\" \"",
        "[1]//",
        "[1]/**/",
        "#\n[1]",
        "[1] ;",
    ] {
        lines.json(text.as_bytes());
    }
    lines.heading("JSON: a byte order mark is no white space");
    for text in ["\u{feff}[]", "\u{feff}", "\u{feff} 1", "[]\u{feff}", "[\u{feff}]"] {
        lines.json(text.as_bytes());
    }
    lines.json(b"\xff\xfe[\x00]\x00");
    lines.json(b"[\x00]\x00");
}

/// Lists or dicts inside each other.
fn nested(open: &str, inner: &str, close: &str, depth: usize) -> String {
    open.repeat(depth) + inner + &close.repeat(depth)
}

fn json_limits(lines: &mut Lines) {
    lines.heading("JSON depth: 8 passes, 9 doesn't");
    for depth in [1, 2, 7, 8, 9, 10, 64] {
        lines.json(nested("[", "", "]", depth).as_bytes());
        lines.json(nested(r#"{"a":"#, "1", "}", depth).as_bytes());
    }
    for pairs in [3, 4] {
        for inner in ["1", "[]", "{}"] {
            lines.json(nested(r#"[{"a":"#, inner, "}]", pairs).as_bytes());
            lines.json(nested(r#"{"a":["#, inner, "]}", pairs).as_bytes());
        }
    }
    let seven = nested("[", "", "]", 7);
    let eight = nested("[", "", "]", 8);
    lines.json(format!("[{seven},{seven}]").as_bytes());
    lines.json(format!("[{seven},{eight}]").as_bytes());
    lines.json(format!("[{eight},{seven}]").as_bytes());
    lines.json(format!(r#"{{"a":{seven},"b":{seven}}}"#).as_bytes());
    lines.json(format!(r#"{{"a":{seven},"b":{eight}}}"#).as_bytes());
    lines.json(format!(r#""{}""#, "[".repeat(9)).as_bytes());
    lines.heading("JSON length: 2,048 bytes pass, 2,049 don't");
    for length in [2047, 2048, 2049] {
        lines.json(format!("\"{}\"", "a".repeat(length - 2)).as_bytes());
        lines.json(format!("[{}]", " ".repeat(length - 2)).as_bytes());
        lines.json("7".repeat(length).as_bytes());
    }
}

fn json_keys(lines: &mut Lines) {
    lines.heading("JSON keys of one dict, compared undone");
    for text in [
        r#"{"a":1,"a":1}"#,
        r#"{"a":1,"a":2}"#,
        r#"{"a":1,"b":2,"a":3}"#,
        r#"{"a":1,"b":2,"b":3}"#,
        r#"{"a":1,"b":2,"c":3,"d":4,"b":5}"#,
        r#"{"":1,"":2}"#,
        r#"{"":1,"a":2}"#,
        r#"{ "a" : 1 , "a" : 2 }"#,
        r#"{"a":1,"A":2}"#,
        r#"{"a":1,"aa":2}"#,
        r#"{"aa":1,"a":2}"#,
        r#"{"a":1,"a ":2}"#,
        r#"{"ab":1,"ba":2}"#,
        r#"{"a":{"a":1}}"#,
        r#"{"a":{"b":1},"b":{"a":1}}"#,
        r#"{"a":{"b":1,"b":2}}"#,
        r#"{"a":1,"b":{"c":1,"d":{"e":1,"e":2}}}"#,
        r#"[{"a":1},{"a":1}]"#,
        r#"[{"a":1,"a":1},{}]"#,
        r#"[{},{"a":1,"a":1}]"#,
        r#"[[[[[[[{"a":1,"b":2}]]]]]]]"#,
        r#"[[[[[[[{"a":1,"a":2}]]]]]]]"#,
        r#"{"a":[{"b":1}],"b":1}"#,
        r#"{"a":[{"b":1}],"a":1}"#,
        r#"{"a":"b","b":"a"}"#,
        r#"{"a":"a"}"#,
        r#"{"\u0061":1,"a":2}"#,
        r#"{"a":1,"\u0061":2}"#,
        r#"{"\u0061":1,"\u0061":2}"#,
        r#"{"\u00e9":1,"\u00E9":2}"#,
        r#"{"/":1,"\/":2}"#,
        r#"{"\/":1,"\/":2}"#,
        r#"{"\"":1,"\"":2}"#,
        r#"{"\\":1,"\"":2}"#,
        "{\"é\":1,\"\\u00e9\":2}",
        "{\"é\":1,\"é\":2}",
        "{\"é\":1,\"e\u{301}\":2}",
        r#"{"\u0061b":1,"a\u0062":2}"#,
        r#"{"\u0061b":1,"a\u0063":2}"#,
        r#"{"b":0,"\u0061":1,"c":2,"a":3}"#,
        r#"{"\\u0061":1,"\u0061":2}"#,
        r#"{"\\u0061":1,"\u005cu0061":2}"#,
        r#"{"a":1,"\u0061\u0000":2}"#,
        r#"{"":1,"\u0000":2}"#,
        r#"{"acknowledge":true,"\u0061cknowledge":true}"#,
        r#"[[[[[[[{"a":1,"\u0061":2}]]]]]]]"#,
        r#"{"\u0061":{"a":{"\u0061":1}}}"#,
        r#"[{"a":1},{"\u0061":1}]"#,
        r#"{"a":"\u0062","b":"\u0061"}"#,
    ] {
        lines.json(text.as_bytes());
    }
    lines.heading("JSON keys: texts of one sum by powers of 251, modulo 65,536");
    for text in [
        r#"{"mark":1,"cdya":2}"#,
        r#"{"mark":1,"hq~":2}"#,
        r#"{"mark":1,"cdya":2,"mark":3}"#,
        r#"{"mark":1,"cdya":2,"\u006dark":3}"#,
        r#"{"mar\u006b":1,"cdy\u0061":2,"uimr":3}"#,
        r#"{"cdya":1,"mar\u006b":2,"uimr":3,"cdya":4}"#,
        r#"{"mark":{"cdya":1,"mark":2},"cdya":3}"#,
        r#"{"mark":{"cdya":1,"mark":2},"m\u0061rk":3}"#,
    ] {
        lines.json(text.as_bytes());
    }
    lines.heading("JSON keys: each of the short escapes, and the same by its code in either case");
    for (short, code) in [
        (r#"\""#, "0022"),
        (r"\\", "005c"),
        (r"\\", "005C"),
        (r"\/", "002f"),
        (r"\b", "0008"),
        (r"\f", "000c"),
        (r"\n", "000A"),
        (r"\r", "000d"),
        (r"\t", "0009"),
    ] {
        lines.json(format!(r#"{{"{short}":1,"\u{code}":2}}"#).as_bytes());
        lines.json(format!(r#"{{"{short}":1,"{}":2}}"#, &short[1..].replace(['"', '\\'], "x")).as_bytes());
    }
    lines.heading("JSON keys: codes either side of each length of UTF-8, and the raw character");
    for (code, raw) in [
        ("007f", '\u{7f}'),
        ("0080", '\u{80}'),
        ("07ff", '\u{7ff}'),
        ("07FF", '\u{7ff}'),
        ("0800", '\u{800}'),
        ("d7ff", '\u{d7ff}'),
        ("E000", '\u{e000}'),
        ("ffff", '\u{ffff}'),
        ("FfFf", '\u{ffff}'),
    ] {
        lines.json(format!(r#"{{"\u{code}":1,"{raw}":2}}"#).as_bytes());
        lines.json(format!(r#"{{"\u{code}":1,"{raw}x":2}}"#).as_bytes());
    }
    lines.heading("JSON keys: a pair of surrogate halves is one character");
    for (pair, raw) in [
        (r"\ud800\udc00", '\u{10000}'),
        (r"\uD800\udFFf", '\u{103ff}'),
        (r"\ud801\udc00", '\u{10400}'),
        (r"\ud83d\ude00", '\u{1f600}'),
        (r"\uDBFF\uDFFF", '\u{10ffff}'),
    ] {
        lines.json(format!(r#"{{"{pair}":1,"{raw}":2}}"#).as_bytes());
        lines.json(format!(r#"{{"{pair}":1,"{}":2}}"#, pair.to_lowercase()).as_bytes());
        lines.json(format!(r#"{{"{pair}":1,"{}":2}}"#, &pair[..6]).as_bytes());
        lines.json(format!(r#"{{"{pair}":1,"{}{}":2}}"#, &pair[6..], &pair[..6]).as_bytes());
    }
    lines.heading("JSON keys: a lone surrogate half counts as its own code");
    for text in [
        r#"{"\ud800":1,"\uD800":2}"#,
        r#"{"\ud800":1,"\udc00":2}"#,
        r#"{"\ud800":1,"\ud801":2}"#,
        r#"{"\udbff":1,"\uDBFF":2}"#,
        r#"{"\udc00":1,"\uDc00":2}"#,
        r#"{"\udfff":1,"\uDFFF":2}"#,
        r#"{"\udfff":1,"\uffff":2}"#,
        r#"{"\udc00\ud800":1,"\uDC00\uD800":2}"#,
        r#"{"\ud800a":1,"\uD800\u0061":2}"#,
        r#"{"\ud800a\udc00":1,"\ud800\udc00":2}"#,
        r#"{"\ud800\ud800\udc00":1,"\uD800\uD800\uDC00":2}"#,
        r#"{"\ud800\\udc00":1,"\ud800\udc00":2}"#,
        r#"{"\ud800":1,"a":{"\uD800":2}}"#,
        r#"[{"a":{"\ud800":1,"b":0,"\uD800":2}}]"#,
    ] {
        lines.json(text.as_bytes());
    }
    lines.heading(
        "JSON keys: as many as a message can hold, and the last one equal to the first, or to the one before",
    );
    let key = |k: usize| {
        format!("\"{}{}\":1", char::from(b'A' + (k / 26) as u8), char::from(b'a' + (k % 26) as u8))
    };
    let keys: Vec<String> = (0..290).map(key).collect();
    lines.json(format!("{{{}}}", keys.join(",")).as_bytes());
    lines.json(format!("{{{},{}}}", keys.join(","), keys[0]).as_bytes());
    lines.json(format!("{{{},{}}}", keys.join(","), keys[289]).as_bytes());
    lines.heading(
        "JSON keys: many, spelled with escapes, and the last one equal to the first, or to the one before",
    );
    let spelled: Vec<String> = (0..140).map(|k| format!("\"\\u{:04x}\":1", 0x7c0 + k)).collect();
    lines.json(format!("{{{}}}", spelled.join(",")).as_bytes());
    lines.json(format!("{{{},\"\u{7c0}\":1}}", spelled.join(",")).as_bytes());
    lines.json(format!("{{{},\"\u{84b}\":1}}", spelled.join(",")).as_bytes());
    lines.json(format!("{{{},\"\u{84c}\":1}}", spelled.join(",")).as_bytes());
}

fn ids(lines: &mut Lines) {
    lines.heading("IDs: digits only, no leading zero, from 1 to 2^53");
    for text in [
        "1",
        "2",
        "9",
        "10",
        "12",
        "70",
        "100",
        "4294967295",
        "4294967296",
        "999999999999999",
        "1000000000000000",
        "9007199254740990",
        "9007199254740991",
        "9007199254740992",
        "9007199254740993",
        "9007199254740994",
        "9007199254741000",
        "9007199254750000",
        "9010000000000000",
        "9999999999999999",
        "10000000000000000",
        "90071992547409920",
    ] {
        lines.id(text.as_bytes());
    }
    lines.heading("IDs: what is none");
    for text in [
        "",
        "0",
        "00",
        "01",
        "007",
        "00000000000000001",
        "09007199254740992",
        "-1",
        "-0",
        "+1",
        "1.0",
        "1.",
        "1e0",
        "1E2",
        " 1",
        "1 ",
        "1\n",
        "a",
        "1a",
        "a1",
        "0x1",
        "/",
        ":",
        "1/",
        "1:",
        "\"1\"",
        "\u{ff11}",
        "1\u{0}",
        "\u{0}",
    ] {
        lines.id(text.as_bytes());
    }
    lines.heading("IDs of any length: numbers that a fixed width would take for small ones");
    for text in [
        "9223372036854775807",
        "9223372036854775808",
        "18446744073709551615",
        "18446744073709551616",
        "18446744073709551617",
        "18446744073709551626",
        "184467440737095516170",
        "340282366920938463463374607431768211456",
        "340282366920938463463374607431768211457",
        "27670116110564327424",
    ] {
        lines.id(text.as_bytes());
    }
    lines.id(&[b'9'; 100]);
    lines.id(&[b'1'; 2048]);
    lines.id(&[b"1".as_slice(), &[b'0'; 2047]].concat());
}

fn uris(lines: &mut Lines) {
    lines.heading("URI texts: each byte from hex 00 to 24, and others with their neighbours, within a text");
    let bytes = (0x00..=0x24).chain([
        0x2d, 0x2e, 0x2f, 0x30, 0x3a, 0x41, 0x5b, 0x5c, 0x5d, 0x61, 0x7e, 0x7f, 0x80, 0xa0, 0xc3, 0xfe, 0xff,
    ]);
    for byte in bytes {
        lines.uri(Exact, &[b'a', byte, b'b']);
    }
    for policy in [Prefix, Wildcard] {
        for byte in [
            0x00, 0x09, 0x1f, 0x20, 0x21, 0x22, 0x23, 0x24, 0x2d, 0x2e, 0x2f, 0x5b, 0x5c, 0x5d, 0x7f, 0x80,
            0xff,
        ] {
            lines.uri(policy, &[b'a', byte, b'b']);
        }
    }
    lines.heading("URI texts: a refused byte first, last and alone; a quote and a backslash are taken");
    for policy in POLICIES {
        for text in [
            "#", "a#", "#a", " ", "a ", " a", "\\", "a\\", "\\a", "a.#", "a. ", r"\u0061", r"a\/b",
            "a.b c.d", "\"", "a\"", "\"a", "\\\"", "a.\\.\"", r"a\#", "\\ ",
        ] {
            lines.uri(policy, text.as_bytes());
        }
    }
    lines.heading("URI texts: empty components by policy, and the empty text");
    for policy in POLICIES {
        for text in [
            "",
            "a",
            "a.b",
            "a.b.c",
            ".",
            "..",
            "...",
            "a.",
            ".a",
            "a..",
            "..a",
            "a..b",
            "a.b.",
            ".a.b",
            "a.b..",
            "a..b.c",
            "a.b..c.",
            "a...b",
            ".a.",
            "com.myapp..myprocedure1",
            "com.myapp.",
        ] {
            lines.uri(policy, text.as_bytes());
        }
    }
    lines.heading("URI texts: 128 bytes pass, 129 don't");
    for policy in POLICIES {
        for length in [1, 127, 128, 129, 130, 256, 384, 2048] {
            lines.uri(policy, "a".repeat(length).as_bytes());
        }
        for length in [128, 129] {
            let mut components = "ab.".repeat(43).into_bytes();
            components.truncate(length);
            lines.uri(policy, &components);
            lines.uri(policy, &".".repeat(length).into_bytes());
            lines.uri(policy, &"\\\"".repeat(65).as_bytes()[..length]);
            // Two bytes a character, and one more where the length is odd.
            lines.uri(policy, ("é".repeat(length / 2) + &"a".repeat(length % 2)).as_bytes());
        }
    }
    lines.heading("URI texts that are no UTF-8, and from other alphabets: the rule speaks of bytes");
    for text in ["é.ü".as_bytes(), "\u{a0}".as_bytes(), b"\xff", b"\xc3", b"a.\x80.b", "hub.\"q\"".as_bytes()]
    {
        lines.uri(Exact, text);
    }
    lines.heading("The first component `wamp`, refused by REGISTER and PUBLISH");
    for policy in POLICIES {
        for text in [
            "wamp",
            "wamp.",
            "wamp.x",
            "wamp.error.no_such_procedure",
            "wamp..x",
            "wamp..",
            "wam",
            "wampx",
            "wampx.y",
            "wam.p",
            "xwamp",
            "x.wamp",
            "x.wamp.y",
            ".wamp",
            "..wamp",
            "Wamp.x",
            "WAMP",
            "wamp-x",
            "w",
            "w.amp",
            "a.b",
            "",
            "wamp.#",
            "hub.wamp",
        ] {
            lines.register(policy, text.as_bytes());
        }
    }
    for text in ["wamp", "wamp.x", "wamp.error.canceled"] {
        lines.uri(Exact, text.as_bytes());
    }
    lines.register(Exact, &[b"wamp.".as_slice(), &[b'a'; 123]].concat());
    lines.register(Exact, &[b"wampx".as_slice(), &[b'a'; 123]].concat());
    lines.register(Exact, &[b"wampx".as_slice(), &[b'a'; 124]].concat());
}

fn components(lines: &mut Lines) {
    lines.heading("Components: their number, and from where to where each stands");
    for text in [
        "",
        "a",
        ".",
        "..",
        "a.b",
        "a.",
        ".a",
        "a..b",
        "abc.de.f",
        "a1.b2.c3.d4.e55",
        "a1.b2..d4.e5..g7",
        "com.myapp..myprocedure1",
        "hub.donor.defer",
        "...",
        "a.b.",
        ".a.",
        "wamp.error.no_such_procedure",
        "a b.c#d",
        "é.ü",
    ] {
        lines.components(text.as_bytes());
    }
    lines.components(&[b'a'; 128]);
    lines.components(&[b'.'; 20]);
    lines.components("a.".repeat(16).as_bytes());
    // As many as a text can have, and as a called URI can.
    lines.components(&[b'.'; 128]);
    lines.components("a.".repeat(64).split_at(127).0.as_bytes());
}

fn fits(lines: &mut Lines) {
    lines.heading("M9, M10, M11");
    lines.fits(Prefix, b"com.myapp.myobject1", b"com.myapp.myobject1-mysubobject1");
    lines.fits(Prefix, b"com.myapp.myobject1", b"com.myapp.myobject");
    lines.fits(Wildcard, b"com.myapp..myprocedure1", b"com.myapp.myobject1.myprocedure1.mysubprocedure1");
    lines.heading("WAMP, pattern-based registrations: a prefix");
    for uri in [
        "com.myapp.myobject1.myprocedure1",
        "com.myapp.myobject1-mysubobject1",
        "com.myapp.myobject1.mysubobject1.myprocedure1",
        "com.myapp.myobject1",
        "com.myapp.myobject2",
        "com.myapp.myobject",
    ] {
        lines.fits(Prefix, b"com.myapp.myobject1", uri.as_bytes());
    }
    lines.heading("WAMP, pattern-based registrations: a wildcard");
    for uri in [
        "com.myapp.myobject1.myprocedure1",
        "com.myapp.myobject2.myprocedure1",
        "com.myapp.myobject1.myprocedure1.mysubprocedure1",
        "com.myapp.myobject1.myprocedure2",
        "com.myapp2.myobject1.myprocedure1",
    ] {
        lines.fits(Wildcard, b"com.myapp..myprocedure1", uri.as_bytes());
    }
    lines.heading("WAMP, pattern-based subscriptions: a prefix");
    for uri in [
        "com.myapp.topic.emergency.11",
        "com.myapp.topic.emergency-low",
        "com.myapp.topic.emergency.category.severe",
        "com.myapp.topic.emergency",
        "com.myapp.topic.emerge",
    ] {
        lines.fits(Prefix, b"com.myapp.topic.emergency", uri.as_bytes());
    }
    lines.heading("WAMP, pattern-based subscriptions: a wildcard");
    for uri in [
        "com.myapp.foo.userevent",
        "com.myapp.bar.userevent",
        "com.myapp.a12.userevent",
        "com.myapp.foo.userevent.bar",
        "com.myapp.foo.user",
        "com.myapp2.foo.userevent",
    ] {
        lines.fits(Wildcard, b"com.myapp..userevent", uri.as_bytes());
    }
    lines.heading("Exact: equal bytes");
    for (text, uri) in [
        ("a", "a"),
        ("a.b", "a.b"),
        ("a", "b"),
        ("a", "ab"),
        ("ab", "a"),
        ("a.b", "a.c"),
        ("a.b", "a"),
        ("a", "a.b"),
        ("a.b", "A.b"),
        ("hub.donor.defer", "hub.donor.defer"),
        ("hub.donor.defer", "hub.donor.deferr"),
    ] {
        lines.fits(Exact, text.as_bytes(), uri.as_bytes());
    }
    lines.heading("Prefix: by bytes, not by components");
    for (text, uri) in [
        ("com.myapp", "com.myapp2.foobar"),
        ("com.myapp.", "com.myapp2.foobar"),
        ("com.myapp.", "com.myapp.foobar"),
        ("com.myapp.", "com.myapp"),
        ("a", "a"),
        ("a", "ab"),
        ("ab", "a"),
        ("a", "ba"),
        ("a.b", "a.bc.d"),
        ("a.b", "ab"),
        ("a.", "a.b"),
        ("a.b", "a.c"),
        ("hub.donor", "hub.donor.defer"),
        ("hub.donor", "hub.dono"),
    ] {
        lines.fits(Prefix, text.as_bytes(), uri.as_bytes());
    }
    lines.heading("Wildcard: as many components, each empty or equal");
    for (text, uri) in [
        ("a.b", "a.b"),
        ("a.b", "a.c"),
        ("a.b", "a"),
        ("a", "a.b"),
        (".", "a.b"),
        (".", "a"),
        (".", "a.b.c"),
        ("..", "a.b.c"),
        ("..", "a.b"),
        ("a.", "a.b"),
        ("a.", "a"),
        ("a.", "b.b"),
        (".b", "a.b"),
        (".b", "b"),
        (".b", "a.c"),
        ("a..c", "a.b.c"),
        ("a..c", "a.c"),
        ("a..c", "a.b.b.c"),
        ("a..c", "a.b.d"),
        ("a.", "ab.c"),
        ("a.b", "a.bc"),
        ("a.bc", "a.b"),
        ("a...d", "a.b.c.d"),
        (".b.", "a.b.c"),
        (".b.", "a.c.c"),
        ("..c", "a.b.c"),
        ("a..", "a.b.c"),
        ("a..", "a.b"),
        ("ab.c", "a.c"),
        ("a.c", "ab.c"),
        ("a.bc.d", "a.b.d"),
        ("a.b.d", "a.bc.d"),
        ("a.b.c", "a.b.cd"),
        (".b.cd", "a.b.c"),
    ] {
        lines.fits(Wildcard, text.as_bytes(), uri.as_bytes());
    }
    let long = [b'a'; 128];
    lines.heading("Fitting texts of 128 bytes");
    lines.fits(Exact, &long, &long);
    lines.fits(Prefix, &long, &long);
    lines.fits(Prefix, &long, &long[1..]);
    lines.fits(Wildcard, &long, &long);
    lines.fits(Exact, &long, &[&long[1..], b"b"].concat());
    lines.fits(Prefix, &long[1..], &[&long[1..], b"b"].concat());
    lines.heading("Fitting URIs of as many components as a text can have, and of more");
    for (text, uri) in [(128, 127), (128, 128), (128, 129), (129, 129), (130, 129), (200, 200), (200, 199)] {
        lines.fits(Wildcard, &vec![b'.'; text], &vec![b'.'; uri]);
    }
}

fn better(lines: &mut Lines) {
    lines.heading("The better of two wildcard texts: documents 01 and 000");
    for (one, other) in
        [("a1.b2..d4.e5", "a1.b2.c3..e5"), ("a1.b2..d4.e5..g7", "a1.b2..d4..f6.g7"), ("a1.b2..d4", "a1...d4")]
    {
        lines.better(one.as_bytes(), other.as_bytes());
        lines.better(other.as_bytes(), one.as_bytes());
    }
    lines.heading("The better of two wildcard texts: a larger count further left beats more literals");
    for (one, other) in [
        ("a.b...", "a..c.d.e"),
        ("a....", ".b.c.d.e"),
        ("a.b..d.", "a.b...e"),
        ("a.b.c.d.", "a.b.c..e"),
        ("...d", "...."),
        ("a.b.c", "a.b."),
    ] {
        lines.better(one.as_bytes(), other.as_bytes());
        lines.better(other.as_bytes(), one.as_bytes());
    }
    lines.heading("The better of two wildcard texts: every two different ones that fit a.b.c");
    let texts = ["a.b.c", "a.b.", "a..c", "a..", ".b.c", ".b.", "..c", ".."];
    for one in texts {
        for other in texts.into_iter().filter(|other| *other != one) {
            lines.better(one.as_bytes(), other.as_bytes());
        }
    }
}

fn choices(lines: &mut Lines) {
    let marked: [Row; 7] = [
        Some((Exact, b"a1.b2.c3.d4.e55")),
        Some((Prefix, b"a1.b2.c3")),
        Some((Prefix, b"a1.b2.c3.d4")),
        Some((Wildcard, b"a1.b2..d4.e5")),
        Some((Wildcard, b"a1.b2.c3..e5")),
        Some((Wildcard, b"a1.b2..d4.e5..g7")),
        Some((Wildcard, b"a1.b2..d4..f6.g7")),
    ];
    let mut without_prefixes = marked;
    without_prefixes[1] = None;
    without_prefixes[2] = None;
    let mut backwards = marked;
    backwards.reverse();
    let mut backwards_without = without_prefixes;
    backwards_without.reverse();
    let uris = [
        "a1.b2.c3.d4.e55",
        "a1.b2.c3.d98.e74",
        "a1.b2.c3.d4.e325",
        "a1.b2.c55.d4.e5",
        "a1.b2.c3.d4.e5",
        "a1.b2.c88.d4.e5.f6.g7",
        "a2.b2.c2.d2.e2",
    ];
    lines.heading("M1 to M5, M7, M8");
    for uri in uris {
        lines.choose(uri.as_bytes(), &marked);
    }
    lines.heading("M6, and the other URIs without the prefixes 2 and 3");
    lines.choose(b"a1.b2.c3.d4.e5", &without_prefixes);
    for uri in uris {
        lines.choose(uri.as_bytes(), &without_prefixes);
    }
    lines.heading("The marked rows backwards, with and without the prefixes");
    for uri in uris {
        lines.choose(uri.as_bytes(), &backwards);
        lines.choose(uri.as_bytes(), &backwards_without);
    }
    lines.heading("WAMP, pattern-based registrations: in the algorithm");
    lines.choose(b"a1.b2.c3.d4", &[Some((Prefix, b"a1.b2.c3")), Some((Prefix, b"a1.b2"))]);
    lines.choose(b"a1.b2.c3.d4", &[Some((Prefix, b"a1.b2")), Some((Prefix, b"a1.b2.c3"))]);
    lines.choose(b"a1.b2.c3.d4", &[Some((Wildcard, b"a1.b2..d4")), Some((Wildcard, b"a1...d4"))]);
    lines.choose(b"a1.b2.c3.d4", &[Some((Wildcard, b"a1...d4")), Some((Wildcard, b"a1.b2..d4"))]);
    lines.heading("Exact before prefix before wildcard, wherever the rows stand");
    let exact: Row = Some((Exact, b"a.b.c"));
    let prefix: Row = Some((Prefix, b"a"));
    let wildcard: Row = Some((Wildcard, b"a.b."));
    let literal: Row = Some((Wildcard, b"a.b.c"));
    for rows in [
        [exact, prefix, wildcard],
        [exact, wildcard, prefix],
        [prefix, exact, wildcard],
        [prefix, wildcard, exact],
        [wildcard, exact, prefix],
        [wildcard, prefix, exact],
        [wildcard, literal, prefix],
        [literal, exact, prefix],
        [wildcard, literal, None],
        [literal, wildcard, None],
        [None, None, wildcard],
        [None, None, None],
    ] {
        lines.choose(b"a.b.c", &rows);
    }
    lines.choose(b"a.b.d", &[exact, wildcard, prefix]);
    lines.choose(b"b.b.d", &[exact, wildcard, prefix]);
    lines.choose(b"a", &[exact, wildcard, prefix]);
    lines.heading("The longest prefix, by bytes");
    let prefixes: [Row; 6] = [
        Some((Prefix, b"h")),
        Some((Prefix, b"hub.donor.")),
        Some((Prefix, b"hub")),
        Some((Prefix, b"hub.donor")),
        Some((Prefix, b"hub.do")),
        Some((Prefix, b"hub.")),
    ];
    for uri in
        ["hub.donor.defer", "hub.donor", "hub.donor2", "hub.dono", "hub.x", "hub", "hubs", "h", "g", "xhub"]
    {
        lines.choose(uri.as_bytes(), &prefixes);
    }
    lines.heading("The best wildcard of those that fit a.b.c");
    let texts: [&'static [u8]; 8] = [b"..", b"..c", b".b.", b".b.c", b"a..", b"a..c", b"a.b.", b"a.b.c"];
    for count in 1..=texts.len() {
        let mut rows: Vec<Row> = texts[..count].iter().map(|text| Some((Wildcard, *text))).collect();
        lines.choose(b"a.b.c", &rows);
        rows.reverse();
        lines.choose(b"a.b.c", &rows);
    }
    lines.choose(b"a.x.c", &texts.map(|text| Some((Wildcard, text))));
    lines.choose(b"x.b.c", &texts.map(|text| Some((Wildcard, text))));
    lines.choose(b"x.y.z", &texts.map(|text| Some((Wildcard, text))));
    lines.choose(b"x.y", &texts.map(|text| Some((Wildcard, text))));
    lines.heading("A full table, and the first and the last place");
    let mut full: [Row; 32] = [Some((Exact, b"z")); 32];
    const NAMES: [&[u8]; 32] = [
        b"r1", b"r2", b"r3", b"r4", b"r5", b"r6", b"r7", b"r8", b"r9", b"r10", b"r11", b"r12", b"r13",
        b"r14", b"r15", b"r16", b"r17", b"r18", b"r19", b"r20", b"r21", b"r22", b"r23", b"r24", b"r25",
        b"r26", b"r27", b"r28", b"r29", b"r30", b"r31", b"r32",
    ];
    for (row, name) in full.iter_mut().zip(NAMES) {
        *row = Some((Exact, name));
    }
    for uri in ["r1", "r2", "r31", "r32", "r33"] {
        lines.choose(uri.as_bytes(), &full);
    }
    for policy in POLICIES {
        let mut rows: [Row; 32] = [None; 32];
        rows[31] = Some((policy, b"a.b"));
        lines.choose(b"a.b", &rows);
        lines.choose(b"a.c", &rows);
    }
    lines.choose(b"a.b", &[]);
    const LONG: &[u8] = &[b'a'; 128];
    lines.heading("Texts of 128 bytes");
    for policy in POLICIES {
        lines.choose(LONG, &[Some((policy, LONG))]);
        lines.choose(&LONG[1..], &[Some((policy, LONG))]);
    }
    lines.choose(LONG, &[Some((Prefix, &LONG[1..])), Some((Prefix, LONG))]);
}

fn splits(lines: &mut Lines) {
    lines.heading("Elements of the eleven messages");
    for text in [
        r#"[1,"hub.bus",{}]"#,
        r#"[3,{},"wamp.close.normal"]"#,
        r#"[6,{},"wamp.close.normal"]"#,
        r#"[8,68,1,{},"hub.error.x"]"#,
        r#"[8,68,1,{},"hub.error.x",[1]]"#,
        r#"[8,68,1,{},"hub.error.x",[1],{"k":2}]"#,
        r#"[16,1,{"acknowledge":true},"hub.news",["D17"],{"k":2}]"#,
        r#"[32,1,{"match":"prefix"},"hub.donor"]"#,
        r#"[34,1,2]"#,
        r#"[48,1,{},"hub.donor.defer",["D17"]]"#,
        r#"[64,1,{"match":"wildcard"},"hub..defer"]"#,
        r#"[66,1,2]"#,
        r#"[70,1,{},["held"]]"#,
        r#"[70,1,{},["held"],{}]"#,
    ] {
        lines.split(text.as_bytes());
    }
    lines.heading("Elements: from 1 to 7 of them");
    for count in 0..=9 {
        lines.split(format!("[{}]", vec!["1"; count].join(",")).as_bytes());
    }
    lines.split(br#"["a",["b"],{"c":1},null,true,false,0]"#);
    lines.heading("Elements: their kinds");
    for element in [
        "1",
        "9007199254740992",
        "9007199254740993",
        "0",
        "-1",
        "1.0",
        "1e0",
        "10",
        "99999999999999999999",
        "18446744073709551617",
        "\"\"",
        "\"1\"",
        r#""\"""#,
        r#""[""#,
        "[]",
        "[1]",
        "[[]]",
        "{}",
        r#"{"a":1}"#,
        "true",
        "false",
        "null",
        "-0",
        "0.5",
    ] {
        lines.split(format!("[{element}]").as_bytes());
        lines.split(format!("[34,{element},[]]").as_bytes());
    }
    lines.heading("Elements: strings and keys with escapes stand as they are written");
    for text in [
        r#"[48,1,{},"hub.donor.\u0064efer",["\u00e9"]]"#,
        r#"[32,1,{"m\u0061tch":"pre\u0066ix"},"a\"b\\c\/d"]"#,
        r#"[70,1,{"\ud800":"\udc00"},["\ud834\udd1e"]]"#,
        r#"["\"","\\","\\\"","\u005c"]"#,
        r#"[{"a":1,"\u0062":2}]"#,
        r#"[{"a":1,"\u0061":2}]"#,
        r#"[1,{"b":{"\u0061":1,"a":2}}]"#,
        r#"[{"\ud800":1,"\uD800":2}]"#,
        r#"[{"\ud800":1,"\udc00":2}]"#,
    ] {
        lines.split(text.as_bytes());
    }
    lines.heading("Elements: white space is no part of them, but what stands inside is");
    for text in [
        " [1] ",
        "\t[\n1\r]\n",
        "[ 1 , 2 ]",
        "[1 ,2]",
        "[1, 2]",
        "[ ]",
        "[ [ 1 , 2 ] , { \"a\" : 1 } , \" a \" ]",
        "\n\n[34,\n 1,\n 2\n]\n",
    ] {
        lines.split(text.as_bytes());
    }
    lines.heading("Elements: texts that are no list, or none within the limits");
    for text in [
        "",
        " ",
        "1",
        "\"a\"",
        "{}",
        r#"{"a":[1]}"#,
        "null",
        "[",
        "[1",
        "[1,",
        "[1,]",
        "[,1]",
        "[1 2]",
        "[1]]",
        "[1] x",
        "[1][2]",
        "[01]",
        r#"["a]"#,
        "[tru]",
        "x[1]",
        "\u{feff}[1]",
        r#"[{"a":1,"a":2}]"#,
        r#"[1,{"b":{"a":1,"a":2}}]"#,
    ] {
        lines.split(text.as_bytes());
    }
    lines.heading("Elements: depth and length");
    for depth in [8, 9] {
        lines.split(nested("[", "", "]", depth).as_bytes());
        lines.split(format!("[1,{},2]", nested("[", "", "]", depth - 1)).as_bytes());
        lines.split(format!("[1,{}]", nested(r#"{"a":"#, "1", "}", depth - 1)).as_bytes());
    }
    for length in [2048, 2049] {
        lines.split(format!("[1,\"{}\"]", "a".repeat(length - 6)).as_bytes());
        lines.split(format!("{}[1]", " ".repeat(length - 3)).as_bytes());
        lines.split(format!("[1]{}", " ".repeat(length - 3)).as_bytes());
    }
    lines.split(format!("[{}]", "7".repeat(2046)).as_bytes());
}

fn members(lines: &mut Lines) {
    lines.heading("Members of the options of messages");
    let subscribe = br#"[32,1,{"match":"prefix"},"hub.donor"]"#;
    for key in ["match", "Match", "matc", "matchh", "prefix", ""] {
        lines.member(subscribe, 1, key.as_bytes());
    }
    lines.member(br#"[32,1,{},"hub.donor"]"#, 1, b"match");
    let publish = br#"[16,1,{"exclude_me":false,"acknowledge":true},"a"]"#;
    lines.member(publish, 1, b"acknowledge");
    lines.member(publish, 1, b"exclude_me");
    lines.member(br#"[16,1,{"acknowledge": true },"a"]"#, 1, b"acknowledge");
    lines.member(
        br#"[ 16 , 1 , { "x" : [ "acknowledge" ] , "acknowledge" : "true" } , "a" ]"#,
        1,
        b"acknowledge",
    );
    lines.member(br#"[48,1,{},"a",[],{"match":1}]"#, 1, b"match");
    lines.member(br#"[48,1,{},"a",[],{"match":1}]"#, 2, b"match");
    lines.heading("Members: each value of a dict, and only those of the dict itself");
    let many = br#"{"a":1,"b":"two","c":[3,{"z":1}],"d":{"a":4,"e":5},"":null,"f":-0.5e1}"#;
    for key in ["a", "b", "c", "d", "e", "z", "", "f", "g"] {
        lines.member(many, 1, key.as_bytes());
    }
    for key in ["z", "a"] {
        lines.member(many, 2, key.as_bytes());
    }
    for key in ["a", "e", "b", ""] {
        lines.member(many, 3, key.as_bytes());
    }
    lines.heading("Members: keys are compared undone");
    let escaped = br#"{"\u006datch":1,"a\"b":2,"\\":3,"\/":4}"#;
    for key in ["match", r"\u006datch", r"\u006Datch", r#"a\"b"#, r#"a"b"#, r"\\", r"\", r"\/", "/"] {
        lines.member(escaped, 1, key.as_bytes());
    }
    lines.member("{\"é\":1}".as_bytes(), 1, "é".as_bytes());
    lines.member(br#"{"\u00e9":1}"#, 1, "é".as_bytes());
    lines.member(br#"{"\u00E9":1}"#, 1, b"\xe9");
    lines.member(br#"{"\uD83D\ude00":1}"#, 1, "😀".as_bytes());
    let options = br#"[16,1,{"x":0,"\u0061ck\u006eowledge":true,"\u0022":1,"\u005C":2,"\t":3,"":4},"a"]"#;
    for key in ["acknowledge", "x", "\"", "\\", "\t", "t", "", "a", r"\u0061ck\u006eowledge"] {
        lines.member(options, 1, key.as_bytes());
    }
    let prefix = br#"[32,1,{"\u006d\u0061\u0074\u0063\u0068":"pre\u0066ix"},"a"]"#;
    for key in ["match", "matc", "matchh", "m", ""] {
        lines.member(prefix, 1, key.as_bytes());
    }
    lines.heading("Members: white space around them");
    lines.member(b" { \"a\" : 1 , \"b\"\n:\t[ 2 ] } ", 1, b"a");
    lines.member(b" { \"a\" : 1 , \"b\"\n:\t[ 2 ] } ", 1, b"b");
    lines.member(b"{ }", 1, b"a");
    lines.heading("Members: a value that looks like a key");
    lines.member(br#"{"a":"b","b":"a"}"#, 1, b"a");
    lines.member(br#"{"a":"b","b":"a"}"#, 1, b"b");
    lines.member(br#"{"x":"\"match\":1"}"#, 1, b"match");
    lines.member(br#"{"x":{"match":1}}"#, 1, b"match");
    lines.heading("Members: a value may nest as deep as the message allows");
    let inner = nested("[", "", "]", 6);
    lines.member(format!(r#"[48,1,{{"a":{inner}}},"p"]"#).as_bytes(), 1, b"a");
    lines.member(format!(r#"[48,1,{{"a":{inner},"b":1}},"p"]"#).as_bytes(), 1, b"b");
    let inner = nested(r#"{"a":"#, "1", "}", 6);
    lines.member(format!(r#"[48,1,{{"a":{inner}}},"p"]"#).as_bytes(), 1, b"a");
    lines.heading("Members: many, and the first and the last of them");
    let keys: Vec<String> = (0..100).map(|k| format!("\"k{k}\":{k}")).collect();
    let many = format!("{{{}}}", keys.join(","));
    for key in ["k0", "k1", "k50", "k99", "k100", "k"] {
        lines.member(many.as_bytes(), 1, key.as_bytes());
    }
}

fn members_that_choose_receivers(lines: &mut Lines) {
    lines.heading("Members of the options of PUBLISH that choose an event's receivers");
    let three = br#"[16,1,{"exclude_me":false,"exclude":[3, 4],"eligible":[ ]},"a"]"#;
    for key in ["exclude_me", "exclude", "eligible", "exclude_", "exclud", "eligibl", "_me", "acknowledge"] {
        lines.member(three, 1, key.as_bytes());
    }
    let beside = br#"[16,1,{"exclude_authid":["exclude"],"eligible_authrole":0,"exclude" : null},"a"]"#;
    for key in ["exclude_me", "exclude", "eligible"] {
        lines.member(beside, 1, key.as_bytes());
    }
    let escaped = br#"[16,1,{"exclud\u0065":[1],"\u0065ligible":[2],"exclude\u005Fme":true},"a"]"#;
    for key in ["exclude", "eligible", "exclude_me", r"exclud\u0065"] {
        lines.member(escaped, 1, key.as_bytes());
    }
    lines.member(br#"[16,1,{"x":{"exclude":[1]}},"a",[],{"exclude":[2]}]"#, 1, b"exclude");
}
