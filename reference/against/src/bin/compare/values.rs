//! JSON values for payloads and options.

use crate::random::Random;
use crate::spelling;

/// A value that opens at most `depth` lists and dicts inside each other.
pub fn value(random: &mut Random, depth: usize) -> String {
    match random.below(if depth == 0 { 5 } else { 8 }) {
        0 => random.pick(&["true", "false", "null"]).to_string(),
        1 => random.below(1000).to_string(),
        2 => random.pick(&["0", "-0", "-1", "1.50", "1e5", "-2E-3", "0.1e+2", "12345678901234567890"]).into(),
        3 => string(random),
        4 => "\"D17\"".to_string(),
        5 | 6 => list(random, depth - 1),
        _ => dict(random, depth - 1),
    }
}

fn string(random: &mut Random) -> String {
    let texts = [
        "",
        "a",
        "é",
        "\u{10ffff}",
        "\\n",
        "\\u00e9",
        "\\ud834\\udd1e",
        "\\\\\\\"",
        "[,]{}:",
        " x ",
        "€/",
        "\\ud834",
        "\\udd1e",
        "\\u0000",
    ];
    format!("\"{}\"", random.pick(&texts))
}

/// A list whose values open at most `depth` more.
pub fn list(random: &mut Random, depth: usize) -> String {
    let count = random.below(4);
    let values: Vec<_> = (0..count).map(|_| value(random, depth)).collect();
    format!("[{}]", values.join(random.pick(&[",", ",", " , ", ",\n"])))
}

/// A dict with keys that are distinct undone, whose values open at most `depth` more.
pub fn dict(random: &mut Random, depth: usize) -> String {
    let keys = ["k", "", "a", "é", "match", "topic", "\\u0062", "€", "\\ud834", "\\udd1e", "\\\"", "x/y"];
    let (first, count) = (random.below(keys.len()), random.below(4));
    let members: Vec<_> = (first..first + count)
        .map(|place| format!("\"{}\":{}", keys[place % keys.len()], value(random, depth)))
        .collect();
    format!("{{{}}}", members.join(random.pick(&[",", " , "])))
}

/// A dict, or one in a list or a dict, with two keys that are mostly equal undone and differ as they are written.
pub fn twins(random: &mut Random) -> String {
    let (one, other) = spelling::twins(random);
    let dict = match random.below(3) {
        0 => format!("{{\"{one}\":1,\"{other}\":2}}"),
        1 => format!("{{\"{one}\":[],\"k\":{{}},\"{other}\":\"\"}}"),
        _ => format!("{{\"k\":true,\"{one}\":true,\"l\":0,\"m\":0,\"{other}\":true}}"),
    };
    match random.below(4) {
        0 => format!("[{dict}]"),
        1 => format!("{{\"x\":[1,{dict}]}}"),
        _ => dict,
    }
}

/// Lists or dicts inside each other, `depth` of them, which is not 0.
pub fn nested(random: &mut Random, depth: usize) -> String {
    let mut text = random.pick(&["[]", "{}"]).to_string();
    for _ in 1..depth {
        text = match random.below(3) {
            0 => format!("{{\"a\":{text}}}"),
            1 => format!("[{text}]"),
            _ => format!("[{text},1]"),
        };
    }
    text
}

/// A text that is no JSON value, or is one that looks as if it were none.
pub fn odd(random: &mut Random) -> &'static str {
    random.pick(&[
        "-",
        "+1",
        "00",
        "01",
        "-01",
        ".5",
        "1.",
        "1.e1",
        "1e",
        "1e+",
        "0x1",
        "1_0",
        "NaN",
        "-Infinity",
        "tru",
        "True",
        "truex",
        "nul",
        "nulll",
        "falsey",
        "\"\\x\"",
        "\"\\u12\"",
        "\"\\u123g\"",
        "\"\\U0041\"",
        "\"a\nb\"",
        "\"a\u{1f}b\"",
        "\"",
        "'a'",
        "1,",
        ",1",
        "1 2",
        "[1",
        "1]",
        "{",
        "}",
        "{\"a\"}",
        "{\"a\":}",
        "{\"a\":1,}",
        "{a:1}",
        "{1:1}",
        "{,}",
        "[}",
        "{]",
        "{\"a\" 1}",
        "{\"a\"::1}",
        "\"a\" \"b\"",
        "-0",
        "-0.0e-0",
        "0E0",
        "1e999",
        "\"\\ud800\"",
        "\"\\/\\b\\f\"",
        "\"\u{7f}\"",
        "{ }",
        "[ ]",
        "{\t\"a\"\n:\r1 }",
        "\"\\u0000\"",
    ])
}

/// The optional payload: nothing, a list, or a list and a dict. Its values stand at depth 2.
pub fn payload(random: &mut Random) -> Vec<String> {
    match random.below(24) {
        0..=7 => vec![],
        8..=11 => vec!["[]".to_string()],
        12..=15 => vec![list(random, 3)],
        16..=19 => vec![list(random, 6), dict(random, 2)],
        20..=22 => vec!["[]".to_string(), dict(random, 6)],
        // A long one: the message it is in has still at most 2,048 bytes, mostly.
        _ => vec![format!("[\"{}\"]", "long ".repeat(random.below(380)))],
    }
}

#[cfg(test)]
mod tests {
    use super::*;
    use reference::json;

    #[test]
    fn values_are_json_to_their_depth() {
        let mut random = Random::new(3);
        for _ in 0..5000 {
            let text = value(&mut random, json::MAX_DEPTH);
            assert!(json::is_text(text.as_bytes()), "{text}");
            let (list, dict) = (list(&mut random, 7), dict(&mut random, 7));
            assert!(json::is_text(list.as_bytes()), "{list}");
            assert!(json::is_text(dict.as_bytes()), "{dict}");
            for part in payload(&mut random) {
                assert!(json::is_text(format!("[{part}]").as_bytes()), "{part}");
            }
            let text = nested(&mut random, 8);
            assert!(json::is_text(text.as_bytes()), "{text}");
            let text = nested(&mut random, 9);
            assert!(!json::is_text(text.as_bytes()), "{text}");
        }
    }
}
