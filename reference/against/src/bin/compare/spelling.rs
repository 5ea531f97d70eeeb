//! How strings are spelled: with escapes for some of their characters, or for all (RFC 8259, section 7). A string
//! spelled anew stands for the same text, unless it gets a lone surrogate half.

use crate::random::Random;

/// How often the strings of a JSON text are spelled anew.
#[derive(Clone, Copy, Debug, PartialEq, Eq)]
pub struct Habit {
    /// One string in so many; 0 for none.
    pub one_in: usize,
    /// Of these, one in so many gets a lone half; 0 for none.
    pub lone_in: usize,
}

impl Habit {
    /// Every string is spelled as it stands.
    pub const NONE: Habit = Habit { one_in: 0, lone_in: 0 };
    /// Every string is spelled anew.
    pub const ALWAYS: Habit = Habit { one_in: 1, lone_in: 0 };
    /// Every string gets a lone half.
    pub const LONE: Habit = Habit { one_in: 1, lone_in: 1 };
}

/// True once in `times`; never where that is 0.
fn once_in(random: &mut Random, times: usize) -> bool {
    times > 0 && random.once_in(times)
}

/// A text as it stands between quotes, with no escape but those that it needs.
pub fn plain(text: &str) -> String {
    let mut written = String::new();
    text.chars().for_each(|character| put_plain(&mut written, character));
    written
}

fn put_plain(written: &mut String, character: char) {
    match character {
        '"' | '\\' => written.extend(['\\', character]),
        '\0'..='\u{1f}' => *written += &format!("\\u{:04x}", u32::from(character)),
        _ => written.push(character),
    }
}

/// The JSON text with some of its strings spelled anew. What is no string stays as it is, and so does a string that
/// is none of JSON.
pub fn respelled(random: &mut Random, json: &str, habit: Habit) -> String {
    let mut written = String::new();
    let mut rest = json;
    while let Some(quote) = rest.find('"') {
        written += &rest[..=quote];
        rest = &rest[quote + 1..];
        let Some(end) = end(rest.as_bytes()) else { break };
        let string = &rest[..end];
        match codes(string).filter(|_| once_in(random, habit.one_in)) {
            Some(mut codes) => {
                if once_in(random, habit.lone_in) {
                    put_half(random, &mut codes);
                }
                written += &spelled(random, &codes);
            }
            None => written += string,
        }
        written.push('"');
        rest = &rest[end + 1..];
    }
    written + rest
}

/// Where the string ends whose first quote stands before the bytes.
pub fn end(bytes: &[u8]) -> Option<usize> {
    let mut at = 0;
    loop {
        match bytes.get(at)? {
            b'"' => return Some(at),
            b'\\' => at += 2,
            _ => at += 1,
        }
    }
}

/// The codes that a string stands for, a lone half being its own; `None` where an escape is none of JSON.
fn codes(string: &str) -> Option<Vec<u32>> {
    let mut units = Vec::new();
    let mut characters = string.chars();
    while let Some(character) = characters.next() {
        if character != '\\' {
            units.extend(character.encode_utf16(&mut [0; 2]).iter().copied());
            continue;
        }
        units.push(match characters.next()? {
            'u' => {
                let digits = characters.as_str().get(..4)?;
                digits.bytes().all(|digit| digit.is_ascii_hexdigit()).then_some(())?;
                characters = characters.as_str()[4..].chars();
                u16::from_str_radix(digits, 16).ok()?
            }
            'b' => 0x08,
            't' => 0x09,
            'n' => 0x0a,
            'f' => 0x0c,
            'r' => 0x0d,
            itself @ ('"' | '\\' | '/') => itself as u16,
            _ => return None,
        });
    }
    let code = |unit: Result<char, std::char::DecodeUtf16Error>| {
        unit.map_or_else(|half| u32::from(half.unpaired_surrogate()), u32::from)
    };
    Some(char::decode_utf16(units).map(code).collect())
}

/// Puts a lone half somewhere, often at the end; or two that are no pair.
fn put_half(random: &mut Random, codes: &mut Vec<u32>) {
    let at = if random.once_in(4) { codes.len() } else { random.below(codes.len() + 1) };
    let any = |random: &mut Random, first: usize, last: usize| {
        let between = random.between(first, last);
        random.pick(&[first, last, between]) as u32
    };
    let high = any(random, 0xd800, 0xdbff);
    let low = any(random, 0xdc00, 0xdfff);
    let halves: &[u32] = match random.below(8) {
        0..=2 => &[high],
        3 | 4 => &[low],
        5 => &[low, high],
        6 => &[low, low],
        _ => &[high, high],
    };
    codes.splice(at..at, halves.iter().copied());
}

/// The codes with some of them, or all, as escapes.
fn spelled(random: &mut Random, codes: &[u32]) -> String {
    let how = random.below(if codes.len() > 200 { 2 } else { 4 });
    let chosen = random.below(codes.len().max(1));
    let mut written = String::new();
    for (place, &code) in codes.iter().enumerate() {
        let is_escaped = match how {
            0 => place == chosen,
            1 => place == chosen || random.once_in(16),
            2 => random.once_in(2),
            _ => true,
        };
        match char::from_u32(code) {
            Some(character) if !is_escaped => put_plain(&mut written, character),
            _ => put_escape(random, &mut written, code),
        }
    }
    written
}

/// Puts a code as an escape: the short one, if it has one, or by its hex digits, in either case.
fn put_escape(random: &mut Random, written: &mut String, code: u32) {
    let short = match code {
        0x22 => "\\\"",
        0x5c => "\\\\",
        0x2f => "\\/",
        0x08 => "\\b",
        0x0c => "\\f",
        0x0a => "\\n",
        0x0d => "\\r",
        0x09 => "\\t",
        _ => "",
    };
    if !short.is_empty() && random.once_in(2) {
        *written += short;
        return;
    }
    let mut units = [0; 2];
    let units = match char::from_u32(code) {
        Some(character) => character.encode_utf16(&mut units),
        None => {
            units[0] = code as u16;
            &mut units[..1]
        }
    };
    for unit in units {
        *written += "\\u";
        for digit in format!("{unit:04x}").chars() {
            written.push(if random.once_in(2) { digit.to_ascii_uppercase() } else { digit });
        }
    }
}

/// Two keys that differ as they are written, and are one key undone; or nearly so, and are two.
pub fn twins(random: &mut Random) -> (String, String) {
    let texts = [
        "a",
        "match",
        "acknowledge",
        "é",
        "/",
        "\"",
        "\\",
        "\\u0061",
        "€",
        "𝄞",
        "\n",
        "a\0",
        "\u{7f}\u{80}",
        "\u{7ff}\u{800}",
        "\u{ffff}\u{10000}",
    ];
    let text = plain(random.pick(&texts));
    let mut codes = codes(&text).expect("a string of JSON");
    if random.once_in(4) {
        put_half(random, &mut codes);
    }
    let one = spelled(random, &codes);
    match random.below(8) {
        // The last code is another one.
        0 => *codes.last_mut().expect("not empty") ^= 1,
        1 => codes.reverse(),
        2 => codes.push(0),
        _ => {}
    }
    let other = spelled(random, &codes);
    (one, other)
}

#[cfg(test)]
mod tests {
    use super::*;
    use reference::json;
    use reference::strings::undone;

    /// What stands between the quotes of a JSON text that is one string.
    fn inside(json: &str) -> &[u8] {
        &json.as_bytes()[1..json.len() - 1]
    }

    #[test]
    fn a_string_spelled_anew_stands_for_the_same_text() {
        let mut random = Random::new(8);
        let (mut changed, mut raw) = (0, 0);
        for text in ["", "hub.donor.defer", "é€𝄞\u{7f}\u{80}", "\"\\/", "\u{8}\u{c}\n\r\t\0\u{1f}", "\\u0061"]
        {
            let written = format!("\"{}\"", plain(text));
            assert!(json::is_text(written.as_bytes()), "{written}");
            assert_eq!(*undone(inside(&written)).text, *text.as_bytes());
            for _ in 0..200 {
                let anew = respelled(&mut random, &written, Habit::ALWAYS);
                assert!(json::is_text(anew.as_bytes()), "{anew}");
                let found = undone(inside(&anew));
                assert_eq!((&*found.text, found.has_lone_half), (text.as_bytes(), false), "{anew}");
                // And back, where it is spelled otherwise again.
                let again = respelled(&mut random, &anew, Habit::ALWAYS);
                assert_eq!(*undone(inside(&again)).text, *text.as_bytes(), "{again}");
                changed += usize::from(anew != written);
                raw += usize::from(anew.contains('𝄞'));
            }
        }
        assert!(changed > 850 && raw > 50, "{changed} {raw}");
    }

    #[test]
    fn lone_halves() {
        let mut random = Random::new(8);
        let mut lone = 0;
        for _ in 0..1000 {
            let anew = respelled(&mut random, "\"a.b\"", Habit::LONE);
            assert!(json::is_text(anew.as_bytes()), "{anew}");
            lone += usize::from(undone(inside(&anew)).has_lone_half);
            // They stay what they are when the string is spelled anew.
            let again = respelled(&mut random, &anew, Habit::ALWAYS);
            assert_eq!(undone(inside(&again)), undone(inside(&anew)), "{anew} {again}");
        }
        assert_eq!(lone, 1000);
    }

    #[test]
    fn what_is_no_string_stays() {
        let mut random = Random::new(8);
        for text in ["", "[1,{}]", "\"", "\"a", "\"\\\"", "\"\\x\"", "\"\\u12\"", "\"\\u123g\"", "\"\\"] {
            assert_eq!(respelled(&mut random, text, Habit::ALWAYS), text);
        }
        assert_eq!(respelled(&mut random, "[\"a\",{\"b\":\"c\"}]", Habit::NONE), "[\"a\",{\"b\":\"c\"}]");
        let anew = respelled(&mut random, "[\"a\\\\\", 1 ,{\"b\":[\"\",\"]\"]}]", Habit::ALWAYS);
        assert!(json::is_text(anew.as_bytes()), "{anew}");
    }

    #[test]
    fn most_twins_are_one_key() {
        let mut random = Random::new(8);
        let (mut equal, mut written) = (0, 0);
        for _ in 0..2000 {
            let (one, other) = twins(&mut random);
            let dict = format!("{{\"{one}\":1,\"{other}\":2}}");
            equal += usize::from(!json::is_text(dict.as_bytes()));
            written += usize::from(one == other);
        }
        assert!((1000..1900).contains(&equal) && written < 500, "{equal} {written}");
    }
}
