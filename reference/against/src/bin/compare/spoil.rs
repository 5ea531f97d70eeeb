//! Messages spoilt, or nearly so: a valid one is changed by its elements, by its bytes, or both.

use crate::draft::{quoted, string, Draft};
use crate::random::Random;
use crate::spelling::{self, Habit};
use crate::{texts, values};
use reference::json::MAX_DEPTH;
use reference::message::MAX_LENGTH;

/// The bytes of the message after some changes.
pub fn spoilt(random: &mut Random, mut draft: Draft) -> Vec<u8> {
    let how = random.below(10);
    if how < 7 {
        for _ in 0..random.between(1, 2) {
            change_elements(random, &mut draft);
        }
    }
    let mut bytes = draft.written(random);
    if how >= 5 {
        for _ in 0..random.pick(&[1, 1, 2, 3]) {
            change_bytes(random, &mut bytes);
        }
    }
    bytes
}

/// Bytes that are hardly ever a message: any, or those that JSON is made of.
pub fn random_bytes(random: &mut Random) -> Vec<u8> {
    let length = match random.below(4) {
        0 => random.below(4),
        1 => random.between(MAX_LENGTH - 2, MAX_LENGTH + 2),
        _ => random.below(64),
    };
    if random.once_in(2) {
        return (0..length).map(|_| random.byte()).collect();
    }
    (0..length).map(|_| random.pick(STRUCTURE)).collect()
}

const STRUCTURE: &[u8] = b"[[[]]]{}{}::,,,\"\"\"\\ua0123456789.-+eE tfn\n\x00\x1f\x20\x7f\x80\xc3\xa9\xff#";

fn change_elements(random: &mut Random, draft: &mut Draft) {
    let elements = &mut draft.elements;
    if elements.is_empty() {
        return elements.push("1".to_string());
    }
    let place = random.below(elements.len());
    match random.below(21) {
        0 => {
            elements.remove(place);
        }
        1 => elements.insert(place, elements[place].clone()),
        2 => {
            let other = random.below(elements.len());
            elements.swap(place, other);
        }
        3 => elements[place] = values::value(random, 3),
        4 => elements[0] = message_number(random),
        5 => change_number(random, elements),
        6 => elements.extend(values::payload(random)),
        7 => {
            let dicts = [
                r#"{"k":1,"k":1}"#,
                r#"{"a":1,"b":2,"a":3}"#,
                r#"{"":1,"":2}"#,
                r#"{"a":1,"\u0061":2}"#,
                r#"{"\u0061":1,"\u0061":2}"#,
                r#"{"match":"exact","match":"prefix"}"#,
                r#"{"acknowledge":true,"acknowledge":true}"#,
                r#"{"x":[{"y":{"k":1,"k":2}}]}"#,
                r#"{"match":"exact","m\u0061tch":"prefix"}"#,
                r#"{"acknowledge":true,"\u0061cknowledge":true}"#,
                r#"{"\ud800":1,"\uD800":2}"#,
                r#"{"\ud800":1,"\udc00":2}"#,
            ];
            put(elements, place, b'{', random.pick(&dicts).to_string());
        }
        8 => {
            // It stands at depth 2, so that 7 levels are the most.
            let depth = random.between(MAX_DEPTH - 3, MAX_DEPTH + 1);
            let nested = values::nested(random, depth);
            let first = nested.as_bytes()[0];
            put(elements, place, first, nested);
        }
        9 => {
            let text = string(&texts::long(random));
            let habit = random.pick(&[Habit::NONE, Habit::ALWAYS, Habit::LONE]);
            put(elements, place, b'"', spelling::respelled(random, &text, habit));
        }
        10 => put(elements, place, b'"', quoted(&texts::odd(random))),
        11 | 12 => pad(random, elements),
        // In a list of its own, mostly where a payload stands.
        13 | 14 => {
            let list = format!("[{}]", values::odd(random));
            if random.once_in(4) {
                elements[place] = list;
            } else {
                elements.retain(|element| !element.starts_with('['));
                elements.push(list);
            }
        }
        // Each string of an element that has any is spelled anew, or gets a lone half.
        15 | 16 => {
            let has_strings = |&at: &usize| elements[at].contains('"');
            let at = random.pick_of((0..elements.len()).filter(has_strings)).unwrap_or(place);
            let habit = random.pick(&[Habit::ALWAYS, Habit::LONE, Habit::LONE]);
            elements[at] = spelling::respelled(random, &elements[at], habit);
        }
        // Keys that are equal undone: in options or Details, or in a payload.
        17 | 18 => {
            let twins = values::twins(random);
            if twins.starts_with('{') && random.once_in(2) {
                put(elements, place, b'{', twins);
            } else {
                elements.retain(|element| !element.starts_with('['));
                elements.push(format!("[{twins}]"));
            }
        }
        19 => spoil_member(random, elements),
        _ => elements.push(random.pick(&["null", "1", "\"\"", "[]", "{}", "[[]]"]).to_string()),
    }
}

/// Puts a JSON text in the place of an element that begins with the byte, or of any if none does.
fn put(elements: &mut [String], place: usize, first: u8, text: String) {
    let alike = elements.iter().position(|element| element.as_bytes().first() == Some(&first));
    elements[alike.unwrap_or(place)] = text;
}

/// The first key of a dict, mostly that of an option, comes twice, spelled anew; or its value nests to the limit, or past it.
fn spoil_member(random: &mut Random, elements: &mut [String]) {
    let dicts = (0..elements.len()).filter(|&at| elements[at].starts_with("{\""));
    let Some(at) = random.pick_of(dicts) else { return };
    let Some(end) = spelling::end(&elements[at].as_bytes()[2..]) else { return };
    let (key, members) = (&elements[at][1..end + 3], &elements[at][1..]);
    elements[at] = if random.once_in(2) {
        format!("{{{}:0,{members}", spelling::respelled(random, key, Habit::ALWAYS))
    } else {
        // It stands at depth 3, so that 6 levels are the most.
        let depth = random.between(MAX_DEPTH - 4, MAX_DEPTH);
        format!("{{{key}:{}}}", values::nested(random, depth))
    };
}

/// A message number: mostly one of the protocol's, taken in or only sent or neither.
fn message_number(random: &mut Random) -> String {
    let taken_in = [1, 3, 6, 8, 16, 32, 34, 48, 64, 66, 70];
    match random.below(3) {
        0 => random.pick(&taken_in).to_string(),
        1 => random.pick(&[2, 4, 5, 7, 17, 33, 35, 36, 49, 50, 65, 67, 68, 69]).to_string(),
        _ => random.pick(&["0", "01", "-1", "1.0", "1e0", "255", "256", "304", "\"48\""]).to_string(),
    }
}

/// Another number in the place of one: its neighbours, the ends of the range, or another spelling.
fn change_number(random: &mut Random, elements: &mut [String]) {
    let is_number = |element: &&mut String| element.as_bytes().first().is_some_and(u8::is_ascii_digit);
    let numbers: Vec<_> = elements.iter_mut().filter(is_number).collect();
    let count = numbers.len();
    if count == 0 {
        return;
    }
    let element = numbers.into_iter().nth(random.below(count)).expect("one of them");
    let number: u64 = element.parse().unwrap_or(1);
    *element = match random.below(14) {
        0 => "0".to_string(),
        1 => number.saturating_sub(1).to_string(),
        2 => number.saturating_add(1).to_string(),
        3 => "9007199254740992".to_string(),
        4 => "9007199254740993".to_string(),
        5 => "18446744073709551617".to_string(),
        6 => "9".repeat(random.between(17, 400)),
        7 => format!("0{number}"),
        8 => format!("-{number}"),
        9 => format!("{number}.0"),
        10 => format!("{number}e0"),
        11 => format!("+{number}"),
        12 => format!("\"{number}\""),
        _ => random.between(1, 40).to_string(),
    };
}

/// Brings the message to 2,046 to 2,050 bytes, by white space or by a long string in its payload.
fn pad(random: &mut Random, elements: &mut Vec<String>) {
    let wanted = random.between(MAX_LENGTH - 2, MAX_LENGTH + 2);
    let brackets_and_commas = 1 + elements.len();
    let written = brackets_and_commas + elements.iter().map(String::len).sum::<usize>();
    let place = random.below(elements.len());
    if random.once_in(2) && written <= wanted {
        elements[place] += &" ".repeat(wanted - written);
    } else if written + 5 <= wanted {
        // A list of one string, with its comma, brackets and quotes.
        elements.push(format!("[\"{}\"]", "x".repeat(wanted - written - 5)));
    }
}

fn change_bytes(random: &mut Random, bytes: &mut Vec<u8>) {
    if bytes.is_empty() {
        return bytes.push(b'[');
    }
    let place = random.below(bytes.len());
    let short = random.below(6).min(bytes.len() - place);
    match random.below(10) {
        0 => bytes[place] ^= 1 << random.below(8),
        1 => bytes[place] = random.pick(STRUCTURE),
        2 => bytes.truncate(place),
        3 => drop(bytes.drain(..place)),
        4 => drop(bytes.drain(place..place + short)),
        5 => insert(bytes, place, &[random.pick(STRUCTURE)]),
        6 => {
            let copied = bytes[place..place + short].to_vec();
            let to = random.below(bytes.len());
            insert(bytes, to, &copied);
        }
        7 => {
            insert(bytes, place, random.pick(&[b" ".as_slice(), b"\n", b"\x0b", b"\x0c", b"\xc2\xa0", b"\0"]))
        }
        8 => {
            let sequence = utf8_edge(random);
            // Inside a string, if there is one: behind a quote.
            let quote = bytes[place..].iter().position(|&byte| byte == b'"');
            insert(bytes, quote.map_or(place, |behind| place + behind + 1), &sequence);
        }
        _ => {
            let at = random.pick(&[0, bytes.len()]);
            insert(
                bytes,
                at,
                random.pick(&[b"\xef\xbb\xbf".as_slice(), b" ", b"[", b"]", b"x", b",", b"\0"]),
            );
        }
    }
}

/// A sequence at an edge of UTF-8: the first or the last of a length, or one next to it; or any bytes of the
/// table's edges.
fn utf8_edge(random: &mut Random) -> Vec<u8> {
    let well_formed: [&[u8]; 10] = [
        b"\xc2\x80",
        b"\xdf\xbf",
        b"\xe0\xa0\x80",
        b"\xec\xbf\xbf",
        b"\xed\x9f\xbf",
        b"\xee\x80\x80",
        b"\xef\xbf\xbf",
        b"\xf0\x90\x80\x80",
        b"\xf3\xbf\xbf\xbf",
        b"\xf4\x8f\xbf\xbf",
    ];
    let ill_formed: [&[u8]; 14] = [
        b"\x80",
        b"\xbf",
        b"\xc0\xaf",
        b"\xc1\xbf",
        b"\xc2\x7f",
        b"\xc3",
        b"\xe0\x9f\xbf",
        b"\xe2\x82",
        b"\xed\xa0\x80",
        b"\xf0\x8f\xbf\xbf",
        b"\xf0\x90\x80",
        b"\xf4\x90\x80\x80",
        b"\xf5\x80\x80\x80",
        b"\xff",
    ];
    match random.below(3) {
        0 => random.pick(&well_formed).to_vec(),
        1 => random.pick(&ill_formed).to_vec(),
        _ => {
            let firsts = b"\xc1\xc2\xdf\xe0\xe1\xec\xed\xee\xef\xf0\xf1\xf3\xf4\xf5";
            let tails = b"\x7f\x80\x8f\x90\x9f\xa0\xbf\xc0";
            let length = random.between(1, 3);
            let tail: Vec<u8> = (0..length).map(|_| random.pick(tails)).collect();
            [&[random.pick(firsts)], &tail[..]].concat()
        }
    }
}

fn insert(bytes: &mut Vec<u8>, place: usize, inserted: &[u8]) {
    bytes.splice(place..place, inserted.iter().copied());
}

#[cfg(test)]
mod tests {
    use super::*;
    use reference::format::Format;
    use reference::message;

    #[test]
    fn some_are_read_and_some_are_not() {
        let mut random = Random::new(4);
        let elements = ["48", "1", "{}", "\"a.b\"", "[1]"].map(str::to_string);
        let draft = Draft::new(0, elements);
        let mut read = 0;
        let mut lengths = [0; 5];
        for _ in 0..5000 {
            let bytes = spoilt(&mut random, draft.clone());
            read += usize::from(message::read(Format::Json, &bytes).is_ok());
            if let Some(count) = lengths.get_mut(bytes.len().wrapping_sub(MAX_LENGTH - 2)) {
                *count += 1;
            }
        }
        assert!((500..4500).contains(&read), "{read}");
        assert!(lengths.iter().all(|&count| count > 20), "{lengths:?}");
    }
}
