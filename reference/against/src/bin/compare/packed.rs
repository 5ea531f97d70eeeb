//! Messages in MessagePack: a draft of JSON taken over element by element, with a payload of the format's own; and
//! messages spoilt, or nearly so, by their elements, by their bytes, or both.

use crate::draft::Draft;
use crate::packs::{self, Longer, Odd, Pack, EDGES};
use crate::random::Random;
use crate::texts;
use reference::ids;
use reference::json::MAX_DEPTH;
use reference::message::MAX_LENGTH;
use reference::values::{self, Format, Value};

/// The bytes of a draft's message in MessagePack.
pub fn written(random: &mut Random, draft: &Draft) -> Vec<u8> {
    let longer = Longer(random.pick(&[0, 0, 8, 2, 1]));
    let mut elements = taken_over(random, draft);
    loop {
        let bytes = message(random, longer, &elements);
        // Too long a message is, mostly, sent without the payload's last part.
        if bytes.len() <= MAX_LENGTH || random.once_in(16) {
            return bytes;
        }
        elements.pop();
    }
}

/// A HELLO that is welcomed.
pub fn hello(random: &mut Random, realm: &str) -> Vec<u8> {
    let elements = [Pack::Integer(1), Pack::text(realm), Pack::Map(vec![])];
    let longer = Longer(random.pick(&[0, 1]));
    message(random, longer, &elements)
}

fn message(random: &mut Random, longer: Longer, elements: &[Pack]) -> Vec<u8> {
    let mut bytes = Vec::new();
    Pack::Array(elements.to_vec()).put(random, longer, &mut bytes);
    bytes
}

/// The draft's elements before its payload, and a payload: in a third of the messages that have any, one that is not
/// all in the formats' common values.
fn taken_over(random: &mut Random, draft: &Draft) -> Vec<Pack> {
    let is_payload = |element: &String| element.starts_with('[');
    let has_payload = draft.elements.iter().any(is_payload);
    let mut elements: Vec<_> =
        draft.elements.iter().take_while(|element| !is_payload(element)).map(|text| element(text)).collect();
    for element in &mut elements {
        if let Pack::Map(members) = element {
            vary_options(random, members);
        }
    }
    if has_payload {
        elements.extend(Odd(random.pick(&[0, 0, 0, 0, 12, 2])).payload(random));
    }
    elements
}

/// Now and then options have a key that is no str, or a bin stands in the place of a key or a value.
fn vary_options(random: &mut Random, members: &mut Vec<(Pack, Pack)>) {
    if random.once_in(6) {
        members.insert(0, (packs::odd_key(random, 3), Odd(4).value(random, 2)));
    }
    for (_, value) in members.iter_mut() {
        if random.once_in(24) {
            vary_option(random, value);
        }
    }
    if members.is_empty() || !random.once_in(16) {
        return;
    }
    let place = random.below(members.len());
    let (key, value) = &mut members[place];
    let part = if random.once_in(2) { key } else { value };
    if let Pack::Str(text) = part {
        *part = Pack::Bin(std::mem::take(text));
    }
}

/// What JSON has none of: in the place of a list's entry what looks like a number, in that of a literal what looks like it.
fn vary_option(random: &mut Random, value: &mut Pack) {
    match value {
        Pack::Array(items) if !items.is_empty() && !random.once_in(6) => {
            let place = random.below(items.len());
            let number = if let Pack::Integer(number) = items[place] { number } else { 1 };
            items[place] = no_integer(random, number);
        }
        Pack::Array(_) => *value = Pack::Bin(vec![0x91, 0x01]),
        Pack::Bool(bool) => {
            let byte = 0xc2 + u8::from(*bool);
            *value =
                [Pack::Bin(vec![byte]), Pack::Ext(0, vec![byte]), Pack::Float32(0)][random.below(3)].clone();
        }
        _ => {}
    }
}

/// A JSON text as a value. What has none becomes another value of its kind.
fn element(text: &str) -> Pack {
    match values::read(Format::Json, text.as_bytes(), 0, MAX_DEPTH) {
        Some((value, end)) if end == text.len() => pack(value),
        // No string of JSON, or one with a lone half: its bytes as they stand between the quotes.
        _ if text.starts_with('"') => Pack::text(text.trim_matches('"')),
        _ if text.starts_with('{') => Pack::Map(vec![(Pack::text("x"), Pack::Float64(1 << 62))]),
        _ => Pack::Float32(0x3f80_0000),
    }
}

fn pack(value: Value) -> Pack {
    match value {
        Value::Null => Pack::Nil,
        Value::Bool(bool) => Pack::Bool(bool),
        Value::Integer(integer) => Pack::Integer(integer),
        Value::Text(text) => Pack::Str(text),
        Value::List(items) => Pack::Array(items.into_iter().map(pack).collect()),
        Value::Dict(members) => {
            Pack::Map(members.into_iter().map(|(key, value)| (Pack::Str(key), pack(value))).collect())
        }
    }
}

/// The bytes of the message after some changes.
pub fn spoilt(random: &mut Random, draft: &Draft) -> Vec<u8> {
    let longer = Longer(random.pick(&[0, 0, 4, 1]));
    let mut elements = taken_over(random, draft);
    let how = random.below(10);
    if how < 7 {
        for _ in 0..random.between(1, 2) {
            change_elements(random, &mut elements);
        }
    }
    let mut bytes = message(random, longer, &elements);
    if how >= 6 {
        for _ in 0..random.pick(&[1, 1, 1, 2, 3]) {
            change_bytes(random, &mut bytes);
        }
    }
    bytes
}

/// First bytes of every form, and bytes that stand behind them.
const STRUCTURE: &[u8] = b"\x00\x01\x7f\x80\x81\x82\x8f\x90\x91\x93\x94\x97\x98\x9f\xa0\xa1\xbf\xc0\xc1\xc2\xc3\xc4\xc5\
    \xc6\xc7\xc8\xc9\xca\xcb\xcc\xcd\xce\xcf\xd0\xd1\xd2\xd3\xd4\xd5\xd6\xd7\xd8\xd9\xda\xdb\xdc\xdd\xde\xdf\xe0\xff";

/// Bytes that are hardly ever a message: any, or first bytes of forms; mostly an array to begin with.
pub fn random_bytes(random: &mut Random) -> Vec<u8> {
    let length = match random.below(4) {
        0 => random.below(4),
        1 => random.between(MAX_LENGTH - 2, MAX_LENGTH + 2),
        _ => random.below(64),
    };
    let structure = random.once_in(2);
    let byte = |random: &mut Random| if structure { random.pick(STRUCTURE) } else { random.byte() };
    let mut bytes: Vec<u8> = (0..length).map(|_| byte(random)).collect();
    if !bytes.is_empty() && !random.once_in(4) {
        bytes[0] = random.between(0x90, 0x98) as u8;
    }
    bytes
}

fn change_elements(random: &mut Random, elements: &mut Vec<Pack>) {
    if elements.is_empty() {
        return elements.push(Pack::Integer(1));
    }
    let place = random.below(elements.len());
    match random.below(21) {
        0 => drop(elements.remove(place)),
        1 => elements.insert(place, elements[place].clone()),
        2 => {
            let other = random.below(elements.len());
            elements.swap(place, other);
        }
        3 => elements[place] = Odd(3).value(random, 3),
        4 => elements[0] = message_number(random),
        5 | 6 => change_number(random, elements),
        7 => elements.extend(Odd(6).payload(random)),
        8 | 9 => put_alike(elements, place, packs::twins(random)),
        // It stands at depth 2, so that 7 levels are the most.
        10 => put_alike(elements, place, packs::nested_between(random, MAX_DEPTH - 3, MAX_DEPTH + 1)),
        11 => put_alike(elements, place, Pack::Str(texts::long(random).into_bytes())),
        12 => {
            let text = texts::odd(random);
            put_alike(elements, place, Pack::text(&text));
        }
        13 => spoil_text(random, elements),
        14 => as_bin(random, elements),
        15 | 16 => pad(random, elements),
        // What is no value, in an array of its own, mostly where a payload stands.
        17 => {
            let bad: [&[u8]; 9] = [
                b"\xc1",
                b"\xd9\x05a",
                b"\xdb\xff\xff\xff\xffa",
                b"\xdc\xff\xff",
                b"\xdf\x80\x00\x00\x00",
                b"\xc9\xff\xff\xff\xff\x00",
                b"\xcf\x00",
                b"\xd8\x00",
                b"",
            ];
            put_alike(elements, place, Pack::Array(vec![Pack::Raw(random.pick(&bad).to_vec())]));
        }
        // More elements than a message has.
        18 => elements.resize(random.between(6, 9), Pack::Map(vec![])),
        19 => spoil_member(random, elements),
        _ => elements.push(Odd(2).value(random, 1)),
    }
}

/// Puts a value in the place of an element of its kind, the last one; of any, if there is none.
fn put_alike(elements: &mut [Pack], place: usize, pack: Pack) {
    let kind = |pack: &Pack| std::mem::discriminant(pack);
    let alike = elements.iter().rposition(|element| kind(element) == kind(&pack));
    elements[alike.unwrap_or(place)] = pack;
}

/// The first key of a map, mostly that of an option, comes twice; or its value nests to the limit, or past it.
fn spoil_member(random: &mut Random, elements: &mut [Pack]) {
    let is_map = |at: &usize| matches!(&elements[*at], Pack::Map(members) if !members.is_empty());
    let Some(at) = random.pick_of((0..elements.len()).filter(is_map)) else { return };
    let Pack::Map(members) = &mut elements[at] else { return };
    if random.once_in(2) {
        members.push((members[0].0.clone(), Pack::Nil));
    } else {
        // It stands at depth 3, so that 6 levels are the most.
        members[0].1 = packs::nested_between(random, MAX_DEPTH - 4, MAX_DEPTH);
    }
}

/// A message number: mostly one of the protocol's, taken in or only sent or neither.
fn message_number(random: &mut Random) -> Pack {
    let taken_in = [1, 3, 6, 8, 16, 32, 34, 48, 64, 66, 70];
    match random.below(4) {
        0 | 1 => Pack::Integer(random.pick(&taken_in)),
        2 => {
            Pack::Integer(random.pick(&[0, 2, 4, 5, 7, 17, 33, 35, 36, 49, 50, 65, 67, 68, 69, 304, -1, -48]))
        }
        _ => no_integer(random, 48),
    }
}

/// Another number in the place of one: its neighbours, the ends of the range, or what is no integer.
fn change_number(random: &mut Random, elements: &mut [Pack]) {
    let numbers = (0..elements.len()).filter(|&at| matches!(elements[at], Pack::Integer(_)));
    let Some(at) = random.pick_of(numbers) else { return };
    let Pack::Integer(number) = elements[at] else { return };
    let last = i128::from(ids::MAX);
    elements[at] = match random.below(8) {
        0 => Pack::Integer((number + 1).min((1 << 64) - 1)),
        1 => Pack::Integer((number - 1).max(-(1 << 63))),
        2 => Pack::Integer(random.pick(&[0, 1, last, last + 1])),
        3 => Pack::Integer(random.pick(&EDGES)),
        4 => Pack::Integer(-number.min(1 << 62)),
        5 => Pack::Integer((number + (1 << 32)).min(last)),
        _ => no_integer(random, number),
    };
}

/// What looks like a number, and is no integer.
fn no_integer(random: &mut Random, number: i128) -> Pack {
    match random.below(6) {
        0 => Pack::Float32((number as f32).to_bits()),
        1 => Pack::Float64((number as f64).to_bits()),
        2 => Pack::text(&number.to_string()),
        3 => Pack::Bin(vec![number as u8]),
        4 => Pack::Ext(0, vec![number as u8]),
        _ => Pack::Nil,
    }
}

/// A str that is no UTF-8, in the place of one: an element, or within a payload or options.
fn spoil_text(random: &mut Random, elements: &mut [Pack]) {
    let bad = Pack::Str(packs::bad_text(random));
    let place = random.below(elements.len());
    match &mut elements[place] {
        Pack::Array(items) => items.push(bad),
        Pack::Map(members) if random.once_in(2) => members.push((bad, Pack::Nil)),
        Pack::Map(members) => members.push((Pack::text("bad"), bad)),
        element => *element = bad,
    }
}

/// A bin of a str's bytes in its place, or the str's bytes in an ext.
fn as_bin(random: &mut Random, elements: &mut [Pack]) {
    let texts = (0..elements.len()).filter(|&at| matches!(elements[at], Pack::Str(_)));
    let Some(at) = random.pick_of(texts) else { return };
    if let Pack::Str(text) = elements[at].clone() {
        elements[at] = if random.once_in(4) { Pack::Ext(1, text) } else { Pack::Bin(text) };
    }
}

/// Brings the message to 2,046 to 2,050 bytes, by a long text or bin in its payload, if there is room for one.
fn pad(random: &mut Random, elements: &mut Vec<Pack>) {
    let wanted = random.between(MAX_LENGTH - 2, MAX_LENGTH + 2);
    // Lengths are told of the shortest forms: where others are drawn, the message is longer.
    let length = message(random, Longer(0), elements).len();
    // An array of one value, with 4 bytes before the value's own.
    let Some(left) = wanted.checked_sub(length + 4).filter(|&left| left > 255) else { return };
    let byte = random.pick(b"x\0\"");
    let pack = if random.once_in(4) { Pack::Bin(vec![byte; left]) } else { Pack::Str(vec![byte; left]) };
    elements.push(Pack::Array(vec![pack]));
}

fn change_bytes(random: &mut Random, bytes: &mut Vec<u8>) {
    if bytes.is_empty() {
        return bytes.push(0x90);
    }
    let place = random.below(bytes.len());
    let short = random.below(6).min(bytes.len() - place);
    match random.below(11) {
        0 => bytes[place] ^= 1 << random.below(8),
        1 => bytes[place] = random.pick(STRUCTURE),
        // Cut, at its end or at its begin.
        2 | 3 => bytes.truncate(place),
        4 => drop(bytes.drain(..place)),
        5 => drop(bytes.drain(place..place + short)),
        6 => insert(bytes, place, &[random.pick(STRUCTURE)]),
        7 => {
            let copied = bytes[place..place + short].to_vec();
            let to = random.below(bytes.len());
            insert(bytes, to, &copied);
        }
        // Left over.
        8 => {
            let left: [&[u8]; 6] = [b"\xc0", b"\x00", b"\xc1", b"\x90", b"\x80", b"\xa0"];
            bytes.extend(random.pick(&left));
        }
        // Another count, or another form of the outer array.
        9 => {
            let heads: [&[u8]; 7] = [
                b"\x92",
                b"\x93",
                b"\x94",
                b"\x98",
                b"\xdc\x00\x04",
                b"\xdd\x00\x00\x00\x03",
                b"\xdd\xff\xff\xff\xff",
            ];
            bytes.remove(0);
            insert(bytes, 0, random.pick(&heads));
        }
        _ => bytes[place] = 0xc1,
    }
}

fn insert(bytes: &mut Vec<u8>, place: usize, inserted: &[u8]) {
    bytes.splice(place..place, inserted.iter().copied());
}

#[cfg(test)]
mod tests {
    use super::*;
    use reference::message::{read, Incoming};

    fn draft() -> Draft {
        Draft::new(0, ["48", "1", "{\"x\":1}", "\"a.b\"", "[1]"].map(str::to_string))
    }

    #[test]
    fn a_draft_is_taken_over() {
        let mut random = Random::new(4);
        let mut read_well = 0;
        for _ in 0..5000 {
            let bytes = written(&mut random, &draft());
            match read(Format::MsgPack, &bytes) {
                Ok(Incoming::Call { request: 1, procedure, .. }) => {
                    read_well += 1;
                    assert_eq!(&*procedure, b"a.b");
                }
                Ok(other) => panic!("{other:?}"),
                Err(_) => assert!(bytes.len() > MAX_LENGTH, "{bytes:02x?}"),
            }
        }
        assert!(read_well > 4900, "{read_well}");
        assert!(read(Format::MsgPack, &hello(&mut random, "hub.bus")).is_ok());
    }

    #[test]
    fn some_are_read_and_some_are_not() {
        let mut random = Random::new(4);
        let mut read_well = 0;
        let mut lengths = [0; 5];
        for _ in 0..10_000 {
            let bytes = spoilt(&mut random, &draft());
            read_well += usize::from(read(Format::MsgPack, &bytes).is_ok());
            if let Some(count) = lengths.get_mut(bytes.len().wrapping_sub(MAX_LENGTH - 2)) {
                *count += 1;
            }
            assert!(random_bytes(&mut random).len() <= MAX_LENGTH + 2);
        }
        assert!((1000..8000).contains(&read_well), "{read_well}");
        assert!(lengths.iter().all(|&count| count > 20), "{lengths:?}");
    }
}
