//! Replays a script of steps through the hub of `reference`, and writes each step with its outcome and the
//! messages that it sends.
//!
//! ```text
//! replay             the script examples/worst_shift.steps of the repository
//! replay FILE        the script in a file
//! replay -           the script on standard input
//! ```
//!
//! docs/REPLAY.md says what a script is and what is written. The proved program writes the same bytes, so that
//! what this one writes on a script is what that one must write on it. The exit status is 1 where the script
//! cannot be read or has a line that cannot be.

use reference::settings::DEFAULT_BYTES;
use reference::values::{self, Format};
use reference::{hub, state};
use std::io::{Read, Write};
use std::path::Path;
use std::process::ExitCode;

/// The lent output of each step.
const ROOM: usize = 65_536;

/// The longest script.
const LONGEST: usize = 1_048_576;

/// How deep a message nests.
const DEPTH: usize = 8;

/// The longest JSON text that a message in MessagePack is shown as.
const LONGEST_SHOWN: usize = 32_768;

/// The names of the refusals, from number 1 on.
const REFUSALS: [&str; 5] = ["BAD STATE", "BAD SLOT", "WRONG TIME", "BAD NUMBER", "NO ROOM"];

/// Why a line cannot be read.
mod reasons {
    pub const UNKNOWN_WORD: &str = "the first word is not attach, attach_msgpack, detach, send or bytes";
    pub const NO_SLOT: &str = "the slot is missing or no number";
    pub const NO_NUMBER: &str = "the lent number is missing or no number";
    pub const NO_MESSAGE: &str = "the message is missing";
    pub const TOO_LARGE: &str = "a number does not fit 64 bits";
    pub const AFTER_SLOT: &str = "something stands after the slot";
    pub const NO_HEX: &str = "the bytes are no hex digits";
}

#[derive(Debug, PartialEq, Eq)]
enum Line<'t> {
    Blank,
    Attach { slot: u64 },
    AttachMsgpack { slot: u64 },
    Detach { slot: u64 },
    Send { slot: u64, number: u64, message: &'t [u8] },
    Bytes { slot: u64, number: u64, message: Vec<u8> },
}

fn main() -> ExitCode {
    let script = match script(std::env::args().skip(1).collect()) {
        Ok(script) => script,
        Err(reason) => {
            eprintln!("{reason}");
            return ExitCode::FAILURE;
        }
    };
    let (written, all_read) = replayed(&script);
    if let Err(error) = std::io::stdout().write_all(&written) {
        eprintln!("standard output: {error}");
        return ExitCode::FAILURE;
    }
    if all_read {
        ExitCode::SUCCESS
    } else {
        ExitCode::FAILURE
    }
}

/// The script that the arguments name.
fn script(arguments: Vec<String>) -> Result<Vec<u8>, String> {
    let path = match arguments.as_slice() {
        [] => Path::new(env!("CARGO_MANIFEST_DIR")).join("../examples/worst_shift.steps"),
        [path] if path == "-" => {
            let mut script = Vec::new();
            let read = std::io::stdin().read_to_end(&mut script);
            return read.map(|_| script).map_err(|error| format!("standard input: {error}"));
        }
        [path] => path.into(),
        _ => return Err("usage: replay [FILE | -]".to_string()),
    };
    std::fs::read(&path).map_err(|error| format!("{}: {error}", path.display()))
}

/// What is written on a script, from an empty hub; and whether all its lines could be read.
fn replayed(script: &[u8]) -> (Vec<u8>, bool) {
    if script.len() > LONGEST {
        return (
            format!("the script is longer than {LONGEST} bytes, and no step is run\n").into_bytes(),
            false,
        );
    }
    let mut written = Vec::new();
    let mut state = vec![0; state::BYTES];
    let mut steps = 0;
    let script = script.strip_suffix(b"\n").unwrap_or(script);
    for (index, line) in script.split(|&byte| byte == b'\n').enumerate() {
        let line = line.strip_suffix(b"\r").unwrap_or(line);
        match read(line) {
            Ok(Line::Blank) => {}
            Ok(step) => {
                steps += 1;
                written.extend(format!("{steps}: ").bytes());
                written.extend(line);
                written.push(b'\n');
                run(&step, &mut state, &mut written);
            }
            Err(reason) => {
                written.extend(format!("line {}: {reason}\n", index + 1).bytes());
                return (written, false);
            }
        }
    }
    (written, true)
}

/// Runs a step, and writes its outcome and its messages.
fn run(step: &Line, state: &mut [u8], written: &mut Vec<u8>) {
    let mut out = vec![0; ROOM];
    let answer = match *step {
        Line::Blank => return,
        Line::Attach { slot } => hub::attach(slot, &DEFAULT_BYTES, state, &mut out),
        Line::AttachMsgpack { slot } => hub::attach_msgpack(slot, &DEFAULT_BYTES, state, &mut out),
        Line::Detach { slot } => hub::detach(slot, &DEFAULT_BYTES, state, &mut out),
        Line::Send { slot, number, message } => {
            hub::message(slot, number, message, &DEFAULT_BYTES, state, &mut out)
        }
        Line::Bytes { slot, number, ref message } => {
            hub::message(slot, number, message, &DEFAULT_BYTES, state, &mut out)
        }
    };
    let (count, refusal) = ((answer / 256) as usize, (answer % 256) as usize);
    if refusal > 0 {
        written.extend(format!("  -> refused {refusal} {}\n", REFUSALS[refusal - 1]).bytes());
        return;
    }
    written.extend(format!("  -> done, {count} bytes\n").bytes());
    let entries = usize::from(u16::from_be_bytes([out[0], out[1]]));
    let (contents, mut bodies) = out[2..count].split_at(3 * entries);
    for entry in contents.chunks(3) {
        let (body, rest) = bodies.split_at(usize::from(u16::from_be_bytes([entry[1], entry[2]])));
        written.extend(format!("  -> slot {}: ", entry[0]).bytes());
        written.extend(shown(body));
        written.push(b'\n');
        bodies = rest;
    }
}

/// A message as it is shown: one in JSON as it is, one in MessagePack as the JSON text of its value or in hex.
fn shown(body: &[u8]) -> Vec<u8> {
    if body.first().is_none_or(|&byte| byte < 0x80) {
        return body.to_vec();
    }
    match values::convert(Format::MsgPack, Format::Json, DEPTH, body, 0) {
        Some((json, end)) if end == body.len() && json.len() <= LONGEST_SHOWN => {
            [b"msgpack ", &json[..]].concat()
        }
        _ => {
            let digits: String = body.iter().map(|byte| format!("{byte:02x}")).collect();
            format!("msgpack hex {digits}").into_bytes()
        }
    }
}

/// Reads a line that has neither its line feed nor a carriage return at its end.
fn read(line: &[u8]) -> Result<Line<'_>, &'static str> {
    let (word, rest) = next_word(line);
    match word {
        b"" | [b'#', ..] => Ok(Line::Blank),
        b"attach" => Ok(Line::Attach { slot: slot_alone(rest)? }),
        b"attach_msgpack" => Ok(Line::AttachMsgpack { slot: slot_alone(rest)? }),
        b"detach" => Ok(Line::Detach { slot: slot_alone(rest)? }),
        b"send" => {
            let (slot, number, message) = sent(rest)?;
            Ok(Line::Send { slot, number, message })
        }
        b"bytes" => {
            let (slot, number, digits) = sent(rest)?;
            Ok(Line::Bytes { slot, number, message: bytes(digits)? })
        }
        _ => Err(reasons::UNKNOWN_WORD),
    }
}

/// The slot, the lent number and the rest of the line after the one space behind it.
fn sent(text: &[u8]) -> Result<(u64, u64, &[u8]), &'static str> {
    let (slot, rest) = next_word(text);
    let (number, rest) = next_word(rest);
    let slot = value(slot, reasons::NO_SLOT)?;
    let number = value(number, reasons::NO_NUMBER)?;
    Ok((slot, number, rest.strip_prefix(b" ").ok_or(reasons::NO_MESSAGE)?))
}

/// The bytes that hex digits give, two a byte.
fn bytes(digits: &[u8]) -> Result<Vec<u8>, &'static str> {
    let digit = |byte: u8| char::from(byte).to_digit(16).map(|digit| digit as u8);
    let byte = |pair: &[u8]| match *pair {
        [high, low] => Some(digit(high)? * 16 + digit(low)?),
        _ => None,
    };
    digits.chunks(2).map(byte).collect::<Option<_>>().ok_or(reasons::NO_HEX)
}

/// The word behind any spaces, up to the next space; and what follows it.
fn next_word(text: &[u8]) -> (&[u8], &[u8]) {
    let start = text.iter().position(|&byte| byte != b' ').unwrap_or(text.len());
    let text = &text[start..];
    text.split_at(text.iter().position(|&byte| byte == b' ').unwrap_or(text.len()))
}

/// A slot after which nothing but spaces stands.
fn slot_alone(text: &[u8]) -> Result<u64, &'static str> {
    let (slot, rest) = next_word(text);
    if rest.iter().any(|&byte| byte != b' ') {
        return Err(reasons::AFTER_SLOT);
    }
    value(slot, reasons::NO_SLOT)
}

/// The number that a word is; `missing` is the reason where it is empty or has another byte than a digit.
fn value(word: &[u8], missing: &'static str) -> Result<u64, &'static str> {
    if word.is_empty() || !word.iter().all(u8::is_ascii_digit) {
        return Err(missing);
    }
    let digit = |value: u64, byte: &u8| value.checked_mul(10)?.checked_add(u64::from(byte - b'0'));
    word.iter().try_fold(0, digit).ok_or(reasons::TOO_LARGE)
}

#[cfg(test)]
mod tests {
    use super::*;

    #[test]
    fn lines() {
        let sends = |message| Ok(Line::Send { slot: 0, number: 4711, message });
        let bytes = |message: &[u8]| Ok(Line::Bytes { slot: 0, number: 4711, message: message.to_vec() });
        let table: [(&str, Result<Line, &str>); 28] = [
            ("", Ok(Line::Blank)),
            ("  ", Ok(Line::Blank)),
            (" # the station opens", Ok(Line::Blank)),
            ("attach 07", Ok(Line::Attach { slot: 7 })),
            (" detach  18446744073709551615 ", Ok(Line::Detach { slot: u64::MAX })),
            (r#"send 0 4711 [1,"hub.bus",{}]"#, sends(br#"[1,"hub.bus",{}]"#)),
            ("send  0  4711  x", sends(b" x")),
            ("send 0 4711 ", sends(b"")),
            ("send 0 4711", Err(reasons::NO_MESSAGE)),
            (r#"send 0 [1,"hub.bus",{}]"#, Err(reasons::NO_NUMBER)),
            (" attach_msgpack  7 ", Ok(Line::AttachMsgpack { slot: 7 })),
            ("bytes 0 4711 9301c2", bytes(&[0x93, 0x01, 0xc2])),
            ("bytes 0 4711 09aFAf", bytes(&[0x09, 0xaf, 0xaf])),
            ("bytes 0 4711 ", bytes(&[])),
            ("bytes 0 4711 9301c", Err(reasons::NO_HEX)),
            ("bytes 0 4711 9301cg", Err(reasons::NO_HEX)),
            ("bytes 0 4711  9301", Err(reasons::NO_HEX)),
            ("bytes 0 4711 93 01 ", Err(reasons::NO_HEX)),
            ("bytes 0 4711", Err(reasons::NO_MESSAGE)),
            ("bytes 0 9301c2", Err(reasons::NO_NUMBER)),
            ("bytes", Err(reasons::NO_SLOT)),
            ("attach_msgpack 0 1", Err(reasons::AFTER_SLOT)),
            ("attach_json 0", Err(reasons::UNKNOWN_WORD)),
            ("attach", Err(reasons::NO_SLOT)),
            ("attach one", Err(reasons::NO_SLOT)),
            ("attach 0 1", Err(reasons::AFTER_SLOT)),
            ("attach 18446744073709551616", Err(reasons::TOO_LARGE)),
            ("attached 0", Err(reasons::UNKNOWN_WORD)),
        ];
        for (line, wanted) in table {
            assert_eq!(read(line.as_bytes()), wanted, "{line}");
        }
    }

    #[test]
    fn nothing_after_a_wrong_line() {
        let script = b"# a shift\r\nattach 0\r\n\nattach 0\nsend 0 0 x\nattach 8\nhello 0\nattach 1\n";
        let wanted = "1: attach 0\n  -> done, 2 bytes\n\
                      2: attach 0\n  -> refused 3 WRONG TIME\n\
                      3: send 0 0 x\n  -> refused 4 BAD NUMBER\n\
                      4: attach 8\n  -> refused 2 BAD SLOT\n\
                      line 7: the first word is not attach, attach_msgpack, detach, send or bytes\n";
        let (written, all_read) = replayed(script);
        assert_eq!(String::from_utf8(written).unwrap(), wanted);
        assert!(!all_read);
    }

    #[test]
    fn the_longest_script() {
        let mut script = vec![b'\n'; LONGEST];
        assert_eq!(replayed(&script), (Vec::new(), true));
        script.push(b'\n');
        let wanted = "the script is longer than 1048576 bytes, and no step is run\n";
        assert_eq!(replayed(&script), (wanted.as_bytes().to_vec(), false));
    }

    #[test]
    fn messages_with_their_receivers() {
        let script = b"attach 1\nsend 1 9 [1,\"elsewhere\",{}]";
        let wanted = "1: attach 1\n  -> done, 2 bytes\n\
                      2: send 1 9 [1,\"elsewhere\",{}]\n  -> done, 38 bytes\n  \
                      -> slot 1: [3,{},\"wamp.error.no_such_realm\"]\n";
        let (written, all_read) = replayed(script);
        assert_eq!(String::from_utf8(written).unwrap(), wanted);
        assert!(all_read);
    }

    #[test]
    fn messages_in_msgpack() {
        let script = b"attach_msgpack 1\nbytes 1 9 9301a9656C7365776865726580\nattach_msgpack 1\nbytes 1 9 ";
        let wanted = "1: attach_msgpack 1\n  -> done, 2 bytes\n\
                      2: bytes 1 9 9301a9656C7365776865726580\n  -> done, 33 bytes\n  \
                      -> slot 1: msgpack [3,{},\"wamp.error.no_such_realm\"]\n\
                      3: attach_msgpack 1\n  -> done, 2 bytes\n\
                      4: bytes 1 9 \n  -> done, 38 bytes\n  \
                      -> slot 1: msgpack [3,{},\"wamp.error.protocol_violation\"]\n";
        let (written, all_read) = replayed(script);
        assert_eq!(String::from_utf8(written).unwrap(), wanted);
        assert!(all_read);
    }

    #[test]
    fn what_is_shown() {
        let text = |bytes: &[u8]| String::from_utf8(shown(bytes)).unwrap();
        assert_eq!(text(b""), "");
        assert_eq!(text(b"[35,7]"), "[35,7]");
        assert_eq!(text(&[0x93, 0x32, 0x01, 0x81, 0xa1, 0x63, 0xff]), r#"msgpack [50,1,{"c":-1}]"#);
        // a float, a byte left over, and a value that is cut
        assert_eq!(text(&[0x91, 0xca, 0x3f, 0x80, 0, 0]), "msgpack hex 91ca3f800000");
        assert_eq!(text(&[0x91, 0xc0, 0xc0]), "msgpack hex 91c0c0");
        assert_eq!(text(&[0x92, 0xc0]), "msgpack hex 92c0");
        // the longest JSON text, two brackets and two quotes among its bytes, and one byte more
        for (letters, json) in [(LONGEST_SHOWN - 4, true), (LONGEST_SHOWN - 3, false)] {
            let head = [0x91, 0xda, (letters >> 8) as u8, letters as u8];
            let body = [&head, vec![b'x'; letters].as_slice()].concat();
            assert_eq!(!text(&body).starts_with("msgpack hex "), json, "{letters}");
        }
        // eight lists in each other, and nine
        assert_eq!(text(&[0x91, 0x91, 0x91, 0x91, 0x91, 0x91, 0x91, 0x90]), "msgpack [[[[[[[[]]]]]]]]");
        assert_eq!(
            text(&[0x91, 0x91, 0x91, 0x91, 0x91, 0x91, 0x91, 0x91, 0x90]),
            "msgpack hex 919191919191919190"
        );
    }
}
