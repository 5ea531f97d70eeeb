//! The lines of the vector files. Each kind of case has a method, which writes the question and the reference's
//! answer to it.
//!
//! A question is a kind and its words: texts in hex, `-` for the empty one, policies by name and formats by letter. What
//! follows ` # ` is for the reader. An answer is the kind and the answer, with the same for the reader after it. A line
//! that begins with `#` is a heading, and stands in both files.

use reference::json::{self, Kind};
use reference::matching::{self, Candidate};
use reference::uri::{self, Policy};
use reference::values::{self, Format};
use reference::{ids, message, msgpack, settings, settings_file, utf8};

/// A reader or a writer of settings: from lent bytes to lent bytes, with its answer.
type OnSettings = fn(&[u8], &mut [u8]) -> u64;

/// The longest settings file of a case, and room for the longest that there is.
const LONGEST_FILE: usize = 2304;
const FILE_ROOM: usize = 5000;

#[derive(Default)]
pub struct Lines {
    pub stdin: String,
    pub stdout: String,
}

impl Lines {
    pub fn heading(&mut self, text: &str) {
        for file in [&mut self.stdin, &mut self.stdout] {
            *file += &format!("# {text}\n");
        }
    }

    fn case(&mut self, kind: &str, words: &[String], answer: &str, for_the_reader: &str) {
        self.stdin += &format!("{kind} {} # {for_the_reader}\n", words.join(" "));
        self.stdout += &format!("{kind} {answer} # {for_the_reader}\n");
    }

    /// `utf8 TEXT`: is it well-formed?
    pub fn utf8(&mut self, text: &[u8]) {
        self.case("utf8", &[hex(text)], yes_no(utf8::well_formed(text)), &shown(text));
    }

    /// `json TEXT`: is it well-formed UTF-8 and one JSON value, within the limits of a message?
    pub fn json(&mut self, text: &[u8]) {
        let good = text.len() <= message::MAX_LENGTH && utf8::well_formed(text) && json::is_text(text);
        self.case("json", &[hex(text)], yes_no(good), &shown(text));
    }

    /// `id TEXT`: the ID, 0 if there is none.
    pub fn id(&mut self, text: &[u8]) {
        let id = ids::read(text).unwrap_or(0);
        self.case("id", &[hex(text)], &id.to_string(), &shown(text));
    }

    /// `uri POLICY TEXT`: does the text, undone, obey the rule of its policy, as SUBSCRIBE asks for it?
    pub fn uri(&mut self, policy: Policy, text: &[u8]) {
        let good = uri::is_subscribed_topic(text, policy);
        self.case("uri", &[name(policy), hex(text)], yes_no(good), &told(policy, text));
    }

    /// `register POLICY TEXT`: does it obey the rule of REGISTER, which also refuses `wamp`?
    pub fn register(&mut self, policy: Policy, text: &[u8]) {
        let good = uri::is_registered_procedure(text, policy);
        self.case("register", &[name(policy), hex(text)], yes_no(good), &told(policy, text));
    }

    /// `components TEXT`: their number, and where each stands.
    pub fn components(&mut self, text: &[u8]) {
        let mut answer = uri::components(text).count().to_string();
        let mut from = 0;
        for component in uri::components(text) {
            let to = from + component.len();
            answer += &format!(" {from}-{to}");
            from = to + 1;
        }
        self.case("components", &[hex(text)], &answer, &shown(text));
    }

    /// `fits POLICY TEXT URI`: does the text fit the URI?
    pub fn fits(&mut self, policy: Policy, text: &[u8], uri: &[u8]) {
        let good = matching::fits(policy, text, uri);
        let comment = format!("{} and {}", told(policy, text), shown(uri));
        self.case("fits", &[name(policy), hex(text), hex(uri)], yes_no(good), &comment);
    }

    /// `better TEXT TEXT`: which of two wildcard texts is the better one?
    pub fn better(&mut self, first: &[u8], second: &[u8]) {
        let answer = if matching::better(first, second) == first { "first" } else { "second" };
        let comment = format!("{} or {}", shown(first), shown(second));
        self.case("better", &[hex(first), hex(second)], answer, &comment);
    }

    /// `choose URI POLICY TEXT POLICY TEXT ..`: the number, from 1, of the row that a call of the URI goes to,
    /// or `none`. An unused row is `unused -`.
    pub fn choose(&mut self, uri: &[u8], rows: &[Option<(Policy, &[u8])>]) {
        let used = rows
            .iter()
            .zip(1..)
            .filter_map(|(row, number)| row.map(|(policy, text)| Candidate { name: number, policy, text }));
        let answer = matching::choose(used, uri).map_or("none".to_string(), |row| row.name.to_string());
        let mut words = vec![hex(uri)];
        let mut among = Vec::new();
        for row in rows {
            let (policy, text) =
                row.map_or(("unused".to_string(), "-".to_string()), |(p, t)| (name(p), hex(t)));
            words.extend([policy, text]);
            among.push(row.map_or("unused".to_string(), |(policy, text)| told(policy, text)));
        }
        let comment = format!("{} among {}", shown(uri), listed(&among));
        self.case("choose", &words, &answer, &comment);
    }

    /// `split TEXT`: the kinds of a list's 1 to 7 elements, a digit each (1 an ID, 2 a string, 3 a list, 4 a
    /// dict, 5 anything else), and where each stands; `none` for other texts.
    pub fn split(&mut self, text: &[u8]) {
        let mut items = Vec::new();
        let is_list =
            text.len() <= message::MAX_LENGTH && json::elements(text, |item| items.push(item)).is_some();
        let mut answer = "none".to_string();
        if is_list && (1..=7).contains(&items.len()) {
            answer = items.iter().map(|item| digit(item.kind, item.span.of(text))).collect();
            for item in &items {
                answer += &format!(" {}-{}", item.span.from, item.span.to);
            }
        }
        self.case("split", &[hex(text)], &answer, &shown(text));
    }

    /// `member TEXT KEY AT`: where the value of the key stands in the dict that begins at the place AT, a byte in hex;
    /// `none` if the dict has no such key. The key is given undone, between quotes, and is compared with the undone
    /// keys. The dict is that of the text's n-th brace, counted from 1.
    pub fn member(&mut self, text: &[u8], n: usize, key: &[u8]) {
        let mut braces = (0..text.len()).filter(|&at| text[at] == b'{');
        let at = braces.nth(n - 1).expect("so many braces");
        let answer = match json::member(text, at, key) {
            Some(item) => format!("{}-{}", item.span.from, item.span.to),
            None => "none".to_string(),
        };
        let quoted = [b"\"", key, b"\""].concat();
        let comment = format!("{} at {at} of {}", shown(&quoted), shown(text));
        let place = u8::try_from(at).expect("a place of one byte");
        self.case("member", &[hex(text), hex(&quoted), hex(&[place])], &answer, &comment);
    }

    /// `msgpack DEPTH TEXT AT`: the place past the MessagePack value that begins at the place AT, with at most DEPTH
    /// arrays and maps inside each other; `none` if no such value does. DEPTH and AT are a byte in hex each. What the
    /// bytes are is told.
    pub fn msgpack(&mut self, depth: u8, text: &[u8], at: u8, what: &str) {
        let end = msgpack::value(text, at.into(), depth.into());
        let answer = end.map_or("none".to_string(), |end| end.to_string());
        self.case("msgpack", &[hex(&[depth]), hex(text), hex(&[at])], &answer, what);
    }

    /// `convert FROM DEPTH TEXT`: the value that begins the text, converted, in hex, and the place past it in the text;
    /// `none` if it does not convert, or nests deeper than DEPTH, a byte in hex. FROM is `j` for a text in JSON, which
    /// goes to MessagePack, and `m` for one in MessagePack, which goes to JSON.
    pub fn convert(&mut self, from: Format, depth: u8, text: &[u8]) {
        let (name, to) = match from {
            Format::Json => ("j", Format::MsgPack),
            Format::MsgPack => ("m", Format::Json),
        };
        let answer = match values::convert(from, to, depth.into(), text, 0) {
            Some((bytes, end)) => format!("{} {end}", hex(&bytes)),
            None => "none".to_string(),
        };
        self.case("convert", &[name.to_string(), hex(&[depth]), hex(text)], &answer, &shown(text));
    }

    /// `settings FILE`: the number of the refusal of the settings file; or `done` and, in hex, the file that the version 2
    /// writer writes for the settings read. What the file is is told.
    pub fn settings(&mut self, file: &[u8], what: &str) {
        self.settings_read("settings", settings_file::read, file, what);
    }

    /// `settings_1 FILE`: the same with the version 1 reader, and still the version 2 writer.
    pub fn settings_1(&mut self, file: &[u8], what: &str) {
        self.settings_read("settings_1", settings_file::read_1, file, what);
    }

    fn settings_read(&mut self, kind: &str, read: OnSettings, file: &[u8], what: &str) {
        assert!(file.len() <= LONGEST_FILE);
        let answer = match on_settings(read, file, settings::BYTES) {
            Ok(lent) => format!(
                "done {}",
                hex(&on_settings(settings_file::write, &lent, FILE_ROOM).expect("settings"))
            ),
            Err(refusal) => refusal.to_string(),
        };
        self.case(kind, &[hex(file)], &answer, what);
    }

    /// `kept FILE AT BYTE`: the settings of a good file of version 2 are lent with another byte at a place, two bytes in
    /// hex, to the version 2 writer; the answer is its refusal, or the file that it writes, in hex.
    pub fn kept(&mut self, file: &[u8], at: usize, byte: u8, what: &str) {
        self.settings_kept("kept", settings_file::write, file, at, byte, what);
    }

    /// `kept_1 FILE AT BYTE`: the same with the version 1 writer.
    pub fn kept_1(&mut self, file: &[u8], at: usize, byte: u8, what: &str) {
        self.settings_kept("kept_1", settings_file::write_1, file, at, byte, what);
    }

    fn settings_kept(&mut self, kind: &str, write: OnSettings, file: &[u8], at: usize, byte: u8, what: &str) {
        assert!(file.len() <= LONGEST_FILE);
        let mut lent = on_settings(settings_file::read, file, settings::BYTES).expect("a good file");
        lent[at] = byte;
        let answer = match on_settings(write, &lent, FILE_ROOM) {
            Ok(file) => hex(&file),
            Err(refusal) => refusal.to_string(),
        };
        let place = u16::try_from(at).expect("a place of two bytes").to_be_bytes();
        self.case(kind, &[hex(file), hex(&place), hex(&[byte])], &answer, what);
    }
}

/// What a reader or a writer of settings writes with so much room, or its refusal.
fn on_settings(function: OnSettings, lent: &[u8], room: usize) -> Result<Vec<u8>, u64> {
    let mut out = vec![0; room];
    match function(lent, &mut out) {
        answer if answer % 256 == 0 => Ok(out[..(answer / 256) as usize].to_vec()),
        answer => Err(answer),
    }
}

/// The digit of an element's kind.
fn digit(kind: Kind, text: &[u8]) -> char {
    match kind {
        Kind::Number if ids::read(text).is_some() => '1',
        Kind::String => '2',
        Kind::List => '3',
        Kind::Dict => '4',
        Kind::Number | Kind::Other => '5',
    }
}

fn yes_no(is_so: bool) -> &'static str {
    if is_so {
        "yes"
    } else {
        "no"
    }
}

/// The bytes in hex; `-` for none, so that a word is never empty.
fn hex(text: &[u8]) -> String {
    if text.is_empty() {
        return "-".to_string();
    }
    text.iter().map(|byte| format!("{byte:02x}")).collect()
}

fn name(policy: Policy) -> String {
    format!("{policy:?}").to_lowercase()
}

/// A text with its policy, for the reader.
fn told(policy: Policy, text: &[u8]) -> String {
    format!("{} {}", name(policy), shown(text))
}

/// What the rows of a choice are, for the reader; equal ones in a row are counted.
fn listed(rows: &[String]) -> String {
    let runs = rows.chunk_by(|one, other| one == other).map(|run| match run.len() {
        1 => run[0].clone(),
        count => format!("{count} {}", run[0]),
    });
    let runs: Vec<_> = runs.collect();
    if runs.is_empty() {
        "no rows".to_string()
    } else {
        runs.join(", ")
    }
}

/// A text for the reader: as it is where it prints, with other bytes as `<0a>`, so is a space at either end.
/// Long texts are cut.
pub fn shown(text: &[u8]) -> String {
    const LONGEST: usize = 100;
    if text.is_empty() {
        return "(empty)".to_string();
    }
    let last = text.len() - 1;
    let print = |places: std::ops::RangeInclusive<usize>| -> String {
        let one = |place: usize| match text[place] {
            0x20 if place == 0 || place == last => "<20>".to_string(),
            byte @ 0x20..=0x7e => char::from(byte).to_string(),
            byte => format!("<{byte:02x}>"),
        };
        places.map(one).collect()
    };
    if text.len() <= LONGEST {
        return print(0..=last);
    }
    format!("{}..{} ({} bytes)", print(0..=23), print(last - 11..=last), text.len())
}
