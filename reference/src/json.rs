//! RFC 8259 texts within the limits of the protocol: nesting to depth 8, and no two keys of one dict that are
//! equal once their escapes are undone. Values are not copied: an item says where a value stands in the text and
//! of what kind it is. Bytes from hex 80 up are taken as they come; `utf8` judges them.

use crate::strings::{self, Undone};

/// How deep lists and dicts nest, the outer one being depth 1.
pub const MAX_DEPTH: usize = 8;

/// A stretch of a text, from its first byte to before its end.
#[derive(Clone, Copy, Debug, Default, PartialEq, Eq)]
pub struct Span {
    pub from: usize,
    pub to: usize,
}

impl Span {
    /// The bytes of the span.
    pub fn of(self, text: &[u8]) -> &[u8] {
        &text[self.from..self.to]
    }
}

/// The kinds of value that a message's elements are told apart by.
#[derive(Clone, Copy, Debug, Default, PartialEq, Eq)]
pub enum Kind {
    /// `true`, `false` or `null`; of MessagePack also a float, a bin or an ext.
    #[default]
    Other,
    Number,
    String,
    List,
    Dict,
}

/// A value: its kind, and its bytes from the first to the last. A string's include its quotes.
#[derive(Clone, Copy, Debug, Default, PartialEq, Eq)]
pub struct Item {
    pub kind: Kind,
    pub span: Span,
}

/// Is the text one value, with optional white space around it?
pub fn is_text(text: &[u8]) -> bool {
    Reader::new(text).whole(|reader| reader.value(MAX_DEPTH)).is_some()
}

/// If the text is a list, with optional white space around it, hands its elements over in order.
pub fn elements(text: &[u8], each: impl FnMut(Item)) -> Option<()> {
    Reader::new(text).whole(|reader| reader.list(MAX_DEPTH, each))
}

/// Hands over the members of the dict whose brace stands at `at` of the text, in order: the key, undone, and the
/// value. The dict is an element of the outer list, so that it stands at depth 2. `None` if there is no dict.
pub fn members<'t>(text: &'t [u8], at: usize, mut each: impl FnMut(Undone<'t>, Item)) -> Option<()> {
    let mut reader = Reader { at, ..Reader::new(text) };
    reader.dict(MAX_DEPTH - 1, |key, value| each(strings::undone(key.of(text)), value))
}

/// The value of a key in that dict. The key is given undone, and compared with the undone keys. `None` if there is
/// no such key, or no dict.
pub fn member(text: &[u8], at: usize, key: &[u8]) -> Option<Item> {
    let mut found = None;
    members(text, at, |name, value| {
        if *name.text == *key {
            found = Some(value);
        }
    })?;
    found
}

/// The value that begins at a place of the text and is no list and no dict. `None` if no such value does.
pub fn scalar(text: &[u8], at: usize) -> Option<Item> {
    Reader { at, ..Reader::new(text) }.value(0)
}

/// The place past the white space that stands at a place of the text.
pub fn past_white(text: &[u8], at: usize) -> usize {
    let mut reader = Reader { at, ..Reader::new(text) };
    reader.white();
    reader.at
}

/// The white space of RFC 8259.
fn is_white(byte: u8) -> bool {
    matches!(byte, b' ' | b'\t' | b'\n' | b'\r')
}

/// Reads a text from left to right. Each reading method answers `None` where the grammar, or a limit, is
/// broken; the place is then of no meaning. `room` says how many more lists or dicts may open inside each other.
struct Reader<'t> {
    text: &'t [u8],
    at: usize,
    /// The keys of the dicts that are open at the place, as written, those of an inner dict after those of the
    /// outer one.
    keys: Vec<&'t [u8]>,
    /// How many escapes were read.
    escapes: usize,
}

impl<'t> Reader<'t> {
    fn new(text: &'t [u8]) -> Self {
        Reader { text, at: 0, keys: Vec::new(), escapes: 0 }
    }

    /// Reads by `read`, with optional white space around, up to the end of the text.
    fn whole<T>(mut self, read: impl FnOnce(&mut Self) -> Option<T>) -> Option<T> {
        self.white();
        let answer = read(&mut self)?;
        self.white();
        (self.at == self.text.len()).then_some(answer)
    }

    /// The byte at the place, if there is one.
    fn peek(&self) -> Option<u8> {
        self.text.get(self.at).copied()
    }

    /// Goes past the byte if it is the wanted one, and says whether it was.
    fn take(&mut self, wanted: u8) -> bool {
        let there = self.peek() == Some(wanted);
        self.at += usize::from(there);
        there
    }

    /// Goes past white space.
    fn white(&mut self) {
        while self.peek().is_some_and(is_white) {
            self.at += 1;
        }
    }

    /// One value. Its first byte decides the kind.
    fn value(&mut self, room: usize) -> Option<Item> {
        let from = self.at;
        let kind = match self.peek()? {
            b'"' => self.string().map(|_| Kind::String),
            b'[' => self.list(room, |_| ()).map(|()| Kind::List),
            b'{' => self.dict(room, |_, _| ()).map(|()| Kind::Dict),
            b'-' | b'0'..=b'9' => self.number().map(|()| Kind::Number),
            b't' => self.literal(b"true"),
            b'f' => self.literal(b"false"),
            b'n' => self.literal(b"null"),
            _ => None,
        }?;
        Some(Item { kind, span: Span { from, to: self.at } })
    }

    fn literal(&mut self, word: &[u8]) -> Option<Kind> {
        let there = self.text[self.at..].starts_with(word);
        self.at += word.len();
        there.then_some(Kind::Other)
    }

    /// `[ - ] int [ frac ] [ exp ]`
    fn number(&mut self) -> Option<()> {
        self.take(b'-');
        // A zero stands alone: a digit after it is no part of the number, and no value goes on with one.
        if !self.take(b'0') {
            self.digits()?;
        }
        if self.take(b'.') {
            self.digits()?;
        }
        if self.take(b'e') || self.take(b'E') {
            let _sign = self.take(b'+') || self.take(b'-');
            self.digits()?;
        }
        Some(())
    }

    /// One digit or more.
    fn digits(&mut self) -> Option<()> {
        let from = self.at;
        while self.peek().is_some_and(|byte| byte.is_ascii_digit()) {
            self.at += 1;
        }
        (self.at > from).then_some(())
    }

    /// A string. Answers what stands between its quotes.
    fn string(&mut self) -> Option<Span> {
        if !self.take(b'"') {
            return None;
        }
        let from = self.at;
        loop {
            let byte = self.peek()?;
            self.at += 1;
            match byte {
                b'"' => return Some(Span { from, to: self.at - 1 }),
                b'\\' => self.escape()?,
                0x00..=0x1f => return None,
                _ => {}
            }
        }
    }

    /// What follows a backslash.
    fn escape(&mut self) -> Option<()> {
        self.escapes += 1;
        let byte = self.peek()?;
        self.at += 1;
        match byte {
            b'"' | b'\\' | b'/' | b'b' | b'f' | b'n' | b'r' | b't' => Some(()),
            b'u' => {
                let hex = self.text.get(self.at..self.at + 4)?;
                self.at += 4;
                hex.iter().all(u8::is_ascii_hexdigit).then_some(())
            }
            _ => None,
        }
    }

    /// A list. Hands its elements over in order.
    fn list(&mut self, room: usize, mut each: impl FnMut(Item)) -> Option<()> {
        if room == 0 || !self.take(b'[') {
            return None;
        }
        self.white();
        if self.take(b']') {
            return Some(());
        }
        loop {
            self.white();
            each(self.value(room - 1)?);
            self.white();
            if self.take(b']') {
                return Some(());
            }
            if !self.take(b',') {
                return None;
            }
        }
    }

    /// A dict. Hands its members over in order: the key as written between its quotes, and the value.
    fn dict(&mut self, room: usize, mut each: impl FnMut(Span, Item)) -> Option<()> {
        if room == 0 || !self.take(b'{') {
            return None;
        }
        self.white();
        if self.take(b'}') {
            return Some(());
        }
        let first = self.keys.len();
        let mut has_escape = false;
        loop {
            self.white();
            let escapes = self.escapes;
            let key = self.string()?;
            has_escape |= self.escapes > escapes;
            self.keys.push(key.of(self.text));
            self.white();
            if !self.take(b':') {
                return None;
            }
            self.white();
            each(key, self.value(room - 1)?);
            self.white();
            if self.take(b'}') {
                return self.close(first, has_escape);
            }
            if !self.take(b',') {
                return None;
            }
        }
    }

    /// The keys from `first` on are those of a dict that ends here: no two of them are equal, undone, and they go.
    fn close(&mut self, first: usize, has_escape: bool) -> Option<()> {
        let keys = &mut self.keys[first..];
        // Keys without an escape are undone as they stand.
        let distinct = if has_escape { are_distinct_undone(keys) } else { are_distinct(keys) };
        self.keys.truncate(first);
        distinct.then_some(())
    }
}

/// Are no two of the keys equal? They are put in order: then equal ones stand next to each other.
pub(crate) fn are_distinct(keys: &mut [impl Ord]) -> bool {
    keys.sort_unstable();
    keys.windows(2).all(|pair| pair[0] != pair[1])
}

/// Are no two of the keys equal, once their escapes are undone?
fn are_distinct_undone(keys: &[&[u8]]) -> bool {
    are_distinct(&mut keys.iter().map(|key| strings::undone(key).text).collect::<Vec<_>>())
}

#[cfg(test)]
mod tests {
    use super::*;

    fn yes(text: &str) {
        assert!(is_text(text.as_bytes()), "{text}");
    }

    fn no(text: &str) {
        assert!(!is_text(text.as_bytes()), "{text}");
    }

    #[test]
    fn values() {
        for text in
            ["true", "false", "null", "[]", "{}", "\"\"", "0", " 1 ", "\t\n\r [1 , 2]\n", "{ \"a\" : 1 }"]
        {
            yes(text);
        }
        for text in
            ["", " ", "tru", "True", "truex", "nul", "[", "]", "[1", "[1,", "[1,]", "[,1]", "[1 2]", "1 2"]
        {
            no(text);
        }
        for text in
            ["{", "}", "{\"a\"}", "{\"a\":}", "{\"a\":1", "{\"a\":1,}", "{a:1}", "{1:1}", "{,}", "[}", "{]"]
        {
            no(text);
        }
        // A byte order mark, a vertical tab, a form feed and a no-break space are no white space.
        for text in ["\u{feff}[]", "\u{b}[]", "\u{c}[]", "\u{a0}[]", "[] x", "// a\n[]", "[]\0"] {
            no(text);
        }
    }

    #[test]
    fn numbers() {
        for text in ["0", "-0", "10", "-1", "0.0", "1.50", "1e5", "1E5", "1e+5", "1e-05", "-0.1e1"] {
            yes(text);
        }
        for text in
            ["-", "+1", "00", "01", "-01", ".5", "1.", "1.e1", "1e", "1e+", "0x1", "1_0", "NaN", "Infinity"]
        {
            no(text);
        }
    }

    #[test]
    fn strings() {
        for text in
            [r#""a""#, r#""\"\\\/\b\f\n\r\t""#, r#""\u00e9\uD834\udd1e""#, r#""\ud800""#, "\"\u{7f}é\""]
        {
            yes(text);
        }
        for text in [
            r#"""#,
            r#""\""#,
            r#""\x""#,
            r#""\u12""#,
            r#""\u123g""#,
            r#""\U0041""#,
            "\"\n\"",
            "\"\u{1f}\"",
            "'a'",
        ] {
            no(text);
        }
    }

    #[test]
    fn depth() {
        let lists = |n: usize| "[".repeat(n) + &"]".repeat(n);
        let dicts = |n: usize| "{\"a\":".repeat(n - 1) + "{}" + &"}".repeat(n - 1);
        yes(&lists(8));
        no(&lists(9));
        yes(&dicts(8));
        no(&dicts(9));
        // Depth is of what stands inside each other, not of what was opened.
        yes(&format!("[{0},{0}]", lists(7)));
        no(&format!("[{0},{1}]", lists(7), lists(8)));
    }

    #[test]
    fn equal_keys() {
        no(r#"{"a":1,"a":2}"#);
        no(r#"[[{"x":{"a":1,"b":2,"a":1}}]]"#);
        no(r#"{"":1,"":2}"#);
        yes(r#"{"a":1,"b":{"a":2}}"#);
        yes(r#"[{"a":1},{"a":1}]"#);
    }

    #[test]
    fn keys_equal_once_undone() {
        no(r#"{"a":1,"\u0061":2}"#);
        no(r#"{"\u0061":1,"\u0061":2}"#);
        no(r#"{"b":0,"\u0061":1,"c":0,"a":2}"#);
        no(r#"{"acknowledge":true,"\u0061cknowledge":true}"#);
        no(r#"{"\u00e9":1,"\u00E9":2}"#);
        no("{\"é\":1,\"\\u00e9\":2}");
        no(r#"{"/":1,"\/":2}"#);
        no(r#"{"\n":1,"\u000a":2}"#);
        no(r#"{"\"":1,"\u0022":2}"#);
        no(r#"{"\\":1,"\u005C":2}"#);
        // At any depth.
        no(r#"[[{"x":{"a":1,"b":2,"\u0061":1}}]]"#);
        no(r#"[{"\u0078":{"x":{"x":1,"\u0078":1}}}]"#);
        yes(r#"{"a":1,"\u0062":{"\u0061":2,"b":3}}"#);
        yes(r#"[{"a":1},{"\u0061":1}]"#);
        // Not equal once undone: the backslash of the first is itself a character.
        yes(r#"{"\\u0061":1,"\u0061":2}"#);
        yes(r#"{"a":1,"\u0061\u0000":2}"#);
        // A half that is lone counts as its own code, a pair as its character.
        no(r#"{"\ud800":1,"\uD800":2}"#);
        yes(r#"{"\ud800":1,"\udc00":2}"#);
        no("{\"\\ud83d\\ude00\":1,\"\u{1f600}\":2}");
        yes(r#"{"\ud83d\ude00":1,"\ude00\ud83d":2,"\ud83d":3,"\ude00":4}"#);
    }

    #[test]
    fn parts() {
        let mut items = Vec::new();
        let text = br#" [1 , "a",[2], { "k" : true } ,null] "#;
        assert!(elements(text, |item| items.push(item)).is_some());
        let found: Vec<_> = items.iter().map(|item| (item.kind, item.span.of(text))).collect();
        let wanted: [(Kind, &[u8]); 5] = [
            (Kind::Number, b"1"),
            (Kind::String, b"\"a\""),
            (Kind::List, b"[2]"),
            (Kind::Dict, b"{ \"k\" : true }"),
            (Kind::Other, b"null"),
        ];
        assert_eq!(found, wanted);
        let at = items[3].span.from;
        assert_eq!(member(text, at, b"k").unwrap().span.of(text), b"true");
        assert_eq!(member(text, at, b"q"), None);
        assert_eq!(member(text, 1, b"k"), None);
        assert!(elements(b"{}", |_| ()).is_none());
    }

    #[test]
    fn parts_at_a_place() {
        let text = br#"[ -1.5e3,"a" ,null,[]]"#;
        let scalar = |at: usize| scalar(text, at).map(|item| (item.kind, item.span.of(text)));
        assert_eq!(scalar(2), Some((Kind::Number, b"-1.5e3".as_slice())));
        assert_eq!(scalar(9), Some((Kind::String, b"\"a\"".as_slice())));
        assert_eq!(scalar(14), Some((Kind::Other, b"null".as_slice())));
        for at in [0, 1, 8, 19, text.len(), text.len() + 1] {
            assert_eq!(scalar(at), None, "{at}");
        }
        assert_eq!([0, 1, 2, 12, 22, 23].map(|at| past_white(text, at)), [0, 2, 2, 13, 22, 23]);
    }

    #[test]
    fn members_by_their_undone_keys() {
        let text = br#"{"\u006datch":1,"a\"b":{"k":2},"\ud800":3}"#;
        let value = |key: &[u8]| member(text, 0, key).map(|value| value.span.of(text));
        assert_eq!(value(b"match"), Some(b"1".as_slice()));
        assert_eq!(value(br"\u006datch"), None);
        assert_eq!(value(b"a\"b"), Some(br#"{"k":2}"#.as_slice()));
        assert_eq!(value(br#"a\"b"#), None);
        assert_eq!(value(b"k"), None);
        let mut lone = Vec::new();
        assert!(members(text, 0, |key, _| lone.push(key.has_lone_half)).is_some());
        assert_eq!(lone, [false, false, true]);
        assert!(members(br#"{"a":1,"\u0061":2}"#, 0, |_, _| ()).is_none());
    }
}
