//! The text that a JSON string stands for (RFC 8259, section 7): each escape undone is its character, a pair of
//! surrogate halves is one character, and all of it is UTF-8 (RFC 3629, section 3). A half that is no part of a pair
//! is lone. It is no character, and counts as its own code: in the three bytes that the same scheme gives it.

use std::borrow::Cow;

/// A text: bytes of the message where the string has no escape, else bytes of its own.
pub type Text<'t> = Cow<'t, [u8]>;

/// A string with its escapes undone.
#[derive(Clone, Debug, PartialEq, Eq)]
pub struct Undone<'t> {
    pub text: Text<'t>,
    pub has_lone_half: bool,
}

/// Undoes the escapes in what stands between the quotes of a string. The reader of `json` has taken it, so that
/// each of its escapes is whole.
pub fn undone(written: &[u8]) -> Undone<'_> {
    if !written.contains(&b'\\') {
        return Undone { text: Cow::Borrowed(written), has_lone_half: false };
    }
    let mut text = Vec::with_capacity(written.len());
    let mut has_lone_half = false;
    let mut rest = written;
    while let Some(place) = rest.iter().position(|&byte| byte == b'\\') {
        text.extend_from_slice(&rest[..place]);
        let (code, behind) = character(&rest[place..]);
        has_lone_half |= is_high(code) || is_low(code);
        put(&mut text, code);
        rest = behind;
    }
    text.extend_from_slice(rest);
    Undone { text: Cow::Owned(text), has_lone_half }
}

fn is_high(code: u32) -> bool {
    (0xd800..=0xdbff).contains(&code)
}

fn is_low(code: u32) -> bool {
    (0xdc00..=0xdfff).contains(&code)
}

/// The code of the character, or of the lone half, whose escape begins the bytes; and the bytes behind it.
fn character(bytes: &[u8]) -> (u32, &[u8]) {
    let (first, rest) = escape(bytes);
    if is_high(first) && rest.starts_with(b"\\") {
        let (second, behind) = escape(rest);
        if is_low(second) {
            return (0x10000 + ((first - 0xd800) << 10) + (second - 0xdc00), behind);
        }
    }
    (first, rest)
}

/// The code of the escape that begins the bytes, by itself; and the bytes behind it.
fn escape(bytes: &[u8]) -> (u32, &[u8]) {
    let code = match bytes[1] {
        b'b' => 0x08,
        b't' => 0x09,
        b'n' => 0x0a,
        b'f' => 0x0c,
        b'r' => 0x0d,
        b'u' => {
            let digit = |&byte: &u8| char::from(byte).to_digit(16).expect("a hex digit");
            let code = bytes[2..6].iter().map(digit).fold(0, |code, digit| code << 4 | digit);
            return (code, &bytes[6..]);
        }
        // A quote, a backslash or a slash.
        itself => u32::from(itself),
    };
    (code, &bytes[2..])
}

/// Puts a code behind the text, in as many bytes as RFC 3629 gives it.
fn put(text: &mut Vec<u8>, code: u32) {
    let later = |shift: u32| 0x80 | (code >> shift & 0x3f) as u8;
    match code {
        0..=0x7f => text.push(code as u8),
        0x80..=0x7ff => text.extend([0xc0 | (code >> 6) as u8, later(0)]),
        0x800..=0xffff => text.extend([0xe0 | (code >> 12) as u8, later(6), later(0)]),
        _ => text.extend([0xf0 | (code >> 18) as u8, later(12), later(6), later(0)]),
    }
}

#[cfg(test)]
mod tests {
    use super::*;

    /// The string has no lone half, and stands for this text.
    #[track_caller]
    fn is(written: &str, text: &str) {
        let found = undone(written.as_bytes());
        assert_eq!((&*found.text, found.has_lone_half), (text.as_bytes(), false), "{written}");
    }

    /// The string has a lone half, and counts as these bytes.
    #[track_caller]
    fn is_lone(written: &str, bytes: &[u8]) {
        let found = undone(written.as_bytes());
        assert_eq!((&*found.text, found.has_lone_half), (bytes, true), "{written}");
    }

    #[test]
    fn without_an_escape_it_is_itself() {
        for text in ["", "a", "hub.donor.defer", "u0061", "é€𝄞", "\u{7f}"] {
            is(text, text);
            assert!(matches!(undone(text.as_bytes()).text, Cow::Borrowed(_)), "{text}");
        }
    }

    #[test]
    fn the_short_escapes() {
        is(r#"\"\\\/\b\f\n\r\t"#, "\"\\/\u{8}\u{c}\n\r\t");
        is(r"a\nb", "a\nb");
        is(r"\\u0061", r"\u0061");
        is(r"\\\\", r"\\");
        is(r"\\\u005c\u005C", r"\\\");
    }

    #[test]
    fn four_hex_digits_of_either_case() {
        is(r"hub.donor.\u0064efer", "hub.donor.defer");
        is(r"\u00e9\u00E9", "éé");
        is(r"\uabCD\uAbcd", "\u{abcd}\u{abcd}");
        is(r"\u0000", "\0");
        for code in (0..0x10000).filter(|code| !(0xd800..0xe000).contains(code)) {
            let text = char::from_u32(code).unwrap().to_string();
            is(&format!(r"\u{code:04x}"), &text);
            is(&format!(r"<\u{code:04X}>"), &format!("<{text}>"));
        }
    }

    #[test]
    fn a_pair_of_halves_is_one_character() {
        is(r"\ud834\udd1e", "𝄞");
        is(r"\uD83D\uDE00\ud83d\ude00", "😀😀");
        is(r"\ud800\udc00\udbff\udfff", "\u{10000}\u{10ffff}");
        let pair = |code: u32| {
            let (high, low) = (0xd800 + (code - 0x10000) / 0x400, 0xdc00 + (code - 0x10000) % 0x400);
            is(&format!(r"\u{high:04x}\u{low:04X}"), &char::from_u32(code).unwrap().to_string());
        };
        // Each high half, and each low one.
        (0x10000..0x110000).step_by(0x3ff).for_each(pair);
    }

    #[test]
    fn a_half_without_its_other_is_lone() {
        is_lone(r"\ud800", b"\xed\xa0\x80");
        is_lone(r"\uDBFF", b"\xed\xaf\xbf");
        is_lone(r"\uDc00", b"\xed\xb0\x80");
        is_lone(r"\udfff", b"\xed\xbf\xbf");
        // Its neighbours are characters.
        is(r"\ud7ff\ue000", "\u{d7ff}\u{e000}");
        // The low one first; something between them; two high ones.
        is_lone(r"\udd1e\ud834", b"\xed\xb4\x9e\xed\xa0\xb4");
        is_lone(r"\ud834 \udd1e", b"\xed\xa0\xb4 \xed\xb4\x9e");
        is_lone(r"\ud834\\udd1e", b"\xed\xa0\xb4\\udd1e");
        is_lone(r"\ud834udd1e", b"\xed\xa0\xb4udd1e");
        is_lone(r"\ud834\u0061", b"\xed\xa0\xb4a");
        is_lone(r"\ud834\n\udd1e", b"\xed\xa0\xb4\n\xed\xb4\x9e");
        is_lone(r"\ud834\ud834\udd1e", b"\xed\xa0\xb4\xf0\x9d\x84\x9e");
        is_lone(r"\ud834\udd1e\udd1e", b"\xf0\x9d\x84\x9e\xed\xb4\x9e");
        is_lone(r"a\ud834", b"a\xed\xa0\xb4");
    }

    #[test]
    fn an_undone_text_is_utf8_unless_a_half_is_lone() {
        let halves = [r"\ud800", r"\udbff", r"\udc00", r"\udfff", r"\u0061", "é", ""];
        for one in halves {
            for two in halves {
                for three in halves {
                    let written = [one, two, three].concat();
                    let found = undone(written.as_bytes());
                    assert_eq!(crate::utf8::well_formed(&found.text), !found.has_lone_half, "{written}");
                }
            }
        }
    }
}
