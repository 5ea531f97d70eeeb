//! Well-formed UTF-8, by the table of RFC 3629, section 4.

/// Is the whole text well-formed?
pub fn well_formed(text: &[u8]) -> bool {
    let mut rest = text;
    while !rest.is_empty() {
        match character(rest) {
            Some(length) => rest = &rest[length..],
            None => return false,
        }
    }
    true
}

/// The number of bytes of the character that begins the text; `None` if no well-formed one does.
///
/// ```text
/// UTF8-1 = %x00-7F
/// UTF8-2 = %xC2-DF UTF8-tail
/// UTF8-3 = %xE0 %xA0-BF UTF8-tail / %xE1-EC 2( UTF8-tail ) /
///          %xED %x80-9F UTF8-tail / %xEE-EF 2( UTF8-tail )
/// UTF8-4 = %xF0 %x90-BF 2( UTF8-tail ) / %xF1-F3 3( UTF8-tail ) /
///          %xF4 %x80-8F 2( UTF8-tail )
/// UTF8-tail = %x80-BF
/// ```
fn character(text: &[u8]) -> Option<usize> {
    // The range of the second byte keeps out overlong forms (E0, F0), surrogates (ED) and what lies above
    // 10FFFF (F4). C0, C1 and F5 to FF begin no character.
    let (length, second) = match *text.first()? {
        0x00..=0x7f => return Some(1),
        0xc2..=0xdf => (2, 0x80..=0xbf),
        0xe0 => (3, 0xa0..=0xbf),
        0xe1..=0xec | 0xee..=0xef => (3, 0x80..=0xbf),
        0xed => (3, 0x80..=0x9f),
        0xf0 => (4, 0x90..=0xbf),
        0xf1..=0xf3 => (4, 0x80..=0xbf),
        0xf4 => (4, 0x80..=0x8f),
        _ => return None,
    };
    let tail = text.get(1..length)?;
    let well = second.contains(&tail[0]) && tail[1..].iter().all(|byte| (0x80..=0xbf).contains(byte));
    well.then_some(length)
}

#[cfg(test)]
mod tests {
    use super::*;

    /// The standard library's own decoder stands as a second witness in the tests; the module does not use it.
    fn agrees(text: &[u8]) -> bool {
        well_formed(text) == std::str::from_utf8(text).is_ok()
    }

    #[test]
    fn every_text_of_two_bytes() {
        for first in 0..=255 {
            assert!(agrees(&[first]));
            for second in 0..=255 {
                assert!(agrees(&[first, second]));
            }
        }
    }

    #[test]
    fn every_edge_of_three_and_four_bytes() {
        let seconds = [0x00, 0x7f, 0x80, 0x8f, 0x90, 0x9f, 0xa0, 0xbf, 0xc0, 0xff];
        let tails = [0x7f, 0x80, 0xbf, 0xc0];
        for first in 0xc0..=255 {
            for second in seconds {
                for third in tails {
                    assert!(agrees(&[first, second, third]));
                    for fourth in tails {
                        assert!(agrees(&[first, second, third, fourth]));
                        assert!(agrees(&[first, second, third, fourth, b'a']));
                    }
                }
            }
        }
    }

    #[test]
    fn the_edges_by_name() {
        assert!(well_formed(b""));
        assert!(well_formed("hé€\u{10ffff}".as_bytes()));
        assert!(!well_formed(b"\xc0\xaf"), "overlong");
        assert!(!well_formed(b"\xe0\x80\xaf"), "overlong");
        assert!(!well_formed(b"\xf0\x80\x80\xaf"), "overlong");
        assert!(!well_formed(b"\xed\xa0\x80"), "surrogate");
        assert!(!well_formed(b"\xf4\x90\x80\x80"), "above 10FFFF");
        assert!(!well_formed(b"a\xe2\x82"), "cut short");
        assert!(!well_formed(b"\x80"), "lone continuation");
    }
}
