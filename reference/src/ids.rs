//! Message numbers and IDs: digits only, no leading zero, from 1 to 2^53.

/// The largest ID, 9007199254740992.
pub const MAX: u64 = 1 << 53;

/// Is the number one that an ID may have?
pub fn in_range(number: u64) -> bool {
    (1..=MAX).contains(&number)
}

/// The ID that the text writes, if it writes one. The text may have any length.
pub fn read(text: &[u8]) -> Option<u64> {
    if text.is_empty() || text[0] == b'0' {
        return None;
    }
    let mut number = 0;
    for &byte in text {
        if !byte.is_ascii_digit() {
            return None;
        }
        number = number * 10 + u64::from(byte - b'0');
        // Stopping here keeps the next turn's product far below 2^64.
        if number > MAX {
            return None;
        }
    }
    Some(number)
}

#[cfg(test)]
mod tests {
    use super::*;

    #[test]
    fn either_side_of_each_edge() {
        assert_eq!(read(b"1"), Some(1));
        assert_eq!(read(b"9007199254740992"), Some(MAX));
        assert_eq!(read(b"0"), None);
        assert_eq!(read(b"9007199254740993"), None);
        assert!(in_range(1) && in_range(MAX) && !in_range(0) && !in_range(MAX + 1));
    }

    #[test]
    fn digits_only() {
        for text in ["", "00", "01", "+1", "-1", "1.0", "1e0", " 1", "1 ", "a", "1a", "/", ":"] {
            assert_eq!(read(text.as_bytes()), None, "{text}");
        }
    }

    #[test]
    fn any_length() {
        assert_eq!(read(&[b'9'; 2000]), None);
        // 2^64 + 1 would be 1 in wrapping arithmetic.
        assert_eq!(read(b"18446744073709551617"), None);
    }
}
