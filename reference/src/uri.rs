//! URI texts: the components between dots, the rule by policy, and the rule of each use, which is said here alone.
//! A text is what a string stands for, its escapes undone (`strings`), or what a row holds.

/// The longest text, in bytes.
pub const MAX_LENGTH: usize = 128;

/// How a row's text is compared with a URI.
#[derive(Clone, Copy, Debug, PartialEq, Eq)]
pub enum Policy {
    Exact,
    Prefix,
    Wildcard,
}

/// The components of a text, from left to right; there is always at least one.
pub fn components(text: &[u8]) -> impl DoubleEndedIterator<Item = &[u8]> {
    text.split(|&byte| byte == b'.')
}

/// May this byte not stand in any text?
fn is_refused(byte: u8) -> bool {
    byte <= 0x20 || byte == b'#'
}

/// Does the text obey the rule of a policy?
fn obeys(text: &[u8], policy: Policy) -> bool {
    if text.is_empty() || text.len() > MAX_LENGTH || text.iter().any(|&byte| is_refused(byte)) {
        return false;
    }
    match policy {
        Policy::Exact => components(text).all(|component| !component.is_empty()),
        // Only the last may be empty. The text is not, so a single component is never empty here.
        Policy::Prefix => components(text).rev().skip(1).all(|component| !component.is_empty()),
        Policy::Wildcard => true,
    }
}

/// Is the first component `wamp`?
fn is_reserved(text: &[u8]) -> bool {
    components(text).next() == Some(b"wamp".as_slice())
}

/// A text that SUBSCRIBE takes, and that a subscription's row may have.
pub fn is_subscribed_topic(text: &[u8], policy: Policy) -> bool {
    obeys(text, policy)
}

/// A text that REGISTER takes, and that a registration's row may have.
pub fn is_registered_procedure(text: &[u8], policy: Policy) -> bool {
    obeys(text, policy) && !is_reserved(text)
}

/// A URI that PUBLISH takes.
pub fn is_published_topic(text: &[u8]) -> bool {
    obeys(text, Policy::Exact) && !is_reserved(text)
}

/// A URI that CALL takes.
pub fn is_called_procedure(text: &[u8]) -> bool {
    obeys(text, Policy::Exact)
}

/// A URI that a callee's ERROR may carry.
pub fn is_error_uri(text: &[u8]) -> bool {
    obeys(text, Policy::Exact)
}

/// A realm that settings may name.
pub fn is_realm(text: &[u8]) -> bool {
    obeys(text, Policy::Exact)
}

/// A prefix that a permission rule may have. It may begin with `wamp`: rules are asked about calls of it too.
pub fn is_permission_prefix(text: &[u8]) -> bool {
    obeys(text, Policy::Prefix)
}

#[cfg(test)]
mod tests {
    use super::Policy::*;
    use super::*;

    #[test]
    fn length() {
        for policy in [Exact, Prefix, Wildcard] {
            assert!(!obeys(b"", policy));
            assert!(obeys(b"a", policy));
            assert!(obeys(&[b'a'; 128], policy));
            assert!(!obeys(&[b'a'; 129], policy));
        }
    }

    #[test]
    fn each_byte() {
        for policy in [Exact, Prefix, Wildcard] {
            for byte in 0..=255 {
                let refused = matches!(byte, 0x00..=0x20 | 0x23);
                assert_eq!(obeys(&[b'a', byte, b'b'], policy), !refused, "{byte:02x}");
            }
        }
    }

    #[test]
    fn empty_components() {
        // Each text with what is said of it as exact, prefix and wildcard text.
        let table: [(&str, [bool; 3]); 9] = [
            ("a.b", [true, true, true]),
            ("a.", [false, true, true]),
            ("a.b.", [false, true, true]),
            (".a", [false, false, true]),
            ("a..b", [false, false, true]),
            ("a..", [false, false, true]),
            (".", [false, false, true]),
            ("..", [false, false, true]),
            ("", [false, false, false]),
        ];
        for (text, answers) in table {
            for (policy, answer) in [Exact, Prefix, Wildcard].into_iter().zip(answers) {
                assert_eq!(obeys(text.as_bytes(), policy), answer, "{text} {policy:?}");
            }
        }
    }

    #[test]
    fn reserved() {
        for text in ["wamp", "wamp.", "wamp.error.x", "wamp..x"] {
            assert!(is_reserved(text.as_bytes()), "{text}");
        }
        for text in ["", "wam", "wampx", "wampx.y", "x.wamp", ".wamp", "Wamp.x"] {
            assert!(!is_reserved(text.as_bytes()), "{text}");
        }
    }

    #[test]
    fn each_use() {
        // Each text with what is said of it: a topic subscribed to by prefix, a procedure registered by prefix, the
        // prefix of a permission; a topic published, a procedure called, an error, a realm.
        let table: [(&[u8], [bool; 7]); 6] = [
            (b"a.b", [true, true, true, true, true, true, true]),
            (b"a\\\".\"", [true, true, true, true, true, true, true]),
            (b"a.", [true, true, true, false, false, false, false]),
            (b"wamp.a", [true, false, true, false, true, true, true]),
            (b"wamp.", [true, false, true, false, false, false, false]),
            (b"a b", [false, false, false, false, false, false, false]),
        ];
        for (text, answers) in table {
            let found = [
                is_subscribed_topic(text, Prefix),
                is_registered_procedure(text, Prefix),
                is_permission_prefix(text),
                is_published_topic(text),
                is_called_procedure(text),
                is_error_uri(text),
                is_realm(text),
            ];
            assert_eq!(found, answers, "{}", text.escape_ascii());
        }
    }
}
