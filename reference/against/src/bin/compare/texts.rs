//! URI texts over a small alphabet of components, so that rows often match, join and repeat each other. They are
//! undone texts, but for the odd ones.

use crate::random::Random;
use reference::state::Row;
use reference::uri::{self, Policy, MAX_LENGTH};

/// The components. A run uses the first few of them; some begin others, for prefixes that end inside one. The later
/// ones have a quote, a backslash, characters of three and four bytes, and those either side of each length.
const COMPONENTS: [&str; 17] = [
    "a",
    "ab",
    "b",
    "a1",
    "donor",
    "é",
    "wamp",
    "D17-x",
    "a\"",
    "\\b",
    "€/",
    "𝄞",
    "\\\"",
    "\u{7f}\u{80}",
    "\u{7ff}\u{800}",
    "\u{d7ff}\u{e000}",
    "\u{ffff}\u{10000}",
];

/// The fewest and the most components in use.
pub const FEWEST: usize = 2;
pub const MOST: usize = COMPONENTS.len();

fn component(random: &mut Random, alphabet: usize) -> &'static str {
    COMPONENTS[random.below(alphabet)]
}

/// A text of one to four components, none of them empty.
pub fn exact(random: &mut Random, alphabet: usize) -> String {
    let count = random.between(1, 4);
    let components: Vec<_> = (0..count).map(|_| component(random, alphabet)).collect();
    components.join(".")
}

/// The independent program's rule for the texts of a table's rows.
pub type Rule = fn(&[u8], Policy) -> bool;

/// A text that the rule takes.
pub fn taken(random: &mut Random, alphabet: usize, policy: Policy, rule: Rule) -> String {
    drawn(|| of_shape(random, alphabet, policy), |text| rule(text.as_bytes(), policy))
}

/// A text that SUBSCRIBE takes and REGISTER does not.
pub fn not_registered(random: &mut Random, policy: Policy) -> String {
    drawn(
        || of_shape(random, MOST, policy),
        |text| {
            let text = text.as_bytes();
            uri::is_subscribed_topic(text, policy) && !uri::is_registered_procedure(text, policy)
        },
    )
}

/// Draws until one is wanted. The alphabet has to have such texts among a thousand.
pub fn drawn<T>(mut draw: impl FnMut() -> T, is_wanted: impl Fn(&T) -> bool) -> T {
    (0..1000).map(|_| draw()).find(is_wanted).expect("a text that the rule takes")
}

/// A text with empty components only where the policy's texts may have them.
fn of_shape(random: &mut Random, alphabet: usize, policy: Policy) -> String {
    let mut text = exact(random, alphabet);
    match policy {
        Policy::Exact => text,
        Policy::Prefix => {
            if random.once_in(3) {
                text.push('.');
            }
            text
        }
        Policy::Wildcard => {
            let kept = text.split('.').map(|part| if random.once_in(2) { "" } else { part });
            let text = kept.collect::<Vec<_>>().join(".");
            if text.is_empty() {
                ".".to_string()
            } else {
                text
            }
        }
    }
}

/// A URI that fits the row, whose text is UTF-8, unless it would be too long.
pub fn fitting(random: &mut Random, alphabet: usize, row: &Row) -> String {
    let text = String::from_utf8_lossy(row.text()).into_owned();
    match row.policy {
        Policy::Exact => text,
        Policy::Prefix => match random.below(4) {
            0 if !text.ends_with('.') => text,
            1 => format!("{text}x"),
            2 if !text.ends_with('.') => format!("{text}.{}", exact(random, alphabet)),
            _ => format!("{text}{}", exact(random, alphabet)),
        },
        Policy::Wildcard => {
            let filled =
                text.split('.').map(|part| if part.is_empty() { component(random, alphabet) } else { part });
            filled.collect::<Vec<_>>().join(".")
        }
    }
}

/// A text at the edge of the length: 126 to 130 bytes, of one component or of several.
pub fn long(random: &mut Random) -> String {
    let length = random.between(MAX_LENGTH - 2, MAX_LENGTH + 2);
    let unit = random.pick(&["a", "ab.", "a1.", "\"", "a\\.", "é", "€", "𝄞"]);
    let text = unit.repeat((length - 1) / unit.len());
    let left = length - text.len();
    text + &"z".repeat(left)
}

/// A text that breaks a rule, or nearly does, as it may stand between quotes. Some are no JSON.
pub fn odd(random: &mut Random) -> String {
    if random.once_in(3) {
        let any = random.below(128) as u8;
        return format!("a{}b", char::from(any));
    }
    let texts = [
        "",
        ".",
        "..",
        ".a",
        "a.",
        "a..b",
        "a.b.",
        "a..",
        "wamp",
        "wamp.a",
        "wampx.a",
        "wamp.",
        "a.wamp",
        "a b",
        " a",
        "a#b",
        "#",
        "a\\u0062",
        "\\u0061\\u002eb",
        "a\\u002e",
        "\\u0077amp.a",
        "\\\\u0077amp.a",
        "a\\u0023",
        "a\\u0020b",
        "\\u0000",
        "a\\/b",
        "\\ud834\\udd1e",
        "a\\ud834",
        "a\\n",
        "a\\\\b",
        "a\\\"b",
        "a\u{7f}b",
        "a\u{1f}b",
        "a\tb",
        "a\u{a0}b",
        "héb.\u{10ffff}",
        "a/b",
        "\\",
        "A.B",
    ];
    random.pick(&texts).to_string()
}

#[cfg(test)]
mod tests {
    use super::*;
    use reference::matching::fits;

    const POLICIES: [Policy; 3] = [Policy::Exact, Policy::Prefix, Policy::Wildcard];

    #[test]
    fn texts_obey_their_rule_and_fit_their_row() {
        let mut random = Random::new(5);
        for rule in [uri::is_subscribed_topic, uri::is_registered_procedure] {
            for _ in 0..5000 {
                let alphabet = random.between(FEWEST, MOST);
                let policy = random.pick(&POLICIES);
                let text = taken(&mut random, alphabet, policy, rule);
                assert!(rule(text.as_bytes(), policy), "{text} {policy:?}");
                let row = Row::new(1, policy, 1, text.as_bytes());
                let uri = fitting(&mut random, alphabet, &row);
                assert!(uri::is_called_procedure(uri.as_bytes()), "{uri}");
                assert!(fits(policy, text.as_bytes(), uri.as_bytes()), "{text} {policy:?} {uri}");
            }
        }
    }

    #[test]
    fn some_texts_are_for_subscribing_alone() {
        let mut random = Random::new(5);
        for policy in POLICIES {
            let text = not_registered(&mut random, policy);
            assert!(uri::is_subscribed_topic(text.as_bytes(), policy), "{text}");
            assert!(!uri::is_registered_procedure(text.as_bytes(), policy), "{text}");
        }
    }

    #[test]
    fn long_texts_lie_round_the_edge() {
        let mut random = Random::new(5);
        let lengths: Vec<_> = (0..200).map(|_| long(&mut random).len()).collect();
        assert!((126..=130).all(|length| lengths.contains(&length)));
        assert!(lengths.iter().all(|length| (126..=130).contains(length)));
    }
}
