//! Which rows a URI fits, and which one a call is routed to.

use crate::uri::{components, Policy};
use std::cmp::Ordering;

/// A URI and its components. It is split once, however many rows it is held against.
pub struct Split<'u> {
    uri: &'u [u8],
    components: Vec<&'u [u8]>,
}

impl<'u> Split<'u> {
    pub fn new(uri: &'u [u8]) -> Split<'u> {
        Split { uri, components: components(uri).collect() }
    }

    /// Does the row's text fit the URI?
    pub fn is_fit(&self, policy: Policy, text: &[u8]) -> bool {
        let uri = self.uri;
        match policy {
            Policy::Exact => text == uri,
            Policy::Prefix => uri.starts_with(text),
            Policy::Wildcard => fits_wildcard(text, &self.components),
        }
    }
}

/// The same of a URI that is held against one text.
pub fn fits(policy: Policy, text: &[u8], uri: &[u8]) -> bool {
    Split::new(uri).is_fit(policy, text)
}

/// As many components, each empty or equal.
fn fits_wildcard(text: &[u8], of_uri: &[&[u8]]) -> bool {
    let mut left = of_uri.iter();
    for pattern in components(text) {
        match left.next() {
            Some(component) if pattern.is_empty() || pattern == *component => {}
            _ => return false,
        }
    }
    left.next().is_none()
}

/// The counts of literal components before each wildcard and after the last, from left to right.
fn literal_counts(text: &[u8]) -> impl Iterator<Item = usize> + '_ {
    let mut rest = components(text);
    let mut ended = false;
    std::iter::from_fn(move || {
        if ended {
            return None;
        }
        let mut count = 0;
        loop {
            match rest.next() {
                Some([]) => return Some(count),
                Some(_) => count += 1,
                None => {
                    ended = true;
                    return Some(count);
                }
            }
        }
    })
}

/// The better of two wildcard texts: the first larger count wins. Two different texts that fit one URI never
/// tie; for other pairs, where no count is larger, it is the first here; docs/PROTOCOL.md lets more counts win.
pub fn better<'t>(first: &'t [u8], second: &'t [u8]) -> &'t [u8] {
    let mut counts = literal_counts(first).zip(literal_counts(second)).map(|(one, other)| one.cmp(&other));
    match counts.find(|order| order.is_ne()) {
        Some(Ordering::Less) => second,
        _ => first,
    }
}

/// A candidate of the choice: a policy, a text, and what the caller knows the row by.
#[derive(Clone, Copy)]
pub struct Candidate<'t, Name> {
    pub name: Name,
    pub policy: Policy,
    pub text: &'t [u8],
}

/// The row that a call of the URI goes to: the exact one, else the longest prefix, else the best wildcard.
pub fn choose<'t, Name: Copy>(
    rows: impl Iterator<Item = Candidate<'t, Name>>,
    uri: &[u8],
) -> Option<Candidate<'t, Name>> {
    let split = Split::new(uri);
    let mut best: Option<Candidate<'t, Name>> = None;
    for row in rows.filter(|row| split.is_fit(row.policy, row.text)) {
        best = match best {
            Some(standing) if !is_preferred(&row, &standing) => Some(standing),
            _ => Some(row),
        };
    }
    best
}

/// Of two rows that fit one URI, is the first to be preferred?
fn is_preferred<Name>(row: &Candidate<Name>, standing: &Candidate<Name>) -> bool {
    use Policy::*;
    match (row.policy, standing.policy) {
        (Exact, Prefix | Wildcard) | (Prefix, Wildcard) => true,
        // Two exact rows that fit one URI have one text, and a table has no text and policy twice.
        (Exact, Exact) | (Prefix | Wildcard, Exact) | (Wildcard, Prefix) => false,
        (Prefix, Prefix) => row.text.len() > standing.text.len(),
        // Asked with the standing row first, so that it stays where the protocol leaves the answer free.
        (Wildcard, Wildcard) => row.text != standing.text && better(standing.text, row.text) == row.text,
    }
}

#[cfg(test)]
mod tests {
    use super::Policy::*;
    use super::*;

    /// The rows of the marked cases (PROTOCOL, "Matching").
    const ROWS: [(u64, Policy, &str); 7] = [
        (1, Exact, "a1.b2.c3.d4.e55"),
        (2, Prefix, "a1.b2.c3"),
        (3, Prefix, "a1.b2.c3.d4"),
        (4, Wildcard, "a1.b2..d4.e5"),
        (5, Wildcard, "a1.b2.c3..e5"),
        (6, Wildcard, "a1.b2..d4.e5..g7"),
        (7, Wildcard, "a1.b2..d4..f6.g7"),
    ];

    fn chosen(rows: &[(u64, Policy, &'static str)], uri: &str) -> Option<u64> {
        let rows = rows.iter().map(|&(name, policy, text)| Candidate { name, policy, text: text.as_bytes() });
        choose(rows, uri.as_bytes()).map(|row| row.name)
    }

    #[test]
    fn the_marked_cases_of_the_choice() {
        let without_prefixes: Vec<_> = ROWS.into_iter().filter(|row| row.1 != Prefix).collect();
        let backwards: Vec<_> = ROWS.into_iter().rev().collect();
        for rows in [&ROWS[..], &backwards] {
            assert_eq!(chosen(rows, "a1.b2.c3.d4.e55"), Some(1), "M1");
            assert_eq!(chosen(rows, "a1.b2.c3.d98.e74"), Some(2), "M2");
            assert_eq!(chosen(rows, "a1.b2.c3.d4.e325"), Some(3), "M3");
            assert_eq!(chosen(rows, "a1.b2.c55.d4.e5"), Some(4), "M4");
            assert_eq!(chosen(rows, "a1.b2.c3.d4.e5"), Some(3), "M5");
            assert_eq!(chosen(rows, "a1.b2.c88.d4.e5.f6.g7"), Some(6), "M7");
            assert_eq!(chosen(rows, "a2.b2.c2.d2.e2"), None, "M8");
        }
        assert_eq!(chosen(&without_prefixes, "a1.b2.c3.d4.e5"), Some(5), "M6");
    }

    #[test]
    fn the_marked_cases_of_fitting() {
        assert!(fits(Prefix, b"com.myapp.myobject1", b"com.myapp.myobject1-mysubobject1"), "M9");
        assert!(!fits(Prefix, b"com.myapp.myobject1", b"com.myapp.myobject"), "M10");
        let long = b"com.myapp.myobject1.myprocedure1.mysubprocedure1";
        assert!(!fits(Wildcard, b"com.myapp..myprocedure1", long), "M11");
        // Bytes, not components.
        assert!(fits(Prefix, b"com.myapp", b"com.myapp2.foobar"));
    }

    #[test]
    fn counts() {
        let counts = |text: &str| literal_counts(text.as_bytes()).collect::<Vec<_>>();
        assert_eq!(counts("a1.b2..d4.e5..g7"), [2, 2, 1]);
        assert_eq!(counts("a1.b2..d4..f6.g7"), [2, 1, 2]);
        assert_eq!(counts("a.b"), [2]);
        assert_eq!(counts("."), [0, 0, 0]);
        assert_eq!(counts("a."), [1, 0]);
        assert_eq!(counts(".a"), [0, 1]);
    }

    #[test]
    fn no_tie_between_texts_that_fit_one_uri() {
        // Every wildcard text of up to six components that fits a URI is a set of places left empty.
        let parts = ["a", "b", "c", "d", "e", "f"];
        for n in 1..=parts.len() {
            let text = |empty: usize| {
                let kept = (0..n).map(|i| if empty >> i & 1 == 1 { "" } else { parts[i] });
                kept.collect::<Vec<_>>().join(".")
            };
            for one in 0..1 << n {
                for other in 0..1 << n {
                    let (one_text, other_text) = (text(one), text(other));
                    let winner = better(one_text.as_bytes(), other_text.as_bytes());
                    assert_eq!(winner, better(other_text.as_bytes(), one_text.as_bytes()));
                }
            }
        }
    }
}
