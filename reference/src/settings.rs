//! The lent settings: 4,357 bytes that say the realm, who may do what under which prefixes, and how long a call may
//! wait; and the rules that they must keep.
//!
//! The realm's length, the realm, 32 rules, the wait. The wait takes 4 bytes, big-endian, and all else 1; texts are padded
//! with zeros to 128 bytes.

use crate::state::{pairwise, SLOTS};
use crate::uri;
use std::ops::RangeInclusive;

/// The most rules that there can be, and the places for them in the lent settings.
pub const RULES: usize = 32;

/// The length of a rule's place: slot, action, verdict, the prefix's length, the prefix.
pub const RULE_BYTES: usize = 4 + uri::MAX_LENGTH;

/// Where the rules and the wait begin.
pub const RULES_AT: usize = 1 + uri::MAX_LENGTH;
pub const WAIT_AT: usize = RULES_AT + RULES * RULE_BYTES;

/// The length of the lent settings.
pub const BYTES: usize = WAIT_AT + 4;

/// The waits that there can be, in milliseconds.
pub const WAITS: RangeInclusive<u32> = 1..=60_000;

/// The wait of settings that do not say one.
pub const DEFAULT_WAIT: u32 = 30_000;

/// The default settings' realm.
pub const DEFAULT_REALM: &[u8] = b"hub.bus";

/// The default settings, as they are lent.
pub static DEFAULT_BYTES: [u8; BYTES] = {
    let mut bytes = [0; BYTES];
    let (_, place) = bytes.split_at_mut(1);
    place.split_at_mut(DEFAULT_REALM.len()).0.copy_from_slice(DEFAULT_REALM);
    bytes[0] = DEFAULT_REALM.len() as u8;
    bytes.split_at_mut(WAIT_AT).1.copy_from_slice(&DEFAULT_WAIT.to_be_bytes());
    bytes
};

/// What a rule can be about, by its number.
#[derive(Clone, Copy, Debug, PartialEq, Eq)]
pub enum Action {
    Register = 0,
    Call = 1,
    Publish = 2,
    Subscribe = 3,
}

impl Action {
    pub const ALL: [Action; 4] = [Action::Register, Action::Call, Action::Publish, Action::Subscribe];
}

/// A permission rule, by its bytes: the numbers may be none, and the prefix any text.
#[derive(Clone, Copy, Debug, Default, PartialEq, Eq)]
pub struct Rule<'s> {
    pub slot: u8,
    pub action: u8,
    /// 0 is no, 1 is yes.
    pub verdict: u8,
    pub prefix: &'s [u8],
}

impl<'s> Rule<'s> {
    /// Are the numbers some slot's, action's and verdict's, and is the prefix a prefix text?
    pub fn is_good(&self) -> bool {
        usize::from(self.slot) < SLOTS
            && usize::from(self.action) < Action::ALL.len()
            && self.verdict < 2
            && uri::is_permission_prefix(self.prefix)
    }

    /// Are both about one slot, action and prefix? What they say of it does not matter.
    pub fn is_about_the_same(&self, other: &Rule) -> bool {
        (self.slot, self.action, self.prefix) == (other.slot, other.action, other.prefix)
    }

    /// The rule in its place, `None` where its length is that of no text or a byte past the text is not zero. An unused
    /// one is `Rule::default()`.
    fn placed(place: &'s [u8]) -> Option<Rule<'s>> {
        let prefix = padded(place[3], &place[4..])?;
        Some(Rule { slot: place[0], action: place[1], verdict: place[2], prefix })
    }
}

/// Are no two rules about the same?
pub fn are_distinct(rules: &[Rule]) -> bool {
    pairwise(rules.iter(), |one, other| !one.is_about_the_same(other))
}

/// Settings, by the texts of whoever lent them.
#[derive(Clone, Copy, Debug, PartialEq, Eq)]
pub struct Settings<'s> {
    pub realm: &'s [u8],
    /// The used ones, in their order, and then unused ones.
    places: [Rule<'s>; RULES],
    used: usize,
    pub wait: u32,
}

impl<'s> Settings<'s> {
    /// Settings of at most 32 rules. They may break the rules of settings.
    pub fn new(realm: &'s [u8], rules: &[Rule<'s>], wait: u32) -> Settings<'s> {
        let mut places = [Rule::default(); RULES];
        places[..rules.len()].copy_from_slice(rules);
        Settings { realm, places, used: rules.len(), wait }
    }

    /// Realm `hub.bus`, no rule, a wait of 30,000.
    pub const DEFAULT: Settings<'static> = Settings {
        realm: DEFAULT_REALM,
        places: [Rule { slot: 0, action: 0, verdict: 0, prefix: &[] }; RULES],
        used: 0,
        wait: DEFAULT_WAIT,
    };

    /// The settings that the lent bytes are; `None` if they are none, or break a rule.
    pub fn load(bytes: &'s [u8]) -> Option<Settings<'s>> {
        let settings = Settings::parse(bytes)?;
        settings.keep_the_rules().then_some(settings)
    }

    /// The settings that the bytes lay out: of the right length, texts with zeros past them, used rules first, unused ones
    /// all zero.
    fn parse(bytes: &'s [u8]) -> Option<Settings<'s>> {
        if bytes.len() != BYTES {
            return None;
        }
        let realm = padded(bytes[0], &bytes[1..RULES_AT])?;
        let mut places = [Rule::default(); RULES];
        for (rule, place) in places.iter_mut().zip(bytes[RULES_AT..WAIT_AT].chunks_exact(RULE_BYTES)) {
            *rule = Rule::placed(place)?;
        }
        let used = places.iter().take_while(|rule| !rule.prefix.is_empty()).count();
        let wait = u32::from_be_bytes(bytes[WAIT_AT..].try_into().expect("4 bytes"));
        let unused_are_zero = places[used..].iter().all(|rule| *rule == Rule::default());
        unused_are_zero.then_some(Settings { realm, places, used, wait })
    }

    /// The rules of settings that their layout does not say: realm, prefixes, numbers and wait are some, and no two rules
    /// are about the same.
    pub fn keep_the_rules(&self) -> bool {
        self.have_good_values() && are_distinct(self.rules())
    }

    /// Are the realm, the values of each rule and the wait what they may be?
    pub fn have_good_values(&self) -> bool {
        uri::is_realm(self.realm) && self.rules().iter().all(Rule::is_good) && WAITS.contains(&self.wait)
    }

    /// The rules, in their order.
    pub fn rules(&self) -> &[Rule<'s>] {
        &self.places[..self.used]
    }

    /// Writes settings that keep the rules over lent bytes of the right length.
    pub fn print(&self, bytes: &mut [u8]) {
        bytes.fill(0);
        bytes[0] = self.realm.len() as u8;
        bytes[1..][..self.realm.len()].copy_from_slice(self.realm);
        for (rule, place) in self.rules().iter().zip(bytes[RULES_AT..].chunks_exact_mut(RULE_BYTES)) {
            place[..4].copy_from_slice(&[rule.slot, rule.action, rule.verdict, rule.prefix.len() as u8]);
            place[4..][..rule.prefix.len()].copy_from_slice(rule.prefix);
        }
        bytes[WAIT_AT..].copy_from_slice(&self.wait.to_be_bytes());
    }

    /// May the slot do this with this text? The longest fitting rule of the slot and the action says it, and without one
    /// it may. No two that fit are of one length, since they would have one prefix.
    pub fn permit(&self, slot: usize, action: Action, text: &[u8]) -> bool {
        let asked = |rule: &&Rule| usize::from(rule.slot) == slot && rule.action == action as u8;
        let fitting = self.rules().iter().filter(asked).filter(|rule| text.starts_with(rule.prefix));
        fitting.max_by_key(|rule| rule.prefix.len()).is_none_or(|rule| rule.verdict == 1)
    }
}

/// Do the lent bytes keep the rules of settings?
pub fn keeps_the_rules(bytes: &[u8]) -> bool {
    Settings::load(bytes).is_some()
}

static ZEROS: [u8; uri::MAX_LENGTH] = [0; uri::MAX_LENGTH];

/// The text of this length in its place; `None` where it is longer than the place, or a byte past it is not zero.
fn padded(length: u8, place: &[u8]) -> Option<&[u8]> {
    let (text, past) = place.split_at_checked(length.into())?;
    // Compared as one piece, since every step looks at some 4,000 such bytes.
    (*past == ZEROS[..past.len()]).then_some(text)
}

#[cfg(test)]
mod tests {
    use super::*;

    fn rule(slot: u8, action: Action, verdict: u8, prefix: &[u8]) -> Rule<'_> {
        Rule { slot, action: action as u8, verdict, prefix }
    }

    /// Settings with two rules, a wait that is not the default's, and their bytes.
    fn some() -> Vec<u8> {
        let rules = [rule(7, Action::Subscribe, 0, b"a."), rule(0, Action::Register, 1, &[b'p'; 128])];
        printed(&Settings::new(b"x.y", &rules, 258))
    }

    fn printed(settings: &Settings) -> Vec<u8> {
        let mut bytes = vec![0xee; BYTES];
        settings.print(&mut bytes);
        bytes
    }

    /// Does a change of the bytes above leave settings that keep the rules?
    fn keep(change: impl FnOnce(&mut Vec<u8>)) -> bool {
        let mut bytes = some();
        change(&mut bytes);
        keeps_the_rules(&bytes)
    }

    #[test]
    fn the_layout() {
        assert_eq!((RULES_AT, WAIT_AT, BYTES), (129, 4353, 4357));
        let bytes = some();
        assert_eq!(bytes[..5], *b"\x03x.y\0");
        assert_eq!(bytes[129..136], *b"\x07\x03\x00\x02a.\0");
        assert_eq!(bytes[129 + 132..][..5], *b"\x00\x00\x01\x80p");
        assert_eq!(bytes[4353..], *b"\x00\x00\x01\x02");
        let settings = Settings::load(&bytes).expect("settings");
        assert_eq!((settings.realm, settings.rules().len(), settings.wait), (b"x.y".as_slice(), 2, 258));
        assert_eq!(printed(&settings), bytes);
        let bytes = printed(&Settings::DEFAULT);
        assert_eq!(bytes[..8], *b"\x07hub.bus");
        assert!(bytes[8..4353].iter().all(|&byte| byte == 0));
        assert_eq!(bytes[4353..], *b"\x00\x00\x75\x30");
        assert_eq!(Settings::load(&bytes), Some(Settings::DEFAULT));
        assert!(bytes == DEFAULT_BYTES);
        assert_eq!(Settings::new(b"hub.bus", &[], 30_000), Settings::DEFAULT);
    }

    #[test]
    fn the_length() {
        assert!(keep(|_| ()));
        assert!(!keep(|bytes| bytes.truncate(BYTES - 1)));
        assert!(!keep(|bytes| bytes.push(0)));
        assert!(!keep(Vec::clear));
    }

    #[test]
    fn the_realm() {
        assert!(!keep(|bytes| bytes[0] = 2), "a byte past it");
        assert!(!keep(|bytes| bytes[0] = 4), "a zero in it");
        assert!(!keep(|bytes| bytes[0] = 129), "longer than its place");
        assert!(!keep(|bytes| bytes[..4].fill(0)), "none");
        assert!(!keep(|bytes| bytes[3] = b'.'), "no exact text");
        assert!(!keep(|bytes| bytes[128] = 1), "a byte past it");
        assert!(
            keep(|bytes| bytes[..8].copy_from_slice(b"\x07wamp.\xff\"")),
            "wamp, and bytes that are no UTF-8"
        );
        assert!(keep(|bytes| bytes[..129].copy_from_slice(&[128; 129])), "128 bytes");
    }

    #[test]
    fn each_rule() {
        for (place, least, most) in [(129, 0, 7), (130, 0, 3), (131, 0, 1), (261, 0, 7), (262, 0, 3)] {
            for value in 0..=255 {
                assert_eq!(
                    keep(|bytes| bytes[place] = value),
                    (least..=most).contains(&value),
                    "{place} {value}"
                );
            }
        }
        assert!(!keep(|bytes| bytes[132] = 1), "a byte past the prefix");
        assert!(!keep(|bytes| bytes[132] = 3), "a zero in the prefix");
        assert!(!keep(|bytes| bytes[132] = 129), "a prefix longer than its place");
        assert!(!keep(|bytes| bytes[133] = b'.'), "no prefix text");
        assert!(!keep(|bytes| bytes[129 + 131] = 1), "a byte past the prefix");
        assert!(keep(|bytes| bytes[132..138].copy_from_slice(b"\x05wamp.")), "wamp");
    }

    #[test]
    fn used_rules_first_and_unused_ones_zero() {
        let (first, second, third) = (129..261, 261..393, 393);
        assert!(!keep(|bytes| bytes[first.clone()].fill(0)), "an unused rule before a used one");
        assert!(keep(|bytes| bytes[second.clone()].fill(0)));
        assert!(keep(|bytes| bytes[129..393].fill(0)));
        for place in third..third + 132 {
            assert!(!keep(|bytes| bytes[place] = 1), "{place}");
        }
        assert!(!keep(|bytes| bytes[WAIT_AT - 1] = 1));
        assert!(keep(|bytes| bytes[third..third + 5].copy_from_slice(b"\x01\x01\x01\x01a")));
    }

    #[test]
    fn no_two_rules_about_the_same() {
        let base = rule(1, Action::Call, 0, b"a");
        let are_good = |other| keeps_the_rules(&printed(&Settings::new(b"r", &[base, other], 1)));
        assert!(!are_good(base));
        assert!(!are_good(Rule { verdict: 1, ..base }));
        assert!(are_good(Rule { slot: 2, ..base }));
        assert!(are_good(Rule { action: 2, ..base }));
        assert!(are_good(Rule { prefix: b"b", ..base }));
        assert!(are_good(Rule { prefix: b"a.", ..base }));
    }

    #[test]
    fn the_wait() {
        for (wait, is_good) in [(0, false), (1, true), (60_000, true), (60_001, false), (u32::MAX, false)] {
            assert_eq!(
                keep(|bytes| bytes[WAIT_AT..].copy_from_slice(&u32::to_be_bytes(wait))),
                is_good,
                "{wait}"
            );
        }
    }

    #[test]
    fn as_many_rules_as_there_are_places() {
        let prefixes: Vec<_> = (0..32).map(|number| [b'a' + number]).collect();
        let rules: Vec<_> = prefixes.iter().map(|prefix| rule(0, Action::Call, 1, prefix)).collect();
        let bytes = printed(&Settings::new(b"r", &rules, 1));
        assert_eq!(Settings::load(&bytes).expect("settings").rules(), rules);
    }

    #[test]
    fn the_longest_fitting_rule_decides() {
        let rules = [
            rule(1, Action::Call, 0, b"hub"),
            rule(1, Action::Call, 1, b"hub.donor"),
            rule(1, Action::Call, 0, b"hub.donor.defer"),
            rule(2, Action::Call, 0, b"hub.donor"),
            rule(1, Action::Publish, 1, b"hub"),
        ];
        for rules in [rules.to_vec(), rules.into_iter().rev().collect()] {
            let settings = Settings::new(b"r", &rules, 1);
            let may = |slot, action, text: &str| settings.permit(slot, action, text.as_bytes());
            for (text, answer) in [
                ("h", true),
                ("hu", true),
                ("hub", false),
                ("hubs", false),
                ("hub.dono", false),
                ("hub.donor", true),
                ("hub.donors.x", true),
                ("hub.donor.defer", false),
                ("hub.donor.deferred", false),
                ("a.hub", true),
            ] {
                assert_eq!(may(1, Action::Call, text), answer, "{text}");
                assert!(may(1, Action::Publish, text) && may(1, Action::Register, text), "{text}");
                assert!(may(3, Action::Call, text), "{text}");
            }
            assert!(may(2, Action::Call, "hub") && !may(2, Action::Call, "hub.donor.defer"));
        }
    }
}
