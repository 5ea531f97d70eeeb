//! Lent settings with a byte changed, by the writers of both versions: each rule of settings broken, and none.

use super::settings::{distinct, packed, realm, rule, rules, wait};
use crate::lines::Lines;
use reference::settings::{RULES_AT, RULE_BYTES, WAIT_AT};

pub fn all(lines: &mut Lines) {
    realm_and_wait(lines);
    the_rules(lines);
    near_rules(lines);
    harmless(lines);
}

/// The place of a byte of a rule in the lent settings.
const fn rule_at(number: usize, byte: usize) -> usize {
    RULES_AT + number * RULE_BYTES + byte
}

/// What the lent settings of the cases below are: two rules and places for 30 more.
fn lent() -> Vec<u8> {
    let some = [rule(1, 2, 1, b"b"), rule(7, 0, 0, b"b.c")];
    packed(2, &[realm(b"a.b"), rules(&some), wait(0xea00)])
}

/// A changed byte for both writers.
fn by_both(lines: &mut Lines, file: &[u8], at: usize, byte: u8, what: &str) {
    lines.kept(file, at, byte, what);
    lines.kept_1(file, at, byte, what);
}

/// Places and bytes of a realm or a wait that break a rule.
const REALM_AND_WAIT: [(usize, u8, &str); 18] = [
    (0, 0, "the realm's length 0"),
    (0, 1, "the realm's length 1 of 3"),
    (0, 2, "the realm's length 2 of 3"),
    (0, 4, "the realm's length 4 of 3"),
    (0, 128, "the realm's length 128"),
    (0, 129, "the realm's length 129"),
    (0, 255, "the realm's length 255"),
    (1, b'.', "a realm that is no exact text"),
    (3, b'.', "a realm that is no exact text"),
    (2, 0x20, "a realm with a space"),
    (1, 0, "a realm with a zero"),
    (4, b'c', "a byte past the realm"),
    (128, 1, "a byte past the realm, the last"),
    (WAIT_AT, 1, "a wait above 2^24"),
    (WAIT_AT + 1, 1, "a wait above 65,536"),
    (WAIT_AT + 2, 0xeb, "a wait of 60,160"),
    (WAIT_AT + 2, 0, "a wait of 0"),
    (WAIT_AT + 3, 0x61, "a wait of 60,001"),
];

fn realm_and_wait(lines: &mut Lines) {
    lines.heading("Lent settings with a byte changed: the realm and the wait");
    let file = lent();
    for (at, byte, what) in REALM_AND_WAIT {
        by_both(lines, &file, at, byte, what);
    }
    let file = packed(2, &[realm(b"a"), rules(&[]), wait(60_000)]);
    for (byte, what) in [(0x61, "a wait of 60,001"), (0x60, "a wait of 60,000"), (0x5f, "a wait of 59,999")] {
        by_both(lines, &file, WAIT_AT + 3, byte, what);
    }
    let file = packed(2, &[realm(b"a"), rules(&[]), wait(1)]);
    by_both(lines, &file, WAIT_AT + 3, 0, "a wait of 0");
    let long = packed(2, &[realm(&[b'r'; 128]), rules(&[]), wait(1)]);
    for (byte, what) in [(127, "the realm's length 127 of 128"), (129, "the realm's length 129 of 128")] {
        lines.kept(&long, 0, byte, what);
    }
}

/// Rules' numbers, places in them, and bytes there that break a rule of settings.
const RULES: [(usize, usize, u8, &str); 29] = [
    (0, 0, 8, "the slot 8"),
    (1, 0, 255, "the slot 255"),
    (0, 1, 4, "the action 4"),
    (1, 1, 255, "the action 255"),
    (0, 2, 2, "the verdict 2"),
    (1, 2, 255, "the verdict 255"),
    (0, 3, 0, "a prefix's length 0 of 1"),
    (0, 3, 2, "a prefix's length 2 of 1"),
    (1, 3, 1, "a prefix's length 1 of 3"),
    (1, 3, 2, "a prefix's length 2 of 3"),
    (1, 3, 0, "a prefix's length 0 of 3"),
    (1, 3, 128, "a prefix's length 128"),
    (1, 3, 129, "a prefix's length 129"),
    (1, 3, 255, "a prefix's length 255"),
    (0, 4, b'.', "a prefix of one dot"),
    (1, 4, b'.', "a prefix that is no prefix text"),
    (1, 6, b' ', "a prefix with a space"),
    (1, 6, b'.', "a prefix of two dots at its end"),
    (1, 7, b'd', "a byte past a prefix"),
    (0, 131, 1, "a byte past a prefix, the last"),
    (2, 0, 1, "an unused rule with a slot"),
    (2, 1, 1, "an unused rule with an action"),
    (2, 2, 1, "an unused rule with a verdict"),
    (2, 3, 1, "an unused rule with a length"),
    (2, 4, b'a', "an unused rule with a text"),
    (2, 131, 1, "an unused rule with a text, its last byte"),
    (30, 2, 1, "an unused rule with a verdict"),
    (31, 0, 1, "the last rule with a slot"),
    (31, 131, 1, "the last byte of the last rule"),
];

fn the_rules(lines: &mut Lines) {
    lines.heading("Lent settings with a byte changed: the rules");
    let file = lent();
    for (number, byte, value, what) in RULES {
        lines.kept(&file, rule_at(number, byte), value, what);
        if number != 1 {
            lines.kept_1(&file, rule_at(number, byte), value, what);
        }
    }
}

fn near_rules(lines: &mut Lines) {
    lines.heading("Lent settings with a byte changed: rules that become equal, and the last of 32");
    let near = |other: Vec<u8>| packed(2, &[realm(b"a"), rules(&[rule(1, 2, 1, b"b"), other]), wait(9)]);
    for (other, byte, value, what) in [
        (rule(2, 2, 1, b"b"), 0, 1, "two rules that differed by slot"),
        (rule(1, 3, 1, b"b"), 1, 2, "two rules that differed by action"),
        (rule(1, 2, 1, b"c"), 4, b'b', "two rules that differed by prefix"),
        (rule(2, 2, 0, b"b"), 0, 1, "two rules that differed by slot, and do by verdict"),
    ] {
        by_both(lines, &near(other), rule_at(1, byte), value, what);
    }
    let mut all = distinct(32);
    all[31] = rule(0, 0, 0, b"~");
    let full = packed(2, &[realm(b"a"), rules(&all), wait(9)]);
    lines.kept(&full, rule_at(31, 4), b'0', "of 32 rules the first and the last");
    lines.kept(&full, rule_at(31, 3), 0, "of 32 rules the last without a length");
    lines.kept(&full, rule_at(31, 4), b'!', "of 32 rules the last changed");
}

/// Places and bytes that break no rule.
const HARMLESS: [(usize, u8, &str); 16] = [
    (0, 3, "the realm's length as it is"),
    (1, b'w', "another realm"),
    (2, b'-', "another realm"),
    (3, 0xff, "a realm that is no UTF-8"),
    (128, 0, "a zero as it is"),
    (WAIT_AT + 3, 0x60, "the longest wait"),
    (WAIT_AT + 2, 1, "another wait"),
    (rule_at(0, 0), 0, "another slot"),
    (rule_at(0, 0), 7, "another slot"),
    (rule_at(0, 1), 3, "another action"),
    (rule_at(0, 2), 0, "another verdict"),
    (rule_at(1, 2), 1, "another verdict"),
    (rule_at(0, 4), b'c', "another prefix"),
    (rule_at(1, 6), b'"', "another prefix"),
    (rule_at(1, 5), b'b', "another prefix"),
    (rule_at(2, 0), 0, "a zero as it is"),
];

fn harmless(lines: &mut Lines) {
    lines.heading("Lent settings with a byte changed, and good");
    let file = lent();
    for (at, byte, what) in HARMLESS {
        by_both(lines, &file, at, byte, what);
    }
    let file = packed(2, &[realm(b"a"), rules(&[rule(1, 2, 1, b"bc")]), wait(9)]);
    by_both(lines, &file, rule_at(0, 5), b'.', "a prefix that ends with a dot");
    let last = packed(2, &[realm(b"a"), rules(&[rule(0, 0, 0, b"b")]), wait(9)]);
    by_both(lines, &last, rule_at(0, 4), b'~', "a rule of zeros but for its prefix");
}
