//! Lent settings that break a rule of settings, by construction.

use crate::random::Random;
use reference::settings::{BYTES, RULES, RULES_AT, RULE_BYTES, WAIT_AT};
use reference::uri::MAX_LENGTH;

/// What is broken, and how; `None` where the settings have nothing to break in that way.
type Breach = fn(&mut Random, &mut Vec<u8>) -> Option<()>;

pub const BREACHES: [(&str, Breach); 18] = [
    ("another length", another_length),
    ("no realm", |_, settings| some(settings[..RULES_AT].fill(0))),
    ("a realm that is no exact text", |random, settings| bad_text(random, settings, 0, true)),
    ("a realm's length above 128", |random, settings| some(settings[0] = random.between(129, 255) as u8)),
    ("a realm's length that is not its text's", |random, settings| other_length(random, settings, 0)),
    ("a byte past the realm", |random, settings| past_the_text(random, settings, 0)),
    ("a slot that is none", |random, settings| field(random, settings, 0, 8)),
    ("an action that is none", |random, settings| field(random, settings, 1, 4)),
    ("a verdict that is none", |random, settings| field(random, settings, 2, 2)),
    ("a prefix that is no prefix text", |random, settings| {
        let rule = used(random, settings)?;
        bad_text(random, settings, rule + 3, false)
    }),
    ("a prefix's length above 128", |random, settings| {
        let rule = used(random, settings)?;
        some(settings[rule + 3] = random.between(129, 255) as u8)
    }),
    ("a prefix's length that is not its text's", |random, settings| {
        let rule = used(random, settings)?;
        other_length(random, settings, rule + 3)
    }),
    ("a byte past a prefix", |random, settings| {
        let rule = used(random, settings)?;
        past_the_text(random, settings, rule + 3)
    }),
    ("an unused rule before a used one", unused_first),
    ("an unused rule that is not zero", unused_not_zero),
    ("two rules of one slot, action and prefix", equal_rules),
    ("a wait of 0", |_, settings| some(settings[WAIT_AT..].fill(0))),
    ("a wait above 60,000", long_wait),
];

/// A done change.
fn some((): ()) -> Option<()> {
    Some(())
}

/// The place of a rule.
fn at(rule: usize) -> usize {
    RULES_AT + rule * RULE_BYTES
}

/// How many rules are used.
fn count(settings: &[u8]) -> usize {
    (0..RULES).take_while(|&rule| settings[at(rule) + 3] != 0).count()
}

/// The place of a used rule, if there is any.
fn used(random: &mut Random, settings: &[u8]) -> Option<usize> {
    random.pick_of(0..count(settings)).map(at)
}

fn another_length(random: &mut Random, settings: &mut Vec<u8>) -> Option<()> {
    let length = random.pick(&[0, 1, BYTES - 1, BYTES - 1, BYTES + 1, BYTES + 1, 2 * BYTES]);
    settings.resize(length, 0);
    Some(())
}

/// The text whose length is at this place is replaced. An exact text may not end with a dot, a prefix may.
fn bad_text(random: &mut Random, settings: &mut [u8], length_at: usize, is_exact: bool) -> Option<()> {
    let bad: [&[u8]; 7] = [b"a.", b"a b", b"#", b"a\x00b", b".a", b"a..b", b"a.."];
    let text = random.pick(if is_exact { &bad } else { &bad[1..] });
    let place = &mut settings[length_at..][..1 + MAX_LENGTH];
    place.fill(0);
    place[0] = text.len() as u8;
    place[1..][..text.len()].copy_from_slice(text);
    Some(())
}

/// A text's length becomes another one up to 128: then a zero is in the text, or a byte that is not zero behind it. Without
/// a length a rule's place is unused, and not zero.
fn other_length(random: &mut Random, settings: &mut [u8], length_at: usize) -> Option<()> {
    let length = usize::from(settings[length_at]);
    let other = random.pick_of((0..=MAX_LENGTH).filter(|&other| other != length))?;
    settings[length_at] = other as u8;
    Some(())
}

/// The last byte of the place or any other past the text; a text of 128 bytes has none.
fn past_the_text(random: &mut Random, settings: &mut [u8], length_at: usize) -> Option<()> {
    let length = usize::from(settings[length_at]);
    let past = random.pick_of(length..MAX_LENGTH)?;
    let past = random.pick(&[past, length, MAX_LENGTH - 1]);
    settings[length_at + 1 + past] = random.between(1, 255) as u8;
    Some(())
}

/// A byte of a used rule becomes `least` or more.
fn field(random: &mut Random, settings: &mut [u8], byte: usize, least: usize) -> Option<()> {
    let rule = used(random, settings)?;
    let value = if random.once_in(2) { least } else { random.between(least, 255) };
    settings[rule + byte] = value as u8;
    Some(())
}

fn unused_first(random: &mut Random, settings: &mut Vec<u8>) -> Option<()> {
    let rule = random.pick_of(0..count(settings).checked_sub(1)?)?;
    settings[at(rule)..][..RULE_BYTES].fill(0);
    Some(())
}

fn unused_not_zero(random: &mut Random, settings: &mut Vec<u8>) -> Option<()> {
    let rule = random.pick_of(count(settings)..RULES)?;
    let byte = random.pick(&[0, 1, 2, 3, 4, RULE_BYTES - 1]);
    settings[at(rule) + byte] = random.between(1, 255) as u8;
    Some(())
}

fn equal_rules(random: &mut Random, settings: &mut Vec<u8>) -> Option<()> {
    let one = used(random, settings)?;
    let others = (0..=count(settings)).map(at).filter(|&other| other != one && other < WAIT_AT);
    let other = random.pick_of(others)?;
    settings.copy_within(one..one + RULE_BYTES, other);
    settings[other + 2] ^= u8::from(random.once_in(2));
    Some(())
}

fn long_wait(random: &mut Random, settings: &mut Vec<u8>) -> Option<()> {
    let wait = random.pick(&[60_001_u32, 60_001, 65_535, 65_536, 0x0100_0001, 1 << 31, u32::MAX]);
    settings[WAIT_AT..].copy_from_slice(&wait.to_be_bytes());
    Some(())
}

#[cfg(test)]
mod tests {
    use super::*;
    use crate::files::Content;
    use reference::settings::keeps_the_rules;

    #[test]
    fn each_breaks_a_rule() {
        let mut random = Random::new(8);
        for (name, change) in BREACHES {
            let mut made = 0;
            while made < 200 {
                let mut settings = Content::random(&mut random).lent();
                if change(&mut random, &mut settings).is_some() {
                    made += 1;
                    assert!(!keeps_the_rules(&settings), "{name}");
                }
            }
        }
    }
}
