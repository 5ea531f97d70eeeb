//! Faults of settings files, by construction: each with the refusal that it leads to where no earlier one applies.

use crate::files::{prefix, Draft, Entry, Laid, Rule, RULES, WAIT};
use crate::random::Random;
use reference::uri::MAX_LENGTH;

/// Makes a fault; `None` where the file has nothing to make it of.
pub enum Change {
    /// In what the file holds.
    Held(fn(&mut Random, &mut Draft) -> Option<()>),
    /// In where it stands.
    Placed(fn(&mut Random, &mut Laid) -> Option<()>),
}

use Change::{Held, Placed};

/// The refusal, what is wrong, and how it is made so.
pub const FAULTS: [(u64, &str, Change); 33] = [
    (6, "a version that is none", Placed(unknown_version)),
    (7, "no byte", Placed(|_, laid| cut(laid, 0))),
    (7, "a version alone", Placed(|_, laid| cut(laid, 1))),
    (7, "contents cut", Placed(|random, laid| cut(laid, random.between(2, laid.page() - 1)))),
    (7, "a section cut", Placed(section_cut)),
    (7, "a section that is too long", Placed(section_too_long)),
    (7, "an empty section past the end", Placed(empty_past_the_end)),
    (7, "a section round 2^32", Placed(round)),
    (8, "a byte of the contents", Placed(in_the_contents)),
    (8, "a byte of another section", Placed(in_another)),
    (8, "the same bytes twice", Placed(same_bytes)),
    (9, "an unknown kind", Held(unknown_kind)),
    (9, "no section of a kind", Held(missing_kind)),
    (9, "a kind twice", Held(kind_twice)),
    (10, "an empty realm body", Held(|_, draft| some(draft.realm.clear()))),
    (10, "a realm body too short", Held(|_, draft| draft.realm.pop().map(drop))),
    (10, "a realm body too long", Held(|random, draft| some(draft.realm.push(random.byte())))),
    (10, "a rule cut in its head", Held(|random, draft| rule_cut(draft, random.between(1, 3)))),
    (10, "a rule cut in its prefix", Held(cut_in_prefix)),
    (10, "a wait of other than 4 bytes", Held(wait_length)),
    (11, "more than 32 rules", Held(many_rules)),
    (12, "two equal rules", Held(|random, draft| equal_rules(random, draft, false))),
    (12, "two rules that differ by verdict alone", Held(|random, draft| equal_rules(random, draft, true))),
    (12, "two equal rules that are none", Held(equal_rules_that_are_none)),
    (13, "a realm that is no exact text", Held(bad_realm)),
    (13, "a realm of another length", Held(realm_length)),
    (13, "a prefix that is no prefix text", Held(bad_prefix)),
    (13, "a prefix of another length", Held(prefix_length)),
    (13, "a slot that is none", Held(|random, draft| field(random, draft, 0, 8))),
    (13, "an action that is none", Held(|random, draft| field(random, draft, 1, 4))),
    (13, "a verdict that is none", Held(|random, draft| field(random, draft, 2, 2))),
    (13, "a wait of 0", Held(|_, draft| wait(draft, 0))),
    (13, "a wait above 60,000", Held(long_wait)),
];

/// A done change.
fn some((): ()) -> Option<()> {
    Some(())
}

fn unknown_version(random: &mut Random, laid: &mut Laid) -> Option<()> {
    laid.version = match random.below(3) {
        0 => 0,
        1 => 3,
        _ => random.between(3, 255) as u8,
    };
    Some(())
}

fn cut(laid: &mut Laid, length: usize) -> Option<()> {
    laid.length = Some(length);
    Some(())
}

/// The file ends within the last section's bytes, or right before them.
fn section_cut(random: &mut Random, laid: &mut Laid) -> Option<()> {
    let last = laid.entries.iter().filter(|entry| entry.length > 0).max_by_key(|entry| entry.end())?;
    let length = random.between(last.place as usize, last.end() - 1);
    cut(laid, length)
}

fn section_too_long(random: &mut Random, laid: &mut Laid) -> Option<()> {
    let end = laid.end();
    let past = random.pick(&[1, 1, 2, 256, 65_536]);
    let entry = entry(random, laid)?;
    entry.length = (end + past) as u32 - entry.place;
    Some(())
}

fn empty_past_the_end(random: &mut Random, laid: &mut Laid) -> Option<()> {
    let past = laid.end() as u32 + 1;
    let place = random.pick(&[past, past, past + 255, 1 << 31, u32::MAX]);
    laid.entries.iter_mut().find(|entry| entry.length == 0)?.place = place;
    Some(())
}

/// Place and length are 2^32 and a place of the file together.
fn round(random: &mut Random, laid: &mut Laid) -> Option<()> {
    let end = random.between(0, laid.end()) as u32;
    let place = random.pick(&[u32::MAX, u32::MAX - end, 1 << 31, end + 1]);
    let entry = entry(random, laid)?;
    (entry.place, entry.length) = (place, end.wrapping_sub(place));
    Some(())
}

fn entry<'l>(random: &mut Random, laid: &'l mut Laid) -> Option<&'l mut Entry> {
    let place = random.pick_of(0..laid.entries.len())?;
    Some(&mut laid.entries[place])
}

/// The places of two sections with bytes, the first of which may be moved.
fn two_with_bytes(random: &mut Random, laid: &Laid) -> Option<[usize; 2]> {
    let with_bytes = (0..laid.entries.len()).filter(|&place| laid.entries[place].length > 0);
    let moved = random.pick_of(with_bytes.clone())?;
    let other = random.pick_of(with_bytes.filter(|&place| place != moved))?;
    Some([moved, other])
}

fn in_the_contents(random: &mut Random, laid: &mut Laid) -> Option<()> {
    let page = laid.page();
    let with_bytes = (0..laid.entries.len()).filter(|&place| laid.entries[place].length > 0);
    let moved = random.pick_of(with_bytes)?;
    let place = if random.once_in(2) { page - 1 } else { random.below(page) };
    laid.entries[moved].place = place as u32;
    Some(())
}

/// A section is moved to where it has bytes of another, often one byte. It still ends within the file.
fn in_another(random: &mut Random, laid: &mut Laid) -> Option<()> {
    let [moved, other] = two_with_bytes(random, laid)?;
    let (length, other) = (laid.entries[moved].length as usize, laid.entries[other]);
    let last = (other.end() - 1).min(laid.end() - length);
    let first = (other.place as usize + 1).saturating_sub(length).min(last);
    let place = match random.below(3) {
        0 => first,
        1 => last,
        _ => random.between(first, last),
    };
    laid.entries[moved].place = place as u32;
    Some(())
}

fn same_bytes(random: &mut Random, laid: &mut Laid) -> Option<()> {
    let [moved, other] = two_with_bytes(random, laid)?;
    let other = laid.entries[other];
    (laid.entries[moved].place, laid.entries[moved].length) = (other.place, other.length);
    Some(())
}

fn unknown_kind(random: &mut Random, draft: &mut Draft) -> Option<()> {
    let mut kinds = vec![3, 4, 128, 255];
    if draft.version == 1 {
        kinds.push(WAIT);
    }
    let body = (0..random.below(3)).map(|_| random.byte()).collect();
    draft.besides.push((random.pick(&kinds), body));
    Some(())
}

fn missing_kind(random: &mut Random, draft: &mut Draft) -> Option<()> {
    draft.missing = Some(random.pick(draft.kinds()));
    Some(())
}

fn kind_twice(random: &mut Random, draft: &mut Draft) -> Option<()> {
    let kind = random.pick(draft.kinds());
    let body = if random.once_in(3) { Vec::new() } else { draft.body(kind) };
    draft.besides.push((kind, body));
    Some(())
}

/// The last of the rules, made where there is none.
fn last_rule<'d>(random: &mut Random, draft: &'d mut Draft) -> Option<&'d mut Vec<u8>> {
    if draft.rules.is_empty() {
        draft.rules.push(Rule::random(random).bytes());
    }
    draft.rules.last_mut()
}

fn rule_cut(draft: &mut Draft, length: usize) -> Option<()> {
    draft.rules.last_mut()?.truncate(length);
    Some(())
}

fn cut_in_prefix(random: &mut Random, draft: &mut Draft) -> Option<()> {
    let length = draft.rules.last()?.len();
    // A rule without a prefix, which is another fault, has none to cut.
    let length = random.pick_of(4..length)?;
    rule_cut(draft, length)
}

fn wait_length(random: &mut Random, draft: &mut Draft) -> Option<()> {
    if draft.version == 1 {
        return None;
    }
    draft.wait.resize(random.pick(&[0, 1, 2, 3, 5, 8]), 0);
    Some(())
}

fn many_rules(random: &mut Random, draft: &mut Draft) -> Option<()> {
    let count = random.pick(&[RULES + 1, RULES + 1, RULES + 2, 256, 257, 256 + RULES]);
    while draft.rules.len() < count {
        draft.rules.push(Rule::random(random).bytes());
    }
    Some(())
}

/// One rule becomes a copy of another, which may say the opposite. They stand anywhere.
fn equal_rules(random: &mut Random, draft: &mut Draft, by_verdict: bool) -> Option<()> {
    last_rule(random, draft)?;
    let one = random.below(draft.rules.len());
    let mut copy = draft.rules[one].clone();
    if by_verdict {
        copy[2] ^= random.pick(&[1, 1, 1, 0x80]);
    }
    if draft.rules.len() < RULES && random.once_in(2) {
        draft.rules.insert(random.below(draft.rules.len() + 1), copy);
        return Some(());
    }
    let other = random.pick_of((0..draft.rules.len()).filter(|&other| other != one))?;
    draft.rules[other] = copy;
    Some(())
}

fn equal_rules_that_are_none(random: &mut Random, draft: &mut Draft) -> Option<()> {
    if draft.rules.len() > RULES - 2 {
        return None;
    }
    let rule = match random.below(4) {
        0 => vec![8, 0, 1, 1, b'a'],
        1 => vec![0, 9, 1, 1, b'a'],
        2 => vec![0, 0, 0, 0],
        _ => [vec![0, 0, 0, 129], vec![b'a'; 129]].concat(),
    };
    draft.rules.extend([rule.clone(), rule]);
    Some(())
}

/// A text that neither rule takes.
fn bad_text(random: &mut Random) -> Vec<u8> {
    let bad: [&[u8]; 8] = [b"a b", b"#", b"a\x00", b".a", b"a..b", b".", b"\x1f", b"a.\x20"];
    random.pick(&bad).to_vec()
}

fn bad_realm(random: &mut Random, draft: &mut Draft) -> Option<()> {
    let text = if random.once_in(3) { b"a.".to_vec() } else { bad_text(random) };
    draft.realm = [&[text.len() as u8], &*text].concat();
    Some(())
}

/// A length that no text has: 0, or above 128.
fn bad_length(random: &mut Random) -> usize {
    random.pick(&[0, MAX_LENGTH + 1, MAX_LENGTH + 2, 255])
}

fn realm_length(random: &mut Random, draft: &mut Draft) -> Option<()> {
    let length = bad_length(random);
    draft.realm = [vec![length as u8], vec![b'a'; length]].concat();
    Some(())
}

fn set_prefix(random: &mut Random, draft: &mut Draft, text: &[u8]) -> Option<()> {
    let rule = last_rule(random, draft)?;
    rule.truncate(3);
    rule.push(text.len() as u8);
    rule.extend(text);
    Some(())
}

fn bad_prefix(random: &mut Random, draft: &mut Draft) -> Option<()> {
    let mut text = bad_text(random);
    if random.once_in(3) {
        text = [prefix(random), b"..".to_vec()].concat();
        text.drain(..text.len().saturating_sub(MAX_LENGTH));
    }
    set_prefix(random, draft, &text)
}

fn prefix_length(random: &mut Random, draft: &mut Draft) -> Option<()> {
    let length = bad_length(random);
    set_prefix(random, draft, &vec![b'a'; length])
}

/// A byte of any rule becomes `least` or more.
fn field(random: &mut Random, draft: &mut Draft, at: usize, least: usize) -> Option<()> {
    last_rule(random, draft)?;
    let rule = random.below(draft.rules.len());
    let value = if random.once_in(2) { least } else { random.between(least, 255) };
    draft.rules[rule][at] = value as u8;
    Some(())
}

fn wait(draft: &mut Draft, wait: u32) -> Option<()> {
    if draft.version == 1 {
        return None;
    }
    draft.wait = wait.to_be_bytes().to_vec();
    Some(())
}

fn long_wait(random: &mut Random, draft: &mut Draft) -> Option<()> {
    let long = [60_001, 60_001, 65_535, 65_536, 0x0100_0001, 0x60ea_0000, 1 << 31, u32::MAX];
    wait(draft, random.pick(&long))
}

/// A file with faults, and their refusal: that of the first that could be made, by number. The later ones are made first,
/// so that an earlier one is not undone.
pub fn made(random: &mut Random, draft: &Draft, faults: &[usize]) -> (Vec<u8>, u64, Vec<usize>) {
    let mut faults = faults.to_vec();
    faults.sort_by_key(|&fault| std::cmp::Reverse(FAULTS[fault].0));
    let mut draft = draft.clone();
    let mut done = Vec::new();
    for &fault in &faults {
        if let Held(change) = FAULTS[fault].2 {
            done.extend(change(random, &mut draft).map(|()| fault));
        }
    }
    let mut laid = draft.laid_out(random);
    for &fault in &faults {
        if let Placed(change) = FAULTS[fault].2 {
            done.extend(change(random, &mut laid).map(|()| fault));
        }
    }
    let refusal = done.iter().map(|&fault| FAULTS[fault].0).min().unwrap_or(0);
    let bytes = laid.bytes();
    // Without a byte there is no version to be wrong.
    let refusal = if bytes.is_empty() { 7 } else { refusal };
    (bytes, refusal, done)
}

#[cfg(test)]
mod tests {
    use super::*;
    use crate::files::Content;
    use reference::{settings, settings_file};

    #[test]
    fn each_is_refused_as_it_says_and_each_two_as_the_earlier() {
        let mut random = Random::new(5);
        for one in 0..FAULTS.len() {
            for other in 0..FAULTS.len() {
                if one != other && FAULTS[one].0 == FAULTS[other].0 {
                    continue;
                }
                for version in [1, 2, 2] {
                    let draft = Draft::new(version, &Content::random(&mut random));
                    let faults = if one == other { vec![one] } else { vec![one, other] };
                    let (file, wanted, _) = made(&mut random, &draft, &faults);
                    let mut out = vec![0; settings::BYTES];
                    let found = settings_file::read(&file, &mut out) % 256;
                    assert_eq!(found, wanted, "{} and {}, {file:02x?}", FAULTS[one].1, FAULTS[other].1);
                }
            }
        }
    }
}
