//! The settings file: contents first, then bodies. A reader of version 1, one of version 2 that takes version 1 too, and a
//! writer of each.
//!
//! Contents: the version, the number of sections, and of each section its kind, its place from the file's start and its
//! length. Places, lengths and the wait take 4 bytes, big-endian, and all else 1. Bodies may stand in any order and apart.
//!
//! Every entry answers `count * 256 + refusal`, as those of `hub` do, and writes only what is not refused.

use crate::settings::{self, Rule, Settings, DEFAULT_WAIT, RULES};
use crate::state::pairwise;

/// The versions that there are. A number is told by itself.
const VERSION_1: u8 = 1;
const VERSION_2: u8 = 2;

/// The kinds of sections. Version 1 has no wait.
const REALM: u8 = 0;
const PERMISSIONS: u8 = 1;
const WAIT: u8 = 2;

/// The lengths of the contents before the sections' entries, and of an entry.
const HEAD_BYTES: usize = 2;
const ENTRY_BYTES: usize = 9;

/// Why a file is not read, or settings not written. The checks run in this order, but for NO ROOM, which is last.
#[derive(Clone, Copy, Debug, PartialEq, Eq)]
pub enum Refusal {
    /// The lent settings break a rule.
    BadState = 1,
    NoRoom = 5,
    UnknownVersion = 6,
    CutShort = 7,
    /// A byte of a section is in another one or in the contents.
    Overlap = 8,
    /// A kind is unknown to the version, missing or there twice.
    Kinds = 9,
    /// A body's length is not that of what it holds.
    BodyLength = 10,
    TooManyRules = 11,
    /// Two rules are about one slot, action and prefix.
    EqualRules = 12,
    /// A text or a number is outside its rule.
    Value = 13,
}

/// Reads a file of version 1 or 2 to settings.
pub fn read(file: &[u8], out: &mut [u8]) -> u64 {
    answer(lend(settings_of(file, VERSION_2), out))
}

/// Reads a file as a reader does that knows version 1 alone.
pub fn read_1(file: &[u8], out: &mut [u8]) -> u64 {
    answer(lend(settings_of(file, VERSION_1), out))
}

/// Writes settings to a file of version 2.
pub fn write(settings: &[u8], out: &mut [u8]) -> u64 {
    answer(write_version(VERSION_2, settings, out))
}

/// Writes settings to a file of version 1, which leaves the wait out.
pub fn write_1(settings: &[u8], out: &mut [u8]) -> u64 {
    answer(write_version(VERSION_1, settings, out))
}

/// The default settings: realm `hub.bus`, no rule, a wait of 30,000.
pub fn default(out: &mut [u8]) -> u64 {
    answer(lend(Ok(Settings::DEFAULT), out))
}

fn answer(done: Result<usize, Refusal>) -> u64 {
    match done {
        Ok(count) => count as u64 * 256,
        Err(refusal) => refusal as u64,
    }
}

/// Writes settings as lent ones, where there are some and room for them.
fn lend(settings: Result<Settings, Refusal>, out: &mut [u8]) -> Result<usize, Refusal> {
    let settings = settings?;
    let out = out.get_mut(..settings::BYTES).ok_or(Refusal::NoRoom)?;
    settings.print(out);
    Ok(settings::BYTES)
}

/// A section as its entry has it. Ends are sums of two 4-byte numbers, which 64 bits always hold.
struct Section {
    kind: u8,
    from: u64,
    to: u64,
}

impl Section {
    /// Is there a byte in both? An empty section has none.
    fn meets(&self, from: u64, to: u64) -> bool {
        self.from.max(from) < self.to.min(to)
    }

    fn body<'f>(&self, file: &'f [u8]) -> &'f [u8] {
        &file[self.from as usize..self.to as usize]
    }
}

/// The settings that a file holds, for a reader that knows the versions up to `newest`.
fn settings_of(file: &[u8], newest: u8) -> Result<Settings<'_>, Refusal> {
    let version = *file.first().ok_or(Refusal::CutShort)?;
    if !(VERSION_1..=newest).contains(&version) {
        return Err(Refusal::UnknownVersion);
    }
    let sections = contents(file).ok_or(Refusal::CutShort)?;
    let page = HEAD_BYTES + sections.len() * ENTRY_BYTES;
    let is_apart = sections.iter().all(|section| !section.meets(0, page as u64))
        && pairwise(sections.iter(), |one, other| !one.meets(other.from, other.to));
    if !is_apart {
        return Err(Refusal::Overlap);
    }
    let kinds = kinds_of(version);
    if sections.iter().any(|section| !kinds.contains(&section.kind)) {
        return Err(Refusal::Kinds);
    }
    let body = |kind| Ok(only(&sections, kind).ok_or(Refusal::Kinds)?.body(file));
    let (realm, rules) = (body(REALM)?, body(PERMISSIONS)?);
    // Where the version has none there is none to find wrong.
    let wait = if kinds.contains(&WAIT) { body(WAIT)? } else { &DEFAULT_WAIT.to_be_bytes() };
    held(realm, rules, wait)
}

/// The kinds that a version has, each once.
fn kinds_of(version: u8) -> &'static [u8] {
    if version == VERSION_1 {
        &[REALM, PERMISSIONS]
    } else {
        &[REALM, PERMISSIONS, WAIT]
    }
}

/// The sections that the contents list, `None` if the contents or a section reach past the file's end, an empty section
/// too.
fn contents(file: &[u8]) -> Option<Vec<Section>> {
    let count = *file.get(1)?;
    let page = file.get(HEAD_BYTES..HEAD_BYTES + usize::from(count) * ENTRY_BYTES)?;
    let number = |bytes: &[u8]| u64::from(u32::from_be_bytes(bytes.try_into().expect("4 bytes")));
    let sections = page.chunks_exact(ENTRY_BYTES).map(|entry| {
        let from = number(&entry[1..5]);
        Section { kind: entry[0], from, to: from + number(&entry[5..9]) }
    });
    let sections: Vec<_> = sections.collect();
    sections.iter().all(|section| section.to <= file.len() as u64).then_some(sections)
}

/// The one section of a kind; `None` if there is none, or a second.
fn only(sections: &[Section], kind: u8) -> Option<&Section> {
    let mut of_kind = sections.iter().filter(|section| section.kind == kind);
    let found = of_kind.next()?;
    of_kind.next().is_none().then_some(found)
}

/// The settings that the three bodies hold. All lengths are judged before any value is.
fn held<'f>(realm: &'f [u8], rules: &'f [u8], wait: &[u8]) -> Result<Settings<'f>, Refusal> {
    let (length, realm) = realm.split_first().ok_or(Refusal::BodyLength)?;
    if realm.len() != usize::from(*length) {
        return Err(Refusal::BodyLength);
    }
    let rules = whole_rules(rules).ok_or(Refusal::BodyLength)?;
    let wait = u32::from_be_bytes(wait.try_into().map_err(|_| Refusal::BodyLength)?);
    if rules.len() > RULES {
        return Err(Refusal::TooManyRules);
    }
    if !settings::are_distinct(&rules) {
        return Err(Refusal::EqualRules);
    }
    let settings = Settings::new(realm, &rules, wait);
    if !settings.have_good_values() {
        return Err(Refusal::Value);
    }
    Ok(settings)
}

/// The rules that a body is, one after the other; `None` if the last is cut.
fn whole_rules(body: &[u8]) -> Option<Vec<Rule<'_>>> {
    let (mut rules, mut rest) = (Vec::new(), body);
    while !rest.is_empty() {
        let (&[slot, action, verdict, length], behind) = rest.split_first_chunk()?;
        let (prefix, behind) = behind.split_at_checked(length.into())?;
        rules.push(Rule { slot, action, verdict, prefix });
        rest = behind;
    }
    Some(rules)
}

fn write_version(version: u8, settings: &[u8], out: &mut [u8]) -> Result<usize, Refusal> {
    let settings = Settings::load(settings).ok_or(Refusal::BadState)?;
    let file = file_of(version, &settings);
    out.get_mut(..file.len()).ok_or(Refusal::NoRoom)?.copy_from_slice(&file);
    Ok(file.len())
}

/// The file of settings that keep the rules: sections by kind, each right behind the last.
fn file_of(version: u8, settings: &Settings) -> Vec<u8> {
    let kinds = kinds_of(version);
    let bodies: Vec<_> = kinds.iter().map(|&kind| body_of(kind, settings)).collect();
    let mut file = vec![version, kinds.len() as u8];
    let mut place = HEAD_BYTES + kinds.len() * ENTRY_BYTES;
    for (&kind, body) in kinds.iter().zip(&bodies) {
        file.push(kind);
        file.extend((place as u32).to_be_bytes());
        file.extend((body.len() as u32).to_be_bytes());
        place += body.len();
    }
    file.extend(bodies.concat());
    file
}

fn body_of(kind: u8, settings: &Settings) -> Vec<u8> {
    match kind {
        REALM => [&[settings.realm.len() as u8], settings.realm].concat(),
        PERMISSIONS => {
            let rule = |rule: &Rule| {
                let head = [rule.slot, rule.action, rule.verdict, rule.prefix.len() as u8];
                [&head, rule.prefix].concat()
            };
            settings.rules().iter().flat_map(rule).collect()
        }
        _ => settings.wait.to_be_bytes().to_vec(),
    }
}

#[cfg(test)]
mod tests {
    use super::*;
    use crate::settings::BYTES;

    /// A file whose sections stand one after the other, in this order.
    fn file(version: u8, sections: &[(u8, &[u8])]) -> Vec<u8> {
        let mut file = vec![version, sections.len() as u8];
        let mut place = 2 + 9 * sections.len() as u32;
        for (kind, body) in sections {
            file.push(*kind);
            file.extend(place.to_be_bytes());
            file.extend((body.len() as u32).to_be_bytes());
            place += body.len() as u32;
        }
        file.extend(sections.iter().flat_map(|(_, body)| body.iter()));
        file
    }

    const REALM_BODY: (u8, &[u8]) = (0, b"\x03a.b");
    const RULES_BODY: (u8, &[u8]) = (1, b"\x07\x03\x01\x02a.\x00\x00\x00\x01b");
    const WAIT_BODY: (u8, &[u8]) = (2, b"\x00\x00\xea\x60");

    /// A file of version 2 with one section instead of its own.
    fn with(section: (u8, &[u8])) -> Vec<u8> {
        let mut sections = [REALM_BODY, RULES_BODY, WAIT_BODY];
        sections[usize::from(section.0)] = section;
        file(2, &sections)
    }

    /// The settings read by a function, or its refusal. Every byte of the lent output is looked at.
    fn lent(read: fn(&[u8], &mut [u8]) -> u64, file: &[u8]) -> Result<Vec<u8>, u64> {
        let mut out = vec![0xee; BYTES + 3];
        let answer = read(file, &mut out);
        let past = if answer == 256 * BYTES as u64 { &out[BYTES..] } else { &out };
        assert!(past.iter().all(|&byte| byte == 0xee));
        if !answer.is_multiple_of(256) {
            assert!(answer < 256);
            return Err(answer);
        }
        out.truncate(BYTES);
        assert!(settings::keeps_the_rules(&out));
        Ok(out)
    }

    /// The file written by a function. There is just enough room for it, and one byte less is refused.
    fn written(write: fn(&[u8], &mut [u8]) -> u64, settings: &[u8]) -> Vec<u8> {
        let mut out = vec![0xee; 5000];
        let answer = write(settings, &mut out);
        assert_eq!(answer % 256, 0);
        let count = (answer / 256) as usize;
        assert!(out[count..].iter().all(|&byte| byte == 0xee));
        let mut exact = vec![0xee; count];
        assert_eq!(write(settings, &mut exact), answer);
        assert_eq!(exact, out[..count]);
        let mut short = vec![0xee; count - 1];
        assert_eq!(write(settings, &mut short), 5);
        assert!(short.iter().all(|&byte| byte == 0xee));
        exact
    }

    fn refusal(file: &[u8]) -> u64 {
        lent(read, file).err().unwrap_or(0)
    }

    #[test]
    fn written_and_read() {
        let first = file(1, &[REALM_BODY, RULES_BODY]);
        let second = file(2, &[REALM_BODY, RULES_BODY, WAIT_BODY]);
        let settings = lent(read, &second).expect("settings");
        assert_eq!(settings[4353..], *b"\x00\x00\xea\x60");
        assert_eq!(settings[..5], *b"\x03a.b\0");
        assert_eq!(settings[129..136], *b"\x07\x03\x01\x02a.\0");
        assert_eq!(settings[261..267], *b"\x00\x00\x00\x01b\0");
        assert_eq!(written(write, &settings), second);
        assert_eq!(written(write_1, &settings), first);
        assert_eq!(lent(read_1, &second), Err(6));
        let mut settings_1 = settings.clone();
        settings_1[4353..].copy_from_slice(&30_000u32.to_be_bytes());
        assert_eq!(lent(read, &first).as_ref(), Ok(&settings_1));
        assert_eq!(lent(read_1, &first), Ok(settings_1));
    }

    #[test]
    fn the_default() {
        let mut out = vec![0xee; BYTES + 1];
        assert_eq!(default(&mut out), BYTES as u64 * 256);
        assert_eq!(out[BYTES], 0xee);
        out.truncate(BYTES);
        let wanted = file(2, &[(0, b"\x07hub.bus"), (1, b""), (2, b"\x00\x00\x75\x30")]);
        assert_eq!(written(write, &out), wanted);
        let mut short = vec![0xee; BYTES - 1];
        assert_eq!(default(&mut short), 5);
        assert!(short.iter().all(|&byte| byte == 0xee));
    }

    #[test]
    fn no_room_is_last() {
        let mut out = vec![0xee; BYTES - 1];
        assert_eq!(read(&with(WAIT_BODY), &mut out), 5);
        assert_eq!(read(&with((2, b"\0\0\0\0")), &mut out), 13);
        assert_eq!(write(&[], &mut []), 1);
        assert_eq!(write_1(&[0; BYTES], &mut []), 1);
        assert!(out.iter().all(|&byte| byte == 0xee));
    }

    #[test]
    fn settings_that_break_a_rule_are_not_written() {
        let settings = lent(read, &with(WAIT_BODY)).expect("settings");
        let mut out = vec![0xee; 5000];
        for (place, byte) in [(0, 4), (129, 8), (4352, 1), (4353, 1), (4356, 0x61)] {
            let mut broken = settings.clone();
            broken[place] = byte;
            assert_eq!([write(&broken, &mut out), write_1(&broken, &mut out)], [1, 1], "{place}");
        }
        assert_eq!(write(&settings[1..], &mut out), 1);
        assert!(out.iter().all(|&byte| byte == 0xee));
    }

    #[test]
    fn version_and_length() {
        let good = with(WAIT_BODY);
        for version in 0..=255 {
            let mut file = good.clone();
            file[0] = version;
            // Version 1 has no section of the kind 2.
            let wanted = [6, 9, 0].get(usize::from(version)).copied().unwrap_or(6);
            assert_eq!(refusal(&file), wanted, "{version}");
            assert_eq!(lent(read_1, &file).err(), Some(if version == 1 { 9 } else { 6 }), "{version}");
        }
        assert_eq!(refusal(b""), 7);
        assert_eq!(refusal(b"\x02"), 7);
        assert_eq!(refusal(b"\x03"), 6);
        assert_eq!(refusal(b"\x02\x00"), 9);
        for length in 1..good.len() {
            assert_eq!(refusal(&good[..length]), 7, "{length}");
        }
    }

    /// A file of version 2 with these entries of places and lengths, and these bytes behind its contents.
    fn placed(entries: [(u32, u32); 3], behind: &[u8]) -> Vec<u8> {
        let mut file = vec![2, 3];
        for (kind, (place, length)) in entries.into_iter().enumerate() {
            file.push(kind as u8);
            file.extend(place.to_be_bytes());
            file.extend(length.to_be_bytes());
        }
        file.extend(behind);
        file
    }

    #[test]
    fn sections_past_the_end() {
        let behind = b"\x01a\x00\x00\x00\x01";
        let rules = |place, length| refusal(&placed([(29, 2), (place, length), (31, 4)], behind));
        assert_eq!(rules(35, 0), 0);
        assert_eq!(rules(36, 0), 7);
        assert_eq!(rules(35, 1), 7);
        assert_eq!(rules(u32::MAX, 0), 7);
        // Round 2^32 these would end at 0, at 30 and at 35.
        assert_eq!(rules(u32::MAX, 1), 7);
        assert_eq!(rules(u32::MAX, 31), 7);
        assert_eq!(rules(40, u32::MAX - 4), 7);
    }

    #[test]
    fn bytes_in_two_places() {
        let behind = b"\x01a\x00\x00\x00\x01\x01a";
        let both = |realm, wait, rules| refusal(&placed([realm, rules, wait], behind));
        assert_eq!(both((29, 2), (31, 4), (35, 0)), 0);
        assert_eq!(both((28, 2), (31, 4), (35, 0)), 8);
        assert_eq!(both((29, 3), (31, 4), (35, 0)), 8);
        assert_eq!(both((35, 2), (31, 4), (35, 2)), 8);
        assert_eq!(both((0, 2), (31, 4), (35, 0)), 8);
        // An empty section has no byte, wherever it is.
        for place in 0..=37 {
            assert_eq!(both((29, 2), (31, 4), (place, 0)), 0, "{place}");
        }
        // A length of the contents, taken for the wait.
        assert_eq!(both((29, 2), (7, 4), (35, 0)), 8);
    }

    #[test]
    fn any_order_and_gaps() {
        let wanted = lent(read, &with(WAIT_BODY)).expect("settings");
        for order in [[0, 2, 1], [1, 0, 2], [1, 2, 0], [2, 0, 1], [2, 1, 0]] {
            let sections = order.map(|kind| [REALM_BODY, RULES_BODY, WAIT_BODY][kind]);
            assert_eq!(lent(read, &file(2, &sections)).as_ref(), Ok(&wanted));
        }
        let apart = placed([(31, 2), (30, 0), (34, 4)], b"??\x01a?\x00\x00\x00\x05??");
        let packed = file(2, &[(0, b"\x01a"), (1, b""), (2, b"\x00\x00\x00\x05")]);
        assert_eq!(lent(read, &apart), lent(read, &packed));
    }

    #[test]
    fn kinds() {
        let good = [REALM_BODY, RULES_BODY, WAIT_BODY];
        for kind in 0..3 {
            let mut sections = good.to_vec();
            sections.remove(kind);
            assert_eq!(refusal(&file(2, &sections)), 9);
            assert_eq!(refusal(&file(2, &[&good[..], &good[kind..=kind]].concat())), 9);
        }
        assert_eq!(refusal(&file(2, &[&good[..], &[(3, b"")]].concat())), 9);
        assert_eq!(refusal(&file(2, &[&good[..], &[(255, b"")]].concat())), 9);
        assert_eq!(refusal(&file(1, &good)), 9);
        assert_eq!(refusal(&file(1, &good[..1])), 9);
    }

    #[test]
    fn bodies() {
        for body in [b"" as &[u8], b"\x01", b"\x02a", b"\x00a", b"\x01ab"] {
            assert_eq!(refusal(&with((0, body))), 10, "{}", body.escape_ascii());
        }
        for body in [b"\0" as &[u8], b"\0\0\0", b"\0\0\0\x02a", b"\0\0\0\x01a\0"] {
            assert_eq!(refusal(&with((1, body))), 10, "{}", body.escape_ascii());
        }
        assert_eq!(refusal(&with((1, b""))), 0);
        for length in [0, 1, 2, 3, 5, 8] {
            assert_eq!(refusal(&with((2, &vec![0; length]))), 10, "{length}");
        }
    }

    #[test]
    fn rules() {
        let rules = |count: u8| (0..count).flat_map(|number| [0, 0, 0, 1, b'0' + number]).collect::<Vec<_>>();
        assert_eq!(refusal(&with((1, &rules(32)))), 0);
        assert_eq!(refusal(&with((1, &rules(33)))), 11);
        let pair = |other: &[u8]| refusal(&with((1, &[b"\x01\x01\x00\x01a", other].concat())));
        assert_eq!(pair(b"\x01\x01\x00\x01a"), 12);
        assert_eq!(pair(b"\x01\x01\x01\x01a"), 12);
        assert_eq!(pair(b"\x01\x01\x09\x01a"), 12);
        assert_eq!(pair(b"\x02\x01\x00\x01a"), 0);
        assert_eq!(pair(b"\x01\x02\x00\x01a"), 0);
        assert_eq!(pair(b"\x01\x01\x00\x01b"), 0);
        assert_eq!(pair(b"\x01\x01\x00\x02a."), 0);
        assert_eq!(refusal(&with((1, b"\x09\x09\x09\x00\x09\x09\x08\x00"))), 12);
    }

    #[test]
    fn values() {
        for body in [b"\x00" as &[u8], b"\x02a.", b"\x01 ", b"\x03a#b"] {
            assert_eq!(refusal(&with((0, body))), 13, "{}", body.escape_ascii());
        }
        let long = |length: u8| [vec![length], vec![b'a'; length.into()]].concat();
        assert_eq!(refusal(&with((0, &long(128)))), 0);
        assert_eq!(refusal(&with((0, &long(129)))), 13);
        assert_eq!(refusal(&with((1, &[b"\0\0\0" as &[u8], &long(128)].concat()))), 0);
        assert_eq!(refusal(&with((1, &[b"\0\0\0" as &[u8], &long(255)].concat()))), 13);
        for (body, wanted) in [
            (b"\x08\x00\x00\x01a" as &[u8], 13),
            (b"\x07\x04\x00\x01a", 13),
            (b"\x07\x03\x02\x01a", 13),
            (b"\x07\x03\x01\x00", 13),
            (b"\x07\x03\x01\x02.a", 13),
            (b"\x07\x03\x01\x05wamp.", 0),
        ] {
            assert_eq!(refusal(&with((1, body))), wanted, "{}", body.escape_ascii());
        }
        for (wait, wanted) in [(0u32, 13), (1, 0), (60_000, 0), (60_001, 13), (u32::MAX, 13)] {
            assert_eq!(refusal(&with((2, &wait.to_be_bytes()))), wanted, "{wait}");
        }
    }
}
