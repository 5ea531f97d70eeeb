//! Settings, and files that hold them: by the generator's own writing, in any order of sections and with gaps.

use crate::random::Random;
use crate::texts::{self, drawn};
use reference::state::SLOTS;
use reference::uri::{self, Policy, MAX_LENGTH};

/// The most rules, and the kinds of sections.
pub const RULES: usize = 32;
pub const REALM: u8 = 0;
pub const PERMISSIONS: u8 = 1;
pub const WAIT: u8 = 2;

/// The wait of a version 1 file.
pub const USUAL_WAIT: u32 = 30_000;

/// A rule that is one.
#[derive(Clone, Debug, PartialEq, Eq)]
pub struct Rule {
    pub slot: u8,
    pub action: u8,
    pub verdict: u8,
    pub prefix: Vec<u8>,
}

impl Rule {
    pub fn random(random: &mut Random) -> Rule {
        let [slot, action, verdict] = [SLOTS, 4, 2].map(|end| random.below(end) as u8);
        Rule { slot, action, verdict, prefix: prefix(random) }
    }

    /// As a file has it.
    pub fn bytes(&self) -> Vec<u8> {
        [&[self.slot, self.action, self.verdict, self.prefix.len() as u8], &*self.prefix].concat()
    }

    pub fn is_about_the_same(&self, other: &Rule) -> bool {
        (self.slot, self.action, &self.prefix) == (other.slot, other.action, &other.prefix)
    }
}

/// Settings that keep the rules.
#[derive(Clone, Debug, PartialEq, Eq)]
pub struct Content {
    pub realm: Vec<u8>,
    pub rules: Vec<Rule>,
    pub wait: u32,
}

impl Content {
    pub fn random(random: &mut Random) -> Content {
        let count = match random.below(4) {
            0 => random.pick(&[0, 0, 1, RULES - 1, RULES]),
            1 => random.between(0, RULES),
            _ => random.between(0, 6),
        };
        let mut rules: Vec<Rule> = Vec::new();
        while rules.len() < count {
            let rule = Rule::random(random);
            if !rules.iter().any(|other| other.is_about_the_same(&rule)) {
                rules.push(rule);
            }
        }
        let wait = match random.below(3) {
            0 => random.pick(&[1, 2, 255, 256, USUAL_WAIT, 59_999, 60_000]),
            _ => random.between(1, 60_000) as u32,
        };
        Content { realm: realm(random), rules, wait }
    }

    /// The lent settings, laid out.
    pub fn lent(&self) -> Vec<u8> {
        let mut bytes = padded(&[], &self.realm);
        for rule in &self.rules {
            bytes.extend(padded(&[rule.slot, rule.action, rule.verdict], &rule.prefix));
        }
        bytes.resize(bytes.len() + (RULES - self.rules.len()) * (4 + MAX_LENGTH), 0);
        bytes.extend(self.wait.to_be_bytes());
        bytes
    }

    /// The file of a version as it is written: sections by kind, one right behind the other.
    pub fn written(&self, version: u8) -> Vec<u8> {
        let sections = Draft::new(version, self).sections();
        let mut place = 2 + 9 * sections.len() as u32;
        let mut laid = Laid { version, entries: Vec::new(), behind: Vec::new(), length: None };
        for (kind, body) in sections {
            laid.entries.push(Entry { kind, place, length: body.len() as u32 });
            place += body.len() as u32;
            laid.behind.extend(body);
        }
        laid.bytes()
    }
}

/// The fields before a text, its length, and the text with zeros to 128 bytes.
fn padded(before: &[u8], text: &[u8]) -> Vec<u8> {
    let zeros = vec![0; MAX_LENGTH - text.len()];
    [before, &[text.len() as u8], text, &zeros].concat()
}

fn realm(random: &mut Random) -> Vec<u8> {
    text(random, Policy::Exact, |text, _| uri::is_realm(text))
}

pub fn prefix(random: &mut Random) -> Vec<u8> {
    text(random, Policy::Prefix, |text, _| uri::is_permission_prefix(text))
}

/// A text that the rule takes. Now and then it is long, or no UTF-8.
fn text(random: &mut Random, policy: Policy, rule: texts::Rule) -> Vec<u8> {
    let draw = || match random.below(10) {
        0 => vec![b'q', random.pick(&[0xff, b'\\', b'.']), random.byte(), b'"'],
        1 => vec![random.pick(b"pp\"\\"); random.between(MAX_LENGTH - 1, MAX_LENGTH)],
        2 => vec![random.byte()],
        _ => texts::taken(random, texts::MOST, policy, rule).into_bytes(),
    };
    drawn(draw, |text| rule(text, policy))
}

/// A file to be laid out. Its parts may be wrong.
#[derive(Clone, Debug)]
pub struct Draft {
    pub version: u8,
    /// The bodies of the kinds.
    pub realm: Vec<u8>,
    pub rules: Vec<Vec<u8>>,
    pub wait: Vec<u8>,
    /// The kind that is left out, and sections besides.
    pub missing: Option<u8>,
    pub besides: Vec<(u8, Vec<u8>)>,
}

impl Draft {
    pub fn new(version: u8, content: &Content) -> Draft {
        Draft {
            version,
            realm: [&[content.realm.len() as u8], &*content.realm].concat(),
            rules: content.rules.iter().map(Rule::bytes).collect(),
            wait: content.wait.to_be_bytes().to_vec(),
            missing: None,
            besides: Vec::new(),
        }
    }

    /// The kinds that the version has.
    pub fn kinds(&self) -> &'static [u8] {
        if self.version == 1 {
            &[REALM, PERMISSIONS]
        } else {
            &[REALM, PERMISSIONS, WAIT]
        }
    }

    pub fn body(&self, kind: u8) -> Vec<u8> {
        match kind {
            REALM => self.realm.clone(),
            PERMISSIONS => self.rules.concat(),
            _ => self.wait.clone(),
        }
    }

    fn sections(&self) -> Vec<(u8, Vec<u8>)> {
        let kinds = self.kinds().iter().filter(|kind| self.missing != Some(**kind));
        kinds.map(|&kind| (kind, self.body(kind))).chain(self.besides.clone()).collect()
    }

    /// Bodies in any order and with gaps, entries in any other order, an empty section anywhere.
    pub fn laid_out(&self, random: &mut Random) -> Laid {
        let mut sections = self.sections();
        shuffle(random, &mut sections);
        let page = 2 + 9 * sections.len();
        let most = random.pick(&[0, 0, 1, 9]);
        let gap = |random: &mut Random| -> Vec<u8> {
            (0..random.between(0, most)).map(|_| random.byte()).collect()
        };
        let mut laid = Laid { version: self.version, entries: Vec::new(), behind: gap(random), length: None };
        for (kind, body) in sections {
            let place = (page + laid.behind.len()) as u32;
            laid.entries.push(Entry { kind, place, length: body.len() as u32 });
            laid.behind.extend(body);
            laid.behind.extend(gap(random));
        }
        let end = page + laid.behind.len();
        for entry in laid.entries.iter_mut().filter(|entry| entry.length == 0) {
            if random.once_in(2) {
                entry.place = random.between(0, end) as u32;
            }
        }
        shuffle(random, &mut laid.entries);
        laid
    }
}

fn shuffle<T>(random: &mut Random, items: &mut [T]) {
    for last in (1..items.len()).rev() {
        items.swap(last, random.below(last + 1));
    }
}

/// An entry of the contents.
#[derive(Clone, Copy, Debug)]
pub struct Entry {
    pub kind: u8,
    pub place: u32,
    pub length: u32,
}

impl Entry {
    pub fn end(&self) -> usize {
        self.place as usize + self.length as usize
    }
}

/// A file that is laid out. Its places may be wrong.
#[derive(Clone, Debug)]
pub struct Laid {
    pub version: u8,
    pub entries: Vec<Entry>,
    /// The bytes behind the contents.
    pub behind: Vec<u8>,
    /// The length that the file is cut to.
    pub length: Option<usize>,
}

impl Laid {
    /// The length of the contents.
    pub fn page(&self) -> usize {
        2 + 9 * self.entries.len()
    }

    /// The length of the file, where it is not cut.
    pub fn end(&self) -> usize {
        self.page() + self.behind.len()
    }

    pub fn bytes(&self) -> Vec<u8> {
        let mut bytes = vec![self.version, self.entries.len() as u8];
        for entry in &self.entries {
            bytes.push(entry.kind);
            bytes.extend(entry.place.to_be_bytes());
            bytes.extend(entry.length.to_be_bytes());
        }
        bytes.extend(&self.behind);
        bytes.truncate(self.length.unwrap_or(usize::MAX));
        bytes
    }
}

#[cfg(test)]
mod tests {
    use super::*;
    use reference::{settings, settings_file};

    #[test]
    fn they_are_read_as_what_they_hold() {
        let mut random = Random::new(3);
        for _ in 0..500 {
            let content = Content::random(&mut random);
            assert!(settings::keeps_the_rules(&content.lent()));
            for version in [1, 2] {
                let mut wanted = content.clone();
                if version == 1 {
                    wanted.wait = USUAL_WAIT;
                }
                let laid = Draft::new(version, &content).laid_out(&mut random);
                for file in [laid.bytes(), content.written(version)] {
                    let mut out = vec![0; settings::BYTES];
                    assert_eq!(settings_file::read(&file, &mut out), 4357 * 256);
                    assert!(out == wanted.lent());
                }
            }
        }
    }
}
