//! What the calls of settings functions did, counted.

use crate::faults::FAULTS;
use crate::tally::{lines, sum, Section};
use crate::unlawful::BREACHES;
use against::side::Filing;

/// The kinds of call.
#[derive(Clone, Copy, Debug, PartialEq, Eq)]
pub enum Kind {
    Good,
    Faulty,
    Changed,
    RandomBytes,
    ReadBack,
    SmallRoom,
    OneByteShort,
    ExactRoom,
    Broken,
    Default,
}

pub const KINDS: [(Kind, &str); 10] = [
    (Kind::Good, "good file or settings"),
    (Kind::Faulty, "faulty file"),
    (Kind::Changed, "changed bytes"),
    (Kind::RandomBytes, "random bytes"),
    (Kind::ReadBack, "what was written, read back"),
    (Kind::SmallRoom, "small room"),
    (Kind::OneByteShort, "one byte short"),
    (Kind::ExactRoom, "exact room"),
    (Kind::Broken, "broken settings"),
    (Kind::Default, "default settings"),
];

/// What the good files were like.
#[derive(Clone, Copy, Debug, PartialEq, Eq)]
pub enum Like {
    NoRules,
    AllRules,
    Version1,
    OutOfOrder,
    Gaps,
    EmptyInContents,
    EmptyInSection,
}

const LIKE: [(Like, &str); 7] = [
    (Like::NoRules, "no rules"),
    (Like::AllRules, "32 rules"),
    (Like::Version1, "version 1"),
    (Like::OutOfOrder, "bodies not in the order of the contents"),
    (Like::Gaps, "bytes that no section has"),
    (Like::EmptyInContents, "an empty section in the contents"),
    (Like::EmptyInSection, "an empty section in another section"),
];

/// The refusals by number; the files' own begin with 6.
const REFUSALS: usize = 14;

#[derive(Clone)]
pub struct Filed {
    calls: u64,
    kinds: [u64; KINDS.len()],
    answers: [[u64; REFUSALS]; Filing::ALL.len()],
    like: [u64; LIKE.len()],
    faults: [u64; FAULTS.len()],
    /// Files with two faults.
    pairs: u64,
    breaches: [u64; BREACHES.len()],
}

impl Default for Filed {
    fn default() -> Filed {
        Filed {
            calls: 0,
            kinds: [0; KINDS.len()],
            answers: [[0; REFUSALS]; Filing::ALL.len()],
            like: [0; LIKE.len()],
            faults: [0; FAULTS.len()],
            pairs: 0,
            breaches: [0; BREACHES.len()],
        }
    }
}

impl Filed {
    pub fn calls(&self) -> u64 {
        self.calls
    }

    pub fn call(&mut self, kind: Kind, filing: Filing, refusal: u64) {
        self.calls += 1;
        self.kinds[kind as usize] += 1;
        self.answers[filing as usize][refusal as usize] += 1;
    }

    pub fn like(&mut self, like: Like) {
        self.like[like as usize] += 1;
    }

    /// Counts faults of one file by their places in the list.
    pub fn faults(&mut self, faults: &[usize]) {
        faults.iter().for_each(|&fault| self.faults[fault] += 1);
        self.pairs += u64::from(faults.len() == 2);
    }

    pub fn breach(&mut self, place: usize) {
        self.breaches[place] += 1;
    }

    pub fn add(&mut self, other: &Filed) {
        self.calls += other.calls;
        sum(&mut self.kinds, &other.kinds);
        for (counts, others) in self.answers.iter_mut().zip(&other.answers) {
            sum(counts, others);
        }
        sum(&mut self.like, &other.like);
        sum(&mut self.faults, &other.faults);
        self.pairs += other.pairs;
        sum(&mut self.breaches, &other.breaches);
    }

    pub fn sections(&self) -> Vec<Section> {
        let faults = FAULTS.iter().map(|(refusal, name, _)| format!("{refusal}: {name}"));
        let mut faults = lines(faults, &self.faults);
        faults.push(("two faults in one file".to_string(), self.pairs));
        vec![
            ("calls of settings functions", lines(KINDS.iter().map(|(_, name)| name), &self.kinds)),
            ("their answers", self.answer_lines()),
            ("good settings files", lines(LIKE.iter().map(|(_, name)| name), &self.like)),
            ("faults of settings files", faults),
            ("settings broken", lines(BREACHES.iter().map(|(name, _)| name), &self.breaches)),
        ]
    }

    /// Each answer that a function may give, and such as it gave all the same.
    fn answer_lines(&self) -> Vec<(String, u64)> {
        let told = |filing: Filing| {
            let may = move |refusal: usize| match filing {
                Filing::Read | Filing::Read1 => matches!(refusal, 0 | 5..=13),
                Filing::Write | Filing::Write1 => matches!(refusal, 0 | 1 | 5),
                Filing::Default => matches!(refusal, 0 | 5),
            };
            let counts = self.answers[filing as usize].into_iter().enumerate();
            counts.filter(move |&(refusal, count)| may(refusal) || count > 0).map(move |(refusal, count)| {
                let answer = if refusal == 0 { "done".to_string() } else { format!("refusal {refusal}") };
                (format!("{}: {answer}", filing.name()), count)
            })
        };
        Filing::ALL.into_iter().flat_map(told).collect()
    }
}

#[cfg(test)]
mod tests {
    use super::*;

    #[test]
    fn each_kind_has_its_name() {
        assert!(KINDS.iter().enumerate().all(|(place, (kind, _))| *kind as usize == place));
        assert!(LIKE.iter().enumerate().all(|(place, (like, _))| *like as usize == place));
        assert!(Filing::ALL.iter().enumerate().all(|(place, filing)| *filing as usize == place));
    }
}
