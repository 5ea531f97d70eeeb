//! What was met of the options of PUBLISH that choose its events' receivers, counted by the publisher's format.

use crate::fates::NAMES;
use crate::pair::Outcome;
use crate::sent;
use against::side::{Event, Step};
use reference::format::Format;
use reference::matching::fits;
use reference::message::{self, Incoming};
use reference::receivers::{Choice, Receivers};
use reference::state::{State, Status, SLOTS};
use reference::uri;

/// What is counted, of each format.
#[derive(Clone, Copy, Debug, PartialEq, Eq)]
enum Met {
    Plain,
    MeTrue,
    MeFalse,
    MeWrong,
    ExcludeRight,
    ExcludeWrong,
    EligibleRight,
    EligibleEmpty,
    EligibleWrong,
    AllThree,
    Told,
    ToldFirst,
    NotTold,
    OwnEvent,
    OwnExcluded,
    OwnNotEligible,
    Excluded,
    NotEligible,
    Most,
}

const MET: [(Met, &str); 19] = [
    (Met::Plain, "PUBLISH without them, of"),
    (Met::MeTrue, "exclude_me true, of"),
    (Met::MeFalse, "exclude_me false, of"),
    (Met::MeWrong, "exclude_me wrong, of"),
    (Met::ExcludeRight, "exclude right, of"),
    (Met::ExcludeWrong, "exclude wrong, of"),
    (Met::EligibleRight, "eligible right, of"),
    (Met::EligibleEmpty, "eligible empty, of"),
    (Met::EligibleWrong, "eligible wrong, of"),
    (Met::AllThree, "all three right, of"),
    (Met::Told, "invalid_argument to a PUBLISH, of"),
    (Met::ToldFirst, "invalid_argument where the topic is bad too, of"),
    (Met::NotTold, "wrong option that is not told, of"),
    (Met::OwnEvent, "event to its publisher, of"),
    (Met::OwnExcluded, "event kept from its publisher by exclude, of"),
    (Met::OwnNotEligible, "event kept from its publisher by eligible, of"),
    (Met::Excluded, "event kept from another member by exclude, of"),
    (Met::NotEligible, "event kept from another member by eligible, of"),
    (Met::Most, "257 messages by one PUBLISH, of"),
];

/// The most messages of a step: PUBLISHED, and an event to each of 8 members of 32 rows.
const MOST_MESSAGES: usize = 257;

#[derive(Clone, Default)]
pub struct Choices {
    counts: [[u64; 2]; MET.len()],
}

impl Choices {
    /// Counts a done step.
    pub fn step(&mut self, step: &Step, state: &[u8], outcome: &Outcome) {
        let Event::Message { bytes, .. } = &step.event else { return };
        let Some(before) = State::parse(state) else { return };
        let publisher = before.sessions[step.slot as usize];
        let read = message::read(publisher.format, bytes);
        let Ok(Incoming::Publish { request, acknowledge, receivers, topic, .. }) = read else { return };
        if publisher.status != Status::Open || request != publisher.requests + 1 {
            return;
        }
        self.options(publisher.format, &receivers);
        let mut count = |met: Met, is_so: bool| {
            self.counts[met as usize][publisher.format as usize] += u64::from(is_so);
        };
        if receivers.has_wrong() {
            count(Met::Told, acknowledge);
            count(Met::ToldFirst, acknowledge && !uri::is_published_topic(&topic));
            count(Met::NotTold, !acknowledge);
            return;
        }
        let sent = sent::messages(outcome.written()).expect("an output");
        count(Met::Most, sent.len() == MOST_MESSAGES);
        if !uri::is_published_topic(&topic) {
            return;
        }
        let to_itself = sent.iter().filter(|(to, _)| *to as u64 == step.slot).count();
        count(Met::OwnEvent, to_itself > usize::from(acknowledge));
        let rows = before.subscriptions.used().filter(|row| fits(row.policy, row.text(), &topic));
        let members = rows.fold(0, |members, row| members | row.holder);
        for member in (0..SLOTS).filter(|member| members >> member & 1 == 1) {
            let (id, is_publisher) = (before.sessions[member].id, member as u64 == step.slot);
            // What an option keeps is what would be left without it.
            let is_kept =
                |without: Receivers| !receivers.leave(id, is_publisher) && without.leave(id, is_publisher);
            let by_exclude = is_kept(Receivers { exclude: Choice::Absent, ..receivers });
            let by_eligible = is_kept(Receivers { eligible: Choice::Absent, ..receivers });
            count(if is_publisher { Met::OwnExcluded } else { Met::Excluded }, by_exclude);
            count(if is_publisher { Met::OwnNotEligible } else { Met::NotEligible }, by_eligible);
        }
    }

    /// Counts the options themselves.
    fn options(&mut self, format: Format, receivers: &Receivers) {
        let Receivers { exclude_me, exclude, eligible } = *receivers;
        let is_right = [
            matches!(exclude_me, Choice::Right(_)),
            matches!(exclude, Choice::Right(_)),
            matches!(eligible, Choice::Right(_)),
        ];
        let found = [
            (Met::Plain, *receivers == Receivers::default()),
            (Met::MeTrue, exclude_me == Choice::Right(true)),
            (Met::MeFalse, exclude_me == Choice::Right(false)),
            (Met::MeWrong, exclude_me == Choice::Wrong),
            (Met::ExcludeRight, is_right[1]),
            (Met::ExcludeWrong, exclude == Choice::Wrong),
            (Met::EligibleRight, is_right[2]),
            (Met::EligibleEmpty, eligible == Choice::Right(Default::default())),
            (Met::EligibleWrong, eligible == Choice::Wrong),
            (Met::AllThree, is_right == [true; 3]),
        ];
        for (met, is_so) in found {
            self.counts[met as usize][format as usize] += u64::from(is_so);
        }
    }

    pub fn add(&mut self, other: &Choices) {
        for (counts, others) in self.counts.iter_mut().zip(other.counts) {
            counts.iter_mut().zip(others).for_each(|(count, other)| *count += other);
        }
    }

    /// The counts by name, of the formats that slots speak.
    pub fn lines(&self, formats: &[Format]) -> Vec<(String, u64)> {
        let mut lines = Vec::new();
        for ((_, name), counts) in MET.iter().zip(self.counts) {
            for &format in formats {
                lines.push((format!("{name} {}", NAMES[format as usize]), counts[format as usize]));
            }
        }
        lines
    }
}

#[cfg(test)]
mod tests {
    use super::*;

    #[test]
    fn each_has_its_name() {
        assert!(MET.iter().enumerate().all(|(place, (met, _))| *met as usize == place));
    }
}
