//! What was met of settings in steps: whom they let do what, counted.

use crate::pair::Outcome;
use crate::tally::{lines, sum, Section};
use crate::unlawful::BREACHES;
use against::side::{Event, Step};
use reference::message::{self, Incoming, Match};
use reference::settings::{Action, Rule, Settings, DEFAULT_REALM};
use reference::state::{Row, State, Status};
use reference::uri;

/// What is counted.
#[derive(Clone, Copy, Debug, PartialEq, Eq)]
enum Met {
    LongerYes,
    LongerNo,
    WithinAComponent,
    OtherSlot,
    OtherAction,
    BadText,
    NotTold,
    Unsubscribe,
    Unregister,
    OtherRealm,
    UsualRealm,
}

const MET: [(Met, &str); 11] = [
    (Met::LongerYes, "a longer rule's yes before a shorter one's no"),
    (Met::LongerNo, "a longer rule's no before a shorter one's yes"),
    (Met::WithinAComponent, "no by a prefix that ends within a component"),
    (Met::OtherSlot, "yes where another slot's rules would say no"),
    (Met::OtherAction, "yes where another action's rules would say no"),
    (Met::BadText, "invalid_uri where a rule would say no"),
    (Met::NotTold, "no to a PUBLISH that does not ask for an answer"),
    (Met::Unsubscribe, "UNSUBSCRIBE from what may not be subscribed to"),
    (Met::Unregister, "UNREGISTER of what may not be registered"),
    (Met::OtherRealm, "WELCOME to a realm that is not the default one"),
    (Met::UsualRealm, "HELLO for the default realm where it is another"),
];

/// What an action was answered.
const VERDICTS: [&str; 3] = ["no", "yes by a rule", "yes for want of a rule"];

#[derive(Clone, Default)]
pub struct Permissions {
    met: [u64; MET.len()],
    verdicts: [[u64; VERDICTS.len()]; Action::ALL.len()],
    breaches: [u64; BREACHES.len()],
}

/// A request that is asked about: the action, its text, whether that obeys the URI rule, and whether the answer is told.
struct Asked<'t> {
    action: Action,
    text: &'t [u8],
    is_good: bool,
    is_told: bool,
}

impl Permissions {
    /// Counts a done step that was lent these settings.
    pub fn step(&mut self, step: &Step, settings: &[u8], state: &[u8], outcome: &Outcome) {
        let Event::Message { bytes, .. } = &step.event else { return };
        let (Some(settings), Some(before)) = (Settings::load(settings), State::parse(state)) else { return };
        let slot = step.slot as usize;
        let session = before.sessions[slot];
        let Ok(message) = message::read(session.format, bytes) else { return };
        if let (Status::Attached, Incoming::Hello { realm }) = (session.status, &message) {
            let after = State::parse(&outcome.state).expect("the state after a step");
            let is_usual = settings.realm == DEFAULT_REALM;
            self.count(Met::OtherRealm, after.is_open(slot as u8) && !is_usual);
            self.count(Met::UsualRealm, **realm == *DEFAULT_REALM && !is_usual);
        }
        if session.status != Status::Open {
            return;
        }
        self.leaving(&settings, &before, slot, &message);
        // A violation is asked about nothing: the session's end is seen by its slot.
        if State::parse(&outcome.state).is_some_and(|after| after.is_open(slot as u8)) {
            if let Some(asked) = asked(&message) {
                self.asked(&settings, slot, &asked);
            }
        }
    }

    fn count(&mut self, met: Met, is_so: bool) {
        self.met[met as usize] += u64::from(is_so);
    }

    fn leaving(&mut self, settings: &Settings, before: &State, slot: usize, message: &Incoming) {
        let is_denied =
            |row: Option<&Row>, action| row.is_some_and(|row| !settings.permit(slot, action, row.text()));
        match *message {
            Incoming::Unsubscribe { subscription, .. } => {
                let mut rows = before.subscriptions.used();
                let row = rows.find(|row| row.id == subscription && row.holder >> slot & 1 == 1);
                self.count(Met::Unsubscribe, is_denied(row, Action::Subscribe));
            }
            Incoming::Unregister { registration, .. } => {
                let mut rows = before.registrations.used();
                let row = rows.find(|row| row.id == registration && usize::from(row.holder) == slot);
                self.count(Met::Unregister, is_denied(row, Action::Register));
            }
            _ => {}
        }
    }

    fn asked(&mut self, settings: &Settings, slot: usize, asked: &Asked) {
        let (action, text) = (asked.action, asked.text);
        let may = settings.permit(slot, action, text);
        if !asked.is_good {
            return self.count(Met::BadText, !may);
        }
        let is_fitting = |rule: &&Rule| {
            usize::from(rule.slot) == slot && rule.action == action as u8 && text.starts_with(rule.prefix)
        };
        let mut fitting: Vec<_> = settings.rules().iter().filter(is_fitting).collect();
        fitting.sort_by_key(|rule| rule.prefix.len());
        let verdict = if !may { 0 } else { 1 + usize::from(fitting.is_empty()) };
        self.verdicts[action as usize][verdict] += 1;
        let others = fitting.iter().any(|rule| rule.verdict == u8::from(!may));
        self.count(if may { Met::LongerYes } else { Met::LongerNo }, others);
        let ends_within = |rule: &&Rule| {
            let length = rule.prefix.len();
            length < text.len() && text[length] != b'.' && text[length - 1] != b'.'
        };
        self.count(Met::WithinAComponent, !may && fitting.last().is_some_and(ends_within));
        self.count(Met::NotTold, !may && !asked.is_told);
        let other_slot = (0..8).any(|other| !settings.permit(other, action, text));
        self.count(Met::OtherSlot, may && other_slot);
        let other_action = Action::ALL.into_iter().any(|other| !settings.permit(slot, other, text));
        self.count(Met::OtherAction, may && other_action);
    }

    /// Counts a breach of the settings lent to a step by its place in the list.
    pub fn breach(&mut self, place: usize) {
        self.breaches[place] += 1;
    }

    pub fn add(&mut self, other: &Permissions) {
        sum(&mut self.met, &other.met);
        for (counts, others) in self.verdicts.iter_mut().zip(&other.verdicts) {
            sum(counts, others);
        }
        sum(&mut self.breaches, &other.breaches);
    }

    pub fn sections(&self) -> Vec<Section> {
        let of_action = |action: Action| {
            let counts = self.verdicts[action as usize];
            VERDICTS.iter().zip(counts).map(move |(verdict, count)| (format!("{action:?}: {verdict}"), count))
        };
        let mut permissions: Vec<_> = Action::ALL.into_iter().flat_map(of_action).collect();
        permissions.extend(lines(MET.iter().map(|(_, name)| name), &self.met));
        let breaches = lines(BREACHES.iter().map(|(name, _)| name), &self.breaches);
        vec![("settings in steps", permissions), ("settings of steps broken", breaches)]
    }
}

/// The request, if it is one that is asked about and that has no wrong option.
fn asked<'t>(message: &'t Incoming) -> Option<Asked<'t>> {
    Some(match message {
        Incoming::Publish { acknowledge, receivers, topic, .. } if !receivers.has_wrong() => {
            let is_good = uri::is_published_topic(topic);
            Asked { action: Action::Publish, text: topic, is_good, is_told: *acknowledge }
        }
        Incoming::Subscribe { matching: Match::Policy(policy), topic, .. } => {
            let is_good = uri::is_subscribed_topic(topic, *policy);
            Asked { action: Action::Subscribe, text: topic, is_good, is_told: true }
        }
        Incoming::Register { matching: Match::Policy(policy), procedure, .. } => {
            let is_good = uri::is_registered_procedure(procedure, *policy);
            Asked { action: Action::Register, text: procedure, is_good, is_told: true }
        }
        Incoming::Call { procedure, .. } => {
            let is_good = uri::is_called_procedure(procedure);
            Asked { action: Action::Call, text: procedure, is_good, is_told: true }
        }
        _ => return None,
    })
}

#[cfg(test)]
mod tests {
    use super::*;

    #[test]
    fn each_has_its_name() {
        assert!(MET.iter().enumerate().all(|(place, (met, _))| *met as usize == place));
        assert!(Action::ALL.iter().enumerate().all(|(place, action)| *action as usize == place));
    }
}
