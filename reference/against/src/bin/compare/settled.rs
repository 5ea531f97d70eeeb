//! Settings that a run's steps are lent: drawn anew for each stretch, so that they decide about its traffic; and steps
//! with settings that break a rule, or have bytes changed.

use crate::files::{Content, Rule, RULES};
use crate::filing::changed;
use crate::random::Random;
use crate::run::{Run, USUAL};
use crate::tally::Kind;
use crate::texts::{self, taken};
use crate::unlawful::BREACHES;
use reference::settings::BYTES;
use reference::state::State;
use reference::uri::{self, Policy, MAX_LENGTH};

/// One in so many turns is of settings that are not those of the stretch.
const OTHER_SETTINGS: usize = 16;

/// Settings that decide about a stretch's traffic: about some slots and actions, under the beginnings of the rows' texts
/// and of texts of the stretch's own components.
pub fn drawn(random: &mut Random, alphabet: usize, state: &State) -> Content {
    let count = random.pick(&[0, 2, 12, 20, 28, RULES - 1, RULES, RULES]);
    let (slots, actions) = (random.between(1, 8), random.between(1, 4));
    let first = random.below(8);
    let mut rules: Vec<Rule> = Vec::new();
    while rules.len() < count {
        let rule = match random.pick_of(0..rules.len()) {
            Some(other) if random.once_in(2) => kin(random, alphabet, &rules[other]),
            _ => Rule {
                slot: ((first + random.below(slots)) % 8) as u8,
                action: ((first + random.below(actions)) % 4) as u8,
                verdict: random.below(2) as u8,
                prefix: prefix(random, alphabet, state),
            },
        };
        let is_new = !rules.iter().any(|other| other.is_about_the_same(&rule));
        if is_new && uri::is_permission_prefix(&rule.prefix) {
            rules.push(rule);
        }
    }
    let content = Content::random(random);
    let realm = match random.below(8) {
        0..=3 => b"hub.bus".to_vec(),
        4..=6 => taken(random, texts::MOST, Policy::Exact, |text, _| uri::is_realm(text)).into_bytes(),
        _ => content.realm,
    };
    Content { realm, rules, wait: content.wait }
}

/// The beginning of a text, a short one half of the time: it is under more texts. It may be no prefix text.
fn prefix(random: &mut Random, alphabet: usize, state: &State) -> Vec<u8> {
    let rows = state.subscriptions.used().chain(state.registrations.used());
    let mut text = match random.pick_of(rows) {
        Some(row) if random.once_in(2) => row.text().to_vec(),
        _ => taken(random, alphabet, Policy::Prefix, |text, _| uri::is_permission_prefix(text)).into_bytes(),
    };
    let first = text.iter().position(|&byte| byte == b'.').unwrap_or(text.len());
    match random.below(6) {
        0..=2 => text.truncate(1),
        3 => text.truncate(first),
        4 => text.truncate(random.between(1, text.len())),
        _ => {}
    }
    text
}

/// A rule beside another: of a longer or shorter prefix, mostly with the other verdict, or of another slot or action. It
/// may be none.
fn kin(random: &mut Random, alphabet: usize, rule: &Rule) -> Rule {
    let mut kin = rule.clone();
    kin.verdict ^= u8::from(!random.once_in(4));
    match random.below(6) {
        0 => kin.slot = random.below(8) as u8,
        1 => kin.action = random.below(4) as u8,
        2 => kin.prefix.truncate(random.between(1, rule.prefix.len())),
        3 => kin.prefix.extend(random.pick(&[".", "x", "1"]).bytes()),
        4 => kin.prefix.extend(texts::exact(random, alphabet).bytes()),
        _ => kin.prefix.extend(format!(".{}", texts::exact(random, alphabet)).bytes()),
    }
    kin.prefix.truncate(MAX_LENGTH);
    kin
}

impl Run {
    /// Other settings for the stretch, where the run is of settings.
    pub fn new_settings(&mut self) {
        if !self.mode.settings {
            return;
        }
        let content = drawn(&mut self.drawn, self.temper.alphabet, &self.model);
        self.settings = content.lent();
        self.temper.realm = String::from_utf8(content.realm).ok();
    }

    /// Now and then a step with settings that are not those of the stretch.
    pub fn other_settings(&mut self) -> Result<(), String> {
        if !self.mode.settings || !self.drawn.once_in(OTHER_SETTINGS) {
            return Ok(());
        }
        if self.drawn.once_in(2) {
            self.step_with_broken_settings()
        } else {
            self.step_with_changed_settings()
        }
    }

    /// One rule broken by construction. Whatever else is wrong with the step, the refusal is 1.
    fn step_with_broken_settings(&mut self) -> Result<(), String> {
        let place = self.drawn.below(BREACHES.len());
        let mut settings = self.settings.clone();
        while BREACHES[place].1(&mut self.drawn, &mut settings).is_none() {
            settings = Content::random(&mut self.drawn).lent();
        }
        let mut step = self.planned();
        if self.drawn.once_in(8) {
            step.slot = 8;
        }
        let room = self.drawn.pick(&[0, 2, USUAL]);
        self.tally.permissions.breach(place);
        let state = self.state.clone();
        self.run_with(Kind::BrokenSettings, &step, &settings, &state, room, Some(1))?;
        Ok(())
    }

    /// A few bytes changed at random. The settings may still keep the rules.
    fn step_with_changed_settings(&mut self) -> Result<(), String> {
        let mut settings = self.settings.clone();
        for _ in 0..self.drawn.between(1, 2) {
            let at = self.drawn.below(BYTES);
            let used = (at..BYTES).find(|&at| settings[at] != 0).unwrap_or(at);
            settings[used] = changed(&mut self.drawn, settings[used]);
        }
        let step = self.planned();
        let state = self.state.clone();
        self.run_with(Kind::ChangedSettings, &step, &settings, &state, USUAL, None)?;
        Ok(())
    }
}

#[cfg(test)]
mod tests {
    use super::*;
    use crate::states;
    use reference::settings::keeps_the_rules;

    #[test]
    fn they_keep_the_rules() {
        let mut random = Random::new(4);
        for alphabet in texts::FEWEST..=texts::MOST {
            for _ in 0..30 {
                let state = states::random(&mut random);
                assert!(keeps_the_rules(&drawn(&mut random, alphabet, &state).lent()));
                assert!(keeps_the_rules(&drawn(&mut random, alphabet, &State::empty()).lent()));
            }
        }
    }
}
