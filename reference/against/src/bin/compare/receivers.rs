//! The options of PUBLISH that choose who receives its events, drawn by the state that stands as members of a JSON dict:
//! mostly right, and mostly with the IDs of open sessions.

use crate::random::Random;
use reference::ids;
use reference::receivers::MOST_IDS;
use reference::state::{State, Status, SLOTS};

/// The options with one to three of these put into them, before the members that are there or behind them.
pub fn chosen(random: &mut Random, state: &State, options: &str) -> String {
    let mut members = members(random, state);
    let is_empty = !options.contains('"');
    let between = random.pick(&[",", ",", " , "]);
    let inner = options[1..options.len() - 1].trim();
    if !is_empty {
        let place = if random.once_in(2) { 0 } else { members.len() };
        members.insert(place, inner.to_string());
    }
    format!("{{{}}}", members.join(between))
}

fn members(random: &mut Random, state: &State) -> Vec<String> {
    // A bit for each, and not all of them 0.
    let kept = random.between(1, 7);
    let colon = random.pick(&[":", ":", " : "]);
    let mut members = Vec::new();
    if kept & 1 != 0 {
        members.push(format!("\"exclude_me\"{colon}{}", exclude_me(random)));
    }
    for (bit, key) in [(2, "exclude"), (4, "eligible")] {
        if kept & bit != 0 {
            members.push(format!("\"{key}\"{colon}{}", list(random, state)));
        }
    }
    let first = random.below(members.len());
    members.rotate_left(first);
    members
}

fn exclude_me(random: &mut Random) -> &'static str {
    match random.below(12) {
        0 => random.pick(&["null", "0", "1", "\"false\"", "\"\"", "[]", "[false]", "{}"]),
        1..=3 => "true",
        _ => "false",
    }
}

/// A list of IDs, mostly of few; now and then of one too many, or what is no list.
fn list(random: &mut Random, state: &State) -> String {
    let count = match random.below(24) {
        0 => {
            let values = ["null", "true", "false", "0", "1", "\"1\"", "\"[1]\"", "{}", "{\"1\":1}"];
            return random.pick(&values).to_string();
        }
        1 | 2 => 0,
        3 => MOST_IDS,
        4 => MOST_IDS + 1,
        5 | 6 => random.between(4, MOST_IDS - 1),
        _ => random.between(1, 3),
    };
    let entries: Vec<_> = (0..count).map(|_| entry(random, state)).collect();
    let (open, close) = random.pick(&[("[", "]"), ("[", "]"), ("[ ", "\n]")]);
    format!("{open}{}{close}", entries.join(random.pick(&[",", ",", "\t, "])))
}

/// An ID: of an open session three times of four, else of nobody or by chance; seldom what is none.
fn entry(random: &mut Random, state: &State) -> String {
    let open = state.sessions.iter().filter(|session| session.status == Status::Open);
    let id = random.pick_of(open).map_or(1, |session| session.id);
    match random.below(32) {
        0..=23 => id.to_string(),
        24 | 25 => random.between(1, 40).to_string(),
        26..=28 => random.between(1, SLOTS - 1).to_string(),
        29 | 30 => random.pick(&[ids::MAX, ids::MAX, 1, ids::MAX - 1, id % ids::MAX + 1]).to_string(),
        _ => no_id(random, id),
    }
}

/// What is no ID, and looks like one.
fn no_id(random: &mut Random, id: u64) -> String {
    match random.below(10) {
        0 | 1 => "0".to_string(),
        2 | 3 => (ids::MAX + 1).to_string(),
        4 => format!("{id}.0"),
        5 => format!("{id}e0"),
        6 => format!("-{id}"),
        7 => format!("\"{id}\""),
        8 => format!("[{id}]"),
        _ => random.pick(&["null", "true", "18446744073709551617", "{}", "[]"]).to_string(),
    }
}

#[cfg(test)]
mod tests {
    use super::*;
    use crate::states;
    use reference::format::Format;
    use reference::message::{read, Incoming};
    use reference::receivers::{Choice, Receivers};

    #[test]
    fn most_are_right_and_some_are_wrong() {
        let mut random = Random::new(3);
        let (mut right, mut wrong, mut all_three, mut named) = (0, 0, 0, 0);
        for turn in 0..4000 {
            let state = states::random(&mut random);
            let options = ["{}", "{ }", "{\"x\":{}}", "{ \"acknowledge\" : true }"][turn % 4];
            let text = format!("[16,1,{},\"a\"]", chosen(&mut random, &state, options));
            let Ok(Incoming::Publish { acknowledge, receivers, .. }) = read(Format::Json, text.as_bytes())
            else {
                panic!("{text}")
            };
            assert_eq!(acknowledge, options.contains("acknowledge"), "{text}");
            assert_ne!(receivers, Receivers::default(), "{text}");
            let Receivers { exclude_me, exclude, eligible } = receivers;
            wrong += usize::from(receivers.has_wrong());
            right += usize::from(!receivers.has_wrong());
            let given = [exclude_me != Choice::Absent, exclude != Choice::Absent, eligible != Choice::Absent];
            all_three += usize::from(given == [true; 3]);
            let is_open =
                |ids: reference::receivers::Ids| state.sessions.iter().any(|session| ids.have(session.id));
            named += usize::from(matches!(exclude, Choice::Right(ids) if is_open(ids)));
        }
        assert!(
            right > 2 * wrong && wrong > 400 && all_three > 300 && named > 1000,
            "{right} {wrong} {named}"
        );
    }
}
