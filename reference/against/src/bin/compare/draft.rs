//! A message before it is written, so that it can still be changed by its elements.

use crate::random::Random;
use crate::spelling::{self, Habit};
use reference::message::MAX_LENGTH;

/// The slot that sends the message, and the elements of its outer list, each a JSON text.
#[derive(Clone, Debug)]
pub struct Draft {
    pub slot: usize,
    pub elements: Vec<String>,
}

impl Draft {
    pub fn new(slot: usize, elements: impl IntoIterator<Item = String>) -> Draft {
        Draft { slot, elements: elements.into_iter().collect() }
    }

    /// The draft with some of its strings spelled anew; as it was, mostly, where that would be too long for a message.
    pub fn respelled(self, random: &mut Random, habit: Habit) -> Draft {
        let elements = self.elements.iter().map(|element| spelling::respelled(random, element, habit));
        let respelled = Draft::new(self.slot, elements.collect::<Vec<_>>());
        if respelled.length() > MAX_LENGTH && !random.once_in(16) {
            return self;
        }
        respelled
    }

    /// The number of the message's bytes, without white space.
    pub fn length(&self) -> usize {
        let brackets_and_commas = 1 + self.elements.len();
        brackets_and_commas + self.elements.iter().map(String::len).sum::<usize>()
    }

    /// The message's bytes: most often without white space, else with some around the elements.
    pub fn written(&self, random: &mut Random) -> Vec<u8> {
        if !random.once_in(8) {
            return format!("[{}]", self.elements.join(",")).into_bytes();
        }
        let mut text = white(random).to_string() + "[";
        for (place, element) in self.elements.iter().enumerate() {
            if place > 0 {
                text += ",";
            }
            text += white(random);
            text += element;
            text += white(random);
        }
        text += "]";
        text += white(random);
        text.into_bytes()
    }
}

fn white(random: &mut Random) -> &'static str {
    random.pick(&["", "", " ", "  ", "\t", "\n", "\r\n "])
}

/// What stands between a string's quotes, with them.
pub fn quoted(written: &str) -> String {
    format!("\"{written}\"")
}

/// A text as a string, with no escape but those that it needs.
pub fn string(text: &str) -> String {
    quoted(&spelling::plain(text))
}
