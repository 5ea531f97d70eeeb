//! The archive as the comparison runs it: on lent buffers that lie against pages that trap, and on painted
//! stacks.

use crate::lent::{End, Lent};
use crate::random::Random;
use crate::stack::Stack;
use crate::trap;
use against::archive;
use against::header;
use against::side::{Event, Filing, Step};
use reference::json::MAX_DEPTH;
use reference::{settings, state};

/// The longest message or file, settings and state that are lent: no generator makes one as long.
const LONGEST_MESSAGE: usize = 65536;
const LONGEST_SETTINGS: usize = 2 * settings::BYTES;
const LONGEST_STATE: usize = 2 * state::BYTES;

/// The kinds of call whose use of the stack is told apart.
#[derive(Clone, Copy, Debug, PartialEq, Eq)]
pub enum Call {
    Attach,
    Detach,
    /// A message that is of neither kind below.
    Message,
    Publish,
    /// A message that nests as deep as any may, or deeper: its sender chooses that.
    Nested,
    /// The settings functions, of either version.
    ReadSettings,
    WriteSettings,
    DefaultSettings,
}

pub const CALLS: [(Call, &str); 8] = [
    (Call::Attach, "attach"),
    (Call::Detach, "detach"),
    (Call::Message, "message"),
    (Call::Publish, "PUBLISH"),
    (Call::Nested, "message nested to depth 8"),
    (Call::ReadSettings, "settings read"),
    (Call::WriteSettings, "settings written"),
    (Call::DefaultSettings, "default settings"),
];

impl Call {
    fn of(step: &Step) -> Call {
        match &step.event {
            Event::Attach(_) => Call::Attach,
            Event::Detach => Call::Detach,
            Event::Message { bytes, .. } if depth(bytes) >= MAX_DEPTH => Call::Nested,
            Event::Message { bytes, .. } if begins_as_publish(bytes) => Call::Publish,
            Event::Message { .. } => Call::Message,
        }
    }

    fn of_filing(filing: Filing) -> Call {
        match filing {
            Filing::Read | Filing::Read1 => Call::ReadSettings,
            Filing::Write | Filing::Write1 => Call::WriteSettings,
            Filing::Default => Call::DefaultSettings,
        }
    }
}

/// How deep the lists and dicts of a text nest, if it is one of JSON.
pub fn depth(text: &[u8]) -> usize {
    let (mut open, mut deepest) = (0, 0_usize);
    let (mut in_string, mut escaped) = (false, false);
    for &byte in text {
        match byte {
            _ if escaped => escaped = false,
            b'\\' => escaped = in_string,
            b'"' => in_string = !in_string,
            b'[' | b'{' if !in_string => {
                open += 1;
                deepest = deepest.max(open);
            }
            b']' | b'}' if !in_string => open = open.saturating_sub(1),
            _ => {}
        }
    }
    deepest
}

/// Is the text's first element, if it is a list, the number of PUBLISH?
fn begins_as_publish(text: &[u8]) -> bool {
    let Some(elements) = text.trim_ascii_start().strip_prefix(b"[") else { return false };
    let end = elements.iter().position(|&byte| byte == b',').unwrap_or(elements.len());
    elements[..end].trim_ascii() == b"16"
}

pub struct Guarded {
    /// A message, or a file.
    message: Lent,
    settings: Lent,
    state: Lent,
    out: Lent,
    /// A stack for each kind of call: what it shows is then that kind's alone, and is never painted again.
    stacks: [Stack; CALLS.len()],
    /// The bytes of stack that a call may use: HUB_STACK_LEN.
    allowed: usize,
    /// Chooses the ends.
    random: Random,
}

impl Guarded {
    /// `ample` is the most output that is lent.
    pub fn new(seed: u64, ample: usize) -> Guarded {
        let allowed = header::figure("HUB_STACK_LEN");
        Guarded {
            message: Lent::new(LONGEST_MESSAGE),
            settings: Lent::new(LONGEST_SETTINGS),
            state: Lent::new(LONGEST_STATE),
            out: Lent::new(ample),
            stacks: std::array::from_fn(|_| Stack::new(allowed)),
            allowed,
            random: Random::new(!seed),
        }
    }

    /// Runs the step from a state, with an output that holds `out`'s bytes, and puts there what both hold then.
    /// Answers what the archive does, and whether it touched what it may not, or used too much stack. Settings are lent
    /// where there are some.
    pub fn run(
        &mut self,
        step: &Step,
        settings: Option<&[u8]>,
        state: &mut [u8],
        out: &mut [u8],
    ) -> (u64, Result<(), &'static str>) {
        self.lend(step.bytes(), settings.unwrap_or_default(), state, out);
        let lent_settings = settings.map(|_| &*self.settings.bytes());
        let call =
            archive::call(step, self.message.bytes(), lent_settings, self.state.bytes(), self.out.bytes());
        let (answer, kept) = self.make(Call::of(step), &call);
        state.copy_from_slice(self.state.bytes());
        out.copy_from_slice(self.out.bytes());
        if self.message.bytes() != step.bytes() || self.settings.bytes() != settings.unwrap_or_default() {
            return (answer, Err("the message or the settings are changed"));
        }
        (answer, kept)
    }

    /// The same of a settings function, which is lent a file or settings.
    pub fn file(&mut self, filing: Filing, lent: &[u8], out: &mut [u8]) -> (u64, Result<(), &'static str>) {
        let is_written = Filing::WRITERS.contains(&filing);
        let (file, settings) = if is_written { (&[] as &[u8], lent) } else { (lent, &[] as &[u8]) };
        self.lend(file, settings, &[], out);
        let from = if is_written { &mut self.settings } else { &mut self.message };
        let call = archive::filing(filing, from.bytes(), self.out.bytes());
        let (answer, kept) = self.make(Call::of_filing(filing), &call);
        out.copy_from_slice(self.out.bytes());
        if self.message.bytes() != file || self.settings.bytes() != settings {
            return (answer, Err("the file or the settings are changed"));
        }
        (answer, kept)
    }

    /// Lends the bytes, each at either end of its pages.
    fn lend(&mut self, message: &[u8], settings: &[u8], state: &[u8], out: &[u8]) {
        for (lent, bytes) in [
            (&mut self.message, message),
            (&mut self.settings, settings),
            (&mut self.state, state),
            (&mut self.out, out),
        ] {
            lent.lend(bytes, self.random.pick(&[End::First, End::Last]));
        }
    }

    /// Makes the call on its kind's stack.
    fn make(&mut self, kind: Call, call: &archive::Call) -> (u64, Result<(), &'static str>) {
        let stack = &mut self.stacks[kind as usize];
        let lent = [&mut self.message, &mut self.settings, &mut self.state, &mut self.out];
        let [message, settings, state, out] = lent.map(|lent| lent.bytes().as_ptr_range());
        trap::note_lent([message, settings, state, out, stack.bytes()]);
        let answer = stack.run(call);
        let lent = [&mut self.message, &mut self.settings, &mut self.state, &mut self.out];
        let kept = if !lent.into_iter().all(Lent::is_kept_beside) {
            Err("a byte beside a lent buffer is changed")
        } else if stack.deepest() > self.allowed {
            Err("the call uses more stack than it may (HUB_STACK_LEN)")
        } else {
            Ok(())
        };
        (answer, kept)
    }

    /// The most bytes of stack that a call of each kind used.
    pub fn deepest(&self) -> [usize; CALLS.len()] {
        std::array::from_fn(|kind| self.stacks[kind].deepest())
    }
}

#[cfg(test)]
mod tests {
    use super::*;

    #[test]
    fn each_kind_has_its_name() {
        assert!(CALLS.iter().enumerate().all(|(place, (kind, _))| *kind as usize == place));
    }

    #[test]
    fn kinds_of_message() {
        let kind = |text: &str| Call::of(&Step::message(0, 1, text.into()));
        assert_eq!(kind("[16,1,{},\"a\"]"), Call::Publish);
        assert_eq!(kind(" [ 16 ,1,{},\"a\"]"), Call::Publish);
        assert_eq!(kind("[161,1,{},\"a\"]"), Call::Message);
        assert_eq!(kind(""), Call::Message);
        assert_eq!(kind("[16,[[[[[[[1]]]]]]]]"), Call::Nested);
        assert_eq!(kind("[48,[[[[[[1]]]]]],[\"[[\\\"[\",[]]]"), Call::Message);
        assert_eq!(kind("[48,{\"a\":[{\"b\":[{\"c\":[{}]}]}]}]"), Call::Nested);
    }
}
