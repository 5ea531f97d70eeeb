//! The stack that a call of the archive uses, measured: the call runs on a stack of its own, which is painted
//! before, and what has lost its paint was used.
//!
//! The painted area is twice as long as a call may use, with a page below that traps. A call that uses too much
//! is therefore told with its step and its figure, unless it uses more than twice as much.

use crate::pages::Pages;
use against::archive::Call;
use std::ops::Range;

/// What an unused word holds. A call that writes just this, in its deepest word, is measured 8 bytes less.
const PAINT: u64 = 0x5bd1_e995_9e37_79b9;

const WORD: usize = size_of::<u64>();

/// The words that are looked at together.
const CHUNK: usize = 64;

pub struct Stack {
    pages: Pages,
    /// The most bytes that a call used. Below them the paint is whole.
    deepest: usize,
}

impl Stack {
    /// A stack for calls that may use `allowed` bytes.
    pub fn new(allowed: usize) -> Stack {
        let mut pages = Pages::new(2 * allowed);
        words(&mut pages).fill(PAINT);
        Stack { pages, deepest: 0 }
    }

    /// The most bytes that a call used so far, its arguments and its return address counted in.
    pub fn deepest(&self) -> usize {
        self.deepest
    }

    /// Where it lies.
    pub fn bytes(&mut self) -> Range<*const u8> {
        self.pages.bytes().as_ptr_range()
    }

    /// Makes the call on this stack.
    pub fn run(&mut self, call: &Call) -> u64 {
        let answer = self.call(call);
        self.measure();
        answer
    }

    /// The first six arguments go in registers, the last four on the stack, where a function of fewer arguments
    /// does not look (System V ABI for x86-64, 3.2.3). The stack pointer is a multiple of 16 at the call. Its
    /// old value waits in r12, which the callee preserves.
    fn call(&mut self, call: &Call) -> u64 {
        let [a0, a1, a2, a3, a4, a5, ref others @ ..] = call.arguments;
        let words = words(&mut self.pages);
        let top = words.len() - others.len();
        words[top..].copy_from_slice(others);
        let pointer = &raw mut words[top];
        let answer;
        // SAFETY: the function is one of the archive's, with its arguments; the stack is this value's own.
        unsafe {
            std::arch::asm!(
                "xchg rsp, r12",
                "call {function}",
                "mov rsp, r12",
                function = in(reg) call.function,
                inout("r12") pointer => _,
                in("rdi") a0,
                in("rsi") a1,
                in("rdx") a2,
                in("rcx") a3,
                in("r8") a4,
                in("r9") a5,
                lateout("rax") answer,
                clobber_abi("C"),
            );
        }
        answer
    }

    /// Looks for lost paint below the deepest use so far.
    fn measure(&mut self) {
        let words = words(&mut self.pages);
        let painted = &words[..words.len() - self.deepest / WORD];
        let is_whole = |chunk: &&[u64]| chunk.iter().fold(0, |lost, word| lost | word ^ PAINT) == 0;
        let whole = CHUNK * painted.chunks(CHUNK).take_while(is_whole).count();
        let whole = whole.min(painted.len());
        let rest = painted[whole..].iter().take_while(|&&word| word == PAINT).count();
        self.deepest = (words.len() - whole - rest) * WORD;
    }
}

/// The stack as words. Its last word is at the highest address.
fn words(pages: &mut Pages) -> &mut [u64] {
    // SAFETY: every value is a word; the pages begin and end at a multiple of its size.
    let (before, words, after) = unsafe { pages.bytes().align_to_mut() };
    assert!(before.is_empty() && after.is_empty());
    words
}

#[cfg(test)]
mod tests {
    use super::*;

    #[allow(clippy::too_many_arguments)]
    extern "C" fn sum(
        a0: u64,
        a1: u64,
        a2: u64,
        a3: u64,
        a4: u64,
        a5: u64,
        a6: u64,
        a7: u64,
        a8: u64,
        a9: u64,
    ) -> u64 {
        [a0, a1, a2, a3, a4, a5, a6, a7, a8, a9].iter().fold(0, |sum, part| 10 * sum + part)
    }

    /// Uses at least 1,000 bytes for each level.
    extern "C" fn deep(levels: u64) -> u64 {
        let mut room = [levels as u8; 1000];
        std::hint::black_box(&mut room);
        if levels > 1 {
            deep(levels - 1) + 1
        } else {
            u64::from(room[0])
        }
    }

    fn deep_call(levels: u64) -> Call {
        Call { function: deep as *const () as usize, arguments: [levels, 0, 0, 0, 0, 0, 0, 0, 0, 0] }
    }

    #[test]
    fn every_argument_arrives() {
        let call = Call { function: sum as *const () as usize, arguments: [1, 2, 3, 4, 5, 6, 7, 8, 9, 0] };
        assert_eq!(Stack::new(40960).run(&call), 1234567890);
    }

    #[test]
    fn the_deepest_call_is_kept() {
        let mut stack = Stack::new(40960);
        assert_eq!(stack.run(&deep_call(5)), 5);
        let five = stack.deepest();
        assert!((5000..6500).contains(&five), "{five}");
        assert_eq!(stack.run(&deep_call(2)), 2);
        assert_eq!(stack.deepest(), five);
        assert_eq!(stack.run(&deep_call(9)), 9);
        assert!((9000..12000).contains(&stack.deepest()), "{}", stack.deepest());
    }
}
