//! A buffer as the archive is lent it: one of its ends lies against a page that traps.
//!
//! An access one byte outside that end ends the program, be it a read or a write; past the other end, writes
//! are seen by the bytes that stand there. Which end it is changes from step to step.

use crate::pages::Pages;

/// The bytes past the other end that are watched.
const WATCHED: usize = 64;

/// What the watched bytes hold.
const UNTOUCHED: u8 = 0xa5;

/// The end of the buffer that lies against a page that traps.
#[derive(Clone, Copy, Debug, PartialEq, Eq)]
pub enum End {
    First,
    Last,
}

pub struct Lent {
    pages: Pages,
    /// Where the buffer stands among the pages' bytes, and how long it is.
    from: usize,
    length: usize,
}

impl Lent {
    /// Room for buffers of at most so many bytes.
    pub fn new(most: usize) -> Lent {
        Lent { pages: Pages::new(most + WATCHED), from: 0, length: 0 }
    }

    /// A buffer with these bytes, at this end.
    pub fn lend(&mut self, bytes: &[u8], end: End) {
        let room = self.pages.bytes();
        self.length = bytes.len();
        self.from = match end {
            End::First => 0,
            End::Last => room.len() - bytes.len(),
        };
        let watched = match end {
            End::First => &mut room[bytes.len()..][..WATCHED],
            End::Last => &mut room[self.from - WATCHED..self.from],
        };
        watched.fill(UNTOUCHED);
        self.bytes().copy_from_slice(bytes);
    }

    pub fn bytes(&mut self) -> &mut [u8] {
        &mut self.pages.bytes()[self.from..][..self.length]
    }

    /// Have the watched bytes kept their values?
    pub fn is_kept_beside(&mut self) -> bool {
        let (from, length) = (self.from, self.length);
        let room = self.pages.bytes();
        let watched = if from == 0 { &room[length..][..WATCHED] } else { &room[from - WATCHED..from] };
        watched.iter().all(|&byte| byte == UNTOUCHED)
    }
}

#[cfg(test)]
mod tests {
    use super::*;
    use crate::pages::PAGE;

    #[test]
    fn it_lies_at_either_end() {
        let mut lent = Lent::new(100);
        let first = lent.pages.bytes().as_ptr() as usize;
        for length in [0, 1, 100] {
            lent.lend(&vec![7; length], End::First);
            assert_eq!(lent.bytes().as_ptr() as usize, first);
            assert_eq!(lent.bytes(), vec![7; length]);
            lent.lend(&vec![8; length], End::Last);
            assert_eq!(lent.bytes().as_ptr() as usize + length, first + PAGE);
            assert_eq!(lent.bytes(), vec![8; length]);
        }
    }

    #[test]
    fn a_write_past_the_other_end_is_seen() {
        let mut lent = Lent::new(100);
        lent.lend(&[1, 2, 3], End::First);
        assert!(lent.is_kept_beside());
        lent.pages.bytes()[3] = 1;
        assert!(!lent.is_kept_beside());
        lent.lend(&[1, 2, 3], End::Last);
        assert!(lent.is_kept_beside());
        lent.pages.bytes()[PAGE - 4] = 1;
        assert!(!lent.is_kept_beside());
    }
}
