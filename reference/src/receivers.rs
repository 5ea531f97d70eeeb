//! The options of PUBLISH that choose who receives its events: `exclude_me`, `exclude` and `eligible`. Sessions are named
//! by their IDs.

/// The most IDs that an option lists. Equal ones count each.
pub const MOST_IDS: usize = 8;

/// One of these options.
#[derive(Clone, Copy, Debug, Default, PartialEq, Eq)]
pub enum Choice<T> {
    #[default]
    Absent,
    Right(T),
    /// It is given, and its value is of another kind.
    Wrong,
}

/// The IDs that an option lists.
#[derive(Clone, Copy, Debug, Default, PartialEq, Eq)]
pub struct Ids {
    ids: [u64; MOST_IDS],
    count: usize,
}

impl Ids {
    /// These IDs and one more; `None` if that is one too many.
    pub fn with(mut self, id: u64) -> Option<Ids> {
        *self.ids.get_mut(self.count)? = id;
        self.count += 1;
        Some(self)
    }

    pub fn have(&self, id: u64) -> bool {
        self.ids[..self.count].contains(&id)
    }
}

/// The three options of one PUBLISH.
#[derive(Clone, Copy, Debug, Default, PartialEq, Eq)]
pub struct Receivers {
    pub exclude_me: Choice<bool>,
    pub exclude: Choice<Ids>,
    pub eligible: Choice<Ids>,
}

impl Receivers {
    /// Is one of the options wrong?
    pub fn has_wrong(&self) -> bool {
        self.exclude_me == Choice::Wrong || self.exclude == Choice::Wrong || self.eligible == Choice::Wrong
    }

    /// Do the options, none of them wrong, leave the member whose session has this ID?
    pub fn leave(&self, session: u64, is_publisher: bool) -> bool {
        if is_publisher && self.exclude_me != Choice::Right(false) {
            return false;
        }
        if matches!(self.exclude, Choice::Right(ids) if ids.have(session)) {
            return false;
        }
        match self.eligible {
            Choice::Right(ids) => ids.have(session),
            Choice::Absent | Choice::Wrong => true,
        }
    }
}

#[cfg(test)]
mod tests {
    use super::*;

    /// The IDs of these numbers.
    fn listed(ids: &[u64]) -> Choice<Ids> {
        Choice::Right(ids.iter().fold(Ids::default(), |listed, &id| listed.with(id).expect("a place for it")))
    }

    #[test]
    fn eight_ids_and_no_more() {
        let mut ids = Ids::default();
        for id in [1, 2, 3, 4, 5, 1, 1, u64::MAX] {
            assert!(ids == Ids::default() || !ids.have(9));
            ids = ids.with(id).expect("a place for it");
            assert!(ids.have(id));
        }
        assert!(!ids.have(0) && !ids.have(6));
        assert_eq!(ids.with(1), None);
        assert!(!Ids::default().have(0), "a closed slot's ID");
    }

    /// Whom the options leave of three sessions, of which the first is the publisher's.
    fn left(exclude_me: Choice<bool>, exclude: Choice<Ids>, eligible: Choice<Ids>) -> [bool; 3] {
        let receivers = Receivers { exclude_me, exclude, eligible };
        [receivers.leave(101, true), receivers.leave(102, false), receivers.leave(103, false)]
    }

    #[test]
    fn each_option_alone() {
        use Choice::{Absent, Right};
        let others = [false, true, true];
        assert_eq!(left(Absent, Absent, Absent), others);
        assert_eq!(left(Right(true), Absent, Absent), others);
        assert_eq!(left(Right(false), Absent, Absent), [true, true, true]);
        assert_eq!(left(Absent, listed(&[]), Absent), others);
        assert_eq!(left(Absent, listed(&[101]), Absent), others);
        assert_eq!(left(Absent, listed(&[103, 7]), Absent), [false, true, false]);
        assert_eq!(left(Absent, listed(&[102, 103]), Absent), [false, false, false]);
        assert_eq!(left(Absent, Absent, listed(&[])), [false, false, false]);
        assert_eq!(left(Absent, Absent, listed(&[101, 2])), [false, false, false]);
        assert_eq!(left(Absent, Absent, listed(&[103, 103])), [false, false, true]);
    }

    #[test]
    fn all_three_hold_at_once() {
        use Choice::{Absent, Right};
        let me_too = Right(false);
        assert_eq!(left(me_too, listed(&[101]), Absent), [false, true, true]);
        assert_eq!(left(me_too, listed(&[101]), listed(&[101])), [false, false, false]);
        assert_eq!(left(me_too, Absent, listed(&[101])), [true, false, false]);
        assert_eq!(left(me_too, Absent, listed(&[102])), [false, true, false]);
        assert_eq!(left(me_too, Absent, listed(&[])), [false, false, false]);
        assert_eq!(left(me_too, listed(&[102]), listed(&[101, 102, 103])), [true, false, true]);
        assert_eq!(left(Right(true), listed(&[102]), listed(&[101, 102, 103])), [false, false, true]);
        assert_eq!(left(Absent, listed(&[103]), listed(&[103])), [false, false, false]);
    }

    #[test]
    fn one_wrong_option_is_enough() {
        let right =
            Receivers { exclude_me: Choice::Right(true), exclude: listed(&[]), eligible: listed(&[1]) };
        assert!(!right.has_wrong() && !Receivers::default().has_wrong());
        assert!(Receivers { exclude_me: Choice::Wrong, ..right }.has_wrong());
        assert!(Receivers { exclude: Choice::Wrong, ..right }.has_wrong());
        assert!(Receivers { eligible: Choice::Wrong, ..right }.has_wrong());
    }
}
