//! Grades, their arithmetic, and held sets.

/// How a step may be interleaved, in rising order.
#[derive(Clone, Copy, Debug, PartialEq, Eq, PartialOrd, Ord)]
pub enum Grade {
    Const,
    Mover,
    Atomic,
    Cmpd,
    Error,
}

use Grade::*;

impl Grade {
    /// Every grade, in rising order: the paper's number of each is its place.
    pub const ALL: [Grade; 5] = [Const, Mover, Atomic, Cmpd, Error];

    /// The paper's number, 0 to 4.
    pub fn number(self) -> u8 {
        self as u8
    }

    /// The grade of a number, if there is one.
    pub fn of_number(number: u8) -> Option<Grade> {
        Grade::ALL.get(usize::from(number)).copied()
    }

    /// Composition, `self ; next`. The paper's table of 25 says: the larger of both, but two atomic steps in a row are no
    /// longer one.
    pub fn then(self, next: Grade) -> Grade {
        match (self, next) {
            (Atomic, Atomic) => Cmpd,
            _ => self.max(next),
        }
    }

    /// "The join of two is the larger."
    pub fn join(self, other: Grade) -> Grade {
        self.max(other)
    }

    /// Closure, "a repeated step".
    pub fn repeated(self) -> Grade {
        match self {
            Atomic => Cmpd,
            other => other,
        }
    }

    /// Assert: "0, 1, 2 stay; 3 and 4 become 4".
    pub fn asserted(self) -> Grade {
        match self {
            Cmpd | Error => Error,
            other => other,
        }
    }

    /// What taking a lock anew makes of the grade under it: "0 and 1 become 2, other grades stay".
    pub fn locked(self) -> Grade {
        self.max(Atomic)
    }
}

/// The lock names of a method that are held.
#[derive(Clone, Copy, Debug, PartialEq, Eq)]
pub struct Held([bool; 4]);

impl Held {
    pub const NONE: Held = Held([false; 4]);

    /// "Bit j of the entry's number says that name j is held."
    pub fn of_entry(entry: usize) -> Held {
        Held(std::array::from_fn(|name| (entry >> name) % 2 == 1))
    }

    /// The number of the entry that stands for this set.
    pub fn entry(self) -> usize {
        (0..4).filter(|&name| self.has(name)).map(|name| 1 << name).sum()
    }

    pub fn has(self, name: usize) -> bool {
        self.0[name]
    }

    pub fn with(mut self, name: usize) -> Held {
        self.0[name] = true;
        self
    }
}

#[cfg(test)]
mod tests {
    use super::*;

    #[test]
    fn composition_is_the_papers_table() {
        let table = [[0, 1, 2, 3, 4], [1, 1, 2, 3, 4], [2, 2, 3, 3, 4], [3, 3, 3, 3, 4], [4, 4, 4, 4, 4]];
        for first in Grade::ALL {
            for second in Grade::ALL {
                let cell = table[usize::from(first.number())][usize::from(second.number())];
                assert_eq!(first.then(second).number(), cell, "{first:?} ; {second:?}");
            }
        }
    }

    #[test]
    fn closure_assert_and_lock_are_the_papers() {
        assert_eq!(Grade::ALL.map(Grade::repeated), [Const, Mover, Cmpd, Cmpd, Error]);
        assert_eq!(Grade::ALL.map(Grade::asserted), [Const, Mover, Atomic, Error, Error]);
        assert_eq!(Grade::ALL.map(Grade::locked), [Atomic, Atomic, Atomic, Cmpd, Error]);
    }

    #[test]
    fn a_held_set_is_its_entry() {
        for entry in 0..16 {
            assert_eq!(Held::of_entry(entry).entry(), entry);
        }
        assert_eq!(Held::of_entry(1).with(2).entry(), 5);
        assert!(Held::of_entry(2).has(1) && !Held::of_entry(2).has(0));
    }
}
