//! The steps of a reason: why an entry has the grade that it has.

/// One step of a reason: a node, and the rule by which the reason goes on from there or ends. In memory it is C's
/// `struct ikhzorvan_step`.
#[repr(C)]
#[derive(Clone, Copy, Debug, Default, PartialEq, Eq, Hash)]
pub struct Step {
    pub method: u8,
    /// Counted from 0 within the method.
    pub node: u16,
    /// The held set: bit j says that the method's lock name j is held.
    pub set: u8,
    /// Counted from 1; 0 only for a declared method asked for, which has no rounds.
    pub round: u16,
    /// The node's grade under the held set, from the tables before the round.
    pub grade: u8,
    /// One of [`rule`], with [`rule::TWO_ATOMIC`] added where two atomic parts make the grade.
    pub rule: u8,
}

/// The rules of a step. `CHILD` and `CALLEE` go on to the next step, the others end the reason.
pub mod rule {
    /// A plain value.
    pub const PLAIN: u8 = 0;
    /// Goes on to a child of the node.
    pub const CHILD: u8 = 1;
    /// Goes on to the root of an undeclared callee.
    pub const CALLEE: u8 = 2;
    /// The node's own access.
    pub const ACCESS: u8 = 3;
    /// A fork's own atomic.
    pub const FORK: u8 = 4;
    /// A lock taken, which turned const or mover into atomic.
    pub const LOCK: u8 = 5;
    /// An assert, which turned cmpd into error.
    pub const ASSERT: u8 = 6;
    /// A declared callee, or a declared method asked for.
    pub const DECLARED: u8 = 7;
    /// Added to another: the node is cmpd and no part of it is, and the rule tells of its last atomic part.
    pub const TWO_ATOMIC: u8 = 8;
}

/// The most steps that a reason has: in each of two grades at most one for each node of a method under each of its held sets.
pub const MOST_STEPS: usize = 2 * (16 * 1023 + 1);

/// How many bytes a page has.
pub const PAGE_LEN: usize = crate::RECORD_LEN + 2;

/// What explaining comes to, in bytes: the eleven of a [`crate::Record`], then a count of steps in two bytes, high byte first:
/// those written, or those needed where the list is too short.
pub type Page = [u8; PAGE_LEN];

#[cfg(test)]
mod tests {
    use super::*;
    use std::mem::{align_of, offset_of, size_of};

    #[test]
    fn a_step_is_laid_out_as_in_c() {
        let places = [
            offset_of!(Step, method),
            offset_of!(Step, node),
            offset_of!(Step, set),
            offset_of!(Step, round),
            offset_of!(Step, grade),
            offset_of!(Step, rule),
        ];
        assert_eq!((places, size_of::<Step>(), align_of::<Step>()), ([0, 2, 4, 6, 8, 9], 10, 2));
    }
}
