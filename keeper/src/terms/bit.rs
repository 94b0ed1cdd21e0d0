//! The bits of a past-time entry's table.

use super::{variables, Variables};

/// A place of a table: the entry holds at the first member, with its free
/// variables, the lower-numbered first, standing for the others.
#[derive(Clone, Copy, Debug, PartialEq, Eq, PartialOrd, Ord)]
pub enum Bit {
    /// Of an entry with one free variable, or with none: then all the bits at a
    /// member are equal.
    Pair(usize, usize),
    /// Of an entry with two.
    Triple(usize, usize, usize),
}

impl Bit {
    /// Whether the bits of an entry with these free variables have a third member.
    pub fn is_triple(free: Variables) -> bool {
        free.count_ones() == 2
    }

    /// All bits of an entry with these free variables, rising.
    pub fn all(members: usize, free: Variables) -> Vec<Bit> {
        let each = || 0..members;
        let pairs = each().flat_map(|a| each().map(move |b| (a, b)));
        if Bit::is_triple(free) {
            pairs.flat_map(|(a, b)| each().map(move |c| Bit::Triple(a, b, c))).collect()
        } else {
            pairs.map(|(a, b)| Bit::Pair(a, b)).collect()
        }
    }

    /// The bit at a member that says how an entry with these free variables is
    /// when they stand for the members given.
    pub fn at(free: Variables, member: usize, stands_for: impl Fn(usize) -> usize) -> Bit {
        let mut others = variables(free).map(stands_for);
        match (others.next(), others.next()) {
            (Some(b), Some(c)) => Bit::Triple(member, b, c),
            (other, _) => Bit::Pair(member, other.unwrap_or(0)),
        }
    }

    /// The member at which the entry holds, and for whom its free variables stand,
    /// as far as it has any.
    pub fn parts(self) -> (usize, [usize; 2]) {
        match self {
            Bit::Pair(a, b) => (a, [b, 0]),
            Bit::Triple(a, b, c) => (a, [b, c]),
        }
    }

    /// All its members, as a T line has them.
    pub fn members(self) -> Vec<usize> {
        match self {
            Bit::Pair(a, b) => vec![a, b],
            Bit::Triple(a, b, c) => vec![a, b, c],
        }
    }

    /// The same with its members renamed.
    pub fn map(self, rename: impl Fn(usize) -> usize) -> Bit {
        match self {
            Bit::Pair(a, b) => Bit::Pair(rename(a), rename(b)),
            Bit::Triple(a, b, c) => Bit::Triple(rename(a), rename(b), rename(c)),
        }
    }

    /// Its word among the 64 of the table, and its place in that word.
    pub fn place(self) -> (usize, usize) {
        match self {
            Bit::Pair(a, b) => (a, b),
            Bit::Triple(a, b, c) => (4 * a + b / 4, 16 * (b % 4) + c),
        }
    }
}
