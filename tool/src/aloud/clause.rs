//! What a policy says, with everybody it speaks of named.
//!
//! No variable and no `at` or `bind` is left: a clause says of whom each part
//! holds. Moments stay unnamed: a part is said of the moment of the part around
//! it, the outermost of the present one.

use super::form::Quantity;

/// Somebody a clause speaks of.
#[derive(Clone, Copy, Debug, PartialEq, Eq, Hash, PartialOrd, Ord)]
pub enum Who {
    /// The initiator.
    You,
    Target,
    /// The member of whom a numbered clause is said.
    Here,
    /// A variable of a numbered clause.
    Given(usize),
    /// Somebody at the far end of an edge; no two edges share a number.
    Guest(usize),
    /// A member of whom a stored file speaks.
    Member(usize),
}

/// A clause.
#[derive(Clone, Debug, PartialEq, Eq, Hash, PartialOrd, Ord)]
pub enum Clause {
    Constant(bool),
    Same {
        who: Who,
        other: Who,
        holds: bool,
    },
    Edge {
        label: usize,
        from: Who,
        to: Who,
        holds: bool,
    },
    Linked(Link),
    Reached(Reached),
    Counted(Counted),
    All(Vec<Clause>),
    Any(Vec<Clause>),
    /// There is a moment before, and at it.
    Before {
        holds: bool,
        then: Box<Clause>,
    },
    /// At some moment up to this one, or at none.
    Once {
        holds: bool,
        then: Box<Clause>,
    },
    /// At every moment up to this one.
    Throughout(Box<Clause>),
    /// At some moment `start`, and at every later one up to this `hold`.
    Since {
        holds: bool,
        start: Box<Clause>,
        hold: Box<Clause>,
    },
    /// What is said apart of an entry, of somebody, for given variables.
    Apart {
        entry: usize,
        of: Who,
        given: Vec<(usize, Who)>,
        holds: bool,
    },
}

/// Some, no or every guest that an edge links with a member, such that.
#[derive(Clone, Debug, PartialEq, Eq, Hash, PartialOrd, Ord)]
pub struct Link {
    pub quantity: Quantity,
    pub label: usize,
    pub near: Who,
    /// The edge leaves the near member.
    pub out: bool,
    pub guest: usize,
    pub that: Box<Clause>,
}

/// Some, no or every guest to whom a step leads, such that.
#[derive(Clone, Debug, PartialEq, Eq, Hash, PartialOrd, Ord)]
pub struct Reached {
    pub quantity: Quantity,
    pub guest: usize,
    pub step: Box<Clause>,
    pub that: Box<Clause>,
}

/// At least so many different guests to whom an edge leads from a member, such
/// that; or fewer.
#[derive(Clone, Debug, PartialEq, Eq, Hash, PartialOrd, Ord)]
pub struct Counted {
    pub least: usize,
    pub holds: bool,
    pub label: usize,
    pub near: Who,
    pub guest: usize,
    pub that: Box<Clause>,
}

impl Link {
    /// Whether anybody will do.
    pub fn is_bare(&self) -> bool {
        *self.that == Clause::Constant(true) && self.quantity != Quantity::Every
    }
}
