//! What an explanation is told in: facts about the record. `sentence` has the words for them.

mod sentence;

pub use sentence::{Seen, NOBODY};

use super::reason::{Claim, Place};

/// Something that is so of the record.
#[derive(Clone, Debug, PartialEq, Eq)]
pub enum Fact {
    /// An edge under a label is there at a moment.
    Edge { label: usize, from: usize, to: usize, moment: usize },
    /// No edge under a label is there at a moment; `None` is anybody.
    NoEdge { label: usize, from: Option<usize>, to: Option<usize>, moment: usize },
    /// Edges under a label lead from a member, or to it, only to or from these others: a
    /// bit for each.
    Only { label: usize, member: usize, out: bool, others: u64, moment: usize },
    /// Of those that the place's `many` counts there are these: a bit for each. They are
    /// fewer than are asked for, or just so many.
    Count { place: Place, others: u64, least: usize },
    /// The variable stands for the member.
    Same { member: usize, variable: usize },
    /// The two are different members.
    Differ { member: usize, other: usize },
    /// Moment 0 is the first.
    NoMomentBefore,
    /// The terms were revised at this moment, and none before it counts for what is
    /// asked.
    NotBefore(usize),
    /// So a stored file says of moment 0.
    Stored(Claim),
    /// The place's entry held there at no moment up to the place's, from moment 0 on
    /// or after it.
    Never { place: Place, after: bool },
    /// The place's entry held there at no moment from the first on, at which the terms
    /// were revised, up to the place's.
    NeverSince { place: Place, first: usize },
    /// What was told last counts from this moment on, at which the terms were revised.
    Counting(usize),
    /// The place's entry held there from a moment on, up to the place's.
    Since { place: Place, first: usize },
    /// What was told of the claim's moment, that it was so, was so at these moments too, the
    /// last first. `nor` is whether what was told was not so.
    Also { claim: Claim, moments: Vec<usize>, nor: bool },
    /// Two events are due at one moment.
    OneEvent,
    /// The step of the place's reach leads to nobody.
    NoStep(Place),
    /// A definition, or its negation; why stands under it.
    Defined(Claim),
    /// `top`, everywhere.
    Always,
    /// Told without going on.
    Claim(Claim),
}

impl Fact {
    /// The moment that it is about.
    pub fn moment(&self) -> Option<usize> {
        match self {
            Fact::Edge { moment, .. } | Fact::NoEdge { moment, .. } => Some(*moment),
            Fact::Only { moment, .. } => Some(*moment),
            Fact::Count { place, .. } => Some(place.moment),
            Fact::NoStep(place) | Fact::Defined(Claim { place, .. }) => Some(place.moment),
            _ => None,
        }
    }

    /// Whether it says only who is whom, or nothing.
    pub fn is_plain(&self) -> bool {
        matches!(self, Fact::Always | Fact::Same { .. } | Fact::Differ { .. })
    }

    /// Whether it says what is not so.
    pub fn is_negative(&self) -> bool {
        matches!(self, Fact::NoEdge { .. } | Fact::Defined(Claim { holds: false, .. }))
    }

    /// How much of a possibility it shows to be there: the more, the nearer
    /// the possibility came.
    pub fn weight(&self) -> usize {
        match self {
            Fact::Edge { .. } => 1,
            Fact::Count { others, .. } => usize::from(*others != 0),
            _ => 0,
        }
    }
}
