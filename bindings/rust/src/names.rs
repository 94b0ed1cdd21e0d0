//! What a terms file names by a number. Each kind of number is a type of its
//! own, so that no event stands for a member and no initiator for a target.

use crate::{Answer, Refusal};
use core::fmt;

macro_rules! number {
    ($name:ident, $says:literal) => {
        #[doc = $says]
        #[derive(Clone, Copy, Debug, PartialEq, Eq, PartialOrd, Ord, Hash)]
        pub struct $name(
            /// The number.
            pub u8,
        );

        impl From<u8> for $name {
            fn from(number: u8) -> $name {
                $name(number)
            }
        }

        impl From<$name> for usize {
            fn from(name: $name) -> usize {
                name.0.into()
            }
        }

        impl TryFrom<usize> for $name {
            type Error = Refusal;

            /// No terms have a number that a byte doesn't hold.
            fn try_from(number: usize) -> Result<$name, Refusal> {
                u8::try_from(number).map($name).map_err(|_| Refusal::NoSuchName)
            }
        }

        impl fmt::Display for $name {
            fn fmt(&self, out: &mut fmt::Formatter<'_>) -> fmt::Result {
                self.0.fmt(out)
            }
        }
    };
}

number!(Member, "A member's number, from 0.");
number!(Relation, "A relation's number, from 0.");
number!(Event, "An event's number, from 0.");
number!(Variable, "A variable's number; 0 stands for the target.");

/// A request: an event, from its initiator to its target.
#[derive(Clone, Copy, Debug, PartialEq, Eq, Hash)]
pub struct Request {
    /// What is asked for.
    pub event: Event,
    /// Its initiator.
    pub from: Member,
    /// Its target.
    pub to: Member,
}

/// The event edge of a moment: the request that made it, and its answer. A
/// denied one is of an event whose denials are kept.
#[derive(Clone, Copy, Debug, PartialEq, Eq, Hash)]
pub struct EventEdge {
    /// What was asked for.
    pub request: Request,
    /// What it was answered.
    pub answer: Answer,
}

/// An edge of a relation. Edges are ordered as in a terms file.
#[derive(Clone, Copy, Debug, PartialEq, Eq, PartialOrd, Ord, Hash)]
pub struct Edge {
    /// The relation that it belongs to.
    pub relation: Relation,
    /// Where it begins.
    pub from: Member,
    /// Where it ends.
    pub to: Member,
}
