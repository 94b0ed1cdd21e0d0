//! The entries of terms, and the labels of the edges that they look along.

use crate::{Event, Relation, Variable};

/// An entry of the formula list, by its operator. A `usize` is the number of
/// a lower entry.
///
/// There may be further operators, so a match on one has an arm for them:
///
/// ```compile_fail,E0004
/// # use cuckooormolu::Entry;
/// fn is_past(entry: Entry) -> bool {
///     use Entry::*;
///     match entry {
///         Prev(..) | Since(..) => true,
///         Top | Var(..) | Not(..) | Or(..) | Out(..) | In(..) => false,
///         Bind(..) | At(..) | Reach(..) | Many(..) => false,
///     }
/// }
/// ```
#[non_exhaustive]
#[derive(Clone, Copy, Debug, PartialEq, Eq, Hash)]
pub enum Entry {
    /// Always.
    Top,
    /// Here is whom the variable stands for.
    Var(Variable),
    /// The entry does not hold.
    Not(usize),
    /// One of the entries holds.
    Or(usize, usize),
    /// An edge leads from here to where the entry holds.
    Out(Label, usize),
    /// An edge leads here from where the entry holds.
    In(Label, usize),
    /// The entry held a moment ago.
    Prev(usize),
    /// The second entry has held, and the first ever after.
    Since(usize, usize),
    /// The entry holds, the variable standing for whoever is here.
    Bind(Variable, usize),
    /// The entry holds where the variable's member is.
    At(Variable, usize),
    /// The first entry holds here with the variable alone standing for some
    /// member, at which the second holds.
    Reach(Variable, usize, usize),
    /// The label, the entry, and how many members it asks for at least.
    Many(Label, usize, u8),
}

/// The label of an edge that an entry looks along.
///
/// There may be further kinds, so a match on one has an arm for them:
///
/// ```compile_fail,E0004
/// # use cuckooormolu::Label;
/// fn is_relation(label: Label) -> bool {
///     match label {
///         Label::Relation(_) => true,
///         Label::Event(_) | Label::Denied(_) => false,
///     }
/// }
/// ```
#[non_exhaustive]
#[derive(Clone, Copy, Debug, PartialEq, Eq, Hash)]
pub enum Label {
    /// An edge of the relation.
    Relation(Relation),
    /// A granted request of the event.
    Event(Event),
    /// A denied request of the event, where its denials are kept.
    Denied(Event),
}

impl Entry {
    /// The operator's word in a terms file.
    pub fn word(self) -> &'static str {
        match self {
            Entry::Top => "top",
            Entry::Var(..) => "var",
            Entry::Not(..) => "not",
            Entry::Or(..) => "or",
            Entry::Out(..) => "out",
            Entry::In(..) => "in",
            Entry::Prev(..) => "prev",
            Entry::Since(..) => "since",
            Entry::Bind(..) => "bind",
            Entry::At(..) => "at",
            Entry::Reach(..) => "reach",
            Entry::Many(..) => "many",
        }
    }

    /// Whether the state keeps a table for the entry.
    pub fn is_past(self) -> bool {
        matches!(self, Entry::Prev(..) | Entry::Since(..))
    }
}
