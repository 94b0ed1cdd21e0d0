//! Terms as plain values.

pub mod bit;
mod edit;
pub mod event;
pub mod file;
pub mod formula;
pub mod memory;
pub mod normal;
pub mod read;
pub mod write;

use std::collections::BTreeSet;

pub use bit::Bit;
pub use event::EventEdge;
pub use file::{File, Past, Tables};
pub use normal::normal;
pub use read::{read, read_old};
pub use write::{store, write};

pub const MOST_MEMBERS: usize = 64;
pub const MOST_RELATIONS: usize = 16;
pub const MOST_EVENTS: usize = 16;
pub const MOST_ENTRIES: usize = 256;
pub const MOST_PAST: usize = 32;
pub const MOST_EFFECTS: usize = 4;
pub const VARIABLES: usize = 16;
/// With more members a past-time entry has at most one free variable.
pub const MOST_PAIRED: usize = 16;
/// The most members that a `many` may ask for.
pub const MOST_COUNTED: usize = 64;

/// An edge under a relation: relation, from, to.
pub type Edge = (usize, usize, usize);

/// A set of variables: bit x stands for variable x.
pub type Variables = u16;

/// How many free variables a past-time entry may have, with so many members.
pub fn most_free(members: usize) -> u32 {
    if members > MOST_PAIRED {
        1
    } else {
        2
    }
}

/// The variables of a set, rising.
pub fn variables(set: Variables) -> impl Iterator<Item = usize> {
    (0..VARIABLES).filter(move |x| set >> x & 1 == 1)
}

/// What is returned when nothing is decided. The line is 0 where no text is read.
#[derive(Clone, Copy, Debug, PartialEq, Eq)]
pub struct Refusal {
    pub number: u16,
    pub line: usize,
}

impl Refusal {
    /// A refusal that names no line.
    pub fn plain(number: u16) -> Refusal {
        Refusal { number, line: 0 }
    }
}

/// One entry of the formula list.
#[derive(Clone, Copy, Debug, PartialEq, Eq)]
pub enum Entry {
    Top,
    Var(usize),
    Not(usize),
    Or(usize, usize),
    Out(usize, usize),
    In(usize, usize),
    Prev(usize),
    Since(usize, usize),
    Bind(usize, usize),
    At(usize, usize),
    Reach(usize, usize, usize),
    /// Label, entry, and how many at least.
    Many(usize, usize, usize),
}

/// What a field of an F line stands for.
#[derive(Clone, Copy, Debug, PartialEq, Eq)]
pub enum Field {
    Unused,
    Variable,
    BoundVariable,
    Label,
    Entry,
    Count,
}

/// An operator: its word and what its fields stand for.
#[derive(Clone, Copy, Debug)]
pub struct Operator {
    pub word: &'static str,
    pub fields: [Field; 3],
}

impl Operator {
    /// Whether its F lines carry a third field.
    pub fn is_long(&self) -> bool {
        self.fields[2] != Field::Unused
    }
}

const fn operator(word: &'static str, first: Field, second: Field, third: Field) -> Operator {
    Operator { word, fields: [first, second, third] }
}

/// The operators by number.
pub const OPERATORS: [Operator; 12] = [
    operator("top", Field::Unused, Field::Unused, Field::Unused),
    operator("var", Field::Variable, Field::Unused, Field::Unused),
    operator("not", Field::Entry, Field::Unused, Field::Unused),
    operator("or", Field::Entry, Field::Entry, Field::Unused),
    operator("out", Field::Label, Field::Entry, Field::Unused),
    operator("in", Field::Label, Field::Entry, Field::Unused),
    operator("prev", Field::Entry, Field::Unused, Field::Unused),
    operator("since", Field::Entry, Field::Entry, Field::Unused),
    operator("bind", Field::BoundVariable, Field::Entry, Field::Unused),
    operator("at", Field::Variable, Field::Entry, Field::Unused),
    operator("reach", Field::Variable, Field::Entry, Field::Entry),
    operator("many", Field::Label, Field::Entry, Field::Count),
];

impl Entry {
    /// The entry's operator number and its three fields.
    pub fn parts(self) -> (usize, [usize; 3]) {
        match self {
            Entry::Top => (0, [0, 0, 0]),
            Entry::Var(x) => (1, [x, 0, 0]),
            Entry::Not(f) => (2, [f, 0, 0]),
            Entry::Or(f, g) => (3, [f, g, 0]),
            Entry::Out(l, f) => (4, [l, f, 0]),
            Entry::In(l, f) => (5, [l, f, 0]),
            Entry::Prev(f) => (6, [f, 0, 0]),
            Entry::Since(f, g) => (7, [f, g, 0]),
            Entry::Bind(x, f) => (8, [x, f, 0]),
            Entry::At(x, f) => (9, [x, f, 0]),
            Entry::Reach(x, f, g) => (10, [x, f, g]),
            Entry::Many(l, f, k) => (11, [l, f, k]),
        }
    }

    /// The entry of an operator number and three fields; unused fields are dropped.
    pub fn of_parts(operator: usize, [a, b, c]: [usize; 3]) -> Option<Entry> {
        Some(match operator {
            0 => Entry::Top,
            1 => Entry::Var(a),
            2 => Entry::Not(a),
            3 => Entry::Or(a, b),
            4 => Entry::Out(a, b),
            5 => Entry::In(a, b),
            6 => Entry::Prev(a),
            7 => Entry::Since(a, b),
            8 => Entry::Bind(a, b),
            9 => Entry::At(a, b),
            10 => Entry::Reach(a, b, c),
            11 => Entry::Many(a, b, c),
            _ => return None,
        })
    }

    /// Whether the entry looks into the past and so has a table.
    pub fn is_past(self) -> bool {
        matches!(self, Entry::Prev(_) | Entry::Since(_, _))
    }

    /// The entries this one is built from.
    pub fn operands(self) -> Vec<usize> {
        let (operator, values) = self.parts();
        let fields = OPERATORS[operator].fields.into_iter().zip(values);
        fields.filter(|(field, _)| *field == Field::Entry).map(|(_, value)| value).collect()
    }

    /// The same entry with its operands renamed.
    pub fn with_operands(self, rename: impl Fn(usize) -> usize) -> Entry {
        match self {
            Entry::Top | Entry::Var(_) => self,
            Entry::Not(f) => Entry::Not(rename(f)),
            Entry::Or(f, g) => Entry::Or(rename(f), rename(g)),
            Entry::Out(l, f) => Entry::Out(l, rename(f)),
            Entry::In(l, f) => Entry::In(l, rename(f)),
            Entry::Prev(f) => Entry::Prev(rename(f)),
            Entry::Since(f, g) => Entry::Since(rename(f), rename(g)),
            Entry::Bind(x, f) => Entry::Bind(x, rename(f)),
            Entry::At(x, f) => Entry::At(x, rename(f)),
            Entry::Reach(x, f, g) => Entry::Reach(x, rename(f), rename(g)),
            Entry::Many(l, f, k) => Entry::Many(l, rename(f), k),
        }
    }

    /// The free variables, given those of all lower entries.
    pub fn free(self, lower: &[Variables]) -> Variables {
        match self {
            Entry::Top => 0,
            Entry::Var(x) => 1 << x,
            Entry::Not(f) | Entry::Prev(f) => lower[f],
            Entry::Out(_, f) | Entry::In(_, f) | Entry::Many(_, f, _) => lower[f],
            Entry::Or(f, g) | Entry::Since(f, g) => lower[f] | lower[g],
            Entry::Bind(x, f) => lower[f] & !(1 << x),
            Entry::At(x, f) => lower[f] | (1 << x),
            Entry::Reach(_, _, g) => lower[g],
        }
    }
}

/// One change an event makes to the relations.
#[derive(Clone, Copy, Debug, PartialEq, Eq)]
pub struct Effect {
    pub add: bool,
    pub relation: usize,
    /// Target to initiator instead of initiator to target.
    pub back: bool,
}

/// The whole terms, with the first edges.
#[derive(Clone, Debug, Default, PartialEq, Eq)]
pub struct Terms {
    pub members: usize,
    pub relations: usize,
    pub events: usize,
    pub entries: Vec<Entry>,
    pub policies: Vec<usize>,
    /// The events whose denied requests make a moment.
    pub kept: BTreeSet<usize>,
    /// One list for each event.
    pub effects: Vec<Vec<Effect>>,
    pub edges: BTreeSet<Edge>,
}

impl Terms {
    /// Whether there are such an event and two such members.
    pub fn has(&self, event: usize, from: usize, to: usize) -> bool {
        event < self.events && from.max(to) < self.members
    }

    /// Whether a file of these terms is accepted.
    pub fn is_sound(&self) -> bool {
        read(&write(self, &self.edges)).is_ok()
    }

    /// Whether other terms have as many members, relations and events.
    pub fn is_same_size(&self, other: &Terms) -> bool {
        let size = |terms: &Terms| [terms.members, terms.relations, terms.events];
        size(self) == size(other)
    }

    /// How many labels there are: the relations, the events, and the events
    /// once more for their denied requests.
    pub fn labels(&self) -> usize {
        self.relations + 2 * self.events
    }

    /// The past-time entries in entry order: table t belongs to the t-th.
    pub fn past(&self) -> Vec<usize> {
        (0..self.entries.len()).filter(|&entry| self.entries[entry].is_past()).collect()
    }

    /// The tables of entries with two free variables, of sound terms.
    pub fn paired(&self) -> Vec<usize> {
        let (free, past) = (self.free(), self.past());
        (0..past.len()).filter(|&t| Bit::is_triple(free[past[t]])).collect()
    }

    /// The free variables of every entry.
    pub fn free(&self) -> Vec<Variables> {
        let mut free = Vec::new();
        for entry in &self.entries {
            free.push(entry.free(&free));
        }
        free
    }
}
