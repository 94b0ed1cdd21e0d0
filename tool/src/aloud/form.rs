//! Entries as the shapes that people write: `and`, once, never, always, every.
//!
//! A node is an entry or its negation. `not` entries are never met: they turn
//! the node round. So each shape is told from one entry and one sign.

mod apart;

use crate::names::Names;
use keeper::terms::{Entry, Terms, Variables};

/// An entry that is no `not`, or its negation.
#[derive(Clone, Copy, Debug, PartialEq, Eq)]
pub struct Node {
    pub entry: usize,
    pub holds: bool,
}

impl Node {
    pub fn negated(self) -> Node {
        Node { holds: !self.holds, ..self }
    }
}

/// How many neighbours are spoken of.
#[derive(Clone, Copy, Debug, PartialEq, Eq, Hash, PartialOrd, Ord)]
pub enum Quantity {
    Some,
    No,
    Every,
}

/// What a node says of a member.
#[derive(Clone, Debug, PartialEq, Eq)]
pub enum Form {
    Constant(bool),
    Is {
        variable: usize,
        holds: bool,
    },
    All(Vec<Node>),
    Any(Vec<Node>),
    Edge {
        quantity: Quantity,
        label: usize,
        out: bool,
        there: Node,
    },
    Before {
        holds: bool,
        then: Node,
    },
    Once {
        holds: bool,
        then: Node,
    },
    Throughout(Node),
    Since {
        holds: bool,
        start: Node,
        hold: Node,
    },
    Bind {
        variable: usize,
        here: Node,
    },
    At {
        variable: usize,
        there: Node,
    },
    Reach {
        quantity: Quantity,
        variable: usize,
        step: Node,
        there: Node,
    },
    /// At least so many ends of edges, or fewer.
    Count {
        least: usize,
        holds: bool,
        label: usize,
        there: Node,
    },
}

/// The forms of all entries of some terms.
pub struct Forms<'a> {
    pub terms: &'a Terms,
    pub free: Vec<Variables>,
    /// Whether the entry, and whether its negation, says what is not.
    negative: Vec<[bool; 2]>,
    /// The entries that are said apart.
    apart: Vec<bool>,
}

impl<'a> Forms<'a> {
    pub fn new(terms: &'a Terms, names: &Names) -> Forms<'a> {
        let count = terms.entries.len();
        let (negative, apart) = (Vec::new(), vec![false; count]);
        let mut forms = Forms { terms, free: terms.free(), negative, apart };
        for entry in 0..count {
            let signs = [false, true].map(|holds| forms.says_what_is_not(entry, holds));
            forms.negative.push(signs);
        }
        forms.set_apart(names);
        forms
    }

    /// The node of an entry. A definition stays what it is, also where it begins
    /// with `not`.
    pub fn node(&self, entry: usize, holds: bool) -> Node {
        let mut node = Node { entry, holds };
        while let (Entry::Not(f), false) = (self.terms.entries[node.entry], self.apart[node.entry])
        {
            node = Node { entry: f, holds: !node.holds };
        }
        node
    }

    /// Whether a node is said apart, under a number.
    pub fn is_apart(&self, node: Node) -> bool {
        self.apart[node.entry]
    }

    /// What a node says.
    pub fn form(&self, node: Node) -> Form {
        let holds = node.holds;
        match self.terms.entries[node.entry] {
            Entry::Top => Form::Constant(holds),
            Entry::Var(variable) => Form::Is { variable, holds },
            Entry::Not(f) => self.form(self.node(f, !holds)),
            Entry::Or(f, g) => {
                let mut parts = Vec::new();
                self.gather(self.node(f, holds), holds, &mut parts);
                self.gather(self.node(g, holds), holds, &mut parts);
                if holds {
                    Form::Any(parts)
                } else {
                    Form::All(parts)
                }
            }
            Entry::Out(label, f) => self.edge(label, true, f, holds),
            Entry::In(label, f) => self.edge(label, false, f, holds),
            Entry::Prev(f) => Form::Before { holds, then: self.node(f, true) },
            Entry::Since(f, g) => self.since(self.node(f, true), self.node(g, true), holds),
            Entry::Bind(variable, f) => Form::Bind { variable, here: self.node(f, holds) },
            Entry::At(variable, f) => Form::At { variable, there: self.node(f, holds) },
            Entry::Many(label, f, least) => {
                Form::Count { least, holds, label, there: self.node(f, true) }
            }
            Entry::Reach(variable, f, g) => {
                let (quantity, there) = self.quantified(g, holds);
                Form::Reach { quantity, variable, step: self.node(f, true), there }
            }
        }
    }

    /// The parts of a run of `or` entries under one sign.
    fn gather(&self, node: Node, holds: bool, parts: &mut Vec<Node>) {
        match self.terms.entries[node.entry] {
            Entry::Or(f, g) if node.holds == holds && !self.is_apart(node) => {
                self.gather(self.node(f, holds), holds, parts);
                self.gather(self.node(g, holds), holds, parts);
            }
            _ => parts.push(node),
        }
    }

    fn edge(&self, label: usize, out: bool, f: usize, holds: bool) -> Form {
        let (quantity, there) = self.quantified(f, holds);
        Form::Edge { quantity, label, out, there }
    }

    /// Of how many something is said, and what.
    fn quantified(&self, f: usize, holds: bool) -> (Quantity, Node) {
        let there = self.node(f, true);
        match holds {
            true => (Quantity::Some, there),
            false if self.is_negative(there) => (Quantity::Every, there.negated()),
            false => (Quantity::No, there),
        }
    }

    fn since(&self, hold: Node, start: Node, holds: bool) -> Form {
        if self.form_is_true(hold) {
            match holds {
                false if self.is_negative(start) => Form::Throughout(start.negated()),
                _ => Form::Once { holds, then: start },
            }
        } else {
            Form::Since { holds, start, hold }
        }
    }

    fn form_is_true(&self, node: Node) -> bool {
        node.holds && self.terms.entries[node.entry] == Entry::Top
    }

    fn is_negative(&self, node: Node) -> bool {
        self.negative[node.entry][usize::from(node.holds)]
    }

    /// Works out `negative` from that of the lower entries.
    fn says_what_is_not(&self, entry: usize, holds: bool) -> bool {
        let part = |f: usize, holds: bool| self.negative[f][usize::from(holds)];
        match self.terms.entries[entry] {
            Entry::Not(f) => part(f, !holds),
            Entry::Or(f, g) => part(f, holds) && part(g, holds),
            Entry::Bind(_, f) | Entry::At(_, f) => part(f, holds),
            _ => !holds,
        }
    }
}
