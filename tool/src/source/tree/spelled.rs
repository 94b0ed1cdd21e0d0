//! Formulas of the terms in which variables are people.

use crate::source::ast::Span;
use crate::source::said::Id;
use std::collections::HashSet;
use std::rc::Rc;

/// A formula of the terms, its variables still people.
#[derive(Debug)]
pub struct Spelled {
    pub node: Node,
    /// The people free in it, rising.
    pub free: Vec<Id>,
    /// Where it is written, if it is.
    pub span: Option<Span>,
    /// The place of the definition that it is, and the people it is said of; none
    /// for the member at which it stands.
    pub called: Option<(usize, Vec<Option<Id>>)>,
}

pub type Tree = Rc<Spelled>;

#[derive(Debug)]
pub enum Node {
    Top,
    Var(Id),
    Not(Tree),
    Or(Tree, Tree),
    Out(usize, Tree),
    In(usize, Tree),
    Prev(Tree),
    Since(Tree, Tree),
    Bind(Id, Tree),
    At(Id, Tree),
    Reach(Id, Tree, Tree),
    Many(usize, Tree, usize),
}

/// The people free in some formulas.
pub fn free(parts: &[Tree]) -> HashSet<Id> {
    parts.iter().flat_map(|part| part.free.iter().copied()).collect()
}

/// The formula with a name bound, if it speaks of it.
pub fn bound_if_free(name: Id, body: Tree) -> Tree {
    if body.free.contains(&name) {
        tree(Node::Bind(name, body))
    } else {
        body
    }
}

/// A formula with the people free in it.
pub fn tree(node: Node) -> Tree {
    let mut free = match &node {
        Node::Top => Vec::new(),
        Node::Var(id) => vec![*id],
        Node::Not(f) | Node::Prev(f) => f.free.clone(),
        Node::Out(_, f) | Node::In(_, f) | Node::Many(_, f, _) => f.free.clone(),
        Node::Or(f, g) | Node::Since(f, g) => [&f.free[..], &g.free[..]].concat(),
        Node::Bind(id, f) => f.free.iter().copied().filter(|other| other != id).collect(),
        Node::At(id, f) => [&f.free[..], &[*id]].concat(),
        Node::Reach(_, _, g) => g.free.clone(),
    };
    free.sort_unstable();
    free.dedup();
    Rc::new(Spelled { node, free, span: None, called: None })
}
