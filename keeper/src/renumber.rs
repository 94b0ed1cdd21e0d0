//! Members renumbered: which number each member gets, and what that does to
//! whatever names members.

mod lent;

pub use lent::{renumbering, Renumbering};

use crate::record::{Call, Graph};
use crate::set_list::Item;
use crate::terms::{Bit, EventEdge, Refusal};
use std::collections::BTreeSet;

/// The number that each member gets. Each number below their count is one
/// member's.
#[derive(Clone, Debug, PartialEq, Eq)]
pub struct Numbering(Vec<u8>);

impl Numbering {
    /// The numbering that a list gives to so many members, byte m being the new
    /// number of m. Refused with 15 where the list is not as long, or some number
    /// below their count is not in it.
    pub fn of(members: usize, numbers: &[u8]) -> Result<Numbering, Refusal> {
        let is_given = |number: usize| numbers.iter().any(|&given| usize::from(given) == number);
        if numbers.len() != members || !(0..members).all(is_given) {
            return Err(Refusal::plain(15));
        }
        Ok(Numbering(numbers.to_vec()))
    }

    /// The list that gives this numbering.
    pub fn numbers(&self) -> &[u8] {
        &self.0
    }

    /// The numbering that undoes this one.
    pub fn undone(&self) -> Numbering {
        let had = |number: usize| self.0.iter().position(|&given| usize::from(given) == number);
        let numbers = (0..self.0.len()).filter_map(had).map(|member| member as u8);
        Numbering(numbers.collect())
    }

    /// The number that a member gets. A number that is no member's stays.
    pub fn member(&self, member: usize) -> usize {
        self.0.get(member).map_or(member, |&number| number.into())
    }

    /// The graph with every edge between the members' new numbers.
    pub fn graph(&self, graph: &Graph) -> Graph {
        let edges = graph.edges.iter();
        let edges = edges.map(|&(k, from, to)| (k, self.member(from), self.member(to)));
        let between = |event: EventEdge| EventEdge {
            from: self.member(event.from),
            to: self.member(event.to),
            ..event
        };
        Graph { edges: edges.collect(), event: graph.event.map(between) }
    }

    /// What a table says of the members, said of their new numbers.
    pub fn table(&self, table: &BTreeSet<Bit>) -> BTreeSet<Bit> {
        table.iter().map(|bit| bit.map(|member| self.member(member))).collect()
    }

    pub fn call(&self, call: &Call) -> Call {
        Call { from: self.member(call.from), to: self.member(call.to), ..*call }
    }

    pub fn item(&self, item: &Item) -> Item {
        let number = |number: u32| self.member(number as usize) as u32;
        Item { from: number(item.from), to: number(item.to), ..*item }
    }
}
