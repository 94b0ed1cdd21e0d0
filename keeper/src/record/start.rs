//! From where on each past-time entry is judged, and how new terms change it.

use super::Record;
use crate::terms::formula::first_same;
use crate::terms::{Bit, Refusal, Terms};
use std::collections::BTreeSet;

/// Where the record of a past-time entry begins.
#[derive(Clone, Debug, PartialEq, Eq)]
pub enum Start {
    /// At this moment; none before it counts.
    Moment(usize),
    /// Before the first graph, at moments that nobody knows. The bits are what
    /// the entry is said to be at the first graph.
    Unknown(BTreeSet<Bit>),
}

impl Record {
    /// Goes on with other terms; no moment is made. A past-time entry takes the
    /// start of the first old entry with the same formula, any other starts now.
    /// The first edges of the other terms count for nothing. Refused with 13,
    /// all as it was, where there are other numbers of members, relations or
    /// events.
    pub fn revise(&mut self, terms: &Terms) -> Result<(), Refusal> {
        if !self.terms.is_same_size(terms) {
            return Err(Refusal::plain(13));
        }
        let now = self.graphs.len() - 1;
        let same = first_same(&self.terms, terms);
        let old = self.terms.past();
        let start = |entry: usize| {
            let taken = old.iter().position(|&past| Some(past) == same[entry]);
            taken.map_or(Start::Moment(now), |t| self.starts[t].clone())
        };
        self.starts = terms.past().into_iter().map(start).collect();
        self.free = terms.free();
        self.terms = Terms { edges: self.terms.edges.clone(), ..terms.clone() };
        Ok(())
    }
}
