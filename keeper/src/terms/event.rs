//! The event edge of a moment.

use super::{Terms, MOST_EVENTS};

/// A request from its initiator to its target: a granted one, or a denied one
/// of a kept event.
#[derive(Clone, Copy, Debug, PartialEq, Eq)]
pub struct EventEdge {
    pub event: usize,
    pub from: usize,
    pub to: usize,
    pub denied: bool,
}

impl EventEdge {
    pub fn granted(event: usize, from: usize, to: usize) -> EventEdge {
        EventEdge { event, from, to, denied: false }
    }

    pub fn denied(event: usize, from: usize, to: usize) -> EventEdge {
        EventEdge { denied: true, ..EventEdge::granted(event, from, to) }
    }

    /// Its label: r + event where it was granted, r + e + event where denied.
    pub fn label(&self, terms: &Terms) -> usize {
        let first = if self.denied { terms.events } else { 0 };
        terms.relations + first + self.event
    }

    /// Whether it leads between these members under this label.
    pub fn is(&self, terms: &Terms, label: usize, from: usize, to: usize) -> bool {
        self.label(terms) == label && (self.from, self.to) == (from, to)
    }

    /// The number that stands for its event in the event word and the V line:
    /// the event's own where it was granted, 16 more where denied.
    pub fn number(&self) -> usize {
        self.event + if self.denied { MOST_EVENTS } else { 0 }
    }

    /// The edge of such a number; none if it names no event or no member.
    pub fn of_number(terms: &Terms, number: usize, from: usize, to: usize) -> Option<EventEdge> {
        let edge = match number.checked_sub(MOST_EVENTS) {
            None => EventEdge::granted(number, from, to),
            Some(event) => EventEdge::denied(event, from, to),
        };
        terms.has(edge.event, from, to).then_some(edge)
    }
}
