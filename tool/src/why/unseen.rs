//! Where a reason rests on that a bank sees no event of the other bank.

use super::reason::{Claim, Place, Reason, Reasons};
use crate::aloud::told::Telling;
use crate::bank::Bank;
use crate::words::Words;
use keeper::record::Graph;
use keeper::terms::{Entry, VARIABLES};
use std::array::from_fn;
use std::collections::{BTreeSet, HashSet, VecDeque};

/// So many claims are followed for one answer.
const MOST_CLAIMS: usize = 20_000;

/// The bank whose reasons are found, and the other bank's graphs.
#[derive(Clone, Copy)]
pub struct Beside<'a> {
    bank: Bank,
    others: &'a [Graph],
}

impl<'a> Reasons<'a> {
    /// Reasons of a bank over its own record, beside the graphs of the other's.
    pub fn beside(mut self, bank: Bank, others: &'a [Graph]) -> Reasons<'a> {
        self.beside = Some(Beside { bank, others });
        self
    }

    /// The moments made in the other bank that count for a claim: there its reason looks
    /// for an event, and the other's would do, or the moment is a certain one, such as
    /// the present for "has just shared".
    pub fn unseen(&mut self, claim: Claim) -> BTreeSet<usize> {
        let (mut moments, mut known) = (BTreeSet::new(), HashSet::new());
        let mut todo = VecDeque::from([(claim, true)]);
        while let Some((claim, certain)) = todo.pop_front() {
            if known.len() == MOST_CLAIMS {
                break;
            }
            if !known.insert((self.key(claim.place), certain)) {
                continue;
            }
            if let Some(there) = self.event_beside(claim.place) {
                let would_do = there.is_some_and(|there| there.holds);
                if certain || would_do {
                    moments.insert(claim.place.moment);
                }
                // It may be that this fails for want of another event.
                todo.extend(there.filter(|there| !there.holds).map(|there| (there, certain)));
            }
            let reason = self.reason(claim);
            let any =
                matches!(reason, Reason::Began { .. } | Reason::Broken { .. } | Reason::Never(_));
            todo.extend(reason.premises().into_iter().map(|claim| (claim, certain && !any)));
        }
        moments
    }

    /// Where an event is looked for at a moment that the other bank made: what would have
    /// to be so at the neighbour to which the other's event leads, if it leads to one.
    fn event_beside(&mut self, place: Place) -> Option<Option<Claim>> {
        let (terms, event) = (self.terms(), self.beside?.others[place.moment].event?);
        let (label, f, ends) = match terms.entries[place.entry] {
            Entry::Out(label, f) => (label, f, Some((event.from, event.to))),
            Entry::In(label, f) => (label, f, Some((event.to, event.from))),
            // One event leads to one member only.
            Entry::Many(label, f, least) => {
                (label, f, (least == 1).then_some((event.from, event.to)))
            }
            _ => return None,
        };
        if label < terms.relations {
            return None;
        }
        let ends = ends.filter(|(here, _)| *here == place.member && event.label(terms) == label);
        Some(ends.map(|(_, there)| self.claim(Place { entry: f, member: there, ..place })))
    }

    /// A place with the variables that count there.
    fn key(&self, place: Place) -> (usize, usize, usize, [u8; VARIABLES]) {
        let free = self.free(place.entry);
        let assigned = |x| if free >> x & 1 == 1 { place.assigned.member(x) as u8 } else { 0 };
        (place.entry, place.moment, place.member, from_fn(assigned))
    }

    /// That a moment was made in the other bank, and by which event.
    pub fn made_beside(&self, telling: &Telling, words: &Words, moment: usize) -> Option<String> {
        let Beside { bank, others } = self.beside?;
        let event = others[moment].event?;
        let (from, to) = (words.member(event.from), words.member(event.to));
        let event = telling.event(event.label(words.terms), &from, &to, true);
        let other = bank.other();
        Some(format!(
            "moment {moment} was made in the {other} bank, where {event}: the {bank} bank sees the moment, \
             not the event"
        ))
    }
}
