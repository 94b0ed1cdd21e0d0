//! One step of a justification: why an entry holds, or doesn't, at a place.
//!
//! A reason names the claims it rests on and nothing else. Followed down to
//! its leaves it decides the policy without any further look at the formulas'
//! meaning; edges are read off the graphs.

pub use super::claim::{Claim, Place, Reason};

use super::begin::{begins, revised, Begin};
use super::unseen::Beside;
use keeper::record::meaning::{Assigned, Meaning};
use keeper::record::{Graph, Record};
use keeper::terms::{Entry, Terms, Variables};

/// Finds reasons over one record. What it has found out about the meaning is
/// remembered as long as it lives.
pub struct Reasons<'a> {
    terms: &'a Terms,
    graphs: &'a [Graph],
    free: Vec<Variables>,
    meaning: Meaning<'a>,
    /// For each entry from where on it is judged.
    begins: Vec<Begin>,
    /// For each entry the last revision at which it, or something inside it, began.
    revised: Vec<Option<usize>>,
    /// Of a bank, the other's graphs.
    pub(super) beside: Option<Beside<'a>>,
}

impl<'a> Reasons<'a> {
    pub fn new(record: &'a Record) -> Reasons<'a> {
        let (terms, graphs, begins) = (record.terms(), record.graphs(), begins(record));
        let (free, revised) = (terms.free(), revised(record, &begins));
        Reasons { terms, graphs, free, meaning: record.meaning(), begins, revised, beside: None }
    }

    pub fn terms(&self) -> &'a Terms {
        self.terms
    }

    pub fn graphs(&self) -> &'a [Graph] {
        self.graphs
    }

    /// The last moment of the record.
    pub fn now(&self) -> usize {
        self.graphs.len() - 1
    }

    /// The free variables of an entry.
    pub fn free(&self, entry: usize) -> Variables {
        self.free[entry]
    }

    /// What is so at a place.
    pub fn claim(&mut self, place: Place) -> Claim {
        let Place { entry, moment, member, assigned } = place;
        Claim { place, holds: self.meaning.holds(entry, moment, member, assigned) }
    }

    /// Why a claim that is right is right.
    pub fn reason(&mut self, claim: Claim) -> Reason {
        let place = claim.place;
        match self.terms.entries[place.entry] {
            Entry::Top => Reason::Always,
            Entry::Var(x) => Reason::StandsFor(place.assigned.member(x)),
            Entry::Not(f) => Reason::Opposite(self.claim(place.entry(f))),
            Entry::Or(f, g) => {
                let (first, second) = (self.claim(place.entry(f)), self.claim(place.entry(g)));
                match (first.holds, second.holds) {
                    (true, _) => Reason::Side(first),
                    (_, true) => Reason::Side(second),
                    _ => Reason::Neither(first, second),
                }
            }
            Entry::Out(_, f) | Entry::In(_, f) => self.near(place, f),
            Entry::Many(_, f, count) => self.many(place, f, count),
            Entry::Prev(_) | Entry::Since(_, _) if self.is_stored(place) => Reason::Stored,
            Entry::Prev(_) if place.moment <= self.first(place) => Reason::NoMomentBefore,
            Entry::Since(_, _) if place.moment < self.first(place) => Reason::NoMomentBefore,
            Entry::Prev(f) => Reason::Before(self.claim(place.entry(f).moment(place.moment - 1))),
            Entry::Since(f, g) => self.since(place, f, g),
            Entry::Bind(..) | Entry::At(..) => {
                Reason::Follow(self.claim(self.followed(place).unwrap_or(place)))
            }
            Entry::Reach(x, f, g) => self.reach(place, x, f, g),
        }
    }

    /// Where `bind` or `at` leads.
    pub fn followed(&self, place: Place) -> Option<Place> {
        match self.terms.entries[place.entry] {
            Entry::Bind(x, f) => {
                let assigned = place.assigned.with(x, place.member);
                Some(Place { entry: f, assigned, ..place })
            }
            Entry::At(x, f) => Some(place.entry(f).member(place.assigned.member(x))),
            _ => None,
        }
    }

    fn near(&mut self, place: Place, f: usize) -> Reason {
        let mut failing = Vec::new();
        for other in neighbours(self.terms, self.graphs, place) {
            let claim = self.claim(place.entry(f).member(other));
            if claim.holds {
                return Reason::Neighbour(claim);
            }
            failing.push(claim);
        }
        Reason::NoNeighbour(failing)
    }

    /// The first neighbours that are enough; else all, with why each fits or not.
    fn many(&mut self, place: Place, f: usize, count: usize) -> Reason {
        let near = neighbours(self.terms, self.graphs, place);
        let claims: Vec<Claim> =
            near.into_iter().map(|other| self.claim(place.entry(f).member(other))).collect();
        let enough: Vec<Claim> =
            claims.iter().copied().filter(|claim| claim.holds).take(count).collect();
        match enough.len() == count {
            true => Reason::Enough(enough),
            false => Reason::TooFew(claims),
        }
    }

    /// The first member that is reached and fits; else for each why not.
    fn reach(&mut self, place: Place, x: usize, f: usize, g: usize) -> Reason {
        let mut failing = Vec::new();
        for other in 0..self.terms.members {
            let assigned = Assigned::default().with(x, other);
            let step = self.claim(Place { entry: f, assigned, ..place });
            if !step.holds {
                failing.push(step);
                continue;
            }
            let there = self.claim(place.entry(g).member(other));
            if there.holds {
                return Reason::Reached { step, there };
            }
            failing.push(there);
        }
        Reason::NobodyReached(failing)
    }

    /// From where on an entry is judged.
    pub fn begin(&self, entry: usize) -> Begin {
        self.begins[entry]
    }

    /// The first moment that counts for the entry of a place.
    fn first(&self, place: Place) -> usize {
        self.begins[place.entry].moment()
    }

    /// The last revision at which an entry, or something inside it, began.
    pub fn revised_inside(&self, entry: usize) -> Option<usize> {
        self.revised[entry]
    }

    /// Whether what a past-time entry says at a place is a stored file's.
    pub fn is_stored(&self, place: Place) -> bool {
        self.begins[place.entry] == Begin::Stored && place.moment == 0
    }

    /// The last moment of the second operand decides, and after it the first
    /// failure of the first.
    fn since(&mut self, place: Place, f: usize, g: usize) -> Reason {
        let mut failing = Vec::new();
        let began = (self.first(place)..=place.moment).rev().find_map(|moment| {
            let there = place.moment(moment);
            let claim = self.claim(if self.is_stored(there) { there } else { there.entry(g) });
            if claim.holds {
                return Some(claim);
            }
            failing.push(claim);
            None
        });
        failing.reverse();
        let Some(began) = began else { return Reason::Never(failing) };
        let mut after = Vec::new();
        for moment in began.place.moment + 1..=place.moment {
            let claim = self.claim(place.entry(f).moment(moment));
            if !claim.holds {
                return Reason::Broken { began, broke: claim, after: failing };
            }
            after.push(claim);
        }
        Reason::Began { began, after }
    }
}

/// The members that an `out`, `in` or `many` entry leads to from its place.
pub fn neighbours(terms: &Terms, graphs: &[Graph], place: Place) -> Vec<usize> {
    let (label, out) = match terms.entries[place.entry] {
        Entry::Out(label, _) | Entry::Many(label, _, _) => (label, true),
        Entry::In(label, _) => (label, false),
        _ => return Vec::new(),
    };
    let leads = |&other: &usize| {
        let (from, to) = if out { (place.member, other) } else { (other, place.member) };
        has_edge(terms, &graphs[place.moment], label, from, to)
    };
    (0..terms.members).filter(leads).collect()
}

/// Whether a graph has an edge under a label.
pub fn has_edge(terms: &Terms, graph: &Graph, label: usize, from: usize, to: usize) -> bool {
    if label < terms.relations {
        return graph.edges.contains(&(label, from, to));
    }
    graph.event.is_some_and(|event| event.is(terms, label, from, to))
}
