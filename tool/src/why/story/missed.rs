//! How a condition was missed: what of it held at a moment, and what was lacking.

use super::Teller;
use crate::why::reason::{neighbours, Claim, Place, Reason};
use keeper::terms::{Entry, Terms};

/// A part of a condition: an entry at a place, and the value that is due there.
#[derive(Clone, Copy, Debug, PartialEq, Eq)]
pub struct Part {
    pub place: Place,
    pub due: bool,
}

/// What held of a condition, and what was lacking.
#[derive(Clone, Debug, Default, PartialEq, Eq)]
struct Miss {
    /// Label and ends of the edges that lead to where the parts are said.
    edges: Vec<[usize; 3]>,
    held: Vec<Part>,
    lacking: Vec<Part>,
    /// The neighbours at whom lacking parts were looked for.
    neighbours: Vec<usize>,
    /// How many parts held that are due.
    count: usize,
}

/// A way in which a condition was missed, and the moments, the last first.
#[derive(Clone, Debug)]
pub struct Missed {
    how: Miss,
    /// Whether an event of these moments is in it.
    pub has_event: bool,
    pub moments: Vec<usize>,
}

impl Missed {
    pub fn edges(&self) -> impl Iterator<Item = [usize; 3]> + '_ {
        self.how.edges.iter().copied()
    }

    /// Where something that is due held.
    fn due(&self) -> impl Iterator<Item = Place> + '_ {
        self.how.held.iter().filter(|part| part.due).map(|part| part.place)
    }

    /// How many parts held that are due.
    pub fn count(&self) -> usize {
        self.how.count
    }

    /// What is told of all that held: what is due, or else what must not be and was not.
    pub fn told(&self) -> Vec<Place> {
        match self.how.edges.is_empty() && self.count() == 0 {
            true => self.how.held.iter().map(|part| part.place).collect(),
            false => self.due().collect(),
        }
    }

    pub fn lacking(&self) -> Vec<Place> {
        self.how.lacking.iter().map(|part| part.place).collect()
    }
}

impl Teller<'_, '_> {
    /// How a condition was missed at the moments at which it failed.
    pub(super) fn missed(&mut self, failing: &[Claim]) -> Vec<Missed> {
        let mut missed: Vec<Missed> = Vec::new();
        for claim in failing.iter().rev() {
            let (mut found, mut seen) = (Vec::new(), Vec::new());
            let parts = self.parts(claim.place);
            self.look(parts, &Miss::default(), &mut seen, &mut found);
            for mut how in found {
                for part in how.held.iter_mut().chain(&mut how.lacking) {
                    part.place.moment = 0;
                }
                let moment = claim.place.moment;
                match missed.iter_mut().find(|missed| missed.how == how) {
                    Some(missed) if missed.moments.last() == Some(&moment) => {}
                    Some(missed) => missed.moments.push(moment),
                    None => {
                        let has_event = has_event(self.reasons.terms(), &how);
                        if has_event || !how.held.is_empty() {
                            missed.push(Missed { how, has_event, moments: vec![moment] });
                        }
                    }
                }
            }
        }
        missed
    }

    /// The parts of a conjunction, one if it is none. Definitions inside it are parts.
    pub(super) fn parts(&self, place: Place) -> Vec<Part> {
        let part = Part { place, due: true };
        match self.inside_part(part) {
            Some(inside) => {
                inside.into_iter().rev().flat_map(|part| self.named_parts(part)).collect()
            }
            None => vec![part],
        }
    }

    /// The same of a part, which may be a definition.
    fn named_parts(&self, part: Part) -> Vec<Part> {
        let (mut parts, mut seen, mut todo) = (Vec::new(), Vec::new(), vec![part]);
        while let Some(part) = todo.pop() {
            if seen.contains(&part) {
                continue;
            }
            seen.push(part);
            let inside = self.inside_part(part).filter(|_| !self.is_named(part.place));
            match inside {
                Some(inside) => todo.extend(inside),
                None => parts.push(part),
            }
        }
        parts
    }

    /// The parts one step inside, the last first; none where it is no conjunction.
    fn inside_part(&self, Part { place, due }: Part) -> Option<Vec<Part>> {
        match self.reasons.terms().entries[place.entry] {
            Entry::Not(f) => Some(vec![Part { place: place.entry(f), due: !due }]),
            Entry::Or(f, g) if !due => {
                Some([g, f].map(|side| Part { place: place.entry(side), due }).to_vec())
            }
            _ => self.reasons.followed(place).map(|place| vec![Part { place, due }]),
        }
    }

    /// The ways in which a conjunction of parts was missed, after what is known to have held.
    fn look(
        &mut self,
        parts: Vec<Part>,
        known: &Miss,
        seen: &mut Vec<Part>,
        found: &mut Vec<Miss>,
    ) {
        if let [Part { place, due: true }] = parts[..] {
            if seen.contains(&parts[0]) {
                return;
            }
            seen.push(parts[0]);
            let entry = self.reasons.terms().entries[place.entry];
            if let (Entry::Or(f, g), false) = (entry, self.is_named(place)) {
                for side in [f, g] {
                    let parts = self.named_parts(Part { place: place.entry(side), due: true });
                    self.look(parts, known, seen, found);
                }
                return;
            }
        }
        let (mut miss, mut lacking) = (known.clone(), Vec::new());
        for part in parts {
            match self.holds(part.place) == part.due {
                true => {
                    miss.count += usize::from(part.due);
                    self.hold(part, &mut miss);
                }
                false => lacking.push(part),
            }
        }
        // The edges of one part are followed: an event's, or those of the only part.
        let is_only = lacking.len() == 1 && miss.held.is_empty();
        let relations = self.reasons.terms().relations;
        let leads = |part: &Part| {
            let label = self.leads(*part).map(|(label, _)| label);
            label.is_some_and(|label| is_only || label >= relations)
        };
        let Some(index) = lacking.iter().position(leads) else {
            for part in lacking.iter().filter(|part| self.leads(**part).is_some()) {
                miss.neighbours.extend(self.neighbours(part.place));
            }
            miss.lacking.extend(lacking);
            return found.push(miss);
        };
        let Part { place, .. } = lacking.remove(index);
        let Some((_, f)) = self.leads(Part { place, due: true }) else { return };
        miss.lacking.extend(lacking);
        for other in self.neighbours(place) {
            let mut miss = miss.clone();
            miss.edges.push(self.edge_to(place, other));
            let there = Part { place: place.entry(f).member(other), due: true };
            self.look(self.named_parts(there), &miss, seen, found);
        }
    }

    /// The label of the edges along which a part looks for somebody, and what is due of
    /// them; none where there is no such edge.
    fn leads(&self, Part { place, due }: Part) -> Option<(usize, usize)> {
        let entries = &self.reasons.terms().entries;
        match entries[place.entry] {
            Entry::Out(label, f) | Entry::In(label, f)
                if due && !matches!(entries[f], Entry::Var(_)) && !self.is_named(place) =>
            {
                (!self.neighbours(place).is_empty()).then_some((label, f))
            }
            _ => None,
        }
    }

    /// Adds a part that held, by whom it did.
    fn hold(&mut self, part: Part, miss: &mut Miss) {
        let Part { place, due } = part;
        if matches!(self.reasons.terms().entries[place.entry], Entry::Top | Entry::Var(_)) {
            return;
        }
        if self.leads(part).is_some() {
            if let Reason::Neighbour(inner) = self.reasons.reason(Claim { place, holds: due }) {
                miss.edges.push(self.edge_to(place, inner.place.member));
                for part in self.named_parts(Part { place: inner.place, due }) {
                    self.hold(part, miss);
                }
                return;
            }
        }
        miss.held.push(part);
    }

    pub(super) fn holds(&mut self, place: Place) -> bool {
        self.reasons.claim(place).holds
    }

    fn neighbours(&self, place: Place) -> Vec<usize> {
        neighbours(self.reasons.terms(), self.reasons.graphs(), place)
    }

    /// Label and ends of the edge by which an `out` or `in` entry leads to a neighbour.
    fn edge_to(&self, place: Place, other: usize) -> [usize; 3] {
        match self.reasons.terms().entries[place.entry] {
            Entry::In(label, _) => [label, other, place.member],
            entry => [entry.parts().1[0], place.member, other],
        }
    }
}

/// Whether an event of the moment held.
fn has_event(terms: &Terms, miss: &Miss) -> bool {
    let is_event = |part: &Part| match terms.entries[part.place.entry] {
        Entry::Out(label, _) | Entry::In(label, _) => part.due && label >= terms.relations,
        _ => false,
    };
    miss.edges.iter().any(|[label, ..]| *label >= terms.relations) || miss.held.iter().any(is_event)
}
