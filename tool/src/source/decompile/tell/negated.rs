//! Negations, in a derived form where that compiles to the same.

use super::{Formula, Kind, Part, Place, Quantifier, Style, Teller};
use keeper::terms::Entry;

impl Teller<'_> {
    /// Whether the negation of an entry has a part that is told without `not`. Operator by
    /// operator, an `or` is told as it stands: it may have very many parts.
    fn joins(&self, entry: usize, place: &Place) -> bool {
        match self.terms.entries[entry] {
            Entry::Not(_) => true,
            Entry::Or(f, g) if place.style != Style::Exact => {
                self.joins(f, place) || self.joins(g, place)
            }
            _ => false,
        }
    }

    /// `not f`, in a derived form where that compiles to the same.
    pub(super) fn negation(&mut self, f: usize, place: &Place) -> Formula {
        // What can be negated without a double negation, told negated.
        let opposite = |teller: &mut Self, g: usize| match teller.inside(g) {
            Some(h) => teller.tell(h, place),
            None if teller.joins(g, place) => teller.negation(g, place),
            None => Formula::new(Kind::Not(teller.part(g, place))),
        };
        let doubled =
            |teller: &Self, g: usize| teller.inside(g).is_some_and(|h| teller.inside(h).is_some());
        let told = self.is_named(f, place);
        Formula::new(match self.terms.entries[f] {
            Entry::Top => Kind::False,
            Entry::Or(g, h)
                if !told
                    && (self.joins(g, place) || self.joins(h, place))
                    && !doubled(self, g)
                    && !doubled(self, h) =>
            {
                Kind::And(Box::new(opposite(self, g)), Box::new(opposite(self, h)))
            }
            Entry::Since(g, h) if !told && self.terms.entries[g] == Entry::Top => {
                match self.inside(h) {
                    Some(i) if self.inside(i).is_none() => Kind::Always(self.part(i, place)),
                    _ => Kind::Never(self.part(h, place)),
                }
            }
            Entry::Out(label, g) | Entry::In(label, g) if !told => match self.inside(g) {
                Some(h) if self.inside(h).is_none() => {
                    let outwards = matches!(self.terms.entries[f], Entry::Out(..));
                    self.neighbour(Quantifier::Every, label, outwards, h, place)
                }
                _ => Kind::Not(self.part(f, place)),
            },
            Entry::Reach(x, g, h) if !told => match self.inside(h) {
                Some(i) if self.inside(i).is_none() => self.step(true, x, g, i, place),
                _ => Kind::Not(self.part(f, place)),
            },
            Entry::Not(g) if !told => {
                let part = Formula::new(Kind::Not(self.plain(g, place)));
                Kind::Not(Box::new(part))
            }
            _ => Kind::Not(self.part(f, place)),
        })
    }

    /// An entry under two negations, in no derived form.
    fn plain(&mut self, entry: usize, place: &Place) -> Part {
        match self.inside(entry) {
            Some(f) if !self.is_named(entry, place) => {
                Box::new(Formula::new(Kind::Not(self.plain(f, place))))
            }
            _ => self.part(entry, place),
        }
    }
}
