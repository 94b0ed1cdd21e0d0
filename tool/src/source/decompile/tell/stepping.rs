//! Steps to others, along an edge or by a formula, and the names that the others get.

use super::{Formula, Kind, Name, Person, Place, Quantifier, Step, Style, Teller, Walk, Who};
use keeper::terms::Entry;

impl Teller<'_> {
    pub(super) fn neighbour(
        &mut self,
        quantifier: Quantifier,
        label: usize,
        outwards: bool,
        f: usize,
        place: &Place,
    ) -> Kind {
        let word = Name::new(&self.words.labels[label]);
        let person = self.here(place);
        let end = match self.terms.entries[f] {
            Entry::Top => Some(None),
            Entry::Var(x) => Some(Some(self.person(x, place))),
            _ => None,
        };
        if let (Some(end), Quantifier::Some) = (end, quantifier) {
            let (from, to) = if outwards { (Some(person), end) } else { (end, Some(person)) };
            // An edge to oneself under a relation is an attribute.
            let attribute = label < self.terms.relations && place.style != Style::Exact;
            if let (Some(one), true) = (&from, attribute && from == to) {
                return Kind::Is(one.clone(), Person::new(Who::Named(word.text)));
            }
            return Kind::Edge(from, word, to);
        }
        let (name, body) = self.named(f, place);
        Kind::Walk(Walk { quantifier, person, label: word, outwards, name, body: Box::new(body) })
    }

    /// A step to whomever the first entry holds of, the second said of them.
    pub(super) fn step(
        &mut self,
        every: bool,
        x: usize,
        f: usize,
        g: usize,
        place: &Place,
    ) -> Kind {
        let mut there = Place { named_here: false, ..place.clone() };
        let name = match place.style {
            Style::Exact => format!("x{x}"),
            _ => self.name(place.named),
        };
        there.named += 1;
        there.people[x] = Who::Named(name.clone());
        let leads = self.part(f, &there);
        let mut body = Place { named: there.named, named_here: false, ..place.clone() };
        if place.style != Style::Exact {
            (body.here, body.named_here) = (Who::Named(name.clone()), true);
        }
        let body = self.part(g, &body);
        Kind::Step(Step { every, name: Name::new(&name), leads, body })
    }

    /// A name for the next that is given one.
    pub(super) fn name(&self, named: usize) -> String {
        const NAMES: [&str; 6] = ["p", "q", "r", "s", "u", "v"];
        let wish = NAMES.get(named).map_or_else(|| format!("p{named}"), |wish| wish.to_string());
        self.words.unlike_labels(&wish)
    }

    /// What is said of a neighbour, and the neighbour's name.
    fn named(&mut self, f: usize, place: &Place) -> (Option<Name>, Formula) {
        if place.style == Style::Exact {
            return match self.terms.entries[f] {
                Entry::Bind(x, g)
                    if !self.shared[f] && !self.paired && self.free[g] >> x & 1 == 1 =>
                {
                    (Some(Name::new(&format!("x{x}"))), self.tell(g, place))
                }
                _ => (None, self.tell(f, place)),
            };
        }
        let name = self.name(place.named);
        let here = Who::Named(name.clone());
        let place = Place { here, named: place.named + 1, named_here: true, ..place.clone() };
        (Some(Name::new(&name)), self.tell(f, &place))
    }
}
