//! Tells entries as formulas of the source.

mod defined;
mod negated;
mod stepping;

use super::super::ast::*;
use super::{Known, Words};
use keeper::terms::{Entry, Terms, Variables, VARIABLES};
use std::collections::BTreeMap;

/// How an entry is told.
#[derive(Clone, Copy, Debug, PartialEq, Eq)]
pub enum Style {
    /// With names, and without saying where a part about the past stands.
    Free,
    /// With names.
    Named,
    /// Operator by operator: compiles to the same entry whatever it is.
    Exact,
}

impl Style {
    pub fn stricter(self) -> Style {
        match self {
            Style::Free => Style::Named,
            Style::Named | Style::Exact => Style::Exact,
        }
    }
}

pub struct Teller<'a> {
    terms: &'a Terms,
    words: &'a Words,
    free: Vec<Variables>,
    /// Whether a part about the past has two free variables. Then a binding is told
    /// where it stands.
    paired: bool,
    /// Which entries are told as definitions, in the exact style.
    shared: Vec<bool>,
    defined: BTreeMap<usize, Definition>,
    /// Which entries are told by the name of a definition, in the other styles.
    known: &'a Known,
    definitions: Vec<Definition>,
    /// The definitions that are being told.
    open: Vec<String>,
}

/// Where an entry is told.
#[derive(Clone)]
struct Place {
    style: Style,
    /// Whom it is said of.
    here: Who,
    /// Whom each variable stands for.
    people: Vec<Who>,
    /// How many people have got names.
    named: usize,
    /// Whether a binding here needs no words: whom it is said of has a name.
    named_here: bool,
}

impl<'a> Teller<'a> {
    pub fn new(
        terms: &'a Terms,
        words: &'a Words,
        shared: Vec<bool>,
        known: &'a Known,
    ) -> Teller<'a> {
        let (free, paired) = (terms.free(), !terms.paired().is_empty());
        let (defined, definitions, open) = (BTreeMap::new(), Vec::new(), Vec::new());
        Teller { terms, words, free, paired, shared, defined, known, definitions, open }
    }

    /// The definitions that the policies told so far use.
    pub fn definitions(self) -> Vec<Definition> {
        self.definitions.into_iter().chain(self.defined.into_values()).collect()
    }

    pub fn policy(&mut self, entry: usize, style: Style) -> Formula {
        let exact = style == Style::Exact;
        let here = if exact { Who::Here } else { Who::Me };
        self.tell(entry, &Place { style, here, people: standard(), named: 0, named_here: !exact })
    }

    fn tell(&mut self, entry: usize, place: &Place) -> Formula {
        match self.is_named(entry, place) {
            true if place.style == Style::Exact => self.call(entry),
            true => self.known_call(entry, place),
            false => self.spell(entry, place),
        }
    }

    /// A definition's name with the people free in it.
    fn call(&mut self, entry: usize) -> Formula {
        let name = Name::new(&self.words.unlike_labels(&format!("part{entry}")));
        let free = (1..VARIABLES).filter(|x| self.free[entry] >> x & 1 == 1);
        let parameters: Vec<Name> = free.map(|x| Name::new(&format!("x{x}"))).collect();
        let person = |name: &Name| Person::new(Who::Named(name.text.clone()));
        let people = parameters.iter().map(person).collect();
        if !self.defined.contains_key(&entry) {
            let (style, here) = (Style::Exact, Who::Here);
            let place = Place { style, here, people: standard(), named: 0, named_here: false };
            let body = self.spell(entry, &place);
            let definition = Definition { name: name.clone(), parameters, body };
            self.defined.insert(entry, definition);
        }
        Formula::new(Kind::Defined(name, people))
    }

    fn spell(&mut self, entry: usize, place: &Place) -> Formula {
        // Past the first operator a binding has to be told.
        let inner = Place { named_here: false, ..place.clone() };
        Formula::new(match self.terms.entries[entry] {
            Entry::Top => Kind::True,
            Entry::Var(x) => Kind::Is(self.here(place), self.person(x, place)),
            Entry::Not(f) => return self.negation(f, &inner),
            Entry::Or(f, g) => Kind::Or(self.part(f, &inner), self.part(g, &inner)),
            Entry::Out(label, f) => self.neighbour(Quantifier::Some, label, true, f, place),
            Entry::In(label, f) => self.neighbour(Quantifier::Some, label, false, f, place),
            Entry::Many(label, f, count) => {
                self.neighbour(Quantifier::AtLeast(count), label, true, f, place)
            }
            Entry::Prev(f) => Kind::Previously(self.part(f, &inner)),
            Entry::Since(f, g) if self.terms.entries[f] == Entry::Top => {
                Kind::Once(self.part(g, &inner))
            }
            Entry::Since(f, g) => Kind::Since(self.part(f, &inner), self.part(g, &inner)),
            Entry::Bind(x, f) => return self.binding(x, f, place),
            Entry::At(x, f) => return self.moving(x, f, &inner),
            Entry::Reach(x, f, g) => self.step(false, x, f, g, place),
        })
    }

    fn part(&mut self, entry: usize, place: &Place) -> Part {
        Box::new(self.tell(entry, place))
    }

    fn here(&self, place: &Place) -> Person {
        Person::new(place.here.clone())
    }

    fn person(&self, variable: usize, place: &Place) -> Person {
        Person::new(place.people[variable].clone())
    }

    fn inside(&self, entry: usize) -> Option<usize> {
        match self.terms.entries[entry] {
            Entry::Not(f) => Some(f),
            _ => None,
        }
    }

    fn binding(&mut self, x: usize, f: usize, place: &Place) -> Formula {
        let mut inner = place.clone();
        if place.named_here && self.free[f] >> x & 1 == 1 {
            inner.people[x] = place.here.clone();
            return self.tell(f, &inner);
        }
        inner.named_here = false;
        let name = format!("x{x}");
        inner.people[x] = Who::Named(name.clone());
        Formula::new(Kind::As(Name::new(&name), self.part(f, &inner)))
    }

    fn moving(&mut self, x: usize, f: usize, place: &Place) -> Formula {
        let person = self.person(x, place);
        let sentence = match self.terms.entries[f] {
            Entry::Out(..) | Entry::In(..) | Entry::Many(..) | Entry::Var(_) => true,
            Entry::Prev(_) | Entry::Since(..) => place.style == Style::Free,
            _ => false,
        };
        if place.style == Style::Exact {
            return Formula::new(Kind::At(person, self.part(f, place)));
        }
        let inner = Place { here: person.who.clone(), ..place.clone() };
        if sentence {
            return self.tell(f, &inner);
        }
        Formula::new(Kind::At(person, self.part(f, &inner)))
    }
}

/// The target, and `x1` to `x15`.
fn standard() -> Vec<Who> {
    let named = |x: usize| Who::Named(format!("x{x}"));
    (0..VARIABLES).map(|x| if x == 0 { Who::Target } else { named(x) }).collect()
}
