//! Random sources.

use cuckooormolu_tool::source::ast::*;

/// Pseudo-random numbers.
pub struct Dice(u64);

impl Dice {
    pub fn new(seed: u64) -> Dice {
        Dice(seed.wrapping_mul(0x9e37_79b9_7f4a_7c15) | 1)
    }

    /// A number below a bound.
    pub fn below(&mut self, bound: usize) -> usize {
        self.0 ^= self.0 << 13;
        self.0 ^= self.0 >> 7;
        self.0 ^= self.0 << 17;
        (self.0.wrapping_mul(0x2545_f491_4f6c_dd1d) >> 33) as usize % bound
    }

    fn pick<T: Clone>(&mut self, from: &[T]) -> T {
        from[self.below(from.len())].clone()
    }
}

/// What a formula may speak of, where one is made.
#[derive(Clone)]
struct Sight {
    people: Vec<Who>,
    /// How many more parts about the past may stand inside.
    past: usize,
    /// Definitions that may be used: those before.
    definitions: usize,
}

struct Maker<'a> {
    dice: &'a mut Dice,
    labels: Vec<String>,
    relations: usize,
    definitions: Vec<(String, usize)>,
}

/// A source with few members, so that much happens between them.
pub fn source(dice: &mut Dice) -> Source {
    let (members, relations) = (2 + dice.below(3), dice.below(3));
    let (events, definitions) = (1 + dice.below(3), dice.below(4));
    let names = |kind: &str, count: usize| {
        (0..count).map(|n| Name::new(&format!("{kind}{n}"))).collect::<Vec<Name>>()
    };
    let (members, relations) = (names("m", members), names("r", relations));
    let events = names("e", events);
    let kept: Vec<Name> = events.iter().filter(|_| dice.below(2) == 0).cloned().collect();
    let labels = relations.iter().chain(&events).map(|name| name.text.clone());
    let labels = labels.chain(kept.iter().map(|name| format!("denied {}", name.text))).collect();
    let mut maker = Maker { dice, labels, relations: relations.len(), definitions: Vec::new() };
    let mut made = Source::default();
    for number in 0..definitions {
        made.definitions.push(maker.definition(number));
    }
    for name in events {
        let sight = Sight { people: vec![Who::Me, Who::Target, Who::Here], past: 3, definitions };
        let policy = maker.formula(4, &sight);
        let effects = (0..maker.dice.below(3)).filter_map(|_| maker.effect()).collect();
        made.events.push(Event { name, said: None, policy, effects });
    }
    for _ in 0..maker.dice.below(6) {
        if !relations.is_empty() {
            let from = maker.dice.pick(&members);
            let relation = maker.dice.pick(&relations);
            made.first.push(Fact { from, relation, to: maker.dice.pick(&members) });
        }
    }
    Source { members, relations, kept, ..made }
}

impl Maker<'_> {
    fn effect(&mut self) -> Option<Effect> {
        if self.relations == 0 {
            return None;
        }
        let relation = Name::new(&self.labels[self.dice.below(self.relations)]);
        let (me, target) = (Person::new(Who::Me), Person::new(Who::Target));
        let add = self.dice.below(3) > 0;
        let (from, to) = if self.dice.below(2) == 0 { (me, target) } else { (target, me) };
        Some(Effect { add, from, relation, to })
    }

    fn definition(&mut self, number: usize) -> Definition {
        let name = format!("d{number}");
        let count = self.dice.below(4);
        let parameters: Vec<Name> =
            ["a", "x2", "b"][..count].iter().map(|name| Name::new(name)).collect();
        let mut people = vec![Who::Here, Who::Target];
        people.extend(parameters.iter().map(|name| Who::Named(name.text.clone())));
        let body = self.formula(3, &Sight { people, past: 1, definitions: number });
        self.definitions.push((name.clone(), count));
        Definition { name: Name::new(&name), parameters, body }
    }

    fn person(&mut self, sight: &Sight) -> Person {
        Person::new(self.dice.pick(&sight.people))
    }

    fn formula(&mut self, depth: usize, sight: &Sight) -> Formula {
        let choice = if depth == 0 { self.dice.below(6) } else { 2 + self.dice.below(18) };
        let part = |maker: &mut Self| Box::new(maker.formula(depth - 1, sight));
        Formula::new(match choice {
            0 => [Kind::True, Kind::False][self.dice.below(2)].clone(),
            1 => Kind::Is(self.person(sight), self.person(sight)),
            2 if self.relations > 0 && self.dice.below(4) == 0 => {
                let attribute = self.labels[self.dice.below(self.relations)].clone();
                Kind::Is(self.person(sight), Person::new(Who::Named(attribute)))
            }
            2..=4 => self.edge(sight),
            5 | 15 => self.defined(sight),
            6 | 7 => Kind::Not(part(self)),
            8 | 9 => Kind::And(part(self), part(self)),
            10 => Kind::Or(part(self), part(self)),
            11..=14 if sight.past > 0 => self.past(depth, sight),
            11 => Kind::At(self.person(sight), part(self)),
            12 => {
                let name = self.dice.pick(&["x1", "x2", "p", "q"]);
                let inner = self.seeing(sight, name);
                Kind::As(Name::new(name), Box::new(self.formula(depth - 1, &inner)))
            }
            13 | 14 => self.step(depth, sight),
            _ if self.dice.below(4) == 0 => self.step(depth, sight),
            _ => self.walk(depth, sight),
        })
    }

    /// What is in sight where somebody has got a name.
    fn seeing(&mut self, sight: &Sight, name: &str) -> Sight {
        let mut inner = sight.clone();
        inner.people.push(Who::Named(name.to_string()));
        inner
    }

    fn edge(&mut self, sight: &Sight) -> Kind {
        let label = Name::new(&self.dice.pick(&self.labels));
        let (one, other) = (Some(self.person(sight)), Some(self.person(sight)));
        match self.dice.below(6) {
            0 => Kind::Edge(None, label, other),
            1 => Kind::Edge(one, label, None),
            _ => Kind::Edge(one, label, other),
        }
    }

    fn defined(&mut self, sight: &Sight) -> Kind {
        let known = self.definitions.len().min(sight.definitions);
        if known == 0 {
            return self.edge(sight);
        }
        let (name, count) = self.definitions[self.dice.below(known)].clone();
        let people: Vec<Person> = (0..count).map(|_| self.person(sight)).collect();
        match (&people[..], self.dice.below(2)) {
            ([one], 0) => Kind::Is(one.clone(), Person::new(Who::Named(name))),
            ([one, other], 0) => {
                Kind::Edge(Some(one.clone()), Name::new(&name), Some(other.clone()))
            }
            _ => Kind::Defined(Name::new(&name), people),
        }
    }

    /// A part about the past: it mostly speaks of two people or three.
    fn past(&mut self, depth: usize, sight: &Sight) -> Kind {
        let mut inner = Sight { past: sight.past - 1, ..sight.clone() };
        let count = [sight.people.len(), 3, 3, 3, 2, 2, 2, 2][self.dice.below(8)];
        if count < sight.people.len() {
            inner.people = (0..count).map(|_| self.dice.pick(&sight.people)).collect();
        }
        let part = |maker: &mut Self| Box::new(maker.formula(depth - 1, &inner));
        match self.dice.below(6) {
            0 => Kind::Once(part(self)),
            1 => Kind::Always(part(self)),
            2 => Kind::Never(part(self)),
            3 => Kind::Previously(part(self)),
            _ => Kind::Since(part(self), part(self)),
        }
    }

    /// A step: what leads to somebody mostly speaks of them and one other.
    fn step(&mut self, depth: usize, sight: &Sight) -> Kind {
        let name = self.dice.pick(&["x1", "x2", "p", "q"]);
        let whom = Who::Named(name.to_string());
        let mut near = sight.clone();
        near.people.retain(|other| *other != whom);
        if self.dice.below(8) > 0 && !near.people.is_empty() {
            near.people = vec![self.dice.pick(&near.people)];
        }
        near.people.push(whom.clone());
        let mut there = self.seeing(sight, name);
        if !there.people.contains(&Who::Here) {
            there.people.push(Who::Here);
        }
        Kind::Step(Step {
            every: self.dice.below(3) == 0,
            name: Name::new(name),
            leads: Box::new(self.formula(depth - 1, &near)),
            body: Box::new(self.formula(depth - 1, &there)),
        })
    }

    fn walk(&mut self, depth: usize, sight: &Sight) -> Kind {
        let quantifier = match self.dice.below(8) {
            0..=4 => Quantifier::Some,
            5 | 6 => Quantifier::Every,
            _ => Quantifier::AtLeast(1 + self.dice.below(3)),
        };
        let name = self.dice.pick(&[None, Some("x1"), Some("x2"), Some("p"), Some("q")]);
        let person = self.person(sight);
        let mut inner = name.map_or_else(|| sight.clone(), |name| self.seeing(sight, name));
        if !inner.people.contains(&Who::Here) {
            inner.people.push(Who::Here);
        }
        Kind::Walk(Walk {
            quantifier,
            person,
            label: Name::new(&self.dice.pick(&self.labels)),
            outwards: self.dice.below(2) == 0,
            name: name.map(Name::new),
            body: Box::new(self.formula(depth - 1, &inner)),
        })
    }
}
