//! Finds what every name stands for and unfolds definitions and derived forms.

mod call;
mod english;
mod find;
mod walk;

use super::ast::{Formula, Kind, Name, Person, Quantifier, Source, Span, Who as Written};
use super::mistake::Mistake;
use super::said::{conjunction, negated, once, said, written, Form, Id, Said, Who, ME};
use keeper::terms::VARIABLES;
use std::collections::HashMap;

/// The most formulas that a file's definitions may unfold to.
const MOST: usize = 200_000;

/// The deepest that formulas may stand in one another once all is unfolded.
const DEEPEST: usize = 1_000;

/// What helps where definitions unfold too far.
const SHORTER: &str = "let fewer definitions use one another, or use each less often";

/// The names of people in sight, the innermost last.
type Scope = Vec<(String, Who)>;

pub struct Resolver<'a> {
    source: &'a Source,
    /// The name of every person, and the variable it asks for.
    people: Vec<(String, Option<usize>)>,
    /// Unfolded definitions, by their place and the people they speak of.
    unfolded: HashMap<(usize, Vec<Who>), Said>,
    /// The definitions being unfolded.
    inside: Vec<usize>,
    /// How many formulas were unfolded.
    made: usize,
    /// How many formulas the present one stands in.
    depth: usize,
    /// The definitions that lead back to themselves, with the mistake.
    cyclic: HashMap<usize, Mistake>,
    /// How to name those that the walks around the present formula find, where they
    /// have no name.
    nameless: Vec<String>,
    warnings: Vec<Mistake>,
}

impl<'a> Resolver<'a> {
    pub fn new(source: &'a Source) -> Resolver<'a> {
        let mut people = vec![("target".into(), None), ("me".into(), Some(1))];
        // `x1` to `x15` ask for the variable of their number.
        people.extend((1..VARIABLES).map(|x| (format!("x{x}"), Some(x))));
        let (unfolded, inside, nameless) = (HashMap::new(), Vec::new(), Vec::new());
        let (cyclic, warnings) = (HashMap::new(), Vec::new());
        let (made, depth) = (0, 0);
        Resolver { source, people, unfolded, inside, made, depth, cyclic, nameless, warnings }
    }

    /// What a policy says, of the initiator.
    pub fn policy(&mut self, policy: &Formula) -> Result<Said, Mistake> {
        self.begin();
        self.formula(policy, &mut Scope::new())
    }

    /// What was met so far that is accepted and seldom meant, each place once.
    pub fn take_warnings(&mut self) -> Vec<Mistake> {
        let mut warnings = std::mem::take(&mut self.warnings);
        warnings.sort_by_key(|warning| warning.span.start);
        warnings.dedup_by_key(|warning| warning.span.start);
        warnings
    }

    /// Nothing is inside anything: a mistake may have left something so.
    fn begin(&mut self) {
        self.inside.clear();
        self.nameless.clear();
        self.depth = 0;
    }

    /// A person's name, for messages.
    pub fn name(&self, id: Id) -> &str {
        &self.people[id as usize].0
    }

    /// The variable that a person asks for.
    pub fn wish(&self, id: Id) -> Option<usize> {
        self.people.get(id as usize)?.1
    }

    /// A body that nobody uses is still read, so that its mistakes are found.
    pub fn check_definition(&mut self, place: usize) -> Result<(), Mistake> {
        self.begin();
        let people = self.source.definitions[place].parameters.clone();
        let scope = Scope::new();
        let ids = people.iter().map(|name| Who::Other(self.bound(&name.text, &scope))).collect();
        self.unfold(place, ids, people.first().map_or(Span::default(), |name| name.span))?;
        Ok(())
    }

    fn fresh(&mut self, name: &str) -> Id {
        let wish = standard(name).and_then(|id| self.wish(id));
        self.people.push((name.to_string(), wish));
        (self.people.len() - 1) as Id
    }

    /// A number for a name that is given here. `x1` to `x15` keep theirs
    /// unless another name in sight has it.
    fn bound(&mut self, name: &str, scope: &Scope) -> Id {
        let taken =
            |id: Id| scope.iter().any(|(other, who)| other != name && *who == Who::Other(id));
        match standard(name) {
            Some(id) if !taken(id) => id,
            _ => self.fresh(name),
        }
    }

    fn formula(&mut self, formula: &Formula, scope: &mut Scope) -> Result<Said, Mistake> {
        self.made += 1;
        if self.made > MOST {
            let message = format!("the definitions unfold to more than {MOST} formulas");
            return Err(Mistake::new(formula.span, message).advise(SHORTER));
        }
        self.depth += 1;
        let said =
            if self.depth < DEEPEST { Some(self.unfolded_formula(formula, scope)?) } else { None };
        let said = said.map(|said| written(said, formula.span));
        self.depth -= 1;
        said.filter(|said| said.height < DEEPEST).ok_or_else(|| {
            let message = format!("the definitions unfold more than {DEEPEST} deep");
            Mistake::new(formula.span, message).advise(SHORTER)
        })
    }

    fn unfolded_formula(&mut self, formula: &Formula, scope: &mut Scope) -> Result<Said, Mistake> {
        let span = formula.span;
        Ok(match &formula.kind {
            Kind::True => said(Form::True),
            Kind::False => said(Form::Not(said(Form::True))),
            Kind::Is(one, other) => self.being(one, other, scope)?,
            Kind::Edge(from, label, to) => self.edge(from, label, to, span, scope)?,
            Kind::Defined(name, people) => {
                let place = self.definition(name, scope)?;
                self.call(place, people, name.span.to(span), scope)?
            }
            Kind::Not(f) => {
                let part = self.formula(f, scope)?;
                if derived(&f.kind) {
                    negated(part)
                } else {
                    said(Form::Not(part))
                }
            }
            Kind::And(f, g) => conjunction(self.formula(f, scope)?, self.formula(g, scope)?),
            Kind::Or(f, g) => said(Form::Or(self.formula(f, scope)?, self.formula(g, scope)?)),
            Kind::Since(f, g) => {
                said(Form::Since(self.formula(f, scope)?, self.formula(g, scope)?, span))
            }
            Kind::Once(f) => once(self.formula(f, scope)?, span),
            Kind::Never(f) => negated(once(self.formula(f, scope)?, span)),
            Kind::Always(f) => negated(once(negated(self.formula(f, scope)?), span)),
            Kind::Previously(f) => said(Form::Previously(self.formula(f, scope)?, span)),
            Kind::Walk(walk) => self.walk(walk, scope)?,
            Kind::Step(step) => self.step(step, scope)?,
            Kind::At(person, f) => {
                let who = self.person(person, scope)?;
                said(Form::At(who, self.formula(f, scope)?))
            }
            Kind::As(name, f) => {
                self.hiding(name, scope);
                let id = self.bound(&name.text, scope);
                scope.push((name.text.clone(), Who::Other(id)));
                let body = self.formula(f, scope);
                scope.pop();
                said(Form::As { name: id, wanted: true, body: body? })
            }
        })
    }

    /// `a is b`, or b is an attribute or a definition of one person.
    fn being(&mut self, one: &Person, other: &Person, scope: &mut Scope) -> Result<Said, Mistake> {
        if let Written::Named(text) = &other.who {
            let name = Name { text: text.clone(), span: other.span };
            if !scope.iter().any(|(known, _)| known == text) {
                if let Some(place) = self.find_definition(text) {
                    return self.call(
                        place,
                        std::slice::from_ref(one),
                        one.span.to(other.span),
                        scope,
                    );
                }
                if let Some(label) = self.find_label(text).or_else(|| self.kind_label(text)) {
                    let who = self.person(one, scope)?;
                    return Ok(said(Form::Edge(Some(who), label, Some(who))));
                }
                return Err(match self.event_done(text) {
                    Some(event) => self.done_to(one, &name, event),
                    None => self.unknown_person(&name, scope, true),
                });
            }
        }
        Ok(said(Form::Is(self.person(one, scope)?, self.person(other, scope)?)))
    }

    fn edge(
        &mut self,
        from: &Option<Person>,
        word: &Name,
        to: &Option<Person>,
        span: Span,
        scope: &mut Scope,
    ) -> Result<Said, Mistake> {
        if let Some(place) = self.find_definition(&word.text) {
            let (Some(from), Some(to)) = (from, to) else {
                let message = format!("`{}` is a definition: it is said of two people", word.text);
                let advice = "only a relation or an event can be said of someone";
                return Err(Mistake::new(span, message).advise(advice));
            };
            return self.call(place, &[from.clone(), to.clone()], span, scope);
        }
        let label = self.label(word).map_err(|mistake| self.also_me(mistake, from, scope))?;
        let end = |person: &Option<Person>| {
            person.as_ref().map(|person| self.person(person, scope)).transpose()
        };
        let (from, to) = (end(from)?, end(to)?);
        Ok(said(Form::Edge(from, label, to)))
    }
}

impl Resolver<'_> {
    /// Warns of a name that hides another that is in sight.
    fn hiding(&mut self, name: &Name, scope: &Scope) {
        if scope.iter().any(|(other, _)| *other == name.text) {
            let message = format!("`{0}` hides another `{0}` that is in sight", name.text);
            let advice = "give one of the two another name";
            self.warnings.push(Mistake::new(name.span, message).advise(advice));
        }
    }
}

/// The number of a name that asks for a variable: `x1` to `x15`.
fn standard(name: &str) -> Option<Id> {
    let number: usize = name.strip_prefix('x')?.parse().ok()?;
    let plain = (1..VARIABLES).contains(&number) && name == format!("x{number}");
    plain.then_some(ME + number as Id)
}

/// Whether a form is written with an outer `not` in the terms.
fn derived(kind: &Kind) -> bool {
    match kind {
        Kind::And(..) | Kind::Never(_) | Kind::Always(_) | Kind::False => true,
        Kind::Walk(walk) => walk.quantifier == Quantifier::Every,
        Kind::Step(step) => step.every,
        _ => false,
    }
}
