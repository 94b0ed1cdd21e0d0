//! Definitions said of people, unfolded once for each of these.

use super::super::ast::{Person, Span};
use super::super::mistake::Mistake;
use super::super::said::{called, said, Form, Said, Who};
use super::{Resolver, Scope};

impl Resolver<'_> {
    /// A definition said of some people.
    pub(super) fn call(
        &mut self,
        place: usize,
        people: &[Person],
        span: Span,
        scope: &mut Scope,
    ) -> Result<Said, Mistake> {
        let definition = &self.source.definitions[place];
        let (due, given) = (definition.parameters.len(), people.len());
        if due != given {
            let count = |n: usize| match n {
                0 => "nobody".to_string(),
                1 => "one person".to_string(),
                n => format!("{n} people"),
            };
            let name = &definition.name.text;
            let message =
                format!("`{name}` is about {}, but has {} here", count(due), count(given));
            let people: Vec<&str> =
                definition.parameters.iter().map(|name| name.text.as_str()).collect();
            let head = match &people[..] {
                [] => name.clone(),
                [one] => format!("{one} is {name}"),
                [one, other] => format!("{one} {name} {other}"),
                several => format!("{name}({})", several.join(", ")),
            };
            let advice = match (due, given) {
                (0, 1) => format!("to say it of somebody, define it so: `define p is {name}: ...`"),
                _ => format!("it is defined as `{head}`"),
            };
            return Err(Mistake::new(span, message).advise(advice));
        }
        // Whoever is `here` gets a name: in the definition it may be another.
        let mut names = Vec::new();
        let mut whos = Vec::new();
        for person in people {
            let who = self.person(person, scope)?;
            if who == Who::Here {
                names.push(self.fresh("here"));
            }
            whos.push(if who == Who::Here { Who::Other(names[names.len() - 1]) } else { who });
        }
        let mut unfolded = self.unfold(place, whos, span)?;
        for name in names {
            unfolded = said(Form::As { name, wanted: false, body: unfolded });
        }
        Ok(unfolded)
    }

    pub(super) fn unfold(
        &mut self,
        place: usize,
        people: Vec<Who>,
        span: Span,
    ) -> Result<Said, Mistake> {
        let key = (place, people);
        if let Some(known) = self.unfolded.get(&key) {
            return Ok(known.clone());
        }
        let definition = &self.source.definitions[place];
        if let Some(mistake) = self.cyclic.get(&place) {
            return Err(mistake.clone());
        }
        if let Some(first) = self.inside.iter().position(|inside| *inside == place) {
            return Err(self.cycle(first, place, span));
        }
        let names = definition.parameters.iter().map(|name| name.text.clone());
        let mut scope: Scope = names.zip(key.1.iter().copied()).collect();
        self.inside.push(place);
        let unfolded = called(self.formula(&definition.body, &mut scope)?, place, &key.1);
        self.inside.pop();
        self.unfolded.insert(key, unfolded.clone());
        Ok(unfolded)
    }

    /// The mistake that a definition leads back to itself, and by which way.
    fn cycle(&mut self, first: usize, place: usize, span: Span) -> Mistake {
        let definitions = &self.source.definitions;
        let around = self.inside[first..].to_vec();
        let name = |place: &usize| definitions[*place].name.text.as_str();
        let way: Vec<&str> = around.iter().chain([&place]).map(name).collect();
        let way = way.join(" uses ");
        let message = format!("`{}` is defined by itself: {way}", name(&place));
        let advice = "a definition cannot use itself; say it by relations and events";
        let mistake = Mistake::new(span, message).advise(advice);
        self.cyclic.extend(around.into_iter().map(|place| (place, mistake.clone())));
        mistake
    }
}
