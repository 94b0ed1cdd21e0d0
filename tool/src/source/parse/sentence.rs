//! Reads sentences about people: `a owns b`, `a is b`, `some x owns a: f`.

use super::*;

/// The people that have words of their own.
pub(super) const PEOPLE: [&str; 5] = ["me", "target", "here", "someone", "nobody"];

impl Parser {
    /// `some`, `every` or `at least k`, if it comes next.
    pub(super) fn quantifier(&mut self) -> Result<Option<Quantifier>, Mistake> {
        if self.take("some") {
            return Ok(Some(Quantifier::Some));
        }
        if self.take("every") {
            return Ok(Some(Quantifier::Every));
        }
        if let Some(mistake) = self.amount() {
            return Err(mistake);
        }
        if !(self.is_word("at") && self.word_ahead(1) == Some("least")) {
            return Ok(None);
        }
        self.next += 2;
        match *self.token() {
            Token::Number(count) if count > 0 => {
                self.next += 1;
                Ok(Some(Quantifier::AtLeast(count)))
            }
            _ => Err(self.no_number()),
        }
    }

    /// `some friend of a as x: f`, `some x owns a: f` or `some owns a: f`.
    pub(super) fn walk_to(&mut self, quantifier: Quantifier) -> Result<Kind, Mistake> {
        let denied = self.is_word("denied");
        let first = self.label("a relation, an event, or a name for whom is sought")?;
        if self.is_word("such") && !denied {
            return self.step(quantifier, first);
        }
        if let Some(mistake) = self.agent_of(&first) {
            return Err(mistake);
        }
        if self.take("of") {
            let person = self.person("whose")?;
            let name = if self.take("as") { Some(self.name("a name")?) } else { None };
            return self.walk(quantifier, person, first, true, name);
        }
        let somebody = matches!(self.word_ahead(1), Some("me" | "target" | "here"));
        let plain = self.name_ahead(0) && (somebody || self.name_ahead(1));
        let named = !denied && (plain || self.is_word("denied"));
        let (name, label) = match named {
            true => (Some(first), self.label("a relation or an event")?),
            false => (None, first),
        };
        let person = self.person("`of`, a relation or an event, or somebody")?;
        self.walk(quantifier, person, label, false, name)
    }

    /// `some owner of target`, where the relation is `owns`.
    fn agent_of(&self, noun: &Name) -> Option<Mistake> {
        let whose = self.word_ahead(1).filter(|_| self.is_word("of"))?;
        if self.declared.contains(&noun.text) {
            return None;
        }
        let (relation, quantity) = (self.agent(&noun.text)?, self.word_before(2).unwrap_or("some"));
        let called = self.word_ahead(3).filter(|_| self.word_ahead(2) == Some("as"));
        let called = called.unwrap_or(&noun.text);
        let message = format!("no relation or event `{}`", noun.text);
        let advice = format!("write `{quantity} {called} {relation} {whose}`");
        Some(Mistake::new(noun.span, message).advise(advice))
    }

    /// `some x such that f: g`, from `such` on.
    fn step(&mut self, quantifier: Quantifier, name: Name) -> Result<Kind, Mistake> {
        if let Quantifier::AtLeast(_) = quantifier {
            let message = "`at least` counts along a relation or an event, not along `such that`";
            return Err(Mistake::new(self.span(), message).advise("write `some` or `every`"));
        }
        self.next += 1;
        if !self.take("that") {
            let mistake = self.expected("`that` after `such`", &["that"]);
            return Err(
                mistake.advise("like this: `some x such that once me share x: x owns target`")
            );
        }
        let leads = Box::new(self.formula()?);
        let body = self.body("after whom it leads to, and what holds of them");
        let body =
            body.map_err(|mistake| match mistake.message.starts_with("expected `:` after whom") {
                true => {
                    mistake.advise("a `:` belongs to the nearest form; parentheses keep it inside")
                }
                false => mistake,
            })?;
        let every = quantifier == Quantifier::Every;
        Ok(Kind::Step(Step { every, name, leads, body }))
    }

    /// The end of a walk: `: f`, or nothing where anybody will do.
    fn walk(
        &mut self,
        quantifier: Quantifier,
        person: Person,
        label: Name,
        outwards: bool,
        name: Option<Name>,
    ) -> Result<Kind, Mistake> {
        let body = if self.is_sign(':') || quantifier == Quantifier::Every {
            self.body("and what holds of every one")?
        } else {
            self.bare = Some(self.next);
            Box::new(Formula { kind: Kind::True, span: self.last() })
        };
        Ok(Kind::Walk(Walk { quantifier, person, label, outwards, name, body }))
    }

    /// A sentence about somebody: `a owns b`, `a owns some x: f`, `a is b`.
    pub(super) fn told(&mut self) -> Result<Kind, Mistake> {
        let start = self.span();
        let nobody = self.is_word("nobody");
        let subject = self.anybody("somebody")?;
        let word = self.last_word().unwrap_or("target").to_string();
        if matches!(self.english(), Some("is" | "are" | "am" | "in" | "among")) {
            let english = self.state_in_english(&word).filter(|_| subject.is_some());
            if let Some(mistake) = english.or_else(|| self.in_group(&word)) {
                return Err(mistake);
            }
        }
        if let Some(subject) = subject.clone().filter(|_| self.is_word("is")) {
            self.next += 1;
            return match self.no_such(&word) {
                Some(mistake) => Err(mistake),
                None => self.being(subject),
            };
        }
        if let Some(mistake) = self.english_verb().or_else(|| self.verb_last(&word)) {
            return Err(mistake);
        }
        if self.is_cut_off() {
            let mistake = self.expected("`is`, a relation, an event or a definition", &[]);
            let advice =
                format!("say what `{word}` does or is: `{word} owns ...`, `{word} is ...`");
            return Err(mistake.advise(advice));
        }
        let label = self.label("`is`, a relation, an event or a definition")?;
        let english = self.both_ask(&word, &label).or_else(|| self.participle(&word, &label));
        if let Some(mistake) = english {
            return Err(mistake);
        }
        let walking = self.span();
        let kind = match (self.quantifier()?, subject) {
            (Some(quantifier), Some(subject)) => {
                let name = if self.name_ahead(0) { Some(self.name("a name")?) } else { None };
                return self.walk(quantifier, subject, label, true, name);
            }
            (Some(_), None) => {
                let message = "a walk begins at somebody: `me`, `target`, `here` or a name";
                let advice = "put one of them in the place of `someone` or `nobody`";
                return Err(Mistake::new(walking, message).advise(advice));
            }
            (None, subject) => {
                let negative = self.is_word("nobody");
                let english = self.object_in_english(&word, &label.text);
                let english = english.or_else(|| self.how_often(&word, &label.text));
                if let Some(mistake) = english.or_else(|| self.not_before_whom(&word, &label.text))
                {
                    return Err(mistake);
                }
                if let Some(mistake) = self.no_object(&word, &label).filter(|_| subject.is_some()) {
                    return Err(mistake);
                }
                let object = self.anybody("whom, or `some` or `every`")?;
                if subject.is_none() && object.is_none() {
                    let message =
                        "one of the two must be somebody: `me`, `target`, `here` or a name";
                    let advice = "say who it is on one side: `someone owns target`";
                    return Err(Mistake::new(start.to(self.last()), message).advise(advice));
                }
                let edge = Kind::Edge(subject, label, object);
                if nobody || negative {
                    Kind::Not(Box::new(Formula { kind: edge, span: start.to(self.last()) }))
                } else {
                    edge
                }
            }
        };
        Ok(kind)
    }

    /// After `a is`: `b`, `not b`, `friend of b`, the name of an attribute or
    /// of a definition.
    fn being(&mut self, subject: Person) -> Result<Kind, Mistake> {
        let negative = self.take("not");
        let start = subject.span;
        let named = self.name_ahead(0);
        let kind = if named && self.word_ahead(1) == Some("of") {
            let label = self.name("a relation or an event")?;
            self.next += 1;
            let other = self.person("whose")?;
            Kind::Edge(Some(other), label, Some(subject))
        } else {
            let other = self.person("who or what")?;
            Kind::Is(subject, other)
        };
        if !negative {
            return Ok(kind);
        }
        let span = start.to(self.last());
        Ok(Kind::Not(Box::new(Formula { kind, span })))
    }

    /// A person; none for `someone` and `nobody`.
    fn anybody(&mut self, what: &str) -> Result<Option<Person>, Mistake> {
        if self.take("someone") || self.take("nobody") {
            return Ok(None);
        }
        self.person(what).map(Some)
    }

    pub(super) fn person(&mut self, what: &str) -> Result<Person, Mistake> {
        let span = self.span();
        let who = match self.word_ahead(0) {
            Some("me") => Who::Me,
            Some("target") => Who::Target,
            Some("here") => Who::Here,
            Some(word) if !WORDS.contains(&word) => Who::Named(word.to_string()),
            _ => {
                let mistake =
                    self.expected(&format!("{what}: `me`, `target`, `here` or a name"), &PEOPLE);
                return Err(match mistake.advice {
                    Some(_) => mistake,
                    None => mistake.advise("a sentence says who, what and whom: `me owns target`"),
                });
            }
        };
        self.next += 1;
        Ok(Person { who, span })
    }
}
