//! Reads effects, and says what is wrong with them.

use super::*;

/// The mistake that an effect is about somebody other than `me` and `target`.
pub fn third(span: Span) -> Mistake {
    let message = "an effect is between `me` and `target`, one way or the other";
    let advice =
        "an event changes nothing about third members; let them ask themselves, by an event of \
        their own";
    Mistake::new(span, message).advise(advice)
}

impl Parser {
    /// The effects after `then`, of an event.
    pub(super) fn effects(&mut self, event: &str) -> Result<Vec<Effect>, Mistake> {
        let mut effects = vec![self.effect(event)?];
        while self.take_sign(',') {
            effects.push(self.effect(event)?);
        }
        if matches!(self.word_ahead(0), Some("add" | "remove" | "and")) {
            let mistake = self.expected("`,` or the next statement", &[]);
            let instead = if self.is_word("and") { " in the place of `and`" } else { "" };
            let example = "`then add me friend target, add target friend me`";
            let advice = format!("put a `,` between two effects{instead}: {example}");
            return Err(mistake.advise(advice));
        }
        Ok(effects)
    }

    /// No effects, or the mistake that some come without `then`.
    pub(super) fn no_effects(&self) -> Result<Vec<Effect>, Mistake> {
        if !matches!(self.word_ahead(0), Some("add" | "remove")) {
            return Ok(Vec::new());
        }
        let words: Vec<&str> = (0..4).map_while(|place| self.word_ahead(place)).collect();
        let advice = format!("write `then {}`", words.join(" "));
        Err(Mistake::new(self.span(), "`then` is missing here").advise(advice))
    }

    fn effect(&mut self, event: &str) -> Result<Effect, Mistake> {
        if let Some(mistake) = self.effect_in_english(event) {
            return Err(mistake);
        }
        let add = self.take("add");
        if !add && !self.take("remove") {
            let mistake = self.expected("`add` or `remove`", &["add", "remove"]);
            return Err(mistake.advise("like this: `then add me owns target`"));
        }
        if matches!(self.word_ahead(0), Some("some" | "every" | "someone" | "nobody" | "at")) {
            return Err(third(self.span()));
        }
        let from = self.person("`me` or `target`")?;
        if self.take("is") {
            let relation = self.name("the name of a relation")?;
            if !self.take("of") {
                return Err(self.alone(add, &from, &relation, event));
            }
            let to = self.person("`me` or `target`")?;
            return Ok(Effect { add, from: to, relation, to: from });
        }
        let relation = self.name("the name of a relation")?;
        if matches!(self.word_ahead(0), Some("some" | "every" | "someone" | "nobody" | "at")) {
            return Err(third(self.span()));
        }
        let to = self.person("`me` or `target`")?;
        if from.who == to.who && matches!(from.who, Who::Me | Who::Target) {
            return Err(self.alone(add, &from, &relation, event));
        }
        Ok(Effect { add, from, relation, to })
    }

    /// `add friend me target`, `me friend target`, `add target to my friends`, `target may load`.
    fn effect_in_english(&self, event: &str) -> Option<Mistake> {
        let ends = |place: &usize| {
            let next = (self.next + place).min(self.begins.len() - 1);
            *place > 0 && self.begins[next] || !matches!(self.ahead(*place), Token::Word(_))
        };
        let length = (0..12).find(ends)?;
        let words: Vec<&str> = (0..length).filter_map(|place| self.word_ahead(place)).collect();
        let adds = ["add", "remove"].contains(words.first()?);
        let span = self.span().to(self.span_ahead(length.checked_sub(1)?));
        if let [who @ ("me" | "target"), "may" | "can", other, ..] = words[usize::from(adds)..] {
            let message = "an effect changes relations; it does not say who may do what";
            let once = match who {
                "me" => format!("once me {event} someone"),
                _ => format!("once someone {event} me"),
            };
            let advice = format!("say it where `{other}` is declared: `event {other} when {once}`");
            return Some(Mistake::new(span, message).advise(advice));
        }
        let change = if words[0] == "remove" { "remove" } else { "add" };
        let said = self.changed(&words[usize::from(adds)..])?;
        let written = words.join(" ");
        let told = format!("{change} {said}");
        let message = format!("`{written}` is no effect");
        let people = words.iter().any(|word| ["me", "target", "my"].contains(word));
        let advice = match (people, said.split(' ').nth(1)) {
            (false, Some(name)) => {
                format!("say between whom: `{told}`, or `{change} target {name} me`")
            }
            _ => format!("write `{told}`"),
        };
        (written != told).then(|| Mistake::new(span, message).advise(advice))
    }

    /// The edge that the words of an effect speak of, as it is written here.
    fn changed(&self, words: &[&str]) -> Option<String> {
        let role = |word: &str| self.role(word);
        Some(match *words {
            [who @ ("me" | "target"), "is", noun, "of", whose] => {
                format!("{who} is {noun} of {whose}")
            }
            [who @ ("me" | "target"), "as" | "is", "a" | "an" | "the", noun, "of", whose]
            | [who @ ("me" | "target"), "as", noun, "of", whose] => {
                format!("{who} is {} of {whose}", role(noun)?)
            }
            [who @ ("me" | "target"), "to" | "from", "my" | "me", noun] if who != "me" => {
                format!("me {} {who}", role(noun)?)
            }
            [who @ ("me" | "target"), "to" | "from", "target" | "its", noun] if who != "target" => {
                format!("target {} {who}", role(noun)?)
            }
            [who @ ("me" | "target"), label, whom @ ("me" | "target")] if who != whom => {
                let (label, _) = self.label_of(label)?;
                let relation = Some(label).filter(|label| !self.events.contains(label))?;
                format!("{who} {relation} {whom}")
            }
            [label, who @ ("me" | "target"), whom @ ("me" | "target")] if who != whom => {
                format!("{who} {} {whom}", role(label)?)
            }
            [who @ ("me" | "target"), whom @ ("me" | "target"), label] if who != whom => {
                format!("{who} {} {whom}", role(label)?)
            }
            ["me", "to" | "from", noun] => format!("target {} me", role(noun)?),
            ["target", "to" | "from", noun] => format!("me {} target", role(noun)?),
            [label] | ["a" | "the", label] => format!("me {} target", role(label)?),
            _ => return None,
        })
    }

    /// What is said of an effect on one alone: `add target is suspended`.
    pub(super) fn alone(&self, add: bool, who: &Person, relation: &Name, event: &str) -> Mistake {
        if !matches!(who.who, Who::Me | Who::Target) {
            return third(who.span.to(self.last()));
        }
        let own = who.who == Who::Me;
        let whom = if own { "`me`" } else { "the target" };
        let does = |event: &str| match own {
            true => format!("p {event} someone"),
            false => format!("someone {event} p"),
        };
        let other = self.opposite(add, &relation.text).map(does);
        let body = match (add, other) {
            (true, Some(ends)) => format!("not {ends} since {}", does(event)),
            (true, None) => format!("once {}", does(event)),
            (false, Some(begins)) => format!("not {} since {begins}", does(event)),
            (false, None) => format!("never {}", does(event)),
        };
        let name = &relation.text;
        let instead = match self.declared.contains(name) {
            true => format!(", without `relation {name}`"),
            false => String::new(),
        };
        let advice =
            format!("remember it from the event instead{instead}: `define p is {name}: {body}`");
        let message = format!("an effect cannot change something about {whom} alone");
        Mistake::new(who.span.to(self.last()), message).advise(advice)
    }

    /// The event that has the contrary effect on one alone.
    fn opposite(&self, add: bool, relation: &str) -> Option<&str> {
        let word = |place: usize| match self.tokens.get(place) {
            Some((Token::Word(word), _)) => Some(word.as_str()),
            _ => None,
        };
        let contrary = if add { "remove" } else { "add" };
        let effect = (0..self.tokens.len()).find(|place| {
            word(*place) == Some(contrary) && {
                let said = [1, 2, 3].map(|after| word(place + after));
                said[1] == Some(relation) && said[0] == said[2]
                    || said[1] == Some("is")
                        && said[2] == Some(relation)
                        && word(place + 4) != Some("of")
            }
        })?;
        let declares = |place: &usize| matches!(word(*place), Some("event" | "events"));
        let event = (0..effect).rev().find(declares)?;
        word(event + 1)
    }
}
