//! Reads formulas.

use super::sentence::PEOPLE;
use super::*;

/// What can begin a formula, for messages.
#[rustfmt::skip]
const BEGINNINGS: [&str; 19] = [
    "not", "once", "always", "never", "previously", "some", "every", "at", "as", "true", "false", "me",
    "target", "here", "someone", "nobody", "and", "or", "since",
];

/// Makes a formula of the one or two that an operator takes.
type Unary = fn(Part) -> Kind;
type Binary = fn(Part, Part) -> Kind;

impl Parser {
    /// One formula, as long as it goes. `and`, `or` and `since` don't stand
    /// side by side without parentheses.
    pub(super) fn formula(&mut self) -> Result<Formula, Mistake> {
        self.enter()?;
        let mut formula = self.part()?;
        let mut height = self.height;
        let mut before: Option<String> = None;
        while let Some((word, make)) = self.operator() {
            if let Some(first) = before.filter(|first| *first != word || word == "since") {
                let message = format!("`{word}` after `{first}`: which of the two goes first?");
                let advice = format!(
                    "put parentheses around what goes first: `a {first} (b {word} c)` or `(a {first} b) {word} c`"
                );
                return Err(Mistake::new(self.span(), message).advise(advice));
            }
            self.next += 1;
            let other = self.part()?;
            if let Some(mistake) = self.who_again(&formula, &word, &other) {
                return Err(mistake);
            }
            height = height.max(self.height) + 1;
            if height > TALLEST {
                let message = format!("more than {TALLEST} parts stand side by side");
                return Err(
                    Mistake::new(other.span, message).advise("give a part a name: define ...")
                );
            }
            let span = formula.span.to(other.span);
            formula = Formula { kind: make(Box::new(formula), Box::new(other)), span };
            before = Some(word);
        }
        self.depth -= 1;
        self.height = height;
        Ok(formula)
    }

    /// One more formula inside others.
    fn enter(&mut self) -> Result<(), Mistake> {
        self.depth += 1;
        if self.depth > DEEPEST {
            let message = format!("formulas are nested more than {DEEPEST} deep");
            return Err(Mistake::new(self.span(), message).advise("give a part a name: define ..."));
        }
        Ok(())
    }

    fn operator(&self) -> Option<(String, Binary)> {
        let word = self.word_ahead(0)?;
        let make: Binary = match word {
            "and" => Kind::And,
            "or" => Kind::Or,
            "since" => Kind::Since,
            _ => return None,
        };
        Some((word.to_string(), make))
    }

    /// A formula without `and`, `or` or `since` at its top.
    fn part(&mut self) -> Result<Formula, Mistake> {
        let start = self.span();
        let unary: Option<Unary> = match self.word_ahead(0) {
            Some("not") => Some(Kind::Not),
            Some("once") => Some(Kind::Once),
            Some("always") => Some(Kind::Always),
            Some("never") => Some(Kind::Never),
            Some("previously") => Some(Kind::Previously),
            _ => None,
        };
        let kind = if let Some(make) = unary {
            self.next += 1;
            self.enter()?;
            if self.last_word() == Some("never") && self.is_word("once") {
                let warning = Mistake::new(self.span(), "`once` adds nothing after `never`");
                self.warnings.push(warning.advise("leave it out"));
            }
            if self.last_word() == Some("not") && self.is_word("never") {
                let warning = Mistake::new(self.last(), "`not never` is the same as `once`");
                self.warnings.push(warning.advise("leave out `not`, or write `once`"));
            }
            let part = self.part()?;
            self.depth -= 1;
            self.height += 1;
            make(Box::new(part))
        } else if self.take_sign('(') {
            let formula = self.formula()?;
            if !self.take_sign(')') {
                return Err(self.not_closed(start));
            }
            formula.kind
        } else {
            self.height = 0;
            let kind = self.sentence()?;
            self.height += 1;
            kind
        };
        Ok(Formula { kind, span: start.to(self.last()) })
    }

    fn sentence(&mut self) -> Result<Kind, Mistake> {
        let english = self.sentence_of_times().or_else(|| self.denied_alone());
        if let Some(mistake) = english.or_else(|| self.mine_may()) {
            return Err(mistake);
        }
        if self.is_word("at") && self.word_ahead(1) != Some("least") && self.amount().is_none() {
            self.next += 1;
            let person = self.person("whom it is said of, or `least`")?;
            return Ok(Kind::At(person, self.body("after `at` and a name")?));
        }
        if self.take("as") {
            let name = self.name("a name")?;
            return Ok(Kind::As(name, self.body("after `as` and a name")?));
        }
        if self.take("true") {
            return Ok(Kind::True);
        }
        if self.take("false") {
            return Ok(Kind::False);
        }
        if let Some(mistake) = self.in_english() {
            return Err(mistake);
        }
        if let Some(quantifier) = self.quantifier()? {
            return self.walk_to(quantifier);
        }
        let special = self.word_ahead(0).is_some_and(|word| PEOPLE.contains(&word));
        if special {
            return self.told();
        }
        let english = self.beginning().or_else(|| self.label_first());
        if let Some(mistake) = english.or_else(|| self.lone()) {
            return Err(mistake);
        }
        if !self.name_ahead(0) {
            return Err(self.no_formula(&BEGINNINGS));
        }
        let english = self.other_quantifier().or_else(|| self.article());
        if let Some(mistake) = english.or_else(|| self.owner_of()) {
            return Err(mistake);
        }
        if matches!(self.word_ahead(1), Some("is" | "not")) || self.label_ahead(1) {
            return self.told();
        }
        let name = self.name("a definition")?;
        let mut people = Vec::new();
        if self.take_sign('(') {
            people.push(self.person("somebody")?);
            while self.take_sign(',') {
                people.push(self.person("somebody")?);
            }
            self.want_sign(')', "after the people")?;
        }
        Ok(Kind::Defined(name, people))
    }

    pub(super) fn body(&mut self, after: &str) -> Result<Part, Mistake> {
        self.want_sign(':', after)?;
        Ok(Box::new(self.formula()?))
    }
}
