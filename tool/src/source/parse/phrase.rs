//! People as English names them, `my friends` or `the owner of target`, and how they are sought.

use super::*;
use crate::aloud::verbs::verb;
use crate::source::kinds::{singular, singulars};

/// Words that are put before a noun in English, and not here.
const ARTICLES: [&str; 3] = ["the", "a", "an"];

/// Somebody, and how they are found.
pub(super) struct Phrase {
    /// What stands before a sentence about them, `some friend of me as f: `, if anything.
    pub seek: String,
    /// What they are called after it.
    pub who: String,
    /// The place after the phrase.
    pub end: usize,
}

impl Parser {
    /// The people that are named some places ahead. The quantity is that of the last who is
    /// sought.
    pub(super) fn phrase(&self, place: usize, quantity: &str) -> Option<Phrase> {
        let place = self.past_article(place);
        let word = self.word_ahead(place)?;
        let plain =
            |who: &str| Some(Phrase { seek: String::new(), who: who.to_string(), end: place + 1 });
        match word {
            "me" | "target" | "here" => return plain(word),
            _ if self.in_sight(word) => return plain(word),
            "I" | "i" => return plain("me"),
            "my" => return self.related(self.word_ahead(place + 1)?, "me", quantity, place + 2),
            "its" => {
                return self.related(self.word_ahead(place + 1)?, "target", quantity, place + 2)
            }
            "someone" | "somebody" | "anyone" => return self.who_does(place + 1),
            "some" | "any" => return self.phrase(place + 1, "some"),
            _ => {}
        }
        if self.word_ahead(place + 1) == Some("of") {
            let whose = self.phrase(place + 2, "some")?;
            let own = self.related(word, &whose.who, quantity, whose.end)?;
            return Some(Phrase { seek: whose.seek + &own.seek, ..own });
        }
        self.agent(word)?;
        self.related(word, "target", quantity, place + 1)
    }

    /// The place after an article, if one comes there.
    pub(super) fn past_article(&self, place: usize) -> usize {
        let article = |word: &str| ARTICLES.contains(&word) && !self.in_sight(word);
        place + usize::from(self.word_ahead(place).is_some_and(article))
    }

    /// Who is something to somebody: a friend, an owner.
    pub(super) fn related(
        &self,
        noun: &str,
        whose: &str,
        quantity: &str,
        end: usize,
    ) -> Option<Phrase> {
        if let Some(relation) = self.role(noun) {
            let who = relation.chars().next()?.to_string();
            let seek = format!("{quantity} {relation} of {whose} as {who}: ");
            return Some(Phrase { seek, who, end });
        }
        let (relation, who) = (self.agent(noun)?, singular(noun));
        Some(Phrase { seek: format!("{quantity} {who} {relation} {whose}: "), who, end })
    }

    /// `who owns target`, after `someone`.
    fn who_does(&self, place: usize) -> Option<Phrase> {
        if !matches!(self.word_ahead(place), Some("who" | "that")) {
            return None;
        }
        let (label, done) = self.label_of(self.word_ahead(place + 1)?)?;
        let whom = self.phrase(place + 2, "some").filter(|whom| whom.seek.is_empty() && !done)?;
        let seek = format!("some x {label} {}: ", whom.who);
        Some(Phrase { seek, who: "x".to_string(), end: whom.end })
    }

    /// The relation of which a noun is the name, in the singular or not.
    pub(super) fn role(&self, noun: &str) -> Option<String> {
        let forms = std::iter::once(noun.to_string()).chain(singulars(noun));
        let is_relation =
            |form: &String| self.declared.contains(form) && !self.events.contains(form);
        forms.into_iter().find(is_relation)
    }

    /// The relation of which somebody is the subject: `owner` or `owners` for `owns`.
    pub(super) fn agent(&self, noun: &str) -> Option<String> {
        let noun = singular(noun);
        let is_agent = |name: &&String| {
            let base = verb(name).map(|verb| verb.base).unwrap_or_default();
            noun == format!("{base}er") || base.ends_with('e') && noun == format!("{base}r")
        };
        let relations = self.declared.iter().filter(|name| !self.events.contains(*name));
        relations.filter(is_agent).min().cloned()
    }

    /// The relation or event of which a word is a form, and whether the form tells of the past.
    pub(super) fn label_of(&self, word: &str) -> Option<(String, bool)> {
        if self.declared.contains(word) {
            return Some((word.to_string(), false));
        }
        let said = |name: &&String| {
            let verb = verb(name);
            let forms = verb.map(|verb| [verb.base, verb.third, verb.past, verb.participle]);
            forms.is_some_and(|forms| forms.iter().any(|form| form == word))
        };
        let name = self.declared.iter().filter(said).min()?;
        let now = verb(name).is_some_and(|verb| verb.base == word || verb.third == word);
        Some((name.clone(), !now && self.events.contains(name)))
    }

    /// The kind that a word names, in the singular or not.
    pub(super) fn kind(&self, word: &str) -> Option<String> {
        let is_kind = |kind: &&String| **kind == word || singular(kind) == word;
        self.kinds.iter().find(is_kind).map(|kind| singular(kind))
    }

    /// Whether the present statement gives somebody a name before this place.
    pub(super) fn in_sight(&self, name: &str) -> bool {
        let word = |place: usize| match &self.tokens[place].0 {
            Token::Word(word) => word.as_str(),
            _ => "",
        };
        let begins = |place: &usize| self.begins[*place] && STATEMENTS.contains(&word(*place));
        let start = (0..self.next).rev().find(begins).unwrap_or(0);
        let head = (start..self.next).find(|place| self.tokens[*place].0 == Token::Sign(':'));
        let head = head.filter(|_| word(start) == "define").unwrap_or(start);
        (start + 1..self.next).filter(|place| word(*place) == name).any(|place| {
            let counted = matches!(self.tokens[place - 1].0, Token::Number(_));
            place < head || counted || ["some", "every", "as"].contains(&word(place - 1))
        })
    }
}
