//! The tokens ahead, and what to say where another was expected.

use super::*;
use crate::names::{did_you_mean, nearest};

impl Parser {
    pub(super) fn token(&self) -> &Token {
        self.ahead(0)
    }

    /// The token some places ahead; the end goes on for ever.
    pub(super) fn ahead(&self, places: usize) -> &Token {
        &self.tokens[(self.next + places).min(self.tokens.len() - 1)].0
    }

    pub(super) fn span(&self) -> Span {
        self.tokens[self.next.min(self.tokens.len() - 1)].1
    }

    /// The stretch of a token that comes later.
    pub(super) fn span_ahead(&self, places: usize) -> Span {
        self.tokens[(self.next + places).min(self.tokens.len() - 1)].1
    }

    /// The stretch of the token read last.
    pub(super) fn last(&self) -> Span {
        self.tokens[self.next.saturating_sub(1)].1
    }

    /// The word read last.
    pub(super) fn last_word(&self) -> Option<&str> {
        match &self.tokens[self.next.saturating_sub(1)].0 {
            Token::Word(word) => Some(word),
            _ => None,
        }
    }

    pub(super) fn word_ahead(&self, places: usize) -> Option<&str> {
        match self.ahead(places) {
            Token::Word(word) => Some(word),
            _ => None,
        }
    }

    pub(super) fn is_word(&self, word: &str) -> bool {
        self.word_ahead(0) == Some(word)
    }

    pub(super) fn is_sign(&self, sign: char) -> bool {
        *self.token() == Token::Sign(sign)
    }

    /// Whether a word some places ahead can be a name. `keep` is one, but not
    /// where `denied` follows: that begins a statement.
    pub(super) fn name_ahead(&self, places: usize) -> bool {
        let keeping = |word: &str| word == "keep" && self.word_ahead(places + 1) == Some("denied");
        self.word_ahead(places).is_some_and(|word| !WORDS.contains(&word) && !keeping(word))
    }

    /// Reads a word if it comes next.
    pub(super) fn take(&mut self, word: &str) -> bool {
        let there = self.is_word(word);
        self.next += usize::from(there);
        there
    }

    pub(super) fn take_sign(&mut self, sign: char) -> bool {
        let there = self.is_sign(sign);
        self.next += usize::from(there);
        there
    }

    /// The mistake that something else was expected here.
    /// Where the statement ends, its own end is shown and not the next one.
    pub(super) fn expected(&self, what: &str, known: &[&str]) -> Mistake {
        if self.is_cut_off() && *self.token() != Token::End {
            let message = format!("expected {what}, but the statement ends here");
            return Mistake::new(self.last(), message);
        }
        let (found, hint) = match self.token() {
            Token::Word(word) if known.contains(&word.as_str()) => (format!("`{word}`"), "".into()),
            Token::Word(word) => (format!("`{word}`"), did_you_mean(word, known.iter().copied())),
            Token::Number(number) => (format!("`{number}`"), String::new()),
            Token::Sign(sign) => (format!("`{sign}`"), String::new()),
            Token::Quoted(words) => (format!("\"{words}\""), String::new()),
            Token::End => ("the end of the file".to_string(), String::new()),
        };
        let span = if *self.token() == Token::End { self.last() } else { self.span() };
        let mistake = Mistake::new(span, format!("expected {what}, found {found}{hint}"));
        match self.token() {
            Token::Word(word)
                if known.iter().any(|known| *known == word.to_lowercase() && known != word) =>
            {
                mistake.advise("the words of the language are written in small letters")
            }
            Token::Word(word) if !hint.is_empty() => {
                let near = nearest(word, known.iter().copied()).unwrap_or_default();
                mistake.advise(format!("write `{near}`, if that is meant"))
            }
            _ => mistake,
        }
    }

    pub(super) fn want_sign(&mut self, sign: char, after: &str) -> Result<(), Mistake> {
        if self.take_sign(sign) {
            Ok(())
        } else {
            let advice = format!("put a `{sign}` here");
            Err(self.expected(&format!("`{sign}` {after}"), &[]).advise(advice))
        }
    }

    /// Reads a name, given what it is the name of.
    pub(super) fn name(&mut self, what: &str) -> Result<Name, Mistake> {
        let span = self.span();
        match self.token().clone() {
            Token::Word(word) if WORDS.contains(&word.as_str()) && !self.is_cut_off() => {
                let message = format!("expected {what}; `{word}` is reserved");
                let advice = match word.as_str() {
                    "me" | "target" | "here" => {
                        "who that is depends on the request; name a member".to_string()
                    }
                    _ => format!("choose another name, such as `{word}-1`"),
                };
                Err(Mistake::new(span, message).advise(advice))
            }
            Token::Word(text) if !WORDS.contains(&text.as_str()) => {
                self.next += 1;
                Ok(Name { text, span })
            }
            Token::Sign(':') if self.last_word().is_some_and(|word| STATEMENTS.contains(&word)) => {
                Err(self.expected(what, &[]).advise("delete the `:`"))
            }
            _ => Err(self
                .expected(what, &[])
                .advise("a name is missing here: letters, digits, `-` or `_`")),
        }
    }

    /// Whether a relation, an event or `denied` comes some places ahead.
    pub(super) fn label_ahead(&self, places: usize) -> bool {
        self.name_ahead(places) || self.word_ahead(places) == Some("denied")
    }

    /// Reads the name of a relation or an event, or `denied` and that of an
    /// event; these two words are one name.
    pub(super) fn label(&mut self, what: &str) -> Result<Name, Mistake> {
        let span = self.span();
        if !self.take("denied") {
            return self.name(what);
        }
        if let Some(mistake) = self.denied_nothing() {
            return Err(mistake);
        }
        let event = self.name("the name of an event after `denied`")?;
        Ok(Name { text: format!("denied {}", event.text), span: span.to(event.span) })
    }

    /// Reads names separated by commas.
    pub(super) fn names(&mut self, what: &str) -> Result<Vec<Name>, Mistake> {
        let mut names = vec![self.name(what)?];
        while self.take_sign(',') {
            names.push(self.name(what)?);
        }
        Ok(names)
    }
}
