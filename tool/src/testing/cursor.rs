//! The words of a statement, one after another, and what to say where another was due.

use super::lines::Word;
use super::read::Reader;
use crate::source::ast::Span;
use crate::source::mistake::Mistake;

impl<'a> Reader<'a> {
    pub(super) fn word(&mut self, what: &str) -> Result<Word<'a>, Mistake> {
        let word = *self.words.get(self.next).ok_or_else(|| self.expected(what))?;
        if word.is(",") {
            return Err(self.expected(what));
        }
        self.next += 1;
        Ok(word)
    }

    pub(super) fn take(&mut self, word: &str) -> bool {
        let there = self.words.get(self.next).is_some_and(|next| next.is(word));
        self.next += usize::from(there);
        there
    }

    pub(super) fn ends(&self, what: &str) -> Result<(), Mistake> {
        match self.words.get(self.next) {
            None => Ok(()),
            Some(_) => Err(self.expected(what)),
        }
    }

    pub(super) fn expected(&self, what: &str) -> Mistake {
        let found = self.words.get(self.next);
        let found =
            found.map_or("the end of the line".to_string(), |word| format!("`{}`", word.text));
        Mistake::new(self.span(), format!("expected {what}, found {found}"))
    }

    /// The stretch of the next word, or the end of the statement.
    pub(super) fn span(&self) -> Span {
        self.words
            .get(self.next)
            .map_or_else(|| Span { start: self.last().end, end: self.last().end }, |word| word.span)
    }

    /// The stretch of the word read last.
    pub(super) fn last(&self) -> Span {
        self.words[self.next.saturating_sub(1).min(self.words.len() - 1)].span
    }
}
