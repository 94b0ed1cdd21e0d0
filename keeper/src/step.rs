//! What is done once a text is read: calls, and new terms and other numbers for
//! the members among them.

use crate::record::{Call, Record};
use crate::renumber::Renumbering;
use crate::terms::memory::{self, STATE_WORDS, TERMS_WORDS};
use crate::terms::{self, Refusal, Terms};
use std::fmt;

/// One step of a run.
#[derive(Clone, Debug, PartialEq, Eq)]
pub enum Step {
    Call(Call),
    Revision(Revision),
    Renumbering(Renumbering),
}

/// New terms as they are lent, and how many words are lent besides.
#[derive(Clone, Debug, PartialEq, Eq)]
pub struct Revision {
    pub terms: Vec<u16>,
    /// Words of the old terms and of the old state, as far as there are so many.
    pub old_terms_words: usize,
    pub old_state_words: usize,
    pub second_words: usize,
}

impl Revision {
    /// A revision that lends as many words as are named.
    pub fn to(terms: &Terms) -> Revision {
        Revision {
            terms: memory::terms_words(terms),
            old_terms_words: TERMS_WORDS,
            old_state_words: STATE_WORDS,
            second_words: STATE_WORDS,
        }
    }

    /// The same with other terms, of which just the named words are lent.
    pub fn with_terms(&self, terms: &Terms) -> Revision {
        Revision { terms: memory::terms_words(terms), ..self.clone() }
    }

    /// The new terms; none if no accepted file yields them.
    pub fn said(&self) -> Option<Terms> {
        let enough = self.terms.len() >= TERMS_WORDS;
        enough.then(|| memory::terms_of_words(&self.terms)).flatten()
    }

    /// The keeper's answer. Old terms and old state are those of its record, so
    /// only their lengths can be wrong.
    pub fn answer(&self, record: &mut Record) -> Result<(), Refusal> {
        let short = self.terms.len().min(self.old_terms_words) < TERMS_WORDS
            || self.second_words.min(self.old_state_words) < STATE_WORDS;
        if short {
            return Err(Refusal::plain(6));
        }
        record.revise(&self.said().ok_or(Refusal::plain(7))?)
    }
}

impl fmt::Display for Step {
    fn fmt(&self, out: &mut fmt::Formatter<'_>) -> fmt::Result {
        match self {
            Step::Call(Call { look, event, from, to, scratch_words }) => {
                let kind = if *look { "look" } else { "request" };
                writeln!(out, "  {kind} {event} {from} {to} with {scratch_words} words of scratch")
            }
            Step::Revision(revision) => revision.fmt(out),
            Step::Renumbering(renumbering) => renumbering.fmt(out),
        }
    }
}

impl fmt::Display for Revision {
    fn fmt(&self, out: &mut fmt::Formatter<'_>) -> fmt::Result {
        let Revision { terms, old_terms_words, old_state_words, second_words } = self;
        let count = terms.len();
        write!(out, "  new terms, {count} words; of old terms {old_terms_words}, ")?;
        writeln!(out, "of old state {old_state_words}, of second state {second_words} words")?;
        let Some(said) = self.said() else {
            return writeln!(out, "    {terms:?}");
        };
        let text = terms::write(&said, &said.edges);
        for line in text.split_inclusive(|&byte| byte == b'\n') {
            writeln!(out, "    {}", line.escape_ascii())?;
        }
        Ok(())
    }
}
