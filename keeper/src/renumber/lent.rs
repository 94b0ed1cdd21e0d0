//! A renumbering as a step, and over lent memory.

use super::Numbering;
use crate::expect;
use crate::record::Record;
use crate::terms::memory::{STATE_WORDS, TERMS_WORDS};
use crate::terms::Refusal;
use std::fmt;

/// A list of numbers as it is lent, and how many words are lent besides.
#[derive(Clone, Debug, PartialEq, Eq)]
pub struct Renumbering {
    pub numbers: Vec<u8>,
    /// Words of terms and of state, as far as there are so many.
    pub terms_words: usize,
    pub state_words: usize,
    pub second_words: usize,
}

impl Renumbering {
    /// A renumbering that lends as many words as are named.
    pub fn by(numbers: &[u8]) -> Renumbering {
        Renumbering {
            numbers: numbers.to_vec(),
            terms_words: TERMS_WORDS,
            state_words: STATE_WORDS,
            second_words: STATE_WORDS,
        }
    }

    /// The keeper's answer. Terms and state are those of its record, so only their
    /// lengths can be wrong.
    pub fn answer(&self, record: &mut Record) -> Result<(), Refusal> {
        let states = self.state_words.min(self.second_words);
        if self.terms_words < TERMS_WORDS || states < STATE_WORDS {
            return Err(Refusal::plain(6));
        }
        record.renumber(&self.numbers)
    }
}

impl fmt::Display for Renumbering {
    fn fmt(&self, out: &mut fmt::Formatter<'_>) -> fmt::Result {
        let Renumbering { numbers, terms_words, state_words, second_words } = self;
        write!(out, "  other numbers {numbers:?}; of terms {terms_words}, ")?;
        writeln!(out, "of state {state_words}, of second state {second_words} words")
    }
}

impl Record {
    /// Goes on with the members' new numbers in every graph so far; no moment is
    /// made. Terms and starts stay. Where moments before the first graph are not
    /// known, what is said of them is said of the new numbers. Refused with 15, all
    /// as it was, where the list gives no numbering.
    pub fn renumber(&mut self, numbers: &[u8]) -> Result<(), Refusal> {
        let numbering = Numbering::of(self.terms().members, numbers)?;
        self.rewrite(|graph| numbering.graph(graph), |table| numbering.table(table));
        Ok(())
    }
}

/// A renumbering over lent memory: the record that goes on, or the refusal. Its
/// state is what the second state has to hold.
pub fn renumbering(
    terms: &[u16],
    state: &[u64],
    numbers: &[u8],
    second_words: usize,
) -> Result<Record, Refusal> {
    if second_words < STATE_WORDS {
        return Err(Refusal::plain(6));
    }
    let (terms, state) = expect::lent(terms, state)?;
    let mut record = expect::going_on(&terms, &state);
    record.renumber(numbers)?;
    Ok(record)
}
