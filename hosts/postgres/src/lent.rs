//! The words of a circle, on which the library answers.

use crate::libpq::Rows;
use crate::{words, Error, Told};
use cuckooormolu::{raw, Refusal, Request};
use cuckooormolu::{SCRATCH_WORDS, STATE_WORDS, TERMS_WORDS};

/// The words of the circle whose row was read last.
pub struct Lent {
    pub version: i64,
    pub terms: [u16; TERMS_WORDS],
    pub state: [u64; STATE_WORDS],
    scratch: [u64; SCRATCH_WORDS],
}

impl Lent {
    pub fn new() -> Lent {
        Lent {
            version: 0,
            terms: [0; TERMS_WORDS],
            state: [0; STATE_WORDS],
            scratch: [0; SCRATCH_WORDS],
        }
    }

    /// Takes the words of a row.
    pub fn take(&mut self, rows: &Rows, row: usize) -> Result<(), Error> {
        if rows.is_empty() {
            return Err(Error::NoCircle);
        }
        self.version = rows.number(row, 0);
        let [terms, state] = [1, 2].map(|column| rows.bytes(row, column));
        // Earlier versions did not pack words.
        let earlier = terms.len() == 2 * TERMS_WORDS && state.len() == 8 * STATE_WORDS;
        let wrong = |refusal| if earlier { Error::Earlier } else { Error::Damaged(refusal) };
        words::unpack(terms, &mut self.terms).ok_or_else(|| wrong(Refusal::BadTerms))?;
        words::unpack(state, &mut self.state).ok_or_else(|| wrong(Refusal::BadState))
    }

    /// Lets the library answer; and whether that made a moment.
    pub fn decide(&mut self, request: Request) -> Result<(Told, bool), Error> {
        // A moment leaves scratch 0, and anything else as it is lent.
        self.scratch[0] = 1;
        let told = raw::request(&self.terms, &mut self.state, &mut self.scratch, request.into());
        match told {
            Err(refusal) if refusal != Refusal::NoSuchName => Err(Error::Damaged(refusal)),
            told => Ok((told, self.scratch[0] == 0)),
        }
    }
}
