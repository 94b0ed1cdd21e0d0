//! What each call over the memory of two banks must give.

use super::lent::{Lent, Loan, OWN_WORDS};
use super::step::Deed;
use super::Banks;
use crate::terms::memory::{self, State, SCRATCH_WORDS};
use crate::terms::{self, Refusal, Terms};

/// Reading a text into memory: both banks at moment 0, or the refusal.
pub fn reading(text: &[u8], lent: &Lent) -> Result<Banks, Refusal> {
    if lent.is_short() {
        return Err(Refusal::plain(6));
    }
    terms::read_old(text).map(Banks::new)
}

/// Opening: both banks at moment 0 with the relations that are there, or the
/// refusal. Nothing is asked of their own words.
pub fn opening(lent: &Lent) -> Result<Banks, Refusal> {
    if lent.is_short() {
        return Err(Refusal::plain(6));
    }
    let terms = good_terms(&lent.terms)?;
    let mut blank = lent.clone();
    blank.own[0][..OWN_WORDS].fill(0);
    let State { edges, .. } = good_state(&terms, &blank, 0)?;
    Ok(Banks::new(Terms { edges, ..terms }))
}

/// What comes before a deed: the banks that do it, going on from the lent words,
/// or refusal 6, 7 or 8.
pub fn ready(deed: &Deed, loan: &Loan) -> Result<Banks, Refusal> {
    let Loan { lent, scratch, second } = loan;
    let is_short = match deed {
        Deed::Revision(_) => second.is_short(),
        _ => scratch.iter().any(|scratch| scratch.len() < SCRATCH_WORDS),
    };
    if is_short || lent.is_short() {
        return Err(Refusal::plain(6));
    }
    let terms = good_terms(&lent.terms)?;
    if let Deed::Revision(_) = deed {
        good_terms(&second.terms)?;
    }
    let states = [good_state(&terms, lent, 0)?, good_state(&terms, lent, 1)?];
    Ok(Banks::going_on(&terms, &states))
}

fn good_terms(words: &[u16]) -> Result<Terms, Refusal> {
    memory::terms_of_words(words).ok_or(Refusal::plain(7))
}

fn good_state(terms: &Terms, lent: &Lent, bank: usize) -> Result<State, Refusal> {
    memory::state_of_words(terms, &lent.state(bank)).ok_or(Refusal::plain(8))
}
