//! What each call over lent memory must give.

use crate::plan::{self, Plan, Question};
use crate::record::{Call, Record};
use crate::terms::memory::{self, State, SCRATCH_WORDS, STATE_WORDS, TERMS_WORDS};
use crate::terms::{self, File, Refusal, Terms};

/// Reading a text into memories of the given lengths: the named words of
/// terms and state, or the refusal.
pub fn reading(
    text: &[u8],
    terms_length: usize,
    state_length: usize,
) -> Result<(Vec<u16>, Vec<u64>), Refusal> {
    if terms_length < TERMS_WORDS || state_length < STATE_WORDS {
        return Err(Refusal::plain(6));
    }
    let record = Record::of(terms::read(text)?);
    Ok((memory::terms_words(record.terms()), record.state_words()))
}

/// The terms and state in the lent memory, or refusal 6, 7 or 8.
pub fn lent(terms: &[u16], state: &[u64]) -> Result<(Terms, State), Refusal> {
    if terms.len() < TERMS_WORDS || state.len() < STATE_WORDS {
        return Err(Refusal::plain(6));
    }
    let terms = memory::terms_of_words(terms).ok_or(Refusal::plain(7))?;
    let state = memory::state_of_words(&terms, state).ok_or(Refusal::plain(8))?;
    Ok((terms, state))
}

/// The two forms that are written.
#[derive(Clone, Copy, Debug, PartialEq, Eq)]
pub enum Form {
    Old,
    Stored,
}

impl Form {
    /// Writing this form: the text, or the refusal.
    pub fn writing(
        self,
        terms: &[u16],
        state: &[u64],
        output_length: usize,
    ) -> Result<Vec<u8>, Refusal> {
        match self {
            Form::Old => writing(terms, state, output_length),
            Form::Stored => storing(terms, state, output_length),
        }
    }
}

/// Writing the old form: the text, or the refusal. The state has to be a fresh
/// start of its own relations.
pub fn writing(terms: &[u16], state: &[u64], output_length: usize) -> Result<Vec<u8>, Refusal> {
    let (terms, state) = lent(terms, state)?;
    // A fresh start has no event edge, so only without one are tables worked out.
    if state.past.event.is_some() || fresh(&terms, &state).state() != state {
        return Err(Refusal::plain(12));
    }
    fitting(terms::write(&terms, &state.edges), output_length)
}

/// Writing the stored form: the text, or the refusal.
pub fn storing(terms: &[u16], state: &[u64], output_length: usize) -> Result<Vec<u8>, Refusal> {
    let (terms, state) = lent(terms, state)?;
    fitting(terms::store(&terms, &state), output_length)
}

/// The record that begins with the relations of a state, at moment 0.
pub fn fresh(terms: &Terms, state: &State) -> Record {
    Record::new(Terms { edges: state.edges.clone(), ..terms.clone() })
}

/// The record that goes on from a state, whatever made it.
pub fn going_on(terms: &Terms, state: &State) -> Record {
    Record::of(File::stored(terms, state))
}

/// A text, if the output has room for it.
fn fitting(text: Vec<u8>, output_length: usize) -> Result<Vec<u8>, Refusal> {
    if output_length < text.len() {
        return Err(Refusal::plain(6));
    }
    Ok(text)
}

/// What comes before the records of a set list over lent memory: the terms
/// and state it is answered by, or refusal 6, 7 or 8.
pub fn listing(
    terms: &[u16],
    state: &[u64],
    scratch_words: usize,
) -> Result<(Terms, State), Refusal> {
    let short =
        terms.len() < TERMS_WORDS || state.len() < STATE_WORDS || scratch_words < SCRATCH_WORDS;
    if short {
        return Err(Refusal::plain(6));
    }
    lent(terms, state)
}

/// A revision over lent memory: the record that goes on under the new terms, or
/// the refusal. Its state is what the second state has to hold.
pub fn revising(
    old_terms: &[u16],
    old_state: &[u64],
    new_terms: &[u16],
    second_words: usize,
) -> Result<Record, Refusal> {
    let short = old_terms.len().min(new_terms.len()) < TERMS_WORDS
        || old_state.len().min(second_words) < STATE_WORDS;
    if short {
        return Err(Refusal::plain(6));
    }
    let old = memory::terms_of_words(old_terms).ok_or(Refusal::plain(7))?;
    let new = memory::terms_of_words(new_terms).ok_or(Refusal::plain(7))?;
    let state = memory::state_of_words(&old, old_state).ok_or(Refusal::plain(8))?;
    let mut record = going_on(&old, &state);
    record.revise(&new)?;
    Ok(record)
}

/// A request or look over lent memory: the terms and state it is decided by,
/// or the refusal. The decision itself is the record's.
pub fn calling(terms: &[u16], state: &[u64], call: &Call) -> Result<(Terms, State), Refusal> {
    let (terms, state) = listing(terms, state, call.scratch_words)?;
    if !terms.has(call.event, call.from, call.to) {
        return Err(Refusal::plain(9));
    }
    Ok((terms, state))
}

/// A plan over lent memory: whether it is accepted, or the refusal. Its tables
/// stand for the record.
pub fn planning(terms: &[u16], state: &[u64], plan: &Plan) -> Result<bool, Refusal> {
    if plan.scratch_words < plan::SCRATCH_WORDS {
        return Err(Refusal::plain(6));
    }
    let (terms, state) = lent(terms, state)?;
    going_on(&terms, &state).judge(plan)
}

/// Whether an entry holds now at a pair, over lent memory, or the refusal.
pub fn telling(terms: &[u16], state: &[u64], question: &Question) -> Result<bool, Refusal> {
    let (terms, state) = lent(terms, state)?;
    going_on(&terms, &state).tell(question)
}
