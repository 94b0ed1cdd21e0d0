//! Holds another implementation against the record, call by call.

pub mod banks;
mod lists;
pub mod plans;
mod renumberings;
mod revisions;
mod written;

pub use lists::{lists, set_list};
pub use renumberings::{renumber, renumbered_list, renumbered_steps};
pub use revisions::revise;
pub use written::write;

use crate::expect::{self, Form};
use crate::generate::{Case, Rng};
use crate::record::{Answer, Call, Record};
use crate::set_list::Item;
use crate::step::Step;
use crate::terms::memory::{SCRATCH_WORDS, STATE_WORDS, TERMS_WORDS};
use crate::terms::{self, memory, Refusal};
use renumberings::record_renumbering;
use revisions::record_revision;
use written::written_back;

/// Another implementation, spoken to by slices and numbers.
pub trait Other {
    /// Reads a text into the lent memory.
    fn read(&mut self, text: &[u8], terms: &mut [u16], state: &mut [u64]) -> Result<(), Refusal>;

    /// Answers a request or a look. The scratch is as long as the call says.
    fn call(
        &mut self,
        call: &Call,
        terms: &mut [u16],
        state: &mut [u64],
        scratch: &mut [u64],
    ) -> Answer;

    /// Answers a set list and gives the count of grants.
    fn set_list(
        &mut self,
        terms: &mut [u16],
        state: &mut [u64],
        scratch: &mut [u64],
        items: &mut [Item],
    ) -> Result<usize, Refusal>;

    /// Fills a second state in under other terms.
    fn revise(
        &mut self,
        old_terms: &mut [u16],
        old_state: &mut [u64],
        new_terms: &mut [u16],
        second: &mut [u64],
    ) -> Result<(), Refusal>;

    /// Fills a second state in by other numbers for the members.
    fn renumber(
        &mut self,
        terms: &mut [u16],
        state: &mut [u64],
        numbers: &mut [u8],
        second: &mut [u64],
    ) -> Result<(), Refusal>;

    /// Writes a text of the old form and gives the count of its bytes.
    fn write(&mut self, terms: &[u16], state: &[u64], output: &mut [u8]) -> Result<usize, Refusal>;

    /// Writes a text of the stored form and gives the count of its bytes.
    fn store(&mut self, terms: &[u16], state: &[u64], output: &mut [u8]) -> Result<usize, Refusal>;
}

/// What differed, in words.
pub type Difference = String;

/// Words lent beyond those named; they must stay as they are.
const BEYOND: usize = 5;

fn equal<T: PartialEq + std::fmt::Debug>(what: &str, got: T, wanted: T) -> Result<(), Difference> {
    if got == wanted {
        Ok(())
    } else {
        Err(format!("{what}: got {got:?}, wanted {wanted:?}"))
    }
}

/// Compares word by word and names the first that differs.
fn same<T: PartialEq + std::fmt::Debug>(
    what: &str,
    got: &[T],
    wanted: &[T],
) -> Result<(), Difference> {
    if got.len() != wanted.len() {
        return equal(&format!("{what}, length"), got.len(), wanted.len());
    }
    match got.iter().zip(wanted).position(|(got, wanted)| got != wanted) {
        None => Ok(()),
        Some(place) => equal(&format!("{what}, word {place}"), &got[place], &wanted[place]),
    }
}

/// Lent memory full of noise.
struct Lent {
    terms: Vec<u16>,
    state: Vec<u64>,
}

impl Lent {
    fn noise(rng: &mut Rng, terms: usize, state: usize) -> Lent {
        let terms = (0..terms).map(|_| rng.draw() as u16).collect();
        Lent { terms, state: noise(rng, state) }
    }
}

fn noise(rng: &mut Rng, count: usize) -> Vec<u64> {
    (0..count).map(|_| rng.draw()).collect()
}

/// As many words as are lent, or all there are.
fn front<T>(words: &[T], count: usize) -> &[T] {
    &words[..count.min(words.len())]
}

/// Replaces the front of the lent words.
fn over<T: Copy>(lent: &[T], front: &[T]) -> Vec<T> {
    [front, &lent[front.len()..]].concat()
}

/// Reads a text into memories of the given lengths; every word is compared.
pub fn read(
    other: &mut impl Other,
    text: &[u8],
    terms_length: usize,
    state_length: usize,
) -> Result<(), Difference> {
    let mut rng = Rng::new(text.len() as u64);
    read_into(other, text, &mut Lent::noise(&mut rng, terms_length, state_length))
}

fn read_into(other: &mut impl Other, text: &[u8], lent: &mut Lent) -> Result<(), Difference> {
    let wanted = expect::reading(text, lent.terms.len(), lent.state.len());
    let (mut terms, mut state) = (lent.terms.clone(), lent.state.clone());
    let got = other.read(text, &mut terms, &mut state);
    equal("reading", got, wanted.as_ref().map(|_| ()).map_err(|refusal| *refusal))?;
    let (front_terms, front_state) = wanted.unwrap_or_default();
    same("terms after reading", &terms, &over(&lent.terms, &front_terms))?;
    same("state after reading", &state, &over(&lent.state, &front_state))?;
    *lent = Lent { terms, state };
    Ok(())
}

/// Reads a case's text, which comes back in its normal form, and takes its
/// steps; after each, the answer and every word lent is compared, and the text
/// is written out in both forms. Now and then all is stored, loaded into other
/// memory, and goes on from there.
pub fn case(other: &mut impl Other, case: &Case) -> Result<(), Difference> {
    let mut rng = Rng::new(case.seed);
    let mut lent = Lent::noise(&mut rng, TERMS_WORDS + BEYOND, STATE_WORDS + BEYOND);
    read_into(other, &case.text, &mut lent)?;
    let Ok(file) = terms::read(&case.text) else {
        return Ok(());
    };
    let form = if file.past.is_none() { Form::Old } else { Form::Stored };
    let mut record = Record::of(file);
    write(other, &lent.terms, &lent.state)?;
    written_back(other, form, &case.text, &lent)?;
    for (index, step) in case.steps.iter().enumerate() {
        let named = |difference| format!("step {index}: {difference}");
        let taken = match step {
            Step::Call(call) => record_call(other, call, &mut record, &mut lent, &mut rng),
            Step::Revision(revision) => {
                record_revision(other, revision, &mut record, &mut lent, &mut rng)
            }
            Step::Renumbering(renumbering) => {
                record_renumbering(other, renumbering, &mut record, &mut lent, &mut rng)
            }
        };
        taken.map_err(named)?;
        write(other, &lent.terms, &lent.state).map_err(named)?;
        if rng.percent(25) {
            lent = carried_over(other, &record, &lent, &mut rng).map_err(named)?;
        }
    }
    Ok(())
}

/// Stores what is lent and loads it into other memory, where it has to be the
/// same: the record goes on as if nothing had stopped.
fn carried_over(
    other: &mut impl Other,
    record: &Record,
    lent: &Lent,
    rng: &mut Rng,
) -> Result<Lent, Difference> {
    let state = record.state();
    let wanted = terms::store(record.terms(), &state);
    let mut text = vec![0; wanted.len()];
    let got = other.store(&lent.terms, &lent.state, &mut text);
    equal("storing", got, Ok(wanted.len()))?;
    same("text stored", &text, &wanted)?;
    let mut next = Lent::noise(rng, TERMS_WORDS + BEYOND, STATE_WORDS + BEYOND);
    read_into(other, &text, &mut next)?;
    same("terms loaded", &next.terms[..TERMS_WORDS], &lent.terms[..TERMS_WORDS])?;
    same("state loaded", &next.state[..STATE_WORDS], &memory::state_words(&state))?;
    Ok(next)
}

fn record_call(
    other: &mut impl Other,
    call: &Call,
    record: &mut Record,
    lent: &mut Lent,
    rng: &mut Rng,
) -> Result<(), Difference> {
    let scratch = noise(rng, call.scratch_words);
    let (mut terms, mut state, mut scratch_after) =
        (lent.terms.clone(), lent.state.clone(), scratch.clone());
    let got = other.call(call, &mut terms, &mut state, &mut scratch_after);
    let before = record.graphs().len();
    let wanted = record.answer(call);
    equal("answer", got, wanted)?;
    same("terms after a call", &terms, &lent.terms)?;
    if record.graphs().len() > before {
        same("state after a moment", &state, &over(&lent.state, &record.state_words()))?;
        let zeros = [0; SCRATCH_WORDS];
        same("scratch after a moment", &scratch_after, &over(&scratch, &zeros))?;
    } else {
        same("state without a moment", &state, &lent.state)?;
        same("scratch without a moment", &scratch_after, &scratch)?;
    }
    lent.state = state;
    Ok(())
}

/// Makes one call over any lent memory. Where it keeps the layout but no record
/// is known, its tables stand for one.
pub fn call(
    other: &mut impl Other,
    call: &Call,
    terms: &[u16],
    state: &[u64],
) -> Result<(), Difference> {
    let mut rng = Rng::new(call.scratch_words as u64);
    let mut lent = Lent { terms: terms.to_vec(), state: state.to_vec() };
    let refusal = match expect::calling(terms, state, call) {
        Err(refusal) => refusal,
        Ok((terms, state)) => {
            let mut record = expect::going_on(&terms, &state);
            return record_call(other, call, &mut record, &mut lent, &mut rng);
        }
    };
    let scratch = noise(&mut rng, call.scratch_words);
    let mut scratch_after = scratch.clone();
    let got = other.call(call, &mut lent.terms, &mut lent.state, &mut scratch_after);
    equal("answer", got, Answer::Refused(refusal))?;
    same("terms after a refusal", &lent.terms, terms)?;
    same("state after a refusal", &lent.state, state)?;
    same("scratch after a refusal", &scratch_after, &scratch)
}
