//! Plans and questions, held against the record.

use super::lists::record_list;
use super::renumberings::record_renumbering;
use super::revisions::record_revision;
use super::{carried_over, equal, noise, over, read_into, record_call, same};
use super::{Difference, Lent, BEYOND};
use crate::expect;
use crate::generate::{Case, Rng};
use crate::plan::turn::Turn;
use crate::plan::{Plan, Question, SCRATCH_WORDS};
use crate::record::Record;
use crate::step::Step;
use crate::terms::memory::{self, STATE_WORDS, TERMS_WORDS};
use crate::terms::{self, Refusal};

/// Another implementation that judges plans and tells what holds.
pub trait Other: super::Other {
    /// Whether a plan is accepted. The numbers are the plan's, and the scratch is
    /// as long as it says.
    fn plan(
        &mut self,
        plan: &Plan,
        terms: &mut [u16],
        state: &mut [u64],
        scratch: &mut [u64],
        numbers: &mut [usize],
    ) -> Result<bool, Refusal>;

    /// Whether an entry holds now at a pair.
    fn tell(
        &mut self,
        question: &Question,
        terms: &mut [u16],
        state: &mut [u64],
    ) -> Result<bool, Refusal>;
}

/// Reads a case's text and takes its turns; after each, the answer and every word
/// lent is compared. Now and then all is stored, loaded into other memory, and
/// goes on from there.
pub fn case(other: &mut impl Other, case: &Case<Turn>) -> Result<(), Difference> {
    let mut rng = Rng::new(case.seed);
    let mut lent = Lent::noise(&mut rng, TERMS_WORDS + BEYOND, STATE_WORDS + BEYOND);
    read_into(other, &case.text, &mut lent)?;
    let Ok(file) = terms::read(&case.text) else {
        return Ok(());
    };
    let mut record = Record::of(file);
    for (index, turn) in case.steps.iter().enumerate() {
        let named = |difference| format!("turn {index}: {difference}");
        taken(other, turn, &mut record, &mut lent, &mut rng).map_err(named)?;
        if rng.percent(10) {
            lent = carried_over(other, &record, &lent, &mut rng).map_err(named)?;
        }
    }
    Ok(())
}

fn taken(
    other: &mut impl Other,
    turn: &Turn,
    record: &mut Record,
    lent: &mut Lent,
    rng: &mut Rng,
) -> Result<(), Difference> {
    match turn {
        Turn::Step(Step::Call(call)) => record_call(other, call, record, lent, rng),
        Turn::Step(Step::Revision(revision)) => record_revision(other, revision, record, lent, rng),
        Turn::Step(Step::Renumbering(renumbering)) => {
            record_renumbering(other, renumbering, record, lent, rng)
        }
        Turn::List(items) => {
            let scratch = noise(rng, memory::SCRATCH_WORDS + BEYOND);
            record_list(other, items, &scratch, record, lent)
        }
        Turn::Plan(plan) => judged(other, plan, lent, record.judge(plan), rng),
        Turn::Tell(question) => told(other, question, lent, record.tell(question)),
    }
}

/// Judges one plan over any lent memory, whose tables stand for a record.
pub fn plan(
    other: &mut impl Other,
    plan: &Plan,
    terms: &[u16],
    state: &[u64],
) -> Result<(), Difference> {
    let lent = Lent { terms: terms.to_vec(), state: state.to_vec() };
    let wanted = expect::planning(terms, state, plan);
    judged(other, plan, &lent, wanted, &mut Rng::new(plan.scratch_words as u64))
}

/// Tells what holds over any lent memory, whose tables stand for a record.
pub fn tell(
    other: &mut impl Other,
    question: &Question,
    terms: &[u16],
    state: &[u64],
) -> Result<(), Difference> {
    let lent = Lent { terms: terms.to_vec(), state: state.to_vec() };
    told(other, question, &lent, expect::telling(terms, state, question))
}

/// Compares the verdict and every word: a verdict leaves the named words of
/// scratch 0, a refusal leaves all as lent.
fn judged(
    other: &mut impl Other,
    plan: &Plan,
    lent: &Lent,
    wanted: Result<bool, Refusal>,
    rng: &mut Rng,
) -> Result<(), Difference> {
    let scratch = noise(rng, plan.scratch_words);
    let (mut terms, mut state) = (lent.terms.clone(), lent.state.clone());
    let (mut scratch_after, mut numbers) = (scratch.clone(), plan.numbers.clone());
    let got = other.plan(plan, &mut terms, &mut state, &mut scratch_after, &mut numbers);
    equal("verdict on a plan", got, wanted)?;
    same("terms after a plan", &terms, &lent.terms)?;
    same("state after a plan", &state, &lent.state)?;
    same("numbers of a plan", &numbers, &plan.numbers)?;
    let left = if wanted.is_ok() { over(&scratch, &[0; SCRATCH_WORDS]) } else { scratch };
    same("scratch after a plan", &scratch_after, &left)
}

fn told(
    other: &mut impl Other,
    question: &Question,
    lent: &Lent,
    wanted: Result<bool, Refusal>,
) -> Result<(), Difference> {
    let (mut terms, mut state) = (lent.terms.clone(), lent.state.clone());
    let got = other.tell(question, &mut terms, &mut state);
    equal("what is told", got, wanted)?;
    same("terms after telling", &terms, &lent.terms)?;
    same("state after telling", &state, &lent.state)
}
