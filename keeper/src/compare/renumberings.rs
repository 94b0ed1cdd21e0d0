//! Members renumbered, held against the record, and against itself.

use super::{equal, front, noise, over, same, Difference, Lent, Other, BEYOND};
use crate::generate::Rng;
use crate::record::{Answer, Call, Record};
use crate::renumber::{self, Numbering, Renumbering};
use crate::set_list::Item;
use crate::step::{Revision, Step};
use crate::terms::memory::{SCRATCH_WORDS, STATE_WORDS};
use crate::terms::Refusal;

/// Renumbers what is lent. Where it is done, the record goes on with the new
/// numbers, and with it the second state.
pub(super) fn record_renumbering(
    other: &mut impl Other,
    renumbering: &Renumbering,
    record: &mut Record,
    lent: &mut Lent,
    rng: &mut Rng,
) -> Result<(), Difference> {
    let wanted = renumbering.answer(record).map(|()| record.state_words());
    let is_done = wanted.is_ok();
    let second = renumbered(other, renumbering, &lent.terms, &lent.state, wanted, rng)?;
    if is_done {
        lent.state = second;
    }
    Ok(())
}

/// Renumbers any lent memory. Where it keeps the layout but no record is known, its
/// tables stand for one.
pub fn renumber(
    other: &mut impl Other,
    renumbering: &Renumbering,
    terms: &[u16],
    state: &[u64],
) -> Result<(), Difference> {
    let Renumbering { numbers, terms_words, state_words, second_words } = renumbering;
    let (lent_terms, lent_state) = (front(terms, *terms_words), front(state, *state_words));
    let record = renumber::renumbering(lent_terms, lent_state, numbers, *second_words);
    let wanted = record.map(|record| record.state_words());
    let mut rng = Rng::new(*second_words as u64);
    renumbered(other, renumbering, terms, state, wanted, &mut rng).map(drop)
}

/// Compares the answer and every word and byte that is lent. What is done is undone
/// and done once more: the first state comes back, and then the second.
fn renumbered(
    other: &mut impl Other,
    renumbering: &Renumbering,
    terms: &[u16],
    state: &[u64],
    wanted: Result<Vec<u64>, Refusal>,
    rng: &mut Rng,
) -> Result<Vec<u64>, Difference> {
    let Renumbering { numbers, terms_words, state_words, second_words } = renumbering;
    let (terms, state) = (front(terms, *terms_words), front(state, *state_words));
    let mut made = |numbers: &[u8], state: &[u64], wanted: Result<&[u64], Refusal>| {
        let lent = noise(rng, *second_words);
        let (mut terms_after, mut state_after, mut numbers_after, mut second) =
            (terms.to_vec(), state.to_vec(), numbers.to_vec(), lent.clone());
        let got =
            other.renumber(&mut terms_after, &mut state_after, &mut numbers_after, &mut second);
        equal("renumbering", got, wanted.map(drop))?;
        same("terms after a renumbering", &terms_after, terms)?;
        same("state after a renumbering", &state_after, state)?;
        same("numbers after a renumbering", &numbers_after, numbers)?;
        same("second state", &second, &over(&lent, wanted.unwrap_or_default()))?;
        Ok(second)
    };
    let wanted = match wanted {
        Err(refusal) => return made(numbers, state, Err(refusal)),
        Ok(words) => words,
    };
    let second = made(numbers, state, Ok(&wanted))?;
    let numbering = Numbering::of(numbers.len(), numbers).map_err(|_| "no numbering, and done")?;
    let undone = numbering.undone();
    let first = made(undone.numbers(), &second, Ok(&state[..STATE_WORDS]))
        .map_err(|difference| format!("undone: {difference}"))?;
    made(numbers, &first, Ok(&wanted)).map_err(|difference| format!("once more: {difference}"))
}

/// Takes the same steps over a state and, renumbered, over its renumbering: both
/// get the same answers, and after each step one state is the other one's
/// renumbering. Renumberings among the steps are passed over. Gives the answers.
///
/// Terms and state have to pass the checks, and the other implementation has to
/// have read nothing before.
pub fn renumbered_steps(
    other: &mut impl Other,
    numbering: &Numbering,
    steps: &[Step],
    terms: &[u16],
    state: &[u64],
) -> Result<Vec<Answer>, Difference> {
    let mut plain = Lent { terms: terms.to_vec(), state: state.to_vec() };
    let mut answers = Vec::new();
    let second = second_of(other, numbering, &plain)?;
    let mut moved = Lent { terms: terms.to_vec(), state: second };
    for (index, step) in steps.iter().enumerate() {
        let named = |difference| format!("step {index}: {difference}");
        match step {
            Step::Call(call) => {
                let got = called(other, &numbering.call(call), &mut moved);
                let answer = called(other, call, &mut plain);
                equal("answer to a renumbered call", got, answer).map_err(named)?;
                answers.push(answer);
            }
            Step::Revision(revision) => {
                let got = revised(other, revision, &mut moved);
                let wanted = revised(other, revision, &mut plain);
                equal("revision of a renumbered state", got, wanted).map_err(named)?;
            }
            _ => continue,
        }
        let wanted = second_of(other, numbering, &plain).map_err(named)?;
        let words = &moved.state[..STATE_WORDS];
        same("state renumbered before", words, &wanted[..STATE_WORDS]).map_err(named)?;
    }
    Ok(answers)
}

/// The same with requests in one set list.
pub fn renumbered_list(
    other: &mut impl Other,
    numbering: &Numbering,
    items: &[Item],
    terms: &[u16],
    state: &[u64],
) -> Result<(), Difference> {
    let mut plain = Lent { terms: terms.to_vec(), state: state.to_vec() };
    let second = second_of(other, numbering, &plain)?;
    let mut moved = Lent { terms: terms.to_vec(), state: second };
    let mut listed = |items: Vec<Item>, lent: &mut Lent| {
        let (mut items, mut scratch) = (items, [0; SCRATCH_WORDS]);
        let granted = other.set_list(&mut lent.terms, &mut lent.state, &mut scratch, &mut items);
        (granted, items)
    };
    let renumbered = |items: &[Item]| items.iter().map(|item| numbering.item(item)).collect();
    let got = listed(renumbered(items), &mut moved);
    let (granted, answered) = listed(items.to_vec(), &mut plain);
    equal("answers to a renumbered list", got, (granted, renumbered(&answered)))?;
    let wanted = second_of(other, numbering, &plain)?;
    same("state after a renumbered list", &moved.state[..STATE_WORDS], &wanted[..STATE_WORDS])
}

/// The renumbering of what is lent.
fn second_of(
    other: &mut impl Other,
    numbering: &Numbering,
    lent: &Lent,
) -> Result<Vec<u64>, Difference> {
    let mut second = vec![0; STATE_WORDS + BEYOND];
    let (mut terms, mut state, mut numbers) =
        (lent.terms.clone(), lent.state.clone(), numbering.numbers().to_vec());
    let got = other.renumber(&mut terms, &mut state, &mut numbers, &mut second);
    equal("renumbering", got, Ok(()))?;
    Ok(second)
}

fn called(other: &mut impl Other, call: &Call, lent: &mut Lent) -> Answer {
    let mut scratch = vec![0; call.scratch_words];
    other.call(call, &mut lent.terms, &mut lent.state, &mut scratch)
}

/// New terms for what is lent, if they are not refused.
fn revised(other: &mut impl Other, revision: &Revision, lent: &mut Lent) -> Result<(), Refusal> {
    let (mut new, mut second) = (revision.terms.clone(), vec![0; revision.second_words]);
    let Lent { terms, state } = lent;
    let [terms_words, state_words] = [revision.old_terms_words, revision.old_state_words];
    let (terms, state) = (front(terms, terms_words).to_vec(), front(state, state_words).to_vec());
    let (mut old_terms, mut old_state) = (terms, state);
    other.revise(&mut old_terms, &mut old_state, &mut new, &mut second)?;
    *lent = Lent { terms: new, state: second };
    Ok(())
}
