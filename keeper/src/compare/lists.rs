//! Set lists, held against the record.

use super::renumberings::record_renumbering;
use super::revisions::record_revision;
use super::{equal, noise, over, read_into, same, Difference, Lent, Other, BEYOND};
use crate::expect;
use crate::generate::{self, Case, Rng};
use crate::record::Record;
use crate::set_list::{self, Item};
use crate::step::Step;
use crate::terms;
use crate::terms::memory::{SCRATCH_WORDS, STATE_WORDS, TERMS_WORDS};

/// Reads a case's text and makes its calls as set lists, looks as requests; none
/// reaches over new terms or other numbers for the members. After each list its
/// answers, its count and every word lent are compared.
pub fn lists(other: &mut impl Other, case: &Case) -> Result<(), Difference> {
    let mut rng = Rng::new(!case.seed);
    let mut lent = Lent::noise(&mut rng, TERMS_WORDS + BEYOND, STATE_WORDS + BEYOND);
    read_into(other, &case.text, &mut lent)?;
    let Ok(file) = terms::read(&case.text) else {
        return Ok(());
    };
    let mut record = Record::of(file);
    let mut left = &case.steps[..];
    while let Some(first) = left.first() {
        let made = case.steps.len() - left.len();
        let call = match first {
            Step::Call(call) => call,
            Step::Revision(revision) => {
                let named = |difference| format!("step {made}: {difference}");
                record_revision(other, revision, &mut record, &mut lent, &mut rng)
                    .map_err(named)?;
                left = &left[1..];
                continue;
            }
            Step::Renumbering(renumbering) => {
                let named = |difference| format!("step {made}: {difference}");
                record_renumbering(other, renumbering, &mut record, &mut lent, &mut rng)
                    .map_err(named)?;
                left = &left[1..];
                continue;
            }
        };
        let most = generate::list_length(&mut rng);
        let items: Vec<Item> = left
            .iter()
            .take(most)
            .map_while(|step| match step {
                Step::Call(call) => Some(generate::item(&mut rng, call)),
                Step::Revision(_) | Step::Renumbering(_) => None,
            })
            .collect();
        let scratch = noise(&mut rng, call.scratch_words);
        let length = items.len();
        let named = |difference| format!("set list of {length} from step {made}: {difference}");
        record_list(other, &items, &scratch, &mut record, &mut lent).map_err(named)?;
        left = &left[length..];
    }
    Ok(())
}

pub(super) fn record_list(
    other: &mut impl Other,
    items: &[Item],
    scratch: &[u64],
    record: &mut Record,
    lent: &mut Lent,
) -> Result<(), Difference> {
    let (mut terms, mut state, mut scratch_after, mut answered) =
        (lent.terms.clone(), lent.state.clone(), scratch.to_vec(), items.to_vec());
    let got = other.set_list(&mut terms, &mut state, &mut scratch_after, &mut answered);
    let mut wanted_items = items.to_vec();
    let before = record.graphs().len();
    let wanted = set_list::answer(record, &mut wanted_items, scratch.len());
    same("items", &answered, &wanted_items)?;
    equal("grants", got, wanted)?;
    same("terms after a set list", &terms, &lent.terms)?;
    if record.graphs().len() > before {
        same("state after moments", &state, &over(&lent.state, &record.state_words()))?;
        same("scratch after moments", &scratch_after, &over(scratch, &[0; SCRATCH_WORDS]))?;
    } else {
        same("state without a moment", &state, &lent.state)?;
        same("scratch without a moment", &scratch_after, scratch)?;
    }
    lent.state = state;
    Ok(())
}

/// Makes one set list over any lent memory. Where it keeps the layout but no
/// record is known, its tables stand for one.
pub fn set_list(
    other: &mut impl Other,
    items: &[Item],
    scratch_words: usize,
    terms: &[u16],
    state: &[u64],
) -> Result<(), Difference> {
    let scratch = noise(&mut Rng::new(scratch_words as u64), scratch_words);
    let mut lent = Lent { terms: terms.to_vec(), state: state.to_vec() };
    let refusal = match expect::listing(terms, state, scratch_words) {
        Err(refusal) => refusal,
        Ok((terms, state)) => {
            let mut record = expect::going_on(&terms, &state);
            return record_list(other, items, &scratch, &mut record, &mut lent);
        }
    };
    let (mut scratch_after, mut answered) = (scratch.clone(), items.to_vec());
    let got = other.set_list(&mut lent.terms, &mut lent.state, &mut scratch_after, &mut answered);
    equal("set list", got, Err(refusal))?;
    same("items of a refused set list", &answered, items)?;
    same("terms after a refusal", &lent.terms, terms)?;
    same("state after a refusal", &lent.state, state)?;
    same("scratch after a refusal", &scratch_after, &scratch)
}
