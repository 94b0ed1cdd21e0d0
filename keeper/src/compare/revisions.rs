//! New terms, held against the record.

use super::{equal, front, noise, over, same, Difference, Lent, Other};
use crate::expect;
use crate::generate::Rng;
use crate::record::Record;
use crate::step::Revision;
use crate::terms::Refusal;

/// Makes a revision of what is lent. Where it is done, the record goes on with
/// the new terms, and with it the memory of the new terms and the second state.
pub(super) fn record_revision(
    other: &mut impl Other,
    revision: &Revision,
    record: &mut Record,
    lent: &mut Lent,
    rng: &mut Rng,
) -> Result<(), Difference> {
    let wanted = revision.answer(record).map(|()| record.state_words());
    let old_terms = front(&lent.terms, revision.old_terms_words);
    let old_state = front(&lent.state, revision.old_state_words);
    let is_done = wanted.is_ok();
    let second = revised(other, revision, old_terms, old_state, wanted, rng)?;
    if is_done {
        *lent = Lent { terms: revision.terms.clone(), state: second };
    }
    Ok(())
}

/// Makes a revision over any lent memory. Where it keeps the layout but no record
/// is known, its tables stand for one.
pub fn revise(
    other: &mut impl Other,
    revision: &Revision,
    terms: &[u16],
    state: &[u64],
) -> Result<(), Difference> {
    let old_terms = front(terms, revision.old_terms_words);
    let old_state = front(state, revision.old_state_words);
    let record = expect::revising(old_terms, old_state, &revision.terms, revision.second_words);
    let wanted = record.map(|record| record.state_words());
    let mut rng = Rng::new(revision.second_words as u64);
    revised(other, revision, old_terms, old_state, wanted, &mut rng).map(drop)
}

/// Compares the answer and every word of the four memories; the second state,
/// which was full of noise.
fn revised(
    other: &mut impl Other,
    revision: &Revision,
    old_terms: &[u16],
    old_state: &[u64],
    wanted: Result<Vec<u64>, Refusal>,
    rng: &mut Rng,
) -> Result<Vec<u64>, Difference> {
    let lent = noise(rng, revision.second_words);
    let (mut old_terms_after, mut old_state_after, mut new_terms, mut second) =
        (old_terms.to_vec(), old_state.to_vec(), revision.terms.clone(), lent.clone());
    let got = other.revise(&mut old_terms_after, &mut old_state_after, &mut new_terms, &mut second);
    equal("revision", got, wanted.as_ref().map(|_| ()).map_err(|refusal| *refusal))?;
    same("old terms after a revision", &old_terms_after, old_terms)?;
    same("old state after a revision", &old_state_after, old_state)?;
    same("terms of a revision", &new_terms, &revision.terms)?;
    same("second state", &second, &over(&lent, &wanted.unwrap_or_default()))?;
    Ok(second)
}
