//! Two banks, held against their records, deed by deed.

use super::{equal, same, Difference};
use crate::banks::expect;
use crate::banks::lent::{Lent, Loan};
use crate::banks::step::{said, Deed, Outcome, Step};
use crate::banks::Banks;
use crate::generate::banks::harm_loan;
use crate::generate::{Case, Rng};
use crate::record::{Answer, Call};
use crate::set_list::Item;
use crate::terms::{self, Refusal};

/// Another implementation of two banks. A bank's number says which own words and
/// which scratch are lent first.
pub trait Other {
    /// Reads a text into the lent memory.
    fn read(&mut self, text: &[u8], lent: &mut Lent) -> Result<(), Refusal>;

    /// Fills the own words of both in, at moment 0.
    fn open(&mut self, lent: &mut Lent) -> Result<(), Refusal>;

    /// Answers a request or a look of a bank.
    fn call(
        &mut self,
        bank: usize,
        call: &Call,
        lent: &mut Lent,
        scratch: &mut [Vec<u64>; 2],
    ) -> Answer;

    /// Answers a set list of a bank and gives the count of grants.
    fn set_list(
        &mut self,
        bank: usize,
        items: &mut [Item],
        lent: &mut Lent,
        scratch: &mut [Vec<u64>; 2],
    ) -> Result<usize, Refusal>;

    /// Fills second relations and own words in under the second terms.
    fn revise(&mut self, old: &mut Lent, second: &mut Lent) -> Result<(), Refusal>;
}

/// Reads a text into memory full of noise; every word is compared.
pub fn read(other: &mut impl Other, text: &[u8], lent: &mut Lent) -> Result<(), Difference> {
    let mut wanted = lent.clone();
    let banks = expect::reading(text, lent);
    if let Ok(banks) = &banks {
        wanted.put(&banks.words());
    }
    equal("reading", other.read(text, lent), banks.map(drop))?;
    same_lent("reading", lent, &wanted)
}

/// Opens a copy of the lent memory; every word is compared.
pub fn open(other: &mut impl Other, lent: &Lent) -> Result<(), Difference> {
    let (mut opened, mut wanted) = (lent.clone(), lent.clone());
    let banks = expect::opening(lent);
    if let Ok(banks) = &banks {
        wanted.put(&banks.words());
    }
    equal("opening", other.open(&mut opened), banks.map(drop))?;
    same_lent("opening", &opened, &wanted)
}

/// Reads a case's text and takes its steps.
pub fn case(other: &mut impl Other, case: &Case<Step>) -> Result<(), Difference> {
    let mut rng = Rng::new(case.seed);
    let mut lent = Lent::noise(&mut rng);
    read(other, &case.text, &mut lent)?;
    match terms::read_old(&case.text) {
        Ok(terms) => steps(other, &case.steps, Banks::new(terms), lent, &mut rng),
        Err(_) => Ok(()),
    }
}

/// Takes steps from the lent memory of the records on; after each, what it gave
/// and every word lent is compared. Then what is left is opened.
pub fn steps(
    other: &mut impl Other,
    steps: &[Step],
    mut banks: Banks,
    mut lent: Lent,
    rng: &mut Rng,
) -> Result<(), Difference> {
    for (index, Step { deed, harms }) in steps.iter().enumerate() {
        let mut loan = loan(deed, &lent, rng);
        let taken = if harms.is_empty() {
            by_record(other, deed, &mut banks, loan).map(|left| lent = left)
        } else {
            harm_loan(&mut loan, harms, banks.terms());
            open(other, &loan.lent).and_then(|()| by_words(other, deed, loan))
        };
        taken.map_err(|difference| format!("step {index}: {difference}"))?;
    }
    open(other, &lent)
}

/// What is lent for a deed: the memory in use, and noise around the new terms.
fn loan(deed: &Deed, lent: &Lent, rng: &mut Rng) -> Loan {
    let mut loan = Loan::of(lent, rng);
    if let Deed::Revision(words) = deed {
        loan.second.terms[..words.len()].copy_from_slice(words);
    }
    loan
}

/// Does a deed by the records, and gives the memory that is in use after it.
fn by_record(
    other: &mut impl Other,
    deed: &Deed,
    banks: &mut Banks,
    loan: Loan,
) -> Result<Lent, Difference> {
    let mut wanted = loan.clone();
    let moments = banks.moments();
    let outcome = banks.take(deed);
    let is_revised = outcome == Outcome::Revised(Ok(()));
    if banks.moments() > moments {
        wanted.lent.put_states(&banks.words());
        wanted.clear_scratch();
    }
    if is_revised {
        wanted.second.put_states(&banks.words());
    }
    let left = done(other, deed, loan, outcome, &wanted)?;
    Ok(if is_revised { left.second } else { left.lent })
}

/// Does a deed over any lent memory. Where it keeps the layout but no record is
/// known, its tables stand for one.
fn by_words(other: &mut impl Other, deed: &Deed, loan: Loan) -> Result<(), Difference> {
    let deed = match deed {
        Deed::Revision(_) => &Deed::Revision(loan.second.terms.clone()),
        deed => deed,
    };
    match expect::ready(deed, &loan) {
        Ok(mut banks) => by_record(other, deed, &mut banks, loan).map(drop),
        Err(refusal) => {
            let wanted = loan.clone();
            done(other, deed, loan, deed.refused(refusal), &wanted).map(drop)
        }
    }
}

/// Does a deed by the other.
fn perform(other: &mut impl Other, deed: &Deed, loan: &mut Loan) -> Outcome {
    let Loan { lent, scratch, second } = loan;
    match deed {
        Deed::Call(bank, call) => Outcome::Answered(other.call(*bank, call, lent, scratch)),
        Deed::List(bank, items) => {
            let mut items = items.clone();
            let granted = other.set_list(*bank, &mut items, lent, scratch);
            Outcome::Listed(granted, items)
        }
        Deed::Revision(_) => Outcome::Revised(other.revise(lent, second)),
    }
}

/// What the steps after a text give by the other alone.
pub fn played(
    other: &mut impl Other,
    text: &[u8],
    steps: &[Step],
) -> Result<Vec<Outcome>, Refusal> {
    let mut rng = Rng::new(text.len() as u64);
    let mut lent = Lent::noise(&mut rng);
    other.read(text, &mut lent)?;
    let step = |Step { deed, harms }: &Step| {
        let mut loan = loan(deed, &lent, &mut rng);
        harm_loan(&mut loan, harms, &said(&lent.terms).unwrap_or_default());
        let outcome = perform(other, deed, &mut loan);
        if harms.is_empty() {
            let is_revised = outcome == Outcome::Revised(Ok(()));
            lent = if is_revised { loan.second } else { loan.lent };
        }
        outcome
    };
    Ok(steps.iter().map(step).collect())
}

/// Does a deed by the other, and compares what it gave and all memory it left.
fn done(
    other: &mut impl Other,
    deed: &Deed,
    mut loan: Loan,
    outcome: Outcome,
    wanted: &Loan,
) -> Result<Loan, Difference> {
    equal("outcome", perform(other, deed, &mut loan), outcome)?;
    same_lent("memory in use", &loan.lent, &wanted.lent)?;
    for bank in [0, 1] {
        let what = format!("scratch of bank {bank}");
        same(&what, &loan.scratch[bank], &wanted.scratch[bank])?;
    }
    same_lent("second memory", &loan.second, &wanted.second)?;
    Ok(loan)
}

fn same_lent(what: &str, got: &Lent, wanted: &Lent) -> Result<(), Difference> {
    same(&format!("{what}, terms"), &got.terms, &wanted.terms)?;
    same(&format!("{what}, relations"), &got.relations, &wanted.relations)?;
    for bank in [0, 1] {
        let what = format!("{what}, own words of bank {bank}");
        same(&what, &got.own[bank], &wanted.own[bank])?;
    }
    Ok(())
}
