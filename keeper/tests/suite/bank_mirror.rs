//! An implementation of two banks that goes by the lent words, perhaps with a
//! fault.

use crate::help::faults;
use keeper::banks::expect;
use keeper::banks::lent::{Lent, Loan, OWN_WORDS, RELATION_WORDS};
use keeper::banks::step::{Deed, Outcome};
use keeper::banks::Banks;
use keeper::compare::banks::Other;
use keeper::expect::going_on;
use keeper::record::{Answer, Call, Record};
use keeper::set_list::{self, Item};
use keeper::terms::memory::SCRATCH_WORDS;
use keeper::terms::{self, Refusal};

faults! {
    /// Of a moment.
    OtherStays,
    EventBeside,
    EventLivesOn,
    RelationsStay,
    PastByNewRelations,
    PastWithoutEvent,
    SinceByOldRelations,
    SinceWithEvent,
    DenialIsOwn,
    SpareKept,
    TouchesBeyond,
    /// Of the checks.
    OneStateChecked,
    SpareUnchecked,
    EmptyListUnchecked,
    /// Of whose record counts.
    BanksSwapped,
    ListMovesOtherOnce,
    /// Of new terms, reading and opening.
    SecondStartsAnew,
    SecondEventLost,
    RelationsLeftBehind,
    StoredIsRead,
    OneIsOpened,
    OwnWordsChecked,
}

pub struct Mirror {
    pub fault: Fault,
}

/// The place of the event among a bank's own words.
const EVENT: usize = OWN_WORDS - 1;

impl Mirror {
    /// The banks that do a deed, going on from the lent words.
    fn ready(&self, bank: usize, deed: &Deed, loan: &Loan) -> Result<Banks, Refusal> {
        let mut seen = loan.clone();
        let is_bad = |refusal: Refusal| refusal.number == 8;
        match self.fault {
            Fault::OneStateChecked if expect::ready(deed, loan).is_err_and(is_bad) => {
                seen.lent.own[1 - bank].fill(0);
            }
            Fault::SpareUnchecked => seen.scratch[1 - bank].resize(SCRATCH_WORDS, 0),
            _ => {}
        }
        expect::ready(deed, &seen)
    }

    /// Does a call or a set list of a bank.
    fn done(&self, bank: usize, deed: &Deed, lent: &mut Lent, scratch: &mut Scratch) -> Outcome {
        let loan = Loan { lent: lent.clone(), scratch: scratch.clone(), second: Lent::default() };
        let before = match self.ready(bank, deed, &loan) {
            Ok(banks) => banks,
            Err(refusal) => return deed.refused(refusal),
        };
        let mut after = before.clone();
        let outcome = after.take(deed);
        if after.moments() > before.moments() {
            let is_denied = outcome == Outcome::Answered(Answer::Deny);
            let words = self.moved(bank, deed, &before, &after, is_denied, lent);
            lent.put_states(&words);
            scratch[bank][..SCRATCH_WORDS].fill(0);
            if self.fault != Fault::SpareKept {
                scratch[1 - bank].iter_mut().take(SCRATCH_WORDS).for_each(|word| *word = 0);
            }
            let beyond = lent.own[1 - bank].get_mut(OWN_WORDS);
            if let (Fault::TouchesBeyond, Some(word)) = (self.fault, beyond) {
                *word = 0;
            }
        }
        outcome
    }

    /// The right words after a moment, with the fault put in.
    fn moved(
        &self,
        bank: usize,
        deed: &Deed,
        before: &Banks,
        after: &Banks,
        is_denied: bool,
        lent: &Lent,
    ) -> Lent {
        let mut words = after.words();
        let other = 1 - bank;
        let stays = lent.own[other][..OWN_WORDS].to_vec();
        match self.fault {
            Fault::OtherStays => words.own[other] = stays,
            Fault::DenialIsOwn if is_denied => words.own[other] = stays,
            Fault::EventBeside => words.own[other][EVENT] = words.own[bank][EVENT],
            Fault::EventLivesOn => words.own[other][EVENT] = stays[EVENT],
            Fault::RelationsStay => words.relations = before.words().relations,
            Fault::ListMovesOtherOnce => {
                if let Deed::List(_, items) = deed {
                    words.own[other] = first_moment(bank, items, before).own[other].clone();
                }
            }
            fault => {
                if let Some(record) = faulty_past(fault, deed, before, after, other) {
                    words.own[other] = record.state_words()[RELATION_WORDS..].to_vec();
                    words.own[other][EVENT] = 0;
                }
            }
        }
        words
    }
}

/// The other bank's record after one moment, as a fault has it.
fn faulty_past(
    fault: Fault,
    deed: &Deed,
    before: &Banks,
    after: &Banks,
    other: usize,
) -> Option<Record> {
    let Deed::Call(_, call) = deed else { return None };
    let (mut state, edges) = (before.record(other).state(), &after.record(other).last().edges);
    match fault {
        Fault::PastByNewRelations => state.edges = edges.clone(),
        Fault::PastWithoutEvent => state.past.event = None,
        Fault::SinceByOldRelations | Fault::SinceWithEvent => {}
        _ => return None,
    }
    let mut record = going_on(before.terms(), &state);
    match fault {
        Fault::SinceByOldRelations => record.pass(state.edges),
        Fault::SinceWithEvent => {
            record.answer(call);
            let is_seen = record.last().event == after.record(1 - other).last().event;
            return is_seen.then_some(record);
        }
        _ => record.pass(edges.clone()),
    }
    Some(record)
}

/// The words after the first moment that a list makes.
fn first_moment(bank: usize, items: &[Item], before: &Banks) -> Lent {
    let mut banks = before.clone();
    set_list::fill(&mut items.to_vec(), |call| match banks.moments() > before.moments() {
        true => Answer::Deny,
        false => banks.call(bank, call, SCRATCH_WORDS),
    });
    banks.words()
}

type Scratch = [Vec<u64>; 2];

impl Other for Mirror {
    fn read(&mut self, text: &[u8], lent: &mut Lent) -> Result<(), Refusal> {
        let banks = match (self.fault, terms::read(text)) {
            (Fault::StoredIsRead, Ok(file)) if !lent.is_short() => Banks::new(file.terms),
            _ => expect::reading(text, lent)?,
        };
        lent.put(&banks.words());
        Ok(())
    }

    fn open(&mut self, lent: &mut Lent) -> Result<(), Refusal> {
        let banks = expect::opening(lent)?;
        if self.fault == Fault::OwnWordsChecked {
            let deed = Deed::Revision(Vec::new());
            let loan =
                Loan { lent: lent.clone(), scratch: Default::default(), second: lent.clone() };
            expect::ready(&deed, &loan)?;
        }
        let mut words = banks.words();
        if self.fault == Fault::OneIsOpened {
            words.own[1] = lent.own[1][..OWN_WORDS].to_vec();
        }
        lent.put(&words);
        Ok(())
    }

    fn call(&mut self, bank: usize, call: &Call, lent: &mut Lent, scratch: &mut Scratch) -> Answer {
        let bank = if self.fault == Fault::BanksSwapped { 1 - bank } else { bank };
        match self.done(bank, &Deed::Call(bank, *call), lent, scratch) {
            Outcome::Answered(answer) => answer,
            other => unreachable!("{other:?}"),
        }
    }

    fn set_list(
        &mut self,
        bank: usize,
        items: &mut [Item],
        lent: &mut Lent,
        scratch: &mut Scratch,
    ) -> Result<usize, Refusal> {
        if self.fault == Fault::EmptyListUnchecked && items.is_empty() {
            return Ok(0);
        }
        match self.done(bank, &Deed::List(bank, items.to_vec()), lent, scratch) {
            Outcome::Listed(granted, filled) => {
                items.copy_from_slice(&filled);
                granted
            }
            other => unreachable!("{other:?}"),
        }
    }

    fn revise(&mut self, old: &mut Lent, second: &mut Lent) -> Result<(), Refusal> {
        let deed = Deed::Revision(second.terms.clone());
        let loan = Loan { lent: old.clone(), scratch: Default::default(), second: second.clone() };
        let mut banks = self.ready(0, &deed, &loan)?;
        if let Outcome::Revised(Err(refusal)) = banks.take(&deed) {
            return Err(refusal);
        }
        let mut words = banks.words();
        match self.fault {
            Fault::SecondStartsAnew => {
                let mut terms = banks.terms().clone();
                terms.edges = banks.record(1).last().edges.clone();
                words.own[1] = Banks::new(terms).words().own[1].clone();
            }
            Fault::SecondEventLost => words.own[1][EVENT] = 0,
            Fault::RelationsLeftBehind => {
                words.relations = second.relations[..words.relations.len()].to_vec();
            }
            _ => {}
        }
        second.put_states(&words);
        Ok(())
    }
}
