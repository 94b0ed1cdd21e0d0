//! Two banks that share terms and relations: every verdict from the proved library
//! and from the keeper's record of each bank.

use super::{agreed, allowed, differ, kept_verdict, named, same_graph, stored, verdict};
use super::{Allowed, Both, Verdict};
use crate::bank::Bank;
use crate::stop::Stop;
use keeper::banks::Banks as Records;
use keeper::record::{Call, Record};
use keeper::terms::memory::terms_words;
use keeper::terms::{self, Refusal, Terms};
use std::cell::RefCell;

/// The proved banks and the keeper's records, side by side.
pub struct Banks {
    /// A look makes no moment, but takes the memory of both banks for itself.
    library: RefCell<proved::Banks>,
    records: Records,
}

impl Banks {
    /// Reads terms that are to be used: both banks stand at moment 0. A stored text is
    /// what one bank remembers, and refused.
    pub fn accepted(text: &[u8]) -> Result<Banks, Stop> {
        if Both::accepted(text)?.is_stored() {
            return Err(Stop::Failed(
                "the terms were stored with what one bank remembers; two banks begin together, with terms that \
                 remember nothing"
                    .into(),
            ));
        }
        let (library, terms) = (proved::Banks::read(text), terms::read_old(text));
        let (Ok(library), Ok(terms)) = (library, terms) else {
            return Err(differ("terms that they accept are refused to two banks"));
        };
        let banks = Banks { library: RefCell::new(library), records: Records::new(terms) };
        banks.agree().then_some(banks).ok_or_else(|| differ("they read other words for two banks"))
    }

    /// Answers a request of a bank; a grant makes the next moment of both, and so does a
    /// denial of a kept event.
    pub fn request(
        &mut self,
        bank: Bank,
        event: usize,
        from: usize,
        to: usize,
    ) -> Result<Verdict, Stop> {
        let library = self.library.get_mut();
        let proved = verdict(named(event, from, to).and_then(|request| match bank {
            Bank::Left => library.left().request(request),
            Bank::Right => library.right().request(request),
        }));
        let call = Call::request(event, from, to);
        let kept = self.records.call(number(bank), &call, proved::SCRATCH_WORDS);
        let verdict = agreed(proved, kept_verdict(kept), event, from, to)?;
        match self.graphs_agree() {
            true => Ok(verdict),
            false => Err(differ(&format!("relations after request {event} {from} {to} of {bank}"))),
        }
    }

    /// What a request of a bank would be answered now; it makes no moment.
    pub fn look(&self, bank: Bank, event: usize, from: usize, to: usize) -> Result<Verdict, Stop> {
        let kept = match self.record(bank) {
            record if !record.terms().has(event, from, to) => Verdict::Refused(9),
            record if record.permits(event, from, to) => Verdict::Grant,
            _ => Verdict::Deny,
        };
        agreed(self.proved_look(bank, event, from, to), kept, event, from, to)
    }

    fn proved_look(&self, bank: Bank, event: usize, from: usize, to: usize) -> Verdict {
        let library = &mut *self.library.borrow_mut();
        verdict(named(event, from, to).and_then(|request| match bank {
            Bank::Left => library.left().look(request),
            Bank::Right => library.right().look(request),
        }))
    }

    /// Goes on with the terms of another in both banks; no moment is made. Both refuse
    /// it, and all is as it was, where there are other numbers of members, relations or
    /// events.
    pub fn revise(&mut self, new: &Both) -> Result<Result<(), Refusal>, Stop> {
        let proved = self.library.get_mut().revise(new.monitor.terms());
        let proved = proved.map_err(|refusal| refusal.number());
        let kept = self.records.revise(new.terms());
        if proved != kept.map_err(|refusal| refusal.number.into()) {
            return Err(differ(&format!("revising banks: library {proved:?}, keeper {kept:?}")));
        }
        self.agree().then_some(kept).ok_or_else(|| differ("banks go on from other words"))
    }

    /// All that is allowed now in a bank; it makes no moment.
    pub fn allowed(&self, bank: Bank) -> Result<Allowed, Stop> {
        allowed(self.record(bank), |event, from, to| self.proved_look(bank, event, from, to))
    }

    pub fn terms(&self) -> &Terms {
        self.records.terms()
    }

    /// The whole record of a bank.
    pub fn record(&self, bank: Bank) -> &Record {
        self.records.record(number(bank))
    }

    /// The present moment, the same in both.
    pub fn moment(&self) -> usize {
        self.records.moments() - 1
    }

    /// Whether relations and events are those of the records.
    fn graphs_agree(&self) -> bool {
        let proved::BankStates { left, right } = self.library.borrow().states();
        let same =
            |(bank, state): (Bank, proved::State)| same_graph(&state, self.record(bank).last());
        [(Bank::Left, left), (Bank::Right, right)].into_iter().all(same)
    }

    /// Whether terms and states are those of the records.
    fn agree(&self) -> bool {
        let library = self.library.borrow();
        let proved::BankStates { left, right } = library.states();
        let same = |(bank, state): (Bank, proved::State)| {
            let monitor = proved::Monitor::resume(library.terms().clone(), state);
            monitor.is_ok_and(|monitor| stored::agrees(&monitor.store(), self.record(bank)))
        };
        library.terms().words()[..] == terms_words(self.terms())[..]
            && [(Bank::Left, left), (Bank::Right, right)].into_iter().all(same)
    }
}

/// The keeper's number of a bank.
fn number(bank: Bank) -> usize {
    match bank {
        Bank::Left => 0,
        Bank::Right => 1,
    }
}
