//! Two banks, one circle: a record for each bank, kept together.
//!
//! A call of a bank is judged by that bank's own record. A moment that it makes
//! is a moment of the other bank too, without an event edge there.

pub mod expect;
pub mod lent;
pub mod step;

use crate::expect::going_on;
use crate::record::{Answer, Call, Record};
use crate::set_list::{self, Item};
use crate::terms::memory::{self, State, SCRATCH_WORDS};
use crate::terms::{Refusal, Terms};
use lent::{Lent, RELATION_WORDS};
use step::{Deed, Outcome};

/// The record of each bank. Both have the same terms, as many moments, and the
/// same relations at each.
#[derive(Clone)]
pub struct Banks {
    records: [Record; 2],
}

impl Banks {
    /// Both banks at moment 0.
    pub fn new(terms: Terms) -> Banks {
        let record = Record::new(terms);
        Banks { records: [record.clone(), record] }
    }

    /// Both banks going on from states with the same relations, whatever made
    /// them.
    pub fn going_on(terms: &Terms, states: &[State; 2]) -> Banks {
        Banks { records: [0, 1].map(|bank| going_on(terms, &states[bank])) }
    }

    pub fn terms(&self) -> &Terms {
        self.records[0].terms()
    }

    pub fn record(&self, bank: usize) -> &Record {
        &self.records[bank]
    }

    /// How many moments there are in either record.
    pub fn moments(&self) -> usize {
        self.records[0].graphs().len()
    }

    /// Answers a call of a bank. The spare words are those of the other bank's
    /// scratch.
    pub fn call(&mut self, bank: usize, call: &Call, spare_words: usize) -> Answer {
        if spare_words < SCRATCH_WORDS {
            return Answer::Refused(Refusal::plain(6));
        }
        let own = &mut self.records[bank];
        let moments = own.graphs().len();
        let answer = own.answer(call);
        if own.graphs().len() > moments {
            let edges = own.last().edges.clone();
            self.records[1 - bank].pass(edges);
        }
        answer
    }

    /// Answers a set list of a bank: the requests one after another. The checks
    /// come first, and on failure every item is left as it is.
    pub fn set_list(
        &mut self,
        bank: usize,
        items: &mut [Item],
        scratch_words: [usize; 2],
    ) -> Result<usize, Refusal> {
        if scratch_words[0].min(scratch_words[1]) < SCRATCH_WORDS {
            return Err(Refusal::plain(6));
        }
        Ok(set_list::fill(items, |call| self.call(bank, call, SCRATCH_WORDS)))
    }

    /// Goes on with other terms in both banks, or in none.
    pub fn revise(&mut self, terms: &Terms) -> Result<(), Refusal> {
        self.records.iter_mut().try_for_each(|record| record.revise(terms))
    }

    /// Does a deed for which enough of everything is lent.
    pub fn take(&mut self, deed: &Deed) -> Outcome {
        match deed {
            Deed::Call(bank, call) => Outcome::Answered(self.call(*bank, call, SCRATCH_WORDS)),
            Deed::List(bank, items) => {
                let mut items = items.clone();
                let granted = self.set_list(*bank, &mut items, [SCRATCH_WORDS; 2]);
                Outcome::Listed(granted, items)
            }
            Deed::Revision(words) => {
                let terms = step::said(words).ok_or(Refusal::plain(7));
                Outcome::Revised(terms.and_then(|terms| self.revise(&terms)))
            }
        }
    }

    /// The words that the memory of both must hold, worked out from the records.
    pub fn words(&self) -> Lent {
        let states = [0, 1].map(|bank| self.records[bank].state_words());
        let [relations, others] = [0, 1].map(|bank| &states[bank][..RELATION_WORDS]);
        assert!(relations == others, "the banks have other relations");
        Lent {
            terms: memory::terms_words(self.terms()),
            relations: relations.to_vec(),
            own: [0, 1].map(|bank| states[bank][RELATION_WORDS..].to_vec()),
        }
    }
}
