//! New terms while playing, and all answers of a moment.

use super::{agreed, differ, named, stored, verdict, Both, Verdict};
use crate::stop::Stop;
use keeper::record::meaning::Assigned;
use keeper::record::Record;
use keeper::terms::memory::terms_words;
use keeper::terms::Refusal;

/// Whether an event is allowed: by event, initiator and target.
pub type Allowed = Vec<Vec<Vec<bool>>>;

impl Both {
    /// Goes on with the terms of another; no moment is made. Both refuse it, and
    /// all is as it was, where there are other numbers of members, relations or
    /// events.
    pub fn revise(&mut self, new: &Both) -> Result<Result<(), Refusal>, Stop> {
        let proved = self.monitor.revise(new.monitor.terms()).map_err(|refusal| refusal.number());
        let kept = self.record.revise(new.terms());
        if proved != kept.map_err(|refusal| refusal.number.into()) {
            return Err(differ(&format!("revising: library {proved:?}, keeper {kept:?}")));
        }
        let same = self.monitor.terms().words()[..] == terms_words(self.terms())[..]
            && self.relations_agree()
            && stored::agrees(&self.monitor.store(), &self.record);
        same.then_some(kept).ok_or_else(|| differ("they go on from other words"))
    }

    /// All that is allowed now; it makes no moment.
    pub fn allowed(&self) -> Result<Allowed, Stop> {
        allowed(&self.record, |event, from, to| {
            verdict(named(event, from, to).and_then(|request| self.monitor.look(request)))
        })
    }
}

/// All that is allowed now by a record and by the library's looks.
pub(super) fn allowed(
    record: &Record,
    look: impl Fn(usize, usize, usize) -> Verdict,
) -> Result<Allowed, Stop> {
    let (terms, now) = (record.terms(), record.graphs().len() - 1);
    let mut meaning = record.meaning();
    let mut may = |event: usize, from: usize, to: usize| {
        let assigned = Assigned::default().with(0, to);
        let kept = match meaning.holds(terms.policies[event], now, from, assigned) {
            true => Verdict::Grant,
            false => Verdict::Deny,
        };
        Ok(agreed(look(event, from, to), kept, event, from, to)? == Verdict::Grant)
    };
    let members = 0..terms.members;
    let mut row = |event, from| members.clone().map(|to| may(event, from, to)).collect();
    (0..terms.events).map(|event| members.clone().map(|from| row(event, from)).collect()).collect()
}
