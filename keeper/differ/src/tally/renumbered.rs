//! Members renumbered, counted by outcome.

use super::{refused, Seen, Tally, PAIRED};
use keeper::record::Answer;
use keeper::terms::memory::{EVENT_WORD, FIRST_TABLE};
use keeper::terms::Refusal;

/// What a run has to see of renumberings.
pub(super) fn wanted() -> Vec<Seen> {
    let mut wanted = vec![("renumber", "done".into())];
    wanted.extend([6, 7, 8, 15].map(|number| ("renumber", format!("refuse {number}"))));
    let lists = ["too short", "too long", "a number twice", "a number from N on"];
    wanted.extend(lists.map(|list| ("list", list.into())));
    let moved = ["relations", "event", "no free", "one free", "two free"];
    wanted.extend(moved.map(|part| ("moved", part.into())));
    let later = ["grant", "deny", "refuse 6", "refuse 9"];
    wanted.extend(later.map(|outcome| ("later", outcome.into())));
    wanted.extend(["renumber done", "renumber refuse 8"].map(|outcome| (PAIRED, outcome.into())));
    wanted
}

impl Tally {
    /// A renumbering, what is wrong with its list, and which parts of the second
    /// state are others than those of the first.
    pub fn renumber(
        &mut self,
        (terms, state): (&[u16], &[u64]),
        numbers: &[u8],
        second: &[u64],
        got: &Result<(), Refusal>,
    ) {
        let outcome = got.map_or_else(refused, |()| "done".into());
        self.count_paired(terms, &format!("renumber {outcome}"));
        self.count("renumber", outcome);
        match got {
            Err(Refusal { number: 15, .. }) => self.list(terms[0].into(), numbers),
            Err(_) => {}
            Ok(()) => self.moved(terms, state, second),
        }
    }

    /// An answer to a renumbered call that the old call over the old state got too.
    pub fn later(&mut self, answer: Answer) {
        let outcome = match answer {
            Answer::Grant => "grant".into(),
            Answer::Deny => "deny".into(),
            Answer::Refused(refusal) => refused(refusal),
        };
        self.count("later", outcome);
    }

    /// What is wrong with a list that is refused.
    fn list(&mut self, members: usize, numbers: &[u8]) {
        let fault = match numbers.len() {
            length if length < members => "too short",
            length if length > members => "too long",
            _ if numbers.iter().any(|&number| usize::from(number) >= members) => {
                "a number from N on"
            }
            _ => "a number twice",
        };
        self.count("list", fault.into());
    }

    /// The parts that are others.
    fn moved(&mut self, terms: &[u16], state: &[u64], second: &[u64]) {
        if self.shrinking {
            return;
        }
        let differs = |first: usize, end: usize| state[first..end] != second[first..end];
        if differs(0, FIRST_TABLE) {
            self.count("moved", "relations".into());
        }
        if differs(EVENT_WORD, EVENT_WORD + 1) {
            self.count("moved", "event".into());
        }
        self.paired(terms);
        let (free, past) = (self.last.1.free(), self.last.1.past());
        for (t, entry) in past.into_iter().enumerate() {
            if differs(FIRST_TABLE + 64 * t, FIRST_TABLE + 64 * (t + 1)) {
                let variables = ["no", "one", "two"][free[entry].count_ones() as usize];
                self.count("moved", format!("{variables} free"));
            }
        }
    }
}
