//! Every acceptance and every verdict, twice: from the proved library and from
//! the keeper of the whole record. Where they differ, it is an error.

mod banks;
mod renumbering;
mod revising;
mod stored;
mod telling;
mod unopened;
mod verdict;

pub use banks::Banks;
use revising::allowed;
pub use revising::Allowed;
pub use verdict::Verdict;
use verdict::{agreed, kept_verdict, named, verdict};

use crate::stop::Stop;
use keeper::expect;
use keeper::record::{Graph, Record};
use keeper::terms::memory::terms_words;
use keeper::terms::{self, EventEdge, Refusal, Terms};

/// The proved monitor and the keeper's record, side by side.
#[derive(Clone)]
pub struct Both {
    monitor: proved::Monitor,
    record: Record,
    /// Whether it is at hand for its terms alone.
    unopened: bool,
}

impl Both {
    /// Reads a text of either form: both accept it, or both refuse it for the
    /// same reason at the same line.
    pub fn read(text: &[u8]) -> Result<Result<Both, Refusal>, Stop> {
        match (proved::Monitor::read(text), terms::read(text)) {
            (Ok(monitor), Ok(file)) => {
                let both = Both { monitor, record: Record::of(file), unopened: false };
                let words = (both.monitor.terms().words(), both.monitor.state().words());
                let same = words.0[..] == terms_words(both.terms())[..]
                    && words.1[..] == both.record.state_words()[..];
                same.then_some(Ok(both)).ok_or_else(|| differ("they read other words"))
            }
            (Err(error), Err(refusal))
                if error.refusal().number() == usize::from(refusal.number)
                    && error.line() == refusal.line =>
            {
                Ok(Err(refusal))
            }
            (first, second) => {
                let first = first.map_or_else(|error| error.to_string(), |_| "accepted".into());
                let second =
                    second.map_or_else(|refusal| format!("{refusal:?}"), |_| "accepted".into());
                Err(differ(&format!("library: {first}; keeper: {second}")))
            }
        }
    }

    /// The same for terms that are to be used: a refusal stops the program.
    pub fn accepted(text: &[u8]) -> Result<Both, Stop> {
        Both::read(text)?.map_err(refused)
    }

    /// Answers a request; a grant makes the next moment, and so does a denial of
    /// a kept event.
    pub fn request(&mut self, event: usize, from: usize, to: usize) -> Result<Verdict, Stop> {
        let request = named(event, from, to);
        let proved = verdict(request.and_then(|request| self.monitor.request(request)));
        let kept = self.record.call(false, event, from, to, proved::SCRATCH_WORDS);
        let verdict = agreed(proved, kept_verdict(kept), event, from, to)?;
        if self.relations_agree() {
            Ok(verdict)
        } else {
            Err(differ(&format!("relations after request {event} {from} {to}")))
        }
    }

    /// What a request would be answered now; it makes no moment.
    pub fn look(&self, event: usize, from: usize, to: usize) -> Result<Verdict, Stop> {
        let request = named(event, from, to);
        let proved = verdict(request.and_then(|request| self.monitor.look(request)));
        let terms = self.record.terms();
        let kept = if event >= terms.events || from.max(to) >= terms.members {
            Verdict::Refused(9)
        } else if self.record.permits(event, from, to) {
            Verdict::Grant
        } else {
            Verdict::Deny
        };
        agreed(proved, kept, event, from, to)
    }

    /// The old form: the terms with the present relations. Refused with 12
    /// where that would lose the past.
    pub fn write(&self) -> Result<Result<Vec<u8>, Refusal>, Stop> {
        let (terms, state) = (self.monitor.terms().words(), self.monitor.state().words());
        let kept = expect::writing(terms, state, usize::MAX);
        let written = self.monitor.write().map_err(|refusal| refusal.number());
        if written == kept.clone().map_err(|refusal| refusal.number.into()) {
            Ok(kept)
        } else {
            Err(differ("they write other texts"))
        }
    }

    /// The stored form: reading it goes on from here.
    pub fn store(&self) -> Result<Vec<u8>, Stop> {
        let text = self.monitor.store();
        if stored::agrees(&text, &self.record) {
            Ok(text)
        } else {
            Err(differ("they store other texts"))
        }
    }

    /// Whether it began with a stored file, so that moments before it are not
    /// known.
    pub fn is_stored(&self) -> bool {
        self.record.before().is_some() && !self.unopened
    }

    pub fn terms(&self) -> &Terms {
        self.record.terms()
    }

    /// The whole record: one graph for each moment.
    pub fn record(&self) -> &Record {
        &self.record
    }

    /// The present graph.
    pub fn present(&self) -> &Graph {
        self.record.last()
    }

    fn relations_agree(&self) -> bool {
        same_graph(self.monitor.state(), self.record.last())
    }
}

/// Whether a state has the relations and the event of a graph.
fn same_graph(state: &proved::State, graph: &Graph) -> bool {
    let event = state.event().map(|edge| {
        let proved::Request { event, from, to } = edge.request;
        let denied = edge.answer == proved::Answer::Deny;
        EventEdge { event: event.into(), from: from.into(), to: to.into(), denied }
    });
    let edges = state.edges().map(|edge| (edge.relation.into(), edge.from.into(), edge.to.into()));
    event == graph.event && edges.eq(graph.edges.iter().copied())
}

fn refused(refusal: Refusal) -> Stop {
    let (number, line) = (refusal.number, refusal.line);
    Stop::Failed(format!("the terms are refused with {number} at line {line}"))
}

fn differ(how: &str) -> Stop {
    Stop::Differ(how.to_string())
}

#[cfg(test)]
mod tests {
    use super::*;

    const TEXT: &[u8] =
        b"M\t2\nL\t1\t2\nF\t0\ttop\t0\t0\nF\t1\tvar\t0\t0\nF\t2\tout\t0\t1\nP\t0\t0\nP\t1\t2\nE\t0\tadd\t0\tfwd\n";

    #[test]
    fn verdicts() {
        let mut both = Both::accepted(TEXT).unwrap();
        assert_eq!(both.request(1, 0, 1).unwrap(), Verdict::Deny);
        assert_eq!(both.request(0, 0, 1).unwrap(), Verdict::Grant);
        assert_eq!(both.look(1, 0, 1).unwrap(), Verdict::Grant);
        assert_eq!(both.look(2, 0, 1).unwrap(), Verdict::Refused(9));
        assert_eq!(both.write().unwrap(), Err(Refusal { number: 12, line: 0 }));
        let stored = both.store().unwrap();
        assert!(stored.ends_with(b"G\t0\t0\t1\nV\t0\t0\t1\n"));
        let later = Both::accepted(&stored).unwrap();
        assert!(later.is_stored() && !both.is_stored());
        assert_eq!(later.look(1, 0, 1).unwrap(), Verdict::Grant);
        assert_eq!(Both::accepted(TEXT).unwrap().write().unwrap(), Ok(TEXT.to_vec()));
    }

    #[test]
    fn a_difference_stops_the_program() {
        let stop = agreed(Verdict::Grant, Verdict::Deny, 2, 0, 1).unwrap_err();
        assert_eq!(stop.status(), crate::stop::UNUSABLE);
        let said = "the proved library and the keeper differ, please report it: \
                    event 2 from 0 to 1: library grant, keeper deny";
        assert_eq!(stop.to_string(), said);
    }

    #[test]
    fn refusals() {
        let refusal = Both::read(b"M\t0\n").unwrap().err();
        assert_eq!(refusal, Some(Refusal { number: 2, line: 1 }));
    }
}
