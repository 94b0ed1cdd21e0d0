//! A state: the present moment, and what the policies need of the past.

use crate::places::*;
use crate::{raw, Answer, Edge, Event, EventEdge, Member, Refusal, Relation, Request};
use crate::{Table, Terms, OWN_WORDS, RELATION_WORDS, STATE_WORDS};
use alloc::boxed::Box;

/// The present moment: relations, past-time tables and the event edge.
#[derive(Clone, Debug, PartialEq, Eq)]
pub struct State(pub(crate) Box<[u64; STATE_WORDS]>);

impl State {
    /// A state from its words, checked by the terms that it belongs to. Further
    /// words are left out.
    ///
    /// # Errors
    ///
    /// [`Refusal::TooShort`] and [`Refusal::BadState`].
    pub fn from_words(terms: &Terms, words: &[u64]) -> Result<State, Refusal> {
        let state = State(front(words)?);
        raw::check(terms.words(), state.words()).map(|()| state)
    }

    /// The words of the memory layout.
    pub fn words(&self) -> &[u64; STATE_WORDS] {
        &self.0
    }

    /// The edges of all relations, rising.
    pub fn edges(&self) -> impl Iterator<Item = Edge> + '_ {
        bits(&self.0[..FIRST_TABLE]).map(|(row, to)| Edge {
            relation: Relation((row / ROWS) as u8),
            from: Member((row % ROWS) as u8),
            to,
        })
    }

    /// Whether [`State::edges`] has an edge.
    pub fn has_edge(&self, edge: Edge) -> bool {
        let (relation, row) = (usize::from(edge.relation), usize::from(edge.from));
        relation < RELATIONS && row < ROWS && has(self.0[ROWS * relation + row], edge.to)
    }

    /// The table of the t-th past-time entry of the terms that the state belongs
    /// to ([`Terms::tables`]); none if they have no such entry.
    pub fn table(&self, terms: &Terms, t: usize) -> Option<Table<'_>> {
        let entry = terms.tables().nth(t)?;
        let words = self.0[FIRST_TABLE + ROWS * t..].first_chunk()?;
        Some(Table::new(words, terms.free_set(entry)))
    }

    /// The request that made this moment, and its answer; none at moment 0.
    ///
    /// ```
    /// use cuckooormolu::{Answer, Event, Member, Monitor, Request};
    ///
    /// // Event 0 is never granted, and its denied requests are kept.
    /// let text = "M 2\nL 0 1\nF 0 top 0 0\nF 1 not 0 0\nP 0 1\nK 0\n";
    /// let mut monitor = Monitor::read(text.replace(' ', "\t").as_bytes())?;
    /// let request = Request { event: Event(0), from: Member(0), to: Member(1) };
    /// assert_eq!(monitor.request(request)?, Answer::Deny);
    /// let edge = monitor.state().event().unwrap();
    /// assert_eq!((edge.request, edge.answer), (request, Answer::Deny));
    /// # Ok::<(), Box<dyn std::error::Error>>(())
    /// ```
    pub fn event(&self) -> Option<EventEdge> {
        let code = self.0[EVENT_WORD].checked_sub(1)?;
        let number = code / 4_096;
        let (answer, event) = match number.checked_sub(DENIED) {
            None => (Answer::Grant, number),
            Some(event) => (Answer::Deny, event),
        };
        let request = Request {
            event: Event(event as u8),
            from: Member((code / 64 % 64) as u8),
            to: Member((code % 64) as u8),
        };
        Some(EventEdge { request, answer })
    }

    pub(crate) fn blank() -> State {
        State(Box::new([0; STATE_WORDS]))
    }

    /// A bank's state: the relations, and then its own words.
    pub(crate) fn joined(relations: &[u64; RELATION_WORDS], own: &[u64; OWN_WORDS]) -> State {
        let mut state = State::blank();
        state.0[..RELATION_WORDS].copy_from_slice(relations);
        state.0[RELATION_WORDS..].copy_from_slice(own);
        state
    }
}

/// Whether a word has the bit of a member.
pub(crate) fn has(word: u64, bit: Member) -> bool {
    word.checked_shr(bit.0.into()).is_some_and(|word| word & 1 == 1)
}

/// The bits that are set, each with the number of its word.
pub(crate) fn bits(words: &[u64]) -> impl Iterator<Item = (usize, Member)> + '_ {
    words.iter().enumerate().flat_map(|(row, word)| {
        (0..64).filter(move |bit| word >> bit & 1 == 1).map(move |bit| (row, Member(bit)))
    })
}
