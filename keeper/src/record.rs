//! The keeper of the whole record: one graph for each moment, and from where on
//! each past-time entry is judged.

pub mod meaning;
mod start;

pub use start::Start;

use crate::terms::memory::{self, State, SCRATCH_WORDS};
use crate::terms::{Bit, Edge, EventEdge, File, Past, Refusal, Tables, Terms, Variables};
use meaning::{Assigned, Meaning};
use std::collections::BTreeSet;

/// The graph of one moment.
#[derive(Clone, Debug, Default, PartialEq, Eq)]
pub struct Graph {
    pub edges: BTreeSet<Edge>,
    pub event: Option<EventEdge>,
}

/// One call: a request, or a look.
#[derive(Clone, Copy, Debug, PartialEq, Eq)]
pub struct Call {
    pub look: bool,
    pub event: usize,
    pub from: usize,
    pub to: usize,
    pub scratch_words: usize,
}

impl Call {
    pub fn request(event: usize, from: usize, to: usize) -> Call {
        Call { look: false, event, from, to, scratch_words: SCRATCH_WORDS }
    }

    pub fn look(event: usize, from: usize, to: usize) -> Call {
        Call { look: true, ..Call::request(event, from, to) }
    }
}

/// What a call gives.
#[derive(Clone, Copy, Debug, PartialEq, Eq)]
pub enum Answer {
    Grant,
    Deny,
    Refused(Refusal),
}

/// The accepted terms, the start of each past-time entry and the list of graphs.
#[derive(Clone)]
pub struct Record {
    terms: Terms,
    free: Vec<Variables>,
    graphs: Vec<Graph>,
    /// One for each past-time entry.
    starts: Vec<Start>,
    /// Whether there are moments before the first graph that are not known.
    is_loaded: bool,
}

impl Record {
    /// The record at moment 0: the first edges, no event edge.
    pub fn new(terms: Terms) -> Record {
        let starts = vec![Start::Moment(0); terms.past().len()];
        let first = Graph { edges: terms.edges.clone(), event: None };
        Record { free: terms.free(), graphs: vec![first], terms, starts, is_loaded: false }
    }

    /// A record that begins with the moment of a stored file: its graph, and
    /// what the tables say of the past.
    pub fn loaded(terms: Terms, past: Past) -> Record {
        let starts = past.tables.into_iter().map(Start::Unknown).collect();
        let first = Graph { edges: terms.edges.clone(), event: past.event };
        Record { free: terms.free(), graphs: vec![first], terms, starts, is_loaded: true }
    }

    /// The record of a file: at moment 0 in the old form, loaded in the stored.
    pub fn of(file: File) -> Record {
        match file.past {
            None => Record::new(file.terms),
            Some(past) => Record::loaded(file.terms, past),
        }
    }

    pub fn terms(&self) -> &Terms {
        &self.terms
    }

    pub fn graphs(&self) -> &[Graph] {
        &self.graphs
    }

    /// The present moment's graph.
    pub fn last(&self) -> &Graph {
        &self.graphs[self.graphs.len() - 1]
    }

    /// Answers a call by the first rule that fits.
    pub fn call(
        &mut self,
        look: bool,
        event: usize,
        from: usize,
        to: usize,
        scratch_words: usize,
    ) -> Answer {
        if scratch_words < SCRATCH_WORDS {
            return Answer::Refused(Refusal::plain(6));
        }
        if !self.terms.has(event, from, to) {
            return Answer::Refused(Refusal::plain(9));
        }
        if !self.permits(event, from, to) {
            if !look && self.terms.kept.contains(&event) {
                let edges = self.last().edges.clone();
                let event = Some(EventEdge::denied(event, from, to));
                self.graphs.push(Graph { edges, event });
            }
            return Answer::Deny;
        }
        if !look {
            let edges = after_effects(&self.terms, &self.last().edges, event, from, to);
            let event = Some(EventEdge::granted(event, from, to));
            self.graphs.push(Graph { edges, event });
        }
        Answer::Grant
    }

    /// The same, from a call kept as one value.
    pub fn answer(&mut self, call: &Call) -> Answer {
        self.call(call.look, call.event, call.from, call.to, call.scratch_words)
    }

    /// A moment that was made elsewhere: these relations, and no event edge.
    pub fn pass(&mut self, edges: BTreeSet<Edge>) {
        self.graphs.push(Graph { edges, event: None });
    }

    /// Whether the event's policy holds now, at the initiator, with variable 0
    /// standing for the target.
    pub fn permits(&self, event: usize, from: usize, to: usize) -> bool {
        let assigned = Assigned::default().with(0, to);
        self.holds(self.terms.policies[event], self.graphs.len() - 1, from, assigned)
    }

    /// Whether an entry holds at a moment, at a member.
    pub fn holds(&self, entry: usize, moment: usize, member: usize, assigned: Assigned) -> bool {
        self.meaning().holds(entry, moment, member, assigned)
    }

    /// From where on each past-time entry is judged.
    pub fn starts(&self) -> &[Start] {
        &self.starts
    }

    /// Puts another graph in the place of each, and another table in the place of
    /// each that says what an entry is at the first graph.
    pub(crate) fn rewrite(
        &mut self,
        graph: impl Fn(&Graph) -> Graph,
        table: impl Fn(&BTreeSet<Bit>) -> BTreeSet<Bit>,
    ) {
        self.graphs = self.graphs.iter().map(graph).collect();
        for start in &mut self.starts {
            if let Start::Unknown(said) = start {
                *said = table(said);
            }
        }
    }

    /// What the past-time entries are said to be at the first graph, where the
    /// moments before it are not known; nothing of those that started later.
    pub fn before(&self) -> Option<Tables> {
        let said = |start: &Start| match start {
            Start::Moment(_) => BTreeSet::new(),
            Start::Unknown(table) => table.clone(),
        };
        self.is_loaded.then(|| self.starts.iter().map(said).collect())
    }

    /// The meaning of the entries over this record.
    pub fn meaning(&self) -> Meaning<'_> {
        Meaning::new(&self.terms, &self.free, &self.graphs, &self.starts)
    }

    /// The state after the calls so far, worked out from the record.
    pub fn state(&self) -> State {
        let mut meaning = self.meaning();
        let now = self.graphs.len() - 1;
        let mut tables = Vec::new();
        for entry in self.terms.past() {
            let free = self.free[entry];
            let holds = |bit: &Bit| {
                let (member, assigned) = Assigned::by(free, *bit);
                meaning.holds(entry, now, member, assigned)
            };
            tables.push(Bit::all(self.terms.members, free).into_iter().filter(holds).collect());
        }
        let past = Past { tables, event: self.last().event };
        State { edges: self.last().edges.clone(), past }
    }

    /// The 3,073 words the state must hold after the calls so far.
    pub fn state_words(&self) -> Vec<u64> {
        memory::state_words(&self.state())
    }
}

/// The edges after an event's effects, in listed order.
pub fn after_effects(
    terms: &Terms,
    edges: &BTreeSet<Edge>,
    event: usize,
    from: usize,
    to: usize,
) -> BTreeSet<Edge> {
    let mut edges = edges.clone();
    for effect in &terms.effects[event] {
        let (tail, head) = if effect.back { (to, from) } else { (from, to) };
        let edge = (effect.relation, tail, head);
        if effect.add {
            edges.insert(edge);
        } else {
            edges.remove(&edge);
        }
    }
    edges
}
