//! Faulty readings of the meaning, each told apart by many generated cases.

use crate::faulty::{Fault, Faulty};
use crate::help::file;
use crate::spelled::spelled;
use keeper::generate;
use keeper::record::{Answer, Call, Graph, Record};
use keeper::renumber::Numbering;
use keeper::step::Step;
use keeper::terms::{variables, Bit, Terms};

/// A record, read with a fault.
struct Run {
    fault: Fault,
    record: Record,
    /// The graphs of all moments, as the fault has them.
    graphs: Vec<Graph>,
    /// The first moment that counts for each entry, as the fault has it.
    starts: Vec<usize>,
    shown: bool,
}

impl Run {
    /// The faulty reading of the first moments.
    fn faulty(&self, moments: usize) -> Faulty<'_> {
        let (terms, graphs) = (self.record.terms(), &self.graphs[..moments]);
        Faulty { fault: self.fault, terms, graphs, starts: &self.starts, bound: 0, around: 0 }
    }

    fn call(&mut self, call: &Call) {
        let moments = self.record.graphs().len();
        let answer = self.record.answer(call);
        if let Answer::Grant | Answer::Deny = answer {
            let mut members = [0; 16];
            members[0] = if self.fault == Fault::TargetForgotten { 0 } else { call.to };
            let policy = self.record.terms().policies[call.event];
            let value = self.faulty(moments).holds(policy, moments - 1, call.from, &mut members);
            self.shown |= value != (answer == Answer::Grant);
        }
        self.graphs.extend_from_slice(&self.record.graphs()[moments..]);
    }

    /// Compares every table of the present moment.
    fn tables(&mut self) {
        let state = self.record.state();
        let terms = self.record.terms();
        let moments = self.record.graphs().len();
        let mut faulty = self.faulty(moments);
        let mut shown = false;
        for (entry, table) in terms.past().into_iter().zip(&state.past.tables) {
            let free = terms.free()[entry];
            for bit in Bit::all(terms.members, free) {
                let (a, others) = bit.parts();
                let mut members = [0; 16];
                variables(free).zip(others).for_each(|(x, other)| members[x] = other);
                let value = faulty.holds(entry, moments - 1, a, &mut members);
                shown |= value != table.contains(&bit);
            }
        }
        self.shown |= shown;
    }

    /// The starts under new terms, as the fault has them.
    fn revise(&mut self, old: &Terms) {
        let (new, now) = (self.record.terms(), self.record.graphs().len() - 1);
        let start = |entry: usize| {
            let same = |&other: &usize| match self.fault {
                Fault::StartsAgain => false,
                Fault::NumbersCount => other == entry,
                _ => spelled(old, other) == spelled(new, entry),
            };
            (0..old.entries.len()).find(same).map_or(now, |other| self.starts[other])
        };
        self.starts = (0..new.entries.len()).map(start).collect();
    }

    /// The graphs and starts under other numbers, as the fault has them.
    fn renumber(&mut self, numbers: &[u8]) {
        let mut numbering = Numbering::of(numbers.len(), numbers).unwrap();
        if self.fault == Fault::NumbersUndone {
            numbering = numbering.undone();
        }
        let now = self.graphs.len() - 1;
        for (moment, graph) in self.graphs.iter_mut().enumerate() {
            let mut other = numbering.graph(graph);
            match (self.fault, &mut other.event) {
                (Fault::PastKeepsNumbers, _) if moment < now => other = graph.clone(),
                (Fault::EventsKeepNumbers, _) => other.event = graph.event,
                (Fault::EventsTurn, Some(event)) => {
                    (event.from, event.to) = (event.to, event.from);
                }
                _ => {}
            }
            *graph = other;
        }
        if self.fault == Fault::NumbersStartAgain {
            self.starts.fill(now);
        }
    }
}

/// Whether the fault shows in an answer or in a table after the steps.
fn shows(fault: Fault, seed: u64) -> Option<bool> {
    let case = generate::case(seed, 99_999);
    let file = file(&case.text);
    let terms = &file.terms;
    let small = terms.members <= 5 && terms.entries.len() <= 24 && terms.past().len() <= 5;
    if !small || file.past.is_some() {
        return None;
    }
    let starts = vec![0; terms.entries.len()];
    let record = Record::of(file);
    let mut run = Run { fault, graphs: record.graphs().to_vec(), record, starts, shown: false };
    for step in case.steps.iter().take(12) {
        match step {
            Step::Call(call) => run.call(call),
            Step::Revision(revision) => {
                let old = run.record.terms().clone();
                if revision.answer(&mut run.record).is_ok() {
                    run.revise(&old);
                    run.tables();
                }
            }
            Step::Renumbering(renumbering) => {
                if renumbering.answer(&mut run.record).is_ok() {
                    run.renumber(&renumbering.numbers);
                    run.tables();
                }
            }
        }
        if run.record.terms().past().len() > 6 {
            break;
        }
    }
    run.tables();
    Some(run.shown)
}

#[test]
fn faults_show() {
    let count = |fault| (0..1_600).filter(|&seed| shows(fault, seed) == Some(true)).count();
    let tried = (0..1_600).filter(|&seed| shows(Fault::None, seed).is_some()).count();
    assert_eq!(count(Fault::None), 0);
    for &fault in Fault::ALL {
        let shown = count(fault);
        println!("{fault:?}: {shown} of {tried}");
        assert!(shown > 3, "{fault:?}: {shown}");
    }
}
