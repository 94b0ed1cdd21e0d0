//! What is read aloud means what the entries mean: clauses are evaluated over
//! random records and held against the keeper.

use cuckooormolu_tool::aloud::clause::{Clause, Counted, Link, Reached, Who};
use cuckooormolu_tool::aloud::form::{Forms, Quantity};
use cuckooormolu_tool::aloud::resolve;
use cuckooormolu_tool::names::Labelled;
use cuckooormolu_tool::names::Names;
use keeper::generate::size::Size;
use keeper::generate::{calls, formulas, Rng};
use keeper::record::meaning::Assigned;
use keeper::record::Record;
use keeper::terms::{Bit, EventEdge, VARIABLES};

/// One evaluation of clauses over a record.
struct Evaluation<'a> {
    record: &'a Record,
    you: usize,
    here: usize,
    assigned: Assigned,
    guests: Vec<usize>,
}

impl Evaluation<'_> {
    fn member(&self, who: Who) -> usize {
        match who {
            Who::You => self.you,
            Who::Target => self.assigned.member(0),
            Who::Here => self.here,
            Who::Given(variable) => self.assigned.member(variable),
            Who::Guest(guest) => self.guests[guest],
            Who::Member(member) => member,
        }
    }

    fn has_edge(&self, moment: usize, label: usize, from: usize, to: usize) -> bool {
        let (graph, terms) = (&self.record.graphs()[moment], self.record.terms());
        match Labelled::of(terms, label) {
            Labelled::Relation(_) => graph.edges.contains(&(label, from, to)),
            Labelled::Event(event) => graph.event == Some(EventEdge::granted(event, from, to)),
            Labelled::Denied(event) => graph.event == Some(EventEdge::denied(event, from, to)),
        }
    }

    fn holds(&mut self, clause: &Clause, moment: usize) -> bool {
        match clause {
            Clause::Constant(value) => *value,
            Clause::Same { who, other, holds } => {
                (self.member(*who) == self.member(*other)) == *holds
            }
            Clause::Edge { label, from, to, holds } => {
                self.has_edge(moment, *label, self.member(*from), self.member(*to)) == *holds
            }
            Clause::Linked(link) => self.linked(link, moment),
            Clause::Reached(reached) => self.reached(reached, moment),
            Clause::Counted(counted) => self.counted(counted, moment),
            Clause::All(parts) => parts.iter().all(|part| self.holds(part, moment)),
            Clause::Any(parts) => parts.iter().any(|part| self.holds(part, moment)),
            Clause::Before { holds, then } => {
                (moment > 0 && self.holds(then, moment - 1)) == *holds
            }
            Clause::Once { holds, then } => (0..=moment).any(|i| self.holds(then, i)) == *holds,
            Clause::Throughout(then) => (0..=moment).all(|i| self.holds(then, i)),
            Clause::Since { holds, start, hold } => {
                let since = (0..=moment)
                    .any(|i| self.holds(start, i) && (i + 1..=moment).all(|j| self.holds(hold, j)));
                since == *holds
            }
            Clause::Apart { entry, of, given, holds } => {
                let mut assigned = Assigned::default().with(0, self.member(Who::Target));
                for (variable, who) in given {
                    assigned = assigned.with(*variable, self.member(*who));
                }
                self.record.holds(*entry, moment, self.member(*of), assigned) == *holds
            }
        }
    }

    fn linked(&mut self, link: &Link, moment: usize) -> bool {
        let near = self.member(link.near);
        let mut found = Vec::new();
        for far in 0..self.record.terms().members {
            let (from, to) = if link.out { (near, far) } else { (far, near) };
            if self.has_edge(moment, link.label, from, to) {
                self.guests.resize(self.guests.len().max(link.guest + 1), 0);
                self.guests[link.guest] = far;
                found.push(self.holds(&link.that, moment));
            }
        }
        agree(link.quantity, &found)
    }

    fn counted(&mut self, counted: &Counted, moment: usize) -> bool {
        let mut found = 0;
        for far in 0..self.record.terms().members {
            let near = self.member(counted.near);
            if self.has_edge(moment, counted.label, near, far) {
                self.guests.resize(self.guests.len().max(counted.guest + 1), 0);
                self.guests[counted.guest] = far;
                found += usize::from(self.holds(&counted.that, moment));
            }
        }
        (found >= counted.least) == counted.holds
    }

    fn reached(&mut self, reached: &Reached, moment: usize) -> bool {
        let mut found = Vec::new();
        for far in 0..self.record.terms().members {
            self.guests.resize(self.guests.len().max(reached.guest + 1), 0);
            self.guests[reached.guest] = far;
            if self.holds(&reached.step, moment) {
                self.guests[reached.guest] = far;
                found.push(self.holds(&reached.that, moment));
            }
        }
        agree(reached.quantity, &found)
    }
}

/// Whether what was found is so of as many as it should be.
fn agree(quantity: Quantity, found: &[bool]) -> bool {
    match quantity {
        Quantity::Some => found.contains(&true),
        Quantity::No => !found.contains(&true),
        Quantity::Every => !found.contains(&false),
    }
}

fn random_record(seed: u64) -> Record {
    let mut rng = Rng::new(seed);
    let size = if rng.percent(60) { Size::small(&mut rng) } else { Size::middle(&mut rng) };
    let terms = formulas::terms(&mut rng, &size);
    let calls = calls(&mut rng, &terms, 12, 99);
    let mut record = Record::new(terms);
    for call in &calls {
        record.answer(call);
    }
    record
}

#[test]
fn clauses_mean_what_entries_mean() {
    let (mut compared, mut apart) = (0, 0);
    for seed in 0..5_000 {
        let record = random_record(seed);
        let terms = record.terms();
        let forms = Forms::new(terms, &Names::default());
        let now = record.graphs().len() - 1;
        for &entry in &terms.policies {
            let clause = resolve::of_policy(&forms, entry);
            for (you, target) in [(0, 0), (0, terms.members - 1), (terms.members - 1, 0)] {
                let assigned = Assigned::default().with(0, target);
                let mut evaluation =
                    Evaluation { record: &record, you, here: 0, assigned, guests: Vec::new() };
                let meant = record.holds(entry, now, you, assigned);
                assert_eq!(evaluation.holds(&clause, now), meant, "seed {seed} entry {entry}");
                compared += 1;
            }
        }
        for entry in 0..terms.entries.len() {
            if !forms.is_apart(forms.node(entry, true)) {
                continue;
            }
            let entry = forms.node(entry, true).entry;
            let clause = resolve::of_entry(&forms, entry);
            let mut rng = Rng::new(seed);
            let assigned = (0..VARIABLES).fold(Assigned::default(), |assigned, variable| {
                assigned.with(variable, rng.below(terms.members))
            });
            let here = rng.below(terms.members);
            let mut evaluation =
                Evaluation { record: &record, you: 0, here, assigned, guests: Vec::new() };
            let meant = record.holds(entry, now, here, assigned);
            assert_eq!(evaluation.holds(&clause, now), meant, "seed {seed} entry {entry}");
            apart += 1;
        }
    }
    assert!(compared > 10_000 && apart > 10, "{compared} {apart}");
}

/// What is said of a line that a stored file has is what its table says.
#[test]
fn bits_mean_what_tables_say() {
    let (mut compared, mut held) = (0, 0);
    for seed in 0..600 {
        let record = random_record(seed);
        let forms = Forms::new(record.terms(), &Names::default());
        let now = record.graphs().len() - 1;
        let tables = record.state().past.tables;
        for (entry, table) in record.terms().past().into_iter().zip(&tables) {
            for bit in Bit::all(record.terms().members.min(4), forms.free[entry]) {
                let (member, standing) = Assigned::by(forms.free[entry], bit);
                let clause = resolve::of_place(&forms, (entry, member, standing), true);
                let (assigned, guests) = (Assigned::default(), Vec::new());
                let mut evaluation =
                    Evaluation { record: &record, you: 0, here: 0, assigned, guests };
                let meant = table.contains(&bit);
                assert_eq!(evaluation.holds(&clause, now), meant, "seed {seed} entry {entry}");
                (compared, held) = (compared + 1, held + usize::from(meant));
            }
        }
    }
    assert!(compared > 5_000 && held > 1_000, "{compared} {held}");
}
