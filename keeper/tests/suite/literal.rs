//! The meaning once more, word for word and without remembering anything.

use crate::help::file;
use keeper::generate;
use keeper::record::meaning::Assigned;
use keeper::record::{Graph, Record, Start};
use keeper::step::Step;
use keeper::terms::memory::pairs;
use keeper::terms::{variables, Entry, EventEdge, Terms};

type Members = [usize; 16];

struct Literal<'a> {
    terms: &'a Terms,
    graphs: &'a [Graph],
    /// The first moment that counts for each entry.
    starts: Vec<usize>,
}

/// The start of each past-time entry of a record that began at moment 0, in the
/// place of the entry.
pub fn starts(record: &Record) -> Vec<usize> {
    let mut starts = vec![0; record.terms().entries.len()];
    for (entry, start) in record.terms().past().into_iter().zip(record.starts()) {
        match start {
            Start::Moment(first) => starts[entry] = *first,
            Start::Unknown(_) => panic!("it began with a stored file"),
        }
    }
    starts
}

impl Literal<'_> {
    fn edge(&self, i: usize, l: usize, from: usize, to: usize) -> bool {
        let (r, graph) = (self.terms.relations, &self.graphs[i]);
        (l < r && graph.edges.contains(&(l, from, to)))
            || (l >= r && graph.event == self.said(l - r, from, to))
    }

    /// The event edge that a label from r on asks for, counted from r.
    fn said(&self, l: usize, from: usize, to: usize) -> Option<EventEdge> {
        match l.checked_sub(self.terms.events) {
            None => Some(EventEdge::granted(l, from, to)),
            Some(event) => Some(EventEdge::denied(event, from, to)),
        }
    }

    fn holds(&self, entry: usize, i: usize, m: usize, s: Members) -> bool {
        let n = self.terms.members;
        match self.terms.entries[entry] {
            Entry::Top => true,
            Entry::Var(x) => m == s[x],
            Entry::Not(f) => !self.holds(f, i, m, s),
            Entry::Or(f, g) => self.holds(f, i, m, s) || self.holds(g, i, m, s),
            Entry::Out(l, f) => (0..n).any(|o| self.edge(i, l, m, o) && self.holds(f, i, o, s)),
            Entry::In(l, f) => (0..n).any(|o| self.edge(i, l, o, m) && self.holds(f, i, o, s)),
            Entry::Prev(f) => i > self.starts[entry] && self.holds(f, i - 1, m, s),
            Entry::Since(f, g) => (self.starts[entry]..=i)
                .any(|j| self.holds(g, j, m, s) && (j + 1..=i).all(|k| self.holds(f, k, m, s))),
            Entry::Bind(x, f) => {
                let mut bound = s;
                bound[x] = m;
                self.holds(f, i, m, bound)
            }
            Entry::At(x, f) => self.holds(f, i, s[x], s),
            Entry::Many(l, f, k) => {
                let near = |&o: &usize| self.edge(i, l, m, o) && self.holds(f, i, o, s);
                (0..n).filter(near).count() >= k
            }
            Entry::Reach(x, f, g) => (0..n).any(|o| {
                let mut alone = [0; 16];
                alone[x] = o;
                self.holds(f, i, m, alone) && self.holds(g, i, o, s)
            }),
        }
    }
}

#[test]
fn remembering_changes_nothing() {
    let (mut compared, mut later) = (0, 0);
    for seed in 0..1_500 {
        let case = generate::case(seed, 99_999);
        let file = file(&case.text);
        let terms = &file.terms;
        let nested = terms.past().len();
        if terms.members > 4 || terms.entries.len() > 16 || nested > 3 || file.past.is_some() {
            continue;
        }
        let mut record = Record::of(file);
        for step in &case.steps {
            match step {
                Step::Call(call) if record.graphs().len() < 8 => drop(record.answer(call)),
                Step::Call(_) => {}
                Step::Revision(revision) => drop(revision.answer(&mut record)),
                Step::Renumbering(renumbering) => drop(renumbering.answer(&mut record)),
            }
        }
        if record.terms().entries.len() > 20 || record.terms().past().len() > 5 {
            continue;
        }
        let now = record.graphs().len() - 1;
        let starts = starts(&record);
        later += usize::from(starts.iter().any(|&start| start > 0));
        let literal = Literal { terms: record.terms(), graphs: record.graphs(), starts };
        for entry in 0..record.terms().entries.len() {
            for (m, b) in pairs(record.terms().members) {
                let mut members = [0; 16];
                let mut assigned = Assigned::default();
                for (x, member) in members.iter_mut().enumerate() {
                    *member = (b + x * x) % record.terms().members;
                    assigned = assigned.with(x, *member);
                }
                let wanted = literal.holds(entry, now, m, members);
                assert_eq!(record.holds(entry, now, m, assigned), wanted, "seed {seed} {entry}");
                compared += 1;
            }
        }
    }
    println!("{compared} compared, {later} with an entry that started later");
    assert!(compared > 20_000 && later > 50, "{compared} {later}");
}

/// Each bit of each table, by the sentence on tables of its number of free
/// variables.
#[test]
fn words_of_tables() {
    let mut set = [0; 3];
    for seed in 0..3_000 {
        let case = generate::case(seed, 99_999);
        let file = file(&case.text);
        if file.terms.members > 4 || file.terms.past().len() > 3 || file.past.is_some() {
            continue;
        }
        let mut record = Record::of(file);
        case.calls().take(5).for_each(|call| {
            record.answer(call);
        });
        let (terms, words) = (record.terms(), record.state_words());
        let (now, free, n) = (record.graphs().len() - 1, terms.free(), terms.members);
        let literal = Literal { terms, graphs: record.graphs(), starts: starts(&record) };
        let holds = |entry: usize, a: usize, others: &[usize]| {
            let mut members = [0; 16];
            variables(free[entry]).zip(others).for_each(|(x, other)| members[x] = *other);
            literal.holds(entry, now, a, members)
        };
        for (t, entry) in terms.past().into_iter().enumerate() {
            let count = variables(free[entry]).count();
            let mut table = [0u64; 64];
            for (a, b) in pairs(n) {
                if count < 2 && holds(entry, a, &[b]) {
                    table[a] |= 1 << b;
                }
                for c in (0..n).filter(|&c| count == 2 && holds(entry, a, &[b, c])) {
                    table[4 * a + b / 4] |= 1 << (16 * (b % 4) + c);
                }
            }
            assert_eq!(words[1_024 + 64 * t..][..64], table, "seed {seed}, table {t}");
            set[count] += usize::from(table.iter().any(|&word| word != 0));
        }
    }
    println!("{set:?} tables with bits, by free variables");
    assert!(set.iter().all(|&count| count > 100), "{set:?}");
}
