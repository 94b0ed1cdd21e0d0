//! The meaning of a formula over a list of graphs, each past-time entry judged
//! from its own start.

use super::{Graph, Start};
use crate::terms::{variables, Bit, Entry, Terms, Variables};
use std::collections::HashMap;
use std::hash::{BuildHasherDefault, Hasher};

/// The members variables 0 to 15 stand for, six bits each. A variable not
/// named stands for member 0.
#[derive(Clone, Copy, Debug, Default, PartialEq, Eq)]
pub struct Assigned(u128);

impl Assigned {
    pub fn member(self, variable: usize) -> usize {
        (self.0 >> (6 * variable) & 63) as usize
    }

    pub fn with(self, variable: usize, member: usize) -> Assigned {
        let others = self.0 & !(63 << (6 * variable));
        Assigned(others | (member as u128) << (6 * variable))
    }

    /// What a bit of a table is about: the member, and the free variables of the
    /// entry standing for the others, the lower-numbered first.
    pub fn by(free: Variables, bit: Bit) -> (usize, Assigned) {
        let (member, others) = bit.parts();
        let standing = variables(free).zip(others);
        (member, standing.fold(Assigned::default(), |all, (x, other)| all.with(x, other)))
    }
}

/// One evaluation. What it has found out is remembered as long as it lives,
/// which is never longer than one call.
pub struct Meaning<'a> {
    terms: &'a Terms,
    graphs: &'a [Graph],
    /// For each entry, the bits of an assignment that its free variables take.
    relevant: Vec<u128>,
    /// For each past-time entry, its start and its free variables.
    past: HashMap<usize, (&'a Start, Variables)>,
    known: Vec<HashMap<u128, bool, BuildHasherDefault<Mix>>>,
}

impl<'a> Meaning<'a> {
    pub fn new(
        terms: &'a Terms,
        free: &[Variables],
        graphs: &'a [Graph],
        starts: &'a [Start],
    ) -> Meaning<'a> {
        let bits = |&set: &Variables| variables(set).fold(0, |bits, x| bits | 63 << (6 * x));
        let past = terms.past().into_iter().zip(starts);
        Meaning {
            terms,
            graphs,
            relevant: free.iter().map(bits).collect(),
            past: past.map(|(entry, start)| (entry, (start, free[entry]))).collect(),
            known: vec![HashMap::default(); terms.entries.len()],
        }
    }

    /// Whether an entry holds at moment i, at member m, under an assignment.
    pub fn holds(&mut self, entry: usize, i: usize, m: usize, assigned: Assigned) -> bool {
        match self.terms.entries[entry] {
            Entry::Top => return true,
            Entry::Var(x) => return m == assigned.member(x),
            _ => {}
        }
        let place = (i as u128) << 102 | (m as u128) << 96 | (assigned.0 & self.relevant[entry]);
        if let Some(&value) = self.known[entry].get(&place) {
            return value;
        }
        let value = self.work_out(entry, i, m, assigned);
        self.known[entry].insert(place, value);
        value
    }

    fn work_out(&mut self, entry: usize, i: usize, m: usize, assigned: Assigned) -> bool {
        let members = 0..self.terms.members;
        match self.terms.entries[entry] {
            Entry::Top => true,
            Entry::Var(x) => m == assigned.member(x),
            Entry::Not(f) => !self.holds(f, i, m, assigned),
            Entry::Or(f, g) => self.holds(f, i, m, assigned) || self.holds(g, i, m, assigned),
            Entry::Out(l, f) => members
                .into_iter()
                .any(|other| self.edge(i, l, m, other) && self.holds(f, i, other, assigned)),
            Entry::In(l, f) => members
                .into_iter()
                .any(|other| self.edge(i, l, other, m) && self.holds(f, i, other, assigned)),
            Entry::Many(l, f, k) => {
                let near = members.filter(|&other| {
                    self.edge(i, l, m, other) && self.holds(f, i, other, assigned)
                });
                near.count() >= k
            }
            Entry::Prev(f) => match self.start(entry, m, assigned) {
                (0, Some(said)) if i == 0 => said,
                (first, _) => i > first && self.holds(f, i - 1, m, assigned),
            },
            Entry::Since(f, g) => self.since(entry, (f, g), i, m, assigned),
            Entry::Bind(x, f) => self.holds(f, i, m, assigned.with(x, m)),
            Entry::At(x, f) => self.holds(f, i, assigned.member(x), assigned),
            Entry::Reach(x, f, g) => members.into_iter().any(|other| {
                let alone = Assigned::default().with(x, other);
                self.holds(f, i, m, alone) && self.holds(g, i, other, assigned)
            }),
        }
    }

    /// For some j from the start up to i, g holds at j and f holds at every moment
    /// after j up to i. Going back from i: once f fails at j, no earlier moment
    /// will do, and at the first graph it may be said whether one does.
    fn since(
        &mut self,
        entry: usize,
        (f, g): (usize, usize),
        i: usize,
        m: usize,
        assigned: Assigned,
    ) -> bool {
        let (first, said) = self.start(entry, m, assigned);
        for j in (first..=i).rev() {
            if let (0, Some(said)) = (j, said) {
                return said;
            }
            if self.holds(g, j, m, assigned) {
                return true;
            }
            if !self.holds(f, j, m, assigned) {
                return false;
            }
        }
        false
    }

    /// The first moment that counts for a past-time entry; where earlier ones
    /// count too and are not known, also what the entry is said to be there.
    fn start(&self, entry: usize, m: usize, assigned: Assigned) -> (usize, Option<bool>) {
        match self.past[&entry] {
            (Start::Moment(first), _) => (*first, None),
            (Start::Unknown(table), free) => {
                let bit = Bit::at(free, m, |x| assigned.member(x));
                (0, Some(table.contains(&bit)))
            }
        }
    }

    /// Whether the graph of moment i has an edge under a label.
    fn edge(&self, i: usize, label: usize, from: usize, to: usize) -> bool {
        let graph = &self.graphs[i];
        if label < self.terms.relations {
            return graph.edges.contains(&(label, from, to));
        }
        graph.event.is_some_and(|event| event.is(self.terms, label, from, to))
    }
}

/// A quick hash of one 128-bit number.
#[derive(Default)]
pub struct Mix(u64);

impl Hasher for Mix {
    fn write(&mut self, bytes: &[u8]) {
        for &byte in bytes {
            self.0 = (self.0 ^ u64::from(byte)).wrapping_mul(0x0100_0000_01b3);
        }
    }

    fn write_u128(&mut self, number: u128) {
        let high = ((number >> 64) as u64).wrapping_mul(0x9e37_79b9_7f4a_7c15);
        let mixed = (number as u64 ^ high.rotate_left(32)).wrapping_mul(0xbf58_476d_1ce4_e5b9);
        self.0 = mixed ^ mixed >> 29;
    }

    fn finish(&self) -> u64 {
        self.0
    }
}
