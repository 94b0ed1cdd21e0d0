//! The algorithm of source 001, appendix C: a byte matrix N × N for each
//! subformula with at most one free variable, all recomputed at each moment.
//!
//! `update` is its algorithm 2 and `top_down` its algorithm 3. Where 001
//! leaves the order of loops open the faster one is taken.

use keeper::record::after_effects;
use keeper::terms::memory::{state_of_words, State};
use keeper::terms::{Bit, Edge, Entry, EventEdge, Past, Terms, Variables};
use std::collections::BTreeSet;

/// Members that variables stand for.
type Assigned = [usize; 16];

#[derive(Clone)]
pub struct Matrices {
    terms: Terms,
    free: Vec<Variables>,
    edges: BTreeSet<Edge>,
    event: Option<EventEdge>,
    /// For each label and member, the members that an edge leads to.
    ahead: Vec<Vec<Vec<usize>>>,
    /// For each label and member, the members that an edge comes from.
    behind: Vec<Vec<Vec<usize>>>,
    /// B: for each entry its matrix; empty where two or more variables are free.
    matrices: Vec<Vec<u8>>,
    /// C: for each entry a column.
    columns: Vec<Vec<u8>>,
}

impl Matrices {
    /// Goes on from a state of the monitor.
    pub fn resume(terms: &Terms, words: &[u64]) -> Matrices {
        let State { edges, past: Past { tables, event } } =
            state_of_words(terms, words).expect("the state keeps the layout");
        let members = terms.members;
        let mut tables = tables.into_iter();
        let matrix = |entry: &Entry| {
            let table = if entry.is_past() { tables.next() } else { None };
            let mut matrix = vec![0; members * members];
            for bit in table.into_iter().flatten() {
                let Bit::Pair(a, b) = bit else { panic!("a table of two variables") };
                matrix[a * members + b] = 1;
            }
            matrix
        };
        let mut all = Matrices {
            free: terms.free(),
            edges,
            event,
            ahead: Vec::new(),
            behind: Vec::new(),
            matrices: terms.entries.iter().map(matrix).collect(),
            columns: vec![vec![0; members]; terms.entries.len()],
            terms: terms.clone(),
        };
        all.link();
        for entry in 0..terms.entries.len() {
            if !terms.entries[entry].is_past() {
                all.bottom_up(entry);
            }
        }
        all
    }

    /// Whether a look is granted: one bit of the policy's matrix.
    pub fn look(&self, event: usize, from: usize, to: usize) -> bool {
        self.matrices[self.terms.policies[event]][from * self.terms.members + to] == 1
    }

    /// Whether a request is granted; if it makes a moment, everything is brought
    /// up to date.
    pub fn request(&mut self, event: usize, from: usize, to: usize) -> bool {
        let granted = self.look(event, from, to);
        if granted && !self.terms.effects[event].is_empty() {
            self.edges = after_effects(&self.terms, &self.edges, event, from, to);
        }
        if granted || self.terms.kept.contains(&event) {
            self.event = Some(EventEdge { event, from, to, denied: !granted });
            self.link();
            self.update();
        }
        granted
    }

    /// Lists the edges of each label.
    fn link(&mut self) {
        let labels = self.terms.labels();
        self.ahead.resize(labels, vec![Vec::new(); self.terms.members]);
        self.behind.resize(labels, vec![Vec::new(); self.terms.members]);
        for lists in self.ahead.iter_mut().chain(&mut self.behind) {
            lists.iter_mut().for_each(Vec::clear);
        }
        let fired = self.event.map(|edge| (edge.label(&self.terms), edge.from, edge.to));
        for &(label, from, to) in self.edges.iter().chain(&fired) {
            self.ahead[label][from].push(to);
            self.behind[label][to].push(from);
        }
    }

    fn is_alpha(&self, entry: usize) -> bool {
        self.free[entry].count_ones() < 2
    }

    /// Prev entries first, the highest first; then the others, the lowest
    /// first.
    fn update(&mut self) {
        for entry in (0..self.terms.entries.len()).rev() {
            if let Entry::Prev(f) = self.terms.entries[entry] {
                let (lower, upper) = self.matrices.split_at_mut(entry);
                upper[0].copy_from_slice(&lower[f]);
            }
        }
        for entry in 0..self.terms.entries.len() {
            if !matches!(self.terms.entries[entry], Entry::Prev(_)) {
                self.bottom_up(entry);
            }
        }
    }

    fn bottom_up(&mut self, entry: usize) {
        if !self.is_alpha(entry) {
            return;
        }
        let n = self.terms.members;
        if let Entry::Bind(x, f) = self.terms.entries[entry] {
            if !self.is_alpha(f) {
                return self.bind(entry, x, f);
            }
        }
        let (lower, upper) = self.matrices.split_at_mut(entry);
        let out = &mut upper[0];
        match self.terms.entries[entry] {
            Entry::Top => out.fill(1),
            Entry::Var(_) => {
                out.fill(0);
                out.iter_mut().step_by(n + 1).for_each(|place| *place = 1);
            }
            Entry::Not(f) => out.iter_mut().zip(&lower[f]).for_each(|(o, f)| *o = 1 - f),
            Entry::Or(f, g) => {
                let both = lower[f].iter().zip(&lower[g]);
                out.iter_mut().zip(both).for_each(|(o, (f, g))| *o = f | g);
            }
            Entry::Out(l, f) => gather(out, &lower[f], &self.ahead[l], n),
            Entry::In(l, f) => gather(out, &lower[f], &self.behind[l], n),
            Entry::Many(l, f, k) => count(out, &lower[f], &self.ahead[l], k, n),
            Entry::Prev(f) => out.copy_from_slice(&lower[f]),
            Entry::Since(f, g) => {
                let both = lower[f].iter().zip(&lower[g]);
                out.iter_mut().zip(both).for_each(|(o, (f, g))| *o = g | (*o & f));
            }
            Entry::Bind(x, f) => {
                let own = self.free[f] >> x & 1 == 1;
                for (u, row) in out.chunks_exact_mut(n).enumerate() {
                    match own {
                        true => row.fill(lower[f][u * n + u]),
                        false => row.copy_from_slice(&lower[f][u * n..][..n]),
                    }
                }
            }
            Entry::At(_, f) => {
                for row in out.chunks_exact_mut(n) {
                    let own = lower[f].iter().step_by(n + 1);
                    row.iter_mut().zip(own).for_each(|(o, f)| *o = *f);
                }
            }
            Entry::Reach(_, f, g) => step(out, &lower[f], &lower[g], n),
        }
    }

    /// A binder over an entry with two free variables: top down for each pair.
    fn bind(&mut self, entry: usize, x: usize, f: usize) {
        let n = self.terms.members;
        let y = self.free[entry].trailing_zeros() as usize;
        for u in 0..n {
            for v in 0..n {
                let mut assigned = [0; 16];
                assigned[y] = v;
                assigned[x] = u;
                self.top_down(f, assigned);
                self.matrices[entry][u * n + v] = self.columns[f][u];
            }
        }
    }

    /// Leaves the column of an entry under an assignment.
    fn top_down(&mut self, entry: usize, assigned: Assigned) {
        let n = self.terms.members;
        if self.is_alpha(entry) {
            let y = self.free[entry].trailing_zeros() as usize % 16;
            let column = self.matrices[entry].iter().skip(assigned[y]).step_by(n);
            return self.columns[entry].iter_mut().zip(column).for_each(|(c, b)| *c = *b);
        }
        let formula = self.terms.entries[entry];
        if let Entry::Bind(x, f) = formula {
            for u in 0..n {
                let mut assigned = assigned;
                assigned[x] = u;
                self.top_down(f, assigned);
                self.columns[entry][u] = self.columns[f][u];
            }
            return;
        }
        let operands = match formula {
            Entry::Not(f) | Entry::Out(_, f) | Entry::In(_, f) | Entry::At(_, f) => [Some(f), None],
            Entry::Many(_, f, _) => [Some(f), None],
            Entry::Or(f, g) => [Some(f), Some(g)],
            // Its first operand has a matrix.
            Entry::Reach(_, _, g) => [Some(g), None],
            _ => [None, None],
        };
        operands.into_iter().flatten().for_each(|f| self.top_down(f, assigned));
        let (lower, upper) = self.columns.split_at_mut(entry);
        let out = &mut upper[0];
        match formula {
            Entry::Not(f) => out.iter_mut().zip(&lower[f]).for_each(|(o, f)| *o = 1 - f),
            Entry::Or(f, g) => {
                let both = lower[f].iter().zip(&lower[g]);
                out.iter_mut().zip(both).for_each(|(o, (f, g))| *o = f | g);
            }
            Entry::Out(l, f) => gather(out, &lower[f], &self.ahead[l], 1),
            Entry::In(l, f) => gather(out, &lower[f], &self.behind[l], 1),
            Entry::Many(l, f, k) => count(out, &lower[f], &self.ahead[l], k, 1),
            Entry::At(x, f) => out.fill(lower[f][assigned[x]]),
            Entry::Reach(_, f, g) => step(out, &self.matrices[f], &lower[g], 1),
            _ => unreachable!("no other entry has two free variables"),
        }
    }
}

/// Leaves in each row the union of the rows of g of those that f leads to: f has
/// a row of members for each member.
fn step(out: &mut [u8], f: &[u8], g: &[u8], width: usize) {
    let members = out.len() / width;
    for (row, leads) in out.chunks_exact_mut(width).zip(f.chunks_exact(members)) {
        row.fill(0);
        for (other, _) in leads.iter().enumerate().filter(|(_, leads)| **leads == 1) {
            row.iter_mut().zip(&g[other * width..]).for_each(|(o, g)| *o |= g);
        }
    }
}

/// Leaves in each row the union of the rows of f that it leads to.
fn gather(out: &mut [u8], f: &[u8], ahead: &[Vec<usize>], width: usize) {
    for (row, others) in out.chunks_exact_mut(width).zip(ahead) {
        row.fill(0);
        for &other in others {
            row.iter_mut().zip(&f[other * width..]).for_each(|(o, f)| *o |= f);
        }
    }
}

/// Leaves in each row what is in at least k of the rows of f that it leads to.
fn count(out: &mut [u8], f: &[u8], ahead: &[Vec<usize>], k: usize, width: usize) {
    for (row, others) in out.chunks_exact_mut(width).zip(ahead) {
        row.fill(0);
        for &other in others {
            row.iter_mut().zip(&f[other * width..]).for_each(|(o, f)| *o += f);
        }
        row.iter_mut().for_each(|o| *o = u8::from(usize::from(*o) >= k));
    }
}

#[cfg(test)]
mod tests;
