//! What stays as it is, whatever happens: a policy that fails by relations that no effect
//! changes, or by what is remembered for good, is never granted.

use keeper::record::meaning::{Assigned, Meaning};
use keeper::record::{Graph, Record};
use keeper::terms::{Entry, Terms};

/// An entry at a member, under an assignment.
pub type At = (usize, usize, Assigned);

/// So many parts are looked at; a policy with more may change.
const MOST_PARTS: usize = 200_000;

/// Of so many ends of edges each is told by itself.
const MOST_ENDS: usize = 3;

/// A part that decides a policy for ever.
#[derive(Clone, Debug, PartialEq, Eq)]
pub struct Lack {
    /// Label and ends of the edges that lead to it.
    pub edges: Vec<[usize; 3]>,
    pub at: At,
    pub holds: bool,
    /// Of a `many` that fails, those who may come to fit: a bit for each.
    pub possible: u64,
    /// Whether it fails for want of any edge.
    pub no_edge: bool,
}

/// Reads entries of some terms by what never changes.
pub struct Fixed<'a> {
    terms: &'a Terms,
    graph: &'a Graph,
    /// What is so at the present moment.
    meaning: Meaning<'a>,
    now: usize,
    /// For each relation whether an effect changes it.
    changed: Vec<bool>,
    left: usize,
}

impl<'a> Fixed<'a> {
    pub fn new(record: &'a Record) -> Fixed<'a> {
        let terms = record.terms();
        let mut changed = vec![false; terms.relations];
        for effect in terms.effects.iter().flatten() {
            changed[effect.relation] = true;
        }
        let (meaning, now) = (record.meaning(), record.graphs().len() - 1);
        Fixed { terms, graph: record.last(), meaning, now, changed, left: MOST_PARTS }
    }

    /// The innermost parts by which a policy fails for ever, all of them needed; none where
    /// it may come to hold.
    pub fn fails(&mut self, event: usize, from: usize, to: usize) -> Option<Vec<Lack>> {
        let at = (self.terms.policies[event], from, Assigned::default().with(0, to));
        self.left = MOST_PARTS;
        if self.value(at) != Some(false) {
            return None;
        }
        let mut found = Vec::new();
        self.inmost(at, false, &[], &mut found);
        Some(found)
    }

    /// The parts that decide an entry, after the edges that lead to it.
    fn inmost(&mut self, at: At, holds: bool, edges: &[[usize; 3]], found: &mut Vec<Lack>) {
        let (entry, member, assigned) = at;
        let (mut possible, mut no_edge) = (0, false);
        // What was read within the bound is read once more.
        self.left = MOST_PARTS;
        match self.terms.entries[entry] {
            Entry::Not(f) => return self.inmost((f, member, assigned), !holds, edges, found),
            Entry::Bind(x, f) => {
                return self.inmost((f, member, assigned.with(x, member)), holds, edges, found);
            }
            Entry::At(x, f) => {
                return self.inmost((f, assigned.member(x), assigned), holds, edges, found);
            }
            Entry::Or(f, g) => {
                let sides = [f, g].map(|side| (side, member, assigned));
                let first = self.value(sides[0]) == Some(true);
                let sides = match holds {
                    true => &sides[usize::from(!first)..][..1],
                    false => &sides[..],
                };
                return sides.iter().for_each(|side| self.inmost(*side, holds, edges, found));
            }
            Entry::Out(label, f) | Entry::In(label, f) if !holds => {
                let ends = |other| match self.terms.entries[entry] {
                    Entry::Out(..) => (member, other),
                    _ => (other, member),
                };
                let is_there = |other: &usize| self.edge(label, ends(*other)) != Some(false);
                let others: Vec<usize> = (0..self.terms.members).filter(is_there).collect();
                let is_fixed = others.iter().all(|other| self.edge(label, ends(*other)).is_some());
                let is_var = matches!(self.terms.entries[f], Entry::Var(_));
                if is_fixed && !is_var && (1..=MOST_ENDS).contains(&others.len()) {
                    for other in others {
                        let (from, to) = ends(other);
                        let edges = [edges, &[[label, from, to]]].concat();
                        self.inmost((f, other, assigned), false, &edges, found);
                    }
                    return;
                }
                no_edge = others.is_empty() && !is_var;
            }
            Entry::Many(label, f, _) if !holds => {
                for other in 0..self.terms.members {
                    let edge = self.edge(label, (member, other)) != Some(false);
                    let fits = edge && self.value((f, other, assigned)) != Some(false);
                    possible |= u64::from(fits) << other;
                }
            }
            _ => {}
        }
        let lack = Lack { edges: edges.to_vec(), at, holds, possible, no_edge };
        if !found.contains(&lack) {
            found.push(lack);
        }
    }

    /// What an entry says at every moment from now on, as far as it is known.
    fn value(&mut self, (entry, member, assigned): At) -> Option<bool> {
        self.left = self.left.checked_sub(1)?;
        match self.terms.entries[entry] {
            Entry::Top => Some(true),
            Entry::Var(x) => Some(assigned.member(x) == member),
            Entry::Not(f) => self.value((f, member, assigned)).map(|value| !value),
            Entry::Or(f, g) => {
                let first = self.value((f, member, assigned));
                match first {
                    Some(true) => first,
                    _ => either(first, self.value((g, member, assigned))),
                }
            }
            Entry::Bind(x, f) => self.value((f, member, assigned.with(x, member))),
            Entry::At(x, f) => self.value((f, assigned.member(x), assigned)),
            Entry::Out(label, f) => self.ends((label, true), f, 1, member, assigned),
            Entry::In(label, f) => self.ends((label, false), f, 1, member, assigned),
            Entry::Many(label, f, least) => self.ends((label, true), f, least, member, assigned),
            Entry::Prev(f) => {
                let before = self.meaning.holds(entry, self.now, member, assigned);
                self.value((f, member, assigned)).filter(|value| *value == before)
            }
            Entry::Since(f, g) => match self.meaning.holds(entry, self.now, member, assigned) {
                // What has begun lasts as long as the first operand holds.
                true => self.value((f, member, assigned)).filter(|value| *value),
                false => self.value((g, member, assigned)).filter(|value| !*value),
            },
            Entry::Reach(..) => None,
        }
    }

    /// Whether at least so many ends of edges fit.
    fn ends(
        &mut self,
        (label, out): (usize, bool),
        f: usize,
        least: usize,
        member: usize,
        assigned: Assigned,
    ) -> Option<bool> {
        let (mut sure, mut possible) = (0, 0);
        for other in 0..self.terms.members {
            let edge = self.edge(label, if out { (member, other) } else { (other, member) });
            if edge == Some(false) {
                continue;
            }
            match self.value((f, other, assigned)) {
                Some(false) => {}
                Some(true) if edge == Some(true) => (sure, possible) = (sure + 1, possible + 1),
                _ => possible += 1,
            }
        }
        match (sure >= least, possible >= least) {
            (true, _) => Some(true),
            (false, false) => Some(false),
            _ => None,
        }
    }

    /// Whether there is an edge, as far as that stays.
    fn edge(&self, label: usize, (from, to): (usize, usize)) -> Option<bool> {
        match self.changed.get(label) {
            Some(false) => Some(self.graph.edges.contains(&(label, from, to))),
            _ => None,
        }
    }
}

fn either(one: Option<bool>, other: Option<bool>) -> Option<bool> {
    match (one, other) {
        (Some(true), _) | (_, Some(true)) => Some(true),
        (Some(false), Some(false)) => Some(false),
        _ => None,
    }
}
