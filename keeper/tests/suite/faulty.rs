//! Readings of the meaning with one fault each.

use crate::help::faults;
use keeper::record::Graph;
use keeper::terms::{Entry, EventEdge, Terms};

faults! {
    PrevHoldsAtFirst,
    PrevOfPastSeesPresent,
    SinceNeedsFirstToo,
    SinceOnlyBefore,
    SinceForgetsFirst,
    EventLivesOn,
    EventLabelOffByOne,
    RelationsOfFirstMoment,
    InIsOut,
    NoSelfEdges,
    OuterBindingCounts,
    BindingLeaks,
    AtStays,
    OneNeighbour,
    TargetForgotten,
    OrdersSwapped,
    ReachStays,
    ReachBackwards,
    ManyIsMore,
    ManyIsOut,
    ManyIsIn,
    ManyCountsAll,
    ManyCountsTwice,
    DenialIsGrant,
    DenialOfAnother,
    DenialUnseen,
    StartsForgotten,
    StartsAgain,
    SinceStartsEmpty,
    CutOffOutside,
    NumbersCount,
    NumbersUndone,
    PastKeepsNumbers,
    EventsKeepNumbers,
    EventsTurn,
    NumbersStartAgain,
}

pub type Members = [usize; 16];

pub struct Faulty<'a> {
    pub fault: Fault,
    pub terms: &'a Terms,
    pub graphs: &'a [Graph],
    /// The first moment that counts for each entry.
    pub starts: &'a [usize],
    pub bound: u16,
    /// The latest start of the past-time entries around.
    pub around: usize,
}

impl Faulty<'_> {
    fn edge(&self, i: usize, l: usize, from: usize, to: usize) -> bool {
        if self.fault == Fault::NoSelfEdges && from == to {
            return false;
        }
        let r = self.terms.relations;
        let of = if self.fault == Fault::RelationsOfFirstMoment { 0 } else { i };
        if l < r {
            return self.graphs[of].edges.contains(&(l, from, to));
        }
        let (e, shift) = (self.terms.events, usize::from(self.fault == Fault::EventLabelOffByOne));
        let event = (l - r + shift) % e;
        let edge = match (l - r < e, self.fault) {
            (true, _) | (false, Fault::DenialIsGrant) => EventEdge::granted(event, from, to),
            (false, Fault::DenialOfAnother) => EventEdge::denied((event + 1) % e, from, to),
            (false, Fault::DenialUnseen) => return false,
            (false, _) => EventEdge::denied(event, from, to),
        };
        let lived = self.fault == Fault::EventLivesOn && i > 0;
        let had = |i: usize| self.graphs[i].event == Some(edge);
        had(i) || lived && had(i - 1)
    }

    /// The start of a past-time entry, as the fault has it.
    fn start(&self, entry: usize) -> usize {
        match self.fault {
            Fault::StartsForgotten => 0,
            Fault::CutOffOutside => self.starts[entry].max(self.around),
            _ => self.starts[entry],
        }
    }

    pub fn holds(&mut self, entry: usize, i: usize, m: usize, s: &mut Members) -> bool {
        let around = self.around;
        if self.terms.entries[entry].is_past() {
            self.around = self.start(entry);
        }
        let value = self.work_out(entry, i, m, s);
        self.around = around;
        value
    }

    fn work_out(&mut self, entry: usize, i: usize, m: usize, s: &mut Members) -> bool {
        let fault = self.fault;
        match self.terms.entries[entry] {
            Entry::Top => true,
            Entry::Var(x) => m == s[x],
            Entry::Not(f) => !self.holds(f, i, m, s),
            Entry::Or(f, g) => self.holds(f, i, m, s) || self.holds(g, i, m, s),
            Entry::Out(l, f) => self.some(l, f, true, i, m, s),
            Entry::In(l, f) => self.some(l, f, fault == Fault::InIsOut, i, m, s),
            Entry::Prev(f) if i > self.start(entry) => {
                let present =
                    fault == Fault::PrevOfPastSeesPresent && self.terms.entries[f].is_past();
                self.holds(f, if present { i } else { i - 1 }, m, s)
            }
            Entry::Prev(_) => fault == Fault::PrevHoldsAtFirst,
            Entry::Since(f, g) => {
                let (f, g) = if fault == Fault::OrdersSwapped { (g, f) } else { (f, g) };
                let end = if fault == Fault::SinceOnlyBefore { i } else { i + 1 };
                let after = usize::from(fault != Fault::SinceNeedsFirstToo);
                let start = self.start(entry);
                let empty = usize::from(fault == Fault::SinceStartsEmpty && start > 0);
                (start + empty..end).any(|j| {
                    let lasted = fault == Fault::SinceForgetsFirst
                        || (j + after..=i).all(|k| self.holds(f, k, m, s));
                    lasted && self.holds(g, j, m, s)
                })
            }
            Entry::Bind(x, f) => {
                let (member, bound) = (s[x], self.bound);
                if fault != Fault::OuterBindingCounts || bound >> x & 1 == 0 {
                    s[x] = m;
                }
                self.bound |= 1 << x;
                let value = self.holds(f, i, m, s);
                if fault != Fault::BindingLeaks {
                    s[x] = member;
                }
                self.bound = bound;
                value
            }
            Entry::At(x, f) => {
                let there = if fault == Fault::AtStays { m } else { s[x] };
                self.holds(f, i, there, s)
            }
            Entry::Many(l, f, k) => self.count(l, f, i, m, s) >= k.min(self.most(k)),
            Entry::Reach(x, f, g) => (0..self.terms.members).any(|other| {
                let (near, named) = match fault {
                    Fault::ReachBackwards => (other, m),
                    _ => (m, other),
                };
                let far = if fault == Fault::ReachStays { m } else { other };
                let mut alone = [0; 16];
                alone[x] = named;
                self.holds(f, i, near, &mut alone) && self.holds(g, i, far, s)
            }),
        }
    }

    /// How many a faulty many asks for at most.
    fn most(&self, k: usize) -> usize {
        if self.fault == Fault::ManyIsOut {
            1
        } else {
            k
        }
    }

    /// How many neighbours satisfy f, as a faulty many counts them.
    fn count(&mut self, l: usize, f: usize, i: usize, m: usize, s: &mut Members) -> usize {
        let (mut count, inward) = (0, self.fault == Fault::ManyIsIn);
        for other in 0..self.terms.members {
            let (from, to) = if inward { (other, m) } else { (m, other) };
            let near = self.edge(i, l, from, to);
            let fits = self.fault == Fault::ManyCountsAll || near && self.holds(f, i, other, s);
            count += usize::from(near && fits);
            // Once more where an edge comes back.
            let twice = self.fault == Fault::ManyCountsTwice && self.edge(i, l, other, m);
            count += usize::from(near && fits && twice);
        }
        count.saturating_sub(usize::from(self.fault == Fault::ManyIsMore))
    }

    fn some(&mut self, l: usize, f: usize, out: bool, i: usize, m: usize, s: &mut Members) -> bool {
        for other in 0..self.terms.members {
            let (from, to) = if out { (m, other) } else { (other, m) };
            if self.edge(i, l, from, to) {
                let value = self.holds(f, i, other, s);
                if value || self.fault == Fault::OneNeighbour {
                    return value;
                }
            }
        }
        false
    }
}
