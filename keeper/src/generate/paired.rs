//! Past-time formulas with two free variables.

use super::formulas::Builder;
use crate::terms::{variables, Entry};

impl Builder<'_> {
    /// "Shared by this one with that one": two that are bound around it, or one
    /// that is bound and the target.
    pub fn paired(&mut self) -> Option<usize> {
        let x = self.rng.below(4);
        let y = (x + self.rng.between(1, 3)) % 4;
        let far = self.rng.percent(15);
        // Two numbers that are far apart, or close.
        let [x, y] = [x, y].map(|variable| if far { 5 * variable } else { variable });
        let between = self.between(x, y)?;
        let past = self.past_of(between, x, y)?;
        let entry = if self.rng.percent(40) { self.nested(past, between)? } else { past };
        self.closed(entry)
    }

    /// An entry about two variables and, mostly, the member where it is asked.
    fn between(&mut self, x: usize, y: usize) -> Option<usize> {
        let (label, other) = (self.label(), self.label());
        let who = self.push(Entry::Var(x))?;
        let whom = self.push(Entry::Var(y))?;
        let edge = match self.rng.below(3) {
            0 => self.push(Entry::In(label, whom))?,
            _ => self.push(Entry::Out(label, whom))?,
        };
        match self.rng.below(8) {
            0..=2 => self.push(Entry::At(x, edge)),
            3 => self.push(Entry::Or(who, edge)),
            4 => {
                let either = self.push(Entry::Or(edge, who))?;
                self.push(Entry::Out(other, either))
            }
            5 => {
                let either = self.push(Entry::Or(who, whom))?;
                let (many, count) = (self.lasting(), self.rng.between(1, 2));
                self.push(Entry::Many(many, either, count))
            }
            _ => {
                // An edge to one, and another to or from the other.
                let from = self.push(Entry::In(other, who))?;
                let [no, none] = [edge, from].map(Entry::Not);
                let (no, none) = (self.push(no)?, self.push(none)?);
                let either = self.push(Entry::Or(no, none))?;
                self.push(Entry::Not(either))
            }
        }
    }

    /// A past-time entry of two variables over what is between them.
    fn past_of(&mut self, between: usize, x: usize, y: usize) -> Option<usize> {
        let label = self.label();
        match self.rng.below(8) {
            0 => self.push(Entry::Prev(between)),
            1 | 2 => {
                let top = self.push(Entry::Top)?;
                self.push(Entry::Since(top, between))
            }
            3 | 4 => {
                let who = self.push(Entry::Var(x))?;
                let over = self.push(Entry::Out(label, who))?;
                let lasting = self.push(Entry::Not(over))?;
                self.push(Entry::Since(lasting, between))
            }
            5 => {
                // One variable in each operand.
                let (who, whom) = (self.push(Entry::Var(x))?, self.push(Entry::Var(y))?);
                let elsewhere = self.push(Entry::Not(who))?;
                let begun = self.push(Entry::Out(label, whom))?;
                self.push(Entry::Since(elsewhere, begun))
            }
            6 => {
                let operand = self.past_operand(self.free[between]);
                self.push(Entry::Since(operand, between))
            }
            _ => {
                let operand = self.past_operand(self.free[between]);
                self.push(Entry::Since(between, operand))
            }
        }
    }

    /// A past-time entry over another of two variables.
    fn nested(&mut self, past: usize, between: usize) -> Option<usize> {
        let (label, other) = (self.label(), self.rng.below(4));
        match self.rng.below(7) {
            0 => self.push(Entry::Prev(past)),
            1 => self.push(Entry::Since(past, between)),
            2 => {
                let not = self.push(Entry::Not(past))?;
                self.push(Entry::Since(not, between))
            }
            3 => {
                let seen = self.push(Entry::Out(label, past))?;
                let top = self.push(Entry::Top)?;
                self.push(Entry::Since(top, seen))
            }
            _ => {
                // One of the two is bound, and another variable joins the other.
                let bound = self.bind_one(past)?;
                let who = self.push(Entry::Var(other))?;
                let seen = match self.rng.below(3) {
                    0 => self.push(Entry::In(label, bound))?,
                    1 => self.push(Entry::Out(label, bound))?,
                    _ => bound,
                };
                match self.rng.below(3) {
                    0 => self.push(Entry::Since(who, seen)),
                    1 => {
                        let either = self.push(Entry::Or(seen, who))?;
                        self.push(Entry::Prev(either))
                    }
                    _ => {
                        let elsewhere = self.push(Entry::Not(who))?;
                        self.push(Entry::Since(elsewhere, seen))
                    }
                }
            }
        }
    }

    /// The entry with one of its free variables bound.
    fn bind_one(&mut self, entry: usize) -> Option<usize> {
        let free: Vec<usize> = variables(self.free[entry] & !1).collect();
        if free.is_empty() {
            return Some(entry);
        }
        let x = self.rng.pick(&free);
        self.push(Entry::Bind(x, entry))
    }

    /// A step to whomever the entry's one free variable may stand for.
    fn step_by(&mut self, entry: usize) -> Option<usize> {
        let x = self.free[entry].trailing_zeros() as usize;
        if self.free[entry] != 1 << x || x == 0 {
            return None;
        }
        let end = self.push(Entry::Var(0))?;
        self.push(Entry::Reach(x, entry, end))
    }

    /// The entry with all variables but 0 bound, here or at others.
    fn closed(&mut self, mut entry: usize) -> Option<usize> {
        while self.free[entry] & !1 != 0 {
            if self.rng.percent(25) {
                if let Some(step) = self.step_by(entry) {
                    entry = step;
                    continue;
                }
            }
            entry = self.bind_one(entry)?;
            let label = self.label();
            entry = match self.rng.below(6) {
                0 | 1 => self.push(Entry::At(0, entry))?,
                2 => self.push(Entry::Out(label, entry))?,
                3 => self.push(Entry::In(label, entry))?,
                _ => entry,
            };
        }
        Some(entry)
    }
}
