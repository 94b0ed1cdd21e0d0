//! Formulas of several entries that chance alone seldom builds.

use super::formulas::Builder;
use crate::terms::Entry;

impl Builder<'_> {
    /// One pattern, as far as the bounds allow.
    pub fn pattern(&mut self) {
        if self.most_free() == 2 && self.rng.percent(14) {
            self.paired();
            return;
        }
        match self.rng.below(21) {
            0 | 1 => self.once_and_not_since(),
            2 | 3 => self.bind_again(),
            4 | 5 => self.before_the_past(),
            6 => self.both(),
            7..=12 => self.reached(),
            13..=15 => self.counted(),
            16..=18 => self.tried(),
            _ => self.shown(),
        };
    }

    /// "Once this, and not that since", seen from the target.
    fn once_and_not_since(&mut self) -> Option<usize> {
        let (x, once, ended, from) =
            (self.rng.between(1, 3), self.label(), self.label(), self.label());
        let who = self.push(Entry::Var(x))?;
        let begun = self.push(Entry::Out(once, who))?;
        let over = self.push(Entry::Out(ended, who))?;
        let lasting = self.push(Entry::Not(over))?;
        let since = self.push(Entry::Since(lasting, begun))?;
        let entered = self.push(Entry::In(from, since))?;
        let target = self.push(Entry::At(0, entered))?;
        self.push(Entry::Bind(x, target))
    }

    /// "Whoever this once came to, and not that since", as a step; now and then twice.
    fn reached(&mut self) -> Option<usize> {
        let (x, once, ended) = (self.rng.between(1, 3), self.label(), self.label());
        let who = self.push(Entry::Var(x))?;
        let begun = self.push(Entry::Out(once, who))?;
        let over = self.push(Entry::In(ended, who))?;
        let lasting = self.push(Entry::Not(over))?;
        let near = match self.rng.below(4) {
            0 => self.push(Entry::Or(begun, over))?,
            1 => self.push(Entry::Prev(begun))?,
            _ => self.push(Entry::Since(lasting, begun))?,
        };
        let end = match self.rng.below(4) {
            0 | 1 => self.push(Entry::Var(0))?,
            2 => self.push(Entry::Top)?,
            _ => self.operand(),
        };
        let step = self.push(Entry::Reach(x, near, end))?;
        if self.rng.percent(50) {
            return Some(step);
        }
        self.push(Entry::Reach(x, near, step))
    }

    /// "At least so many near me, and another so many near the target".
    fn counted(&mut self) -> Option<usize> {
        let (label, other, count) = (self.lasting(), self.label(), self.count());
        let target = self.push(Entry::Var(0))?;
        let far = match self.rng.below(4) {
            0 => self.push(Entry::Top)?,
            1 => self.push(Entry::Not(target))?,
            2 => self.push(Entry::In(other, target))?,
            _ => self.operand(),
        };
        let near = self.push(Entry::Many(label, far, count))?;
        match self.rng.below(4) {
            0 => self.push(Entry::At(0, near)),
            1 => self.push(Entry::Not(near)),
            2 => {
                let (other, again) = (self.lasting(), self.count());
                self.push(Entry::Many(other, near, again))
            }
            _ => Some(near),
        }
    }

    /// "Not denied twice since somebody lifted it", as a policy may say; of here,
    /// or of here and another.
    fn tried(&mut self) -> Option<usize> {
        let (tried, lifted) = (self.denied(), self.label());
        let whom = match self.rng.below(3) {
            0 => Entry::Var(0),
            _ => Entry::Top,
        };
        let (whom, top) = (self.push(whom)?, self.push(Entry::Top)?);
        let denied = self.push(Entry::Out(tried, whom))?;
        let lifting = self.push(Entry::In(lifted, top))?;
        let lasting = self.push(Entry::Not(lifting))?;
        let once = self.push(Entry::Since(lasting, denied))?;
        if self.rng.percent(30) {
            return self.push(Entry::Not(once));
        }
        let before = self.push(Entry::Prev(once))?;
        let (not_now, not_before) =
            (self.push(Entry::Not(denied))?, self.push(Entry::Not(before))?);
        let not_again = self.push(Entry::Or(not_now, not_before))?;
        let again = self.push(Entry::Not(not_again))?;
        let twice = self.push(Entry::Since(lasting, again))?;
        self.push(Entry::Not(twice))
    }

    /// A variable bound, bound again further in, and used in both places.
    fn bind_again(&mut self) -> Option<usize> {
        let (x, outer, inner) = (self.rng.between(1, 3), self.label(), self.label());
        let who = self.push(Entry::Var(x))?;
        let near = match self.rng.below(3) {
            0 => self.push(Entry::In(outer, who))?,
            1 => self.push(Entry::Out(outer, who))?,
            _ => self.push(Entry::At(0, who))?,
        };
        let deep = match self.rng.below(3) {
            0 => self.operand(),
            1 => self.push(Entry::Not(who))?,
            _ => near,
        };
        let again = self.push(Entry::Bind(x, deep))?;
        let far = match self.rng.below(3) {
            0 => self.push(Entry::In(inner, again))?,
            1 => self.push(Entry::Out(inner, again))?,
            _ => self.push(Entry::At(0, again))?,
        };
        let either = match self.rng.below(3) {
            0 => self.push(Entry::Or(near, far))?,
            1 => self.push(Entry::Since(near, far))?,
            _ => self.push(Entry::Or(far, near))?,
        };
        let bound = self.push(Entry::Bind(x, either))?;
        if self.rng.percent(50) {
            return Some(bound);
        }
        self.push(Entry::Since(bound, bound))
    }

    /// A past-time entry seen one moment later.
    fn before_the_past(&mut self) -> Option<usize> {
        let operand = self.past_operand(0);
        let label = self.label();
        let seen = self.push(Entry::Out(label, operand))?;
        let inner = match self.rng.below(4) {
            0 => self.push(Entry::Prev(seen))?,
            1 => self.push(Entry::Since(operand, seen))?,
            2 => self.push(Entry::Since(seen, operand))?,
            _ => {
                let top = self.push(Entry::Top)?;
                self.push(Entry::Since(top, seen))?
            }
        };
        let outer = if self.rng.percent(30) { self.push(Entry::Not(inner))? } else { inner };
        self.push(Entry::Prev(outer))
    }

    /// Two entries both holding.
    fn both(&mut self) -> Option<usize> {
        let (f, g) = (self.operand(), self.operand());
        let not_f = self.push(Entry::Not(f))?;
        let not_g = self.push(Entry::Not(g))?;
        let either = self.push(Entry::Or(not_f, not_g))?;
        self.push(Entry::Not(either))
    }

    /// An entry as its own table: f since f holds just where f holds now.
    fn shown(&mut self) -> Option<usize> {
        let f = self.past_operand(0);
        self.push(Entry::Since(f, f))
    }
}
