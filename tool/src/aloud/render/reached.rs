//! Members to whom a step leads: some, none or every one of them.

use super::linked::determiner;
use super::Speaker;
use crate::aloud::clause::{Clause, Reached, Who};
use crate::aloud::form::Quantity;
use crate::aloud::grammar::{be, Time};
use crate::aloud::labels::Manner;
use crate::aloud::words::{name, Shape, Words};

impl Speaker<'_> {
    /// "some member that you have at some time shared with owns the target".
    pub(super) fn reached(&mut self, reached: &Reached, time: Time) -> Words {
        let (guest, quantity) = (Who::Guest(reached.guest), reached.quantity);
        let (some, called) = (determiner(quantity), name(guest));
        let Some(step) = self.step(&reached.step, guest, time) else {
            return self.apart_from_step(reached, time);
        };
        if *reached.that == Clause::Constant(true) && quantity != Quantity::Every {
            let is = be(false, time);
            return Words::whole(format!("there {is} {some} member that {step}"), Shape::Compound);
        }
        let that = self.say(&reached.that, time, Some(guest));
        if let (Some(predicate), Some(shape)) = (that.predicate(guest), that.shape()) {
            return Words::whole(format!("{some} member that {step} {predicate}"), shape);
        }
        let before = format!("{some} {called} that {step} {} such that", be(false, time));
        self.say(&reached.that, time, None).after(&before)
    }

    /// What a step says, after "a member that": "has at some time shared with
    /// you", "you have at some time joined and have not left since".
    fn step(&mut self, step: &Clause, guest: Who, time: Time) -> Option<String> {
        let happened = match step {
            Clause::Once { holds: true, then } => self.towards(then, true, guest, time),
            Clause::Since { holds: true, start, hold } => self
                .towards(start, true, guest, time)
                .zip(self.towards(hold, false, guest, time))
                .filter(|((from, _), (other, _))| from == other)
                .map(|((from, start), (_, hold))| (from, format!("{start} and {hold} since"))),
            _ => return None,
        };
        if let Some((from, done)) = happened {
            return Some(format!("{} {done}", name(from)));
        }
        let said = self.say(step, time, Some(guest));
        let predicate = said.predicate(guest)?;
        // Such a predicate ends with the moment it speaks of, so that more can follow.
        let past = ["has at some time ", "had at some time "];
        past.iter().any(|past| predicate.starts_with(past)).then(|| predicate.to_string())
    }

    /// An event that leads to the guest, as it ends before its object: who does
    /// it, and "have at some time shared with".
    fn towards(
        &self,
        event: &Clause,
        holds: bool,
        guest: Who,
        time: Time,
    ) -> Option<(Who, String)> {
        let Clause::Edge { label, from, to, holds: is } = *event else { return None };
        let (from, to) = if self.labels.is_reversed(label) { (to, from) } else { (from, to) };
        if is != holds || !self.labels.is_event(label) || to != guest || from == guest {
            return None;
        }
        let manner = if holds { Manner::AtSomeTime } else { Manner::NotSince };
        let linking = self.active(label, from, time, manner);
        linking.takes_phrases().then_some((from, linking.before))
    }

    /// Step and end each on a line of its own.
    fn apart_from_step(&mut self, reached: &Reached, time: Time) -> Words {
        let (called, is) = (name(Who::Guest(reached.guest)), be(false, time));
        let head = match reached.quantity {
            Quantity::Some => format!("there {is} {called} to whom a step leads and who fits"),
            Quantity::No => format!("there {is} no {called} to whom a step leads and who fits"),
            Quantity::Every => format!("each {called} to whom a step leads {is} one who fits"),
        };
        let step = self.say(&reached.step, time, None);
        let that = self.say(&reached.that, time, None);
        let parts = vec![
            step.after(&format!("the step to {called}:")),
            that.after(&format!("{called} fits where")),
        ];
        Words::Outline { head, parts }
    }
}
