//! Clauses put into words.

mod counted;
mod linked;
mod past;
mod reached;

use super::clause::{Clause, Who};
use super::define;
use super::grammar::{be, Linking, Time};
use super::labels::{Labels, Manner, Voice};
use super::words::{join, listed, name, object, Shape, Words};
use crate::names::Names;

/// Puts the clauses of some terms into words.
pub struct Speaker<'a> {
    pub labels: &'a Labels,
    pub names: &'a Names,
    /// The entries that are said apart, in the order of their numbers.
    pub apart: Vec<usize>,
    /// Whether what is said apart is told under its number.
    pub numbered: bool,
}

impl Speaker<'_> {
    /// A clause said of a moment. With somebody in focus, what can be is said
    /// with them for its subject.
    pub fn say(&mut self, clause: &Clause, time: Time, focus: Option<Who>) -> Words {
        let held = time == Time::Then;
        match clause {
            Clause::Constant(value) => {
                let hold = if held { "held" } else { "holds" };
                let case = if *value { "any" } else { "no" };
                Words::whole(format!("this {hold} in {case} case"), Shape::Simple)
            }
            Clause::Same { who, other, holds } => {
                let not = if *holds { "" } else { " not" };
                let (is, other) = (be(*who == Who::You, time), object(*other, *who));
                Words::of(*who, format!("{is}{not} {other}"))
            }
            Clause::Edge { label, from, to, holds } => {
                let manner = if *holds { Manner::Plain } else { Manner::Negated };
                self.edge(*label, *from, *to, time, manner, focus)
            }
            Clause::Linked(link) => self.linked(link, time, focus),
            Clause::Reached(reached) => self.reached(reached, time),
            Clause::Counted(counted) => self.counted(counted, time),
            Clause::All(parts) => {
                let parts = parts.iter().map(|part| self.say(part, time, focus)).collect();
                join(parts, false, held)
            }
            Clause::Any(parts) => {
                let parts = parts.iter().map(|part| self.say(part, time, focus)).collect();
                join(parts, true, held)
            }
            Clause::Before { holds, then } => self.before(*holds, then, time),
            Clause::Once { holds, then } => self.once(*holds, then, time, focus),
            Clause::Throughout(then) => self.throughout(then, time),
            Clause::Since { holds, start, hold } => self.since(*holds, start, hold, time, focus),
            Clause::Apart { entry, of, given, holds } => {
                self.said_apart(*entry, *of, given, *holds, time)
            }
        }
    }

    pub fn edge(
        &self,
        label: usize,
        from: Who,
        to: Who,
        time: Time,
        manner: Manner,
        focus: Option<Who>,
    ) -> Words {
        if from == to && matches!(manner, Manner::Plain | Manner::Negated) {
            let holds = manner == Manner::Plain;
            if let Some(said) = self.labels.attribute(label, from == Who::You, time, holds) {
                return Words::of(from, said);
            }
        }
        let (from, to) = if self.labels.is_reversed(label) { (to, from) } else { (from, to) };
        if focus == Some(to) && from != to {
            if let Some(link) = self.link(label, Voice::Passive, to, time, manner) {
                return Words::of(to, link.with(&name(from)));
            }
        }
        let link = self.active(label, from, time, manner);
        Words::of(from, link.with(&object(to, from)))
    }

    fn link(
        &self,
        label: usize,
        voice: Voice,
        subject: Who,
        time: Time,
        manner: Manner,
    ) -> Option<Linking> {
        self.labels.link(label, voice, subject == Who::You, time, manner)
    }

    /// The words of a link in the active voice, which all have.
    fn active(&self, label: usize, from: Who, time: Time, manner: Manner) -> Linking {
        self.link(label, Voice::Active, from, time, manner).unwrap_or_else(|| String::new().into())
    }

    fn said_apart(
        &mut self,
        entry: usize,
        of: Who,
        given: &[(usize, Who)],
        holds: bool,
        time: Time,
    ) -> Words {
        if let Some(called) = self.names.defined(entry) {
            self.number(entry);
            return define::clause(called, of, given, holds, time);
        }
        let clause = match self.numbered {
            true => format!("clause {}", self.number(entry)),
            false => "a longer condition".to_string(),
        };
        let hold = match (holds, time) {
            (true, Time::Now) => "holds",
            (true, Time::Then) => "held",
            (false, Time::Now) => "does not hold",
            (false, Time::Then) => "did not hold",
        };
        // Others are given in the order in which the clause names them.
        let given = given.iter().map(|(x, who)| match x {
            0 => format!("{} as the target", name(*who)),
            _ => name(*who),
        });
        let given: Vec<String> = given.collect();
        let with = if given.is_empty() { "" } else { ", given " };
        let text = format!("{clause} {hold} of {}{with}{}", name(of), listed(&given));
        // More may follow only where no list of members ends the line.
        Words::whole(text, if with.is_empty() { Shape::Simple } else { Shape::Open })
    }

    /// The number of an entry that is said apart.
    fn number(&mut self, entry: usize) -> usize {
        let place = self.apart.iter().position(|&known| known == entry);
        place.unwrap_or_else(|| {
            self.apart.push(entry);
            self.apart.len() - 1
        }) + 1
    }
}
