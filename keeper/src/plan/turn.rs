//! What is done once a text is read, plans and questions among it.

use super::{Plan, Question};
use crate::record::Record;
use crate::set_list::{self, Item};
use crate::step::Step;
use std::fmt;

/// One turn of a run.
#[derive(Clone, Debug, PartialEq, Eq)]
pub enum Turn {
    Step(Step),
    List(Vec<Item>),
    Plan(Plan),
    Tell(Question),
}

impl Turn {
    /// Goes on with a record; plans and questions leave it as it is.
    pub fn take(&self, record: &mut Record) {
        match self {
            Turn::Step(Step::Call(call)) => _ = record.answer(call),
            Turn::Step(Step::Revision(revision)) => _ = revision.answer(record),
            Turn::Step(Step::Renumbering(renumbering)) => _ = renumbering.answer(record),
            Turn::List(items) => _ = set_list::fill(&mut items.clone(), |call| record.answer(call)),
            Turn::Plan(_) | Turn::Tell(_) => {}
        }
    }
}

impl fmt::Display for Turn {
    fn fmt(&self, out: &mut fmt::Formatter<'_>) -> fmt::Result {
        match self {
            Turn::Step(step) => step.fmt(out),
            Turn::List(items) => {
                let request = |item: &Item| format!("{} {} {}", item.event, item.from, item.to);
                let requests: Vec<String> = items.iter().map(request).collect();
                writeln!(out, "  set list {}", requests.join(", "))
            }
            Turn::Plan(Plan { numbers, planner, rival, goal, scratch_words }) => {
                write!(out, "  plan {numbers:?} of {planner} against {rival} for{goal}")?;
                writeln!(out, " with {scratch_words} words of scratch")
            }
            Turn::Tell(question) => writeln!(out, "  tell{question}"),
        }
    }
}

impl fmt::Display for Question {
    fn fmt(&self, out: &mut fmt::Formatter<'_>) -> fmt::Result {
        let Question { entry, first, second } = self;
        write!(out, " entry {entry} at {first} with {second}")
    }
}
