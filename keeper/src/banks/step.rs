//! What is done by two banks, and what is wrong with the memory lent for it.

use super::lent::Part;
use crate::record::{Answer, Call};
use crate::set_list::Item;
use crate::terms::memory::{self, TERMS_WORDS};
use crate::terms::{self, Refusal, Terms};
use std::fmt;

/// A call or a set list of a bank, or new terms for both.
#[derive(Clone, Debug, PartialEq, Eq)]
pub enum Deed {
    Call(usize, Call),
    List(usize, Vec<Item>),
    /// The named words of the new terms.
    Revision(Vec<u16>),
}

/// What a deed gives.
#[derive(Clone, Debug, PartialEq, Eq)]
pub enum Outcome {
    Answered(Answer),
    /// The count of grants, and the items as they are left.
    Listed(Result<usize, Refusal>, Vec<Item>),
    Revised(Result<(), Refusal>),
}

impl Deed {
    /// New terms.
    pub fn revision(terms: &Terms) -> Deed {
        Deed::Revision(memory::terms_words(terms))
    }

    /// What it gives where the checks of memory refuse it.
    pub fn refused(&self, refusal: Refusal) -> Outcome {
        match self {
            Deed::Call(_, _) => Outcome::Answered(Answer::Refused(refusal)),
            Deed::List(_, items) => Outcome::Listed(Err(refusal), items.clone()),
            Deed::Revision(_) => Outcome::Revised(Err(refusal)),
        }
    }
}

/// A deed, and what is wrong with the memory that is lent for it.
#[derive(Clone, Debug, PartialEq, Eq)]
pub struct Step {
    pub deed: Deed,
    pub harms: Vec<Harm>,
}

impl Step {
    /// A deed with all memory as it should be.
    pub fn of(deed: Deed) -> Step {
        Step { deed, harms: Vec::new() }
    }
}

/// A harm to the lent memory, for one deed.
#[derive(Clone, Debug, PartialEq, Eq)]
pub enum Harm {
    /// Only so many words of a part are lent.
    Short(Part, usize),
    /// A part's word at a place is another.
    Word(Part, usize, u64),
    /// The terms, or the new ones, are damaged by this seed.
    Terms(Part, u64),
    /// A bank's state, with the relations, is damaged by this seed.
    State(usize, u64),
}

impl fmt::Display for Step {
    fn fmt(&self, out: &mut fmt::Formatter<'_>) -> fmt::Result {
        write!(out, "{}", self.deed)?;
        self.harms.iter().try_for_each(|harm| writeln!(out, "    with {harm:?}"))
    }
}

impl fmt::Display for Deed {
    fn fmt(&self, out: &mut fmt::Formatter<'_>) -> fmt::Result {
        match self {
            Deed::Call(bank, Call { look, event, from, to, .. }) => {
                let kind = if *look { "look" } else { "request" };
                writeln!(out, "  bank {bank}: {kind} {event} {from} {to}")
            }
            Deed::List(bank, items) => {
                write!(out, "  bank {bank}: set list")?;
                for Item { event, from, to, .. } in items {
                    write!(out, "; {event} {from} {to}")?;
                }
                writeln!(out)
            }
            Deed::Revision(words) => {
                writeln!(out, "  new terms")?;
                match said(words) {
                    None => writeln!(out, "    {words:?}"),
                    Some(said) => {
                        let text = terms::write(&said, &said.edges);
                        let mut lines = text.split_inclusive(|&byte| byte == b'\n');
                        lines.try_for_each(|line| writeln!(out, "    {}", line.escape_ascii()))
                    }
                }
            }
        }
    }
}

/// The terms of words; none if no accepted file yields them.
pub fn said(words: &[u16]) -> Option<Terms> {
    let enough = words.len() >= TERMS_WORDS;
    enough.then(|| memory::terms_of_words(words)).flatten()
}
