//! The sharing-terms reference monitor.
//!
//! * **Machines**: the static library that is proved is machine code for x86-64
//!   Linux. From the library's C file, the crate is built for any machine.
//! * **Memory**: terms have 2,504 bytes, a state 24,584, scratch 512; two banks
//!   need 44,504 in all; a plan is lent 74,264 more. This crate puts them on the
//!   heap; the library allocates nothing.
//! * **Stack**: measured, not proved. Look, request, set list, plan, opening and a
//!   revision take 9 KiB, writing 30 KiB, and each 0.85 KiB more for every level by
//!   which entries nest; reading takes what opening does, and 33 KiB at least; of two
//!   banks it takes 25 KiB more, any other call 3 KiB at most. Where the terms need a
//!   memo (bindings/README.md, Stack), each takes 267 KiB more, at most 512 KiB.
//!   Renumbering takes 18 KiB, storing 4 KiB. From the C file it is at most 1.25 MiB.
//!   [`Terms::stack`] tells it of given terms.
//! * **Time**: measured, not proved. Terms can be written by which a request takes
//!   minutes. Opening, a revision, and reading or writing a terms file may take as long
//!   as a request. [`Terms::effort`] is a bound; [`Monitor::read_terms_within`] reads
//!   untrusted terms, and asks before it opens them. It does not bound the stack.
//! * **Terms and states are plain words** that may be copied and kept. In a
//!   file they have the machine's byte order, little-endian. A stored text
//!   ([`Monitor::store`]) keeps the same for any machine, and for people.
//! * **Threads**: two monitors share nothing.
//!
//! A terms text says who may ask for what. A [`Monitor`] reads it, keeps the
//! present relations and what the policies need of the past, and answers
//! requests. A grant makes the next moment. A denied request changes nothing,
//! unless its event is kept ([`Terms::keeps`]): then it makes a moment without
//! effects. A refused request changes nothing. `Ok` is not a grant, for a denial is
//! an answer too: [`Monitor::grants`] is true only where a request is granted.
//!
//! ```
//! use cuckooormolu::{Answer, Edge, Event, Member, Monitor, Relation, Request};
//!
//! // Event 0 makes an edge from initiator to target; event 1 asks for one.
//! let text = "M 3\nL 1 2\nF 0 var 0 0\nF 1 out 0 0\nF 2 top 0 0\nP 0 2\nP 1 1\nE 0 add 0 fwd\n";
//! let mut monitor = Monitor::read(text.replace(' ', "\t").as_bytes())?;
//! let make = Request { event: Event(0), from: Member(0), to: Member(2) };
//! let ask = Request { event: Event(1), ..make };
//! assert_eq!(monitor.request(ask)?, Answer::Deny);
//! assert_eq!(monitor.request(make)?, Answer::Grant);
//! assert_eq!(monitor.look(ask)?, Answer::Grant);
//! assert!(monitor.grants(ask));
//! let edge = Edge { relation: Relation(0), from: Member(0), to: Member(2) };
//! assert!(monitor.state().has_edge(edge));
//! # Ok::<(), Box<dyn std::error::Error>>(())
//! ```
//!
//! * [`Monitor`], [`Terms`] and [`State`] own their memory.
//! * [`Banks`] are two monitors over one circle: they share terms and relations.
//! * [`Record`] is a request of a set list: many requests in one call.
//! * [`Plan`] asks whether a rival can keep a member from a goal.
//! * [`Refusal`], [`TextError`] and [`WithinError`] say in words why nothing was decided.
//! * [`raw`] has the library's functions over slices of any length.
//!
//! Member, relation, event and entry numbers, and the order of the words, are
//! those of the terms file and of the memory layout.
//!
//! The feature `alloc`, on by default, has what owns memory: [`Monitor`],
//! [`Banks`], [`Terms`], [`State`], [`Record`], [`TextError`] and [`WithinError`].
//! Without it there is [`raw`], over memory that the host has.
#![no_std]
#![deny(missing_docs, clippy::missing_errors_doc, clippy::missing_panics_doc)]

#[cfg(feature = "alloc")]
extern crate alloc;

mod answer;
mod layout;
mod library;
mod names;
mod plan;
pub mod raw;
mod refusal;

#[cfg(feature = "alloc")]
mod banks;
#[cfg(feature = "alloc")]
mod entry;
#[cfg(feature = "alloc")]
mod fact;
#[cfg(feature = "alloc")]
mod monitor;
#[cfg(feature = "alloc")]
mod places;
#[cfg(feature = "alloc")]
mod record;
#[cfg(feature = "alloc")]
mod stack;
#[cfg(feature = "alloc")]
mod state;
#[cfg(feature = "alloc")]
mod table;
#[cfg(feature = "alloc")]
mod terms;
#[cfg(feature = "alloc")]
mod text_error;
#[cfg(feature = "alloc")]
mod within_error;

pub use answer::Answer;
pub use layout::{
    MOST_EFFORT, OWN_WORDS, PLAN_WORDS, RELATION_WORDS, SCRATCH_WORDS, STATE_WORDS, TERMS_WORDS,
};
pub use names::{Edge, Event, EventEdge, Member, Relation, Request, Variable};
pub use plan::{Move, Plan, Ruling};
pub use refusal::Refusal;

#[cfg(feature = "alloc")]
pub use {
    banks::{Bank, BankStates, Banks},
    entry::{Entry, Label},
    fact::Fact,
    monitor::Monitor,
    record::Record,
    state::State,
    table::{Holding, Table},
    terms::{Action, Direction, Effect, Terms},
    text_error::TextError,
    within_error::WithinError,
};

/// What the README shows, compiled.
#[cfg(all(doctest, feature = "alloc"))]
#[doc = include_str!("../../README.md")]
struct Readme;
