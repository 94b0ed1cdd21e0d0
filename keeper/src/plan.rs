//! Plans against a rival, and whether an entry holds now at a pair.
//!
//! Planner and rival alternate, the planner first. Each move is a request that
//! the mover initiates; the rival may pass instead. A plan is the planner's list
//! of requests, and is accepted exactly when, whatever the rival does between,
//! its goal holds after one of the planner's moves.

pub mod turn;

use crate::record::meaning::Assigned;
use crate::record::Record;
use crate::terms::{Refusal, Terms};

/// The most members, events and moves of the planner that a game has.
pub const MOST_MEMBERS: usize = 8;
pub const MOST_EVENTS: usize = 4;
pub const MOST_MOVES: usize = 3;

/// The words of scratch that a plan is lent.
pub const SCRATCH_WORDS: usize = 9_283;

/// An entry, asked at the first of a pair with variable 0 standing for the second.
#[derive(Clone, Copy, Debug, PartialEq, Eq)]
pub struct Question {
    pub entry: usize,
    pub first: usize,
    pub second: usize,
}

/// A plan as it is lent.
#[derive(Clone, Debug, PartialEq, Eq)]
pub struct Plan {
    /// Event and target of each move, in turn.
    pub numbers: Vec<usize>,
    pub planner: usize,
    pub rival: usize,
    pub goal: Question,
    pub scratch_words: usize,
}

/// One move of the planner: event and target.
type Move = (usize, usize);

impl Plan {
    /// The moves; none if there is an event without a target.
    pub fn moves(&self) -> Option<Vec<Move>> {
        let pairs = self.numbers.chunks_exact(2);
        pairs.remainder().is_empty().then(|| pairs.map(|pair| (pair[0], pair[1])).collect())
    }

    /// The moves of a game that these terms allow, or refusal 14.
    fn allowed(&self, terms: &Terms) -> Result<Vec<Move>, Refusal> {
        let none = Refusal::plain(14);
        let moves = self.moves().ok_or(none)?;
        let allowed = terms.members <= MOST_MEMBERS
            && terms.events <= MOST_EVENTS
            && (1..=MOST_MOVES).contains(&moves.len())
            && self.planner != self.rival
            && self.goal.is_askable(terms);
        allowed.then_some(moves).ok_or(none)
    }
}

impl Question {
    /// Whether there is such an entry, and it has no free variable besides 0.
    fn is_askable(&self, terms: &Terms) -> bool {
        terms.free().get(self.entry).is_some_and(|free| free & !1 == 0)
    }

    /// Whether both of the pair are members.
    fn is_of(&self, terms: &Terms) -> bool {
        self.first.max(self.second) < terms.members
    }
}

impl Record {
    /// Whether an entry holds now at a pair, or the refusal.
    pub fn tell(&self, question: &Question) -> Result<bool, Refusal> {
        if !question.is_askable(self.terms()) {
            return Err(Refusal::plain(14));
        }
        if !question.is_of(self.terms()) {
            return Err(Refusal::plain(9));
        }
        Ok(self.is_so(question))
    }

    /// Whether a plan is accepted, or the refusal. The game is played on copies.
    pub fn judge(&self, plan: &Plan) -> Result<bool, Refusal> {
        if plan.scratch_words < SCRATCH_WORDS {
            return Err(Refusal::plain(6));
        }
        let terms = self.terms();
        let moves = plan.allowed(terms)?;
        let named = plan.goal.is_of(terms)
            && plan.rival < terms.members
            && moves.iter().all(|&(event, target)| terms.has(event, plan.planner, target));
        if !named {
            return Err(Refusal::plain(9));
        }
        Ok(self.reaches(plan, &moves))
    }

    /// Which move of a plan with a verdict brings its goal about first, where the
    /// rival passes each time.
    pub fn unopposed(&self, plan: &Plan) -> Option<usize> {
        let mut record = self.clone();
        plan.moves()?.into_iter().position(|(event, target)| {
            record = record.after(event, plan.planner, target);
            record.is_so(&plan.goal)
        })
    }

    fn is_so(&self, question: &Question) -> bool {
        let assigned = Assigned::default().with(0, question.second);
        self.holds(question.entry, self.graphs().len() - 1, question.first, assigned)
    }

    /// Whether the goal holds after one of these moves of the planner, whatever
    /// the rival does between.
    fn reaches(&self, plan: &Plan, moves: &[Move]) -> bool {
        let Some((&(event, target), later)) = moves.split_first() else { return false };
        let moved = self.after(event, plan.planner, target);
        if moved.is_so(&plan.goal) {
            return true;
        }
        let Terms { members, events, .. } = *self.terms();
        let mut replies = (0..events).flat_map(|event| (0..members).map(move |to| (event, to)));
        moved.reaches(plan, later)
            && replies.all(|(event, to)| moved.after(event, plan.rival, to).reaches(plan, later))
    }

    /// A copy of the record after a request, granted or denied.
    fn after(&self, event: usize, from: usize, to: usize) -> Record {
        let mut copy = self.clone();
        copy.call(false, event, from, to, crate::terms::memory::SCRATCH_WORDS);
        copy
    }
}
