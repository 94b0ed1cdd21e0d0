//! Plans against a rival.

use crate::{Event, Member};
use core::fmt;

/// A request of a plan. Its initiator is the planner.
#[derive(Clone, Copy, Debug, PartialEq, Eq, Hash)]
pub struct Move {
    /// What is asked for.
    pub event: Event,
    /// Its target.
    pub to: Member,
}

/// Can a rival keep me from it? The planner makes one to three requests; between
/// two of them the rival makes a request or passes.
#[derive(Clone, Copy, Debug, PartialEq, Eq, Hash)]
pub struct Plan<'a> {
    /// The planner's requests, in order.
    pub moves: &'a [Move],
    /// Who makes them.
    pub planner: Member,
    /// Who may make a request after each but the last.
    pub rival: Member,
    /// The number of an entry ([`crate::Terms::policy`] is one): it is to hold
    /// after one of the planner's requests.
    pub goal: usize,
    /// Where it is to hold: at the first member, with variable 0 standing for the
    /// second.
    pub pair: (Member, Member),
}

/// What is said of a plan. It permits nothing: each request of an accepted plan
/// is still to be made, and answered.
///
/// ```
/// assert_eq!(cuckooormolu::Ruling::Accepted.to_string(), "accepted");
/// ```
///
/// A ruling that is not looked at is a mistake, and the compiler says so:
///
/// ```compile_fail
/// #![deny(unused_must_use)]
/// # use cuckooormolu::{Monitor, Plan, Refusal};
/// # fn go() {}
/// fn host(monitor: &Monitor, plan: Plan<'_>) -> Result<(), Refusal> {
///     monitor.plan(plan)?;
///     go();
///     Ok(())
/// }
/// ```
///
/// So is one that is asked in vain:
///
/// ```compile_fail
/// #![deny(unused_must_use)]
/// # use cuckooormolu::{Monitor, Plan, Refusal};
/// # fn go() {}
/// fn host(monitor: &Monitor, plan: Plan<'_>) -> Result<(), Refusal> {
///     monitor.plan(plan)?.is_accepted();
///     go();
///     Ok(())
/// }
/// ```
#[must_use = "a plan that is ruled on may be rejected"]
#[derive(Clone, Copy, Debug, PartialEq, Eq, Hash)]
pub enum Ruling {
    /// Whatever the rival does, the goal holds after one of the planner's
    /// requests.
    Accepted,
    /// The rival can keep the planner from it.
    Rejected,
}

impl Ruling {
    /// Whether the plan is accepted.
    #[must_use = "a plan that is ruled on may be rejected"]
    pub fn is_accepted(self) -> bool {
        self == Ruling::Accepted
    }
}

impl fmt::Display for Ruling {
    fn fmt(&self, out: &mut fmt::Formatter<'_>) -> fmt::Result {
        out.pad(match self {
            Ruling::Accepted => "accepted",
            Ruling::Rejected => "rejected",
        })
    }
}
