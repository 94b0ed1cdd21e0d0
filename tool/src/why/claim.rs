//! Claims, that an entry holds at a place or doesn't, and what a reason for one can be.

use keeper::record::meaning::Assigned;
use keeper::terms::Terms;

/// Where an entry is said: at a moment, of a member, under an assignment.
#[derive(Clone, Copy, Debug, PartialEq, Eq)]
pub struct Place {
    pub entry: usize,
    pub moment: usize,
    pub member: usize,
    pub assigned: Assigned,
}

impl Place {
    /// Where a policy is read: at the initiator, variable 0 for the target.
    pub fn policy(terms: &Terms, event: usize, from: usize, to: usize, moment: usize) -> Place {
        let assigned = Assigned::default().with(0, to);
        Place { entry: terms.policies[event], moment, member: from, assigned }
    }

    pub(super) fn entry(self, entry: usize) -> Place {
        Place { entry, ..self }
    }

    pub(super) fn member(self, member: usize) -> Place {
        Place { member, ..self }
    }

    pub(super) fn moment(self, moment: usize) -> Place {
        Place { moment, ..self }
    }
}

/// An entry holds at a place, or doesn't.
#[derive(Clone, Copy, Debug, PartialEq, Eq)]
pub struct Claim {
    pub place: Place,
    pub holds: bool,
}

/// Why a claim is right. Every claim inside is needed.
#[derive(Clone, Debug, PartialEq, Eq)]
pub enum Reason {
    /// `top` holds everywhere.
    Always,
    /// `var`: the variable stands for this member, who is here, or isn't.
    StandsFor(usize),
    /// `not`: the operand has the other value.
    Opposite(Claim),
    /// `or` holds by one side.
    Side(Claim),
    /// `or` fails: both sides do.
    Neither(Claim, Claim),
    /// `out` or `in` holds by an edge to or from this member.
    Neighbour(Claim),
    /// `out` or `in` fails: at every neighbour, of whom there may be none.
    NoNeighbour(Vec<Claim>),
    /// `prev` fails at the moment where it begins; and what is about the past fails
    /// at moments before that.
    NoMomentBefore,
    /// `prev` or `since` at moment 0 of a stored file, which says so.
    Stored,
    /// `prev` is decided one moment before.
    Before(Claim),
    /// `since` holds: by the second operand at a moment, or as a stored file says
    /// of moment 0, and by the first at every one after it.
    Began { began: Claim, after: Vec<Claim> },
    /// `since` fails: it held last by such a beginning, the first operand failed
    /// after it, and the second has failed at every moment after it.
    Broken { began: Claim, broke: Claim, after: Vec<Claim> },
    /// `since` fails: the second operand held at no moment from where it begins. At
    /// moment 0 of a stored file it is the since itself that did not.
    Never(Vec<Claim>),
    /// `reach` holds: by the first operand of this member, and the second there.
    Reached { step: Claim, there: Claim },
    /// `reach` fails: for every member one of the operands does.
    NobodyReached(Vec<Claim>),
    /// `many` holds: by so many neighbours.
    Enough(Vec<Claim>),
    /// `many` fails: by what each neighbour does; too few hold.
    TooFew(Vec<Claim>),
    /// `bind` and `at` are decided where they lead.
    Follow(Claim),
}

impl Reason {
    /// The claims it rests on.
    pub fn premises(&self) -> Vec<Claim> {
        match self {
            Reason::Always | Reason::StandsFor(_) => Vec::new(),
            Reason::NoMomentBefore | Reason::Stored => Vec::new(),
            Reason::Opposite(claim) | Reason::Side(claim) | Reason::Neighbour(claim) => {
                vec![*claim]
            }
            Reason::Before(claim) | Reason::Follow(claim) => vec![*claim],
            Reason::Neither(first, second) => vec![*first, *second],
            Reason::NoNeighbour(claims) | Reason::Never(claims) => claims.clone(),
            Reason::Reached { step, there } => vec![*step, *there],
            Reason::NobodyReached(claims) => claims.clone(),
            Reason::Enough(claims) | Reason::TooFew(claims) => claims.clone(),
            Reason::Began { began, after } => [&[*began], &after[..]].concat(),
            Reason::Broken { began, broke, after } => [&[*began, *broke], &after[..]].concat(),
        }
    }
}
