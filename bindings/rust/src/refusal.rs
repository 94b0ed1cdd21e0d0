//! Why nothing was decided.

use core::error::Error;
use core::fmt;

/// A refusal. Whatever is refused leaves all memory as it was.
///
/// ```
/// use cuckooormolu::Refusal;
/// assert_eq!(Refusal::of_number(9), Some(Refusal::NoSuchName));
/// assert_eq!(Refusal::NoSuchName.to_string(), "no such event or member (refusal 9)");
/// ```
///
/// There may be further refusals, so a match on one has an arm for them:
///
/// ```compile_fail,E0004
/// # use cuckooormolu::Refusal;
/// fn is_of_a_text(refusal: Refusal) -> bool {
///     use Refusal::*;
///     match refusal {
///         Form | Range | Operand | PastVariables | PolicyVariables | ReachVariables => true,
///         PartlyFilled => true,
///         TooShort | BadTerms | BadState | NoSuchName | NotFresh | OtherSize => false,
///         NoGame => false,
///         BadNumbers => false,
///     }
/// }
/// ```
#[non_exhaustive]
#[derive(Clone, Copy, Debug, PartialEq, Eq, Hash)]
pub enum Refusal {
    /// 1: the form of a line or its place, or the text ends too soon.
    Form = 1,
    /// 2: a number out of its range, or too many of something.
    Range,
    /// 3: an operand that isn't lower than its entry.
    Operand,
    /// 4: a prev or since with three or more free variables, or with two where there
    /// are more than 16 members.
    PastVariables,
    /// 5: a policy with a free variable other than 0.
    PolicyVariables,
    /// 6: a memory shorter than its named words, or too short an output.
    TooShort,
    /// 7: terms that no accepted text yields: zeroed, never read into, or damaged.
    BadTerms,
    /// 8: a state that breaks the layout.
    BadState,
    /// 9: an event or a member that doesn't exist.
    NoSuchName,
    /// 10: a reach whose variable is 0, whose first formula has another free
    /// variable, or whose second has that variable free.
    ReachVariables,
    /// 11: a stored text with a partly filled word in a table without a free
    /// variable.
    PartlyFilled,
    /// 12: the old form of a state with a history.
    NotFresh,
    /// 13: new terms with another number of members, relations or events.
    OtherSize,
    /// 14: a plan where there are more than 8 members or 4 events, of no or more
    /// than 3 requests, or whose planner is the rival; and an entry, a plan's goal
    /// too, that doesn't exist or has a free variable other than 0.
    NoGame,
    /// 15: a list of members' new numbers that is not as long as there are members,
    /// or that lacks one of their numbers.
    BadNumbers,
}

impl Refusal {
    /// All refusals, by their numbers.
    pub const ALL: &'static [Refusal] = &[
        Refusal::Form,
        Refusal::Range,
        Refusal::Operand,
        Refusal::PastVariables,
        Refusal::PolicyVariables,
        Refusal::TooShort,
        Refusal::BadTerms,
        Refusal::BadState,
        Refusal::NoSuchName,
        Refusal::ReachVariables,
        Refusal::PartlyFilled,
        Refusal::NotFresh,
        Refusal::OtherSize,
        Refusal::NoGame,
        Refusal::BadNumbers,
    ];

    /// The refusal's number, from 1.
    pub fn number(self) -> usize {
        self as usize
    }

    /// The refusal of a number, if there is one.
    pub fn of_number(number: usize) -> Option<Refusal> {
        Refusal::ALL.iter().copied().find(|refusal| refusal.number() == number)
    }

    /// What is wrong, in words.
    pub fn words(self) -> &'static str {
        match self {
            Refusal::Form => {
                "unknown kind or word, line out of its order, wrong count of fields, ill-formed \
                 number, no last line feed, or the text ends too soon; `cuckooormolu check FILE` \
                 says which; or a stored text where a terms file only is taken, as by two banks"
            }
            Refusal::Range => {
                "number out of its range, non-zero unused field, more than 32 past-time entries, \
                 more than 4 effects, or a label or entry that doesn't exist; `cuckooormolu check \
                 FILE` says which"
            }
            Refusal::Operand => "operand not lower than its entry",
            Refusal::PastVariables => {
                "prev or since with three or more free variables, or with two and more than 16 \
                 members"
            }
            Refusal::PolicyVariables => "policy with a free variable other than 0",
            Refusal::TooShort => {
                "memory shorter than its named words, or output too short for the text, whose \
                 size can be asked first"
            }
            Refusal::BadTerms => {
                "no terms have been read into this monitor, or they were damaged: read them again"
            }
            Refusal::BadState => {
                "state that is not one of these terms, or was damaged: go on from terms and state \
                 that were kept together"
            }
            Refusal::NoSuchName => "no such event or member",
            Refusal::ReachVariables => {
                "reach whose variable is 0, whose first formula has another free variable, or \
                 whose second has that variable free"
            }
            Refusal::PartlyFilled => "partly filled word in a table without a free variable",
            Refusal::NotFresh => {
                "the monitor has a history, which a terms file cannot hold: use store"
            }
            Refusal::OtherSize => "new terms with another number of members, relations or events",
            Refusal::NoGame => {
                "plan where there are more than 8 members or 4 events, of no or more than 3 \
                 requests, or whose planner is the rival; or an entry that doesn't exist or has a \
                 free variable other than 0"
            }
            Refusal::BadNumbers => {
                "list of new numbers that is not as long as there are members, or that lacks one \
                 of their numbers"
            }
        }
    }
}

impl fmt::Display for Refusal {
    fn fmt(&self, out: &mut fmt::Formatter<'_>) -> fmt::Result {
        write!(out, "{} (refusal {})", self.words(), self.number())
    }
}

impl Error for Refusal {}
