//! What is told of an entry.

use core::fmt;

/// Whether an entry holds at present. It permits nothing: only a request does.
///
/// ```
/// assert_eq!(cuckooormolu::Fact::Holds.to_string(), "holds");
/// ```
///
/// A fact that is not looked at is a mistake, and the compiler says so:
///
/// ```compile_fail
/// #![deny(unused_must_use)]
/// # use cuckooormolu::{Member, Monitor, Refusal};
/// # fn go() {}
/// fn host(monitor: &Monitor, entry: usize) -> Result<(), Refusal> {
///     monitor.tell(entry, Member(0), Member(1))?;
///     go();
///     Ok(())
/// }
/// ```
///
/// So is one that is asked in vain:
///
/// ```compile_fail
/// #![deny(unused_must_use)]
/// # use cuckooormolu::{Member, Monitor, Refusal};
/// # fn go() {}
/// fn host(monitor: &Monitor, entry: usize) -> Result<(), Refusal> {
///     monitor.tell(entry, Member(0), Member(1))?.holds();
///     go();
///     Ok(())
/// }
/// ```
#[must_use = "an entry that is told of may not hold"]
#[derive(Clone, Copy, Debug, PartialEq, Eq, Hash)]
pub enum Fact {
    /// It holds.
    Holds,
    /// It doesn't.
    Fails,
}

impl Fact {
    /// Whether the entry holds.
    #[must_use = "an entry that is told of may not hold"]
    pub fn holds(self) -> bool {
        self == Fact::Holds
    }
}

impl fmt::Display for Fact {
    fn fmt(&self, out: &mut fmt::Formatter<'_>) -> fmt::Result {
        out.pad(match self {
            Fact::Holds => "holds",
            Fact::Fails => "does not hold",
        })
    }
}
