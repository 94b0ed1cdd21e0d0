//! What a decided request carries.

use core::fmt;

/// The answer to a request or a look.
///
/// ```
/// assert_eq!(cuckooormolu::Answer::Grant.to_string(), "grant");
/// ```
///
/// An answer that is not looked at is a mistake, and the compiler says so:
///
/// ```compile_fail
/// #![deny(unused_must_use)]
/// # use cuckooormolu::{Monitor, Refusal, Request};
/// # fn load() {}
/// fn host(monitor: &mut Monitor, request: Request) -> Result<(), Refusal> {
///     monitor.request(request)?;
///     load();
///     Ok(())
/// }
/// ```
///
/// So is one that is asked in vain:
///
/// ```compile_fail
/// #![deny(unused_must_use)]
/// # use cuckooormolu::{Monitor, Refusal, Request};
/// # fn load() {}
/// fn host(monitor: &mut Monitor, request: Request) -> Result<(), Refusal> {
///     monitor.request(request)?.is_grant();
///     load();
///     Ok(())
/// }
/// ```
///
/// A host asks, and loads only then:
///
/// ```
/// #![deny(unused_must_use)]
/// # use cuckooormolu::{Monitor, Refusal, Request};
/// # fn load() {}
/// fn host(monitor: &mut Monitor, request: Request) -> Result<(), Refusal> {
///     if monitor.request(request)?.is_grant() {
///         load();
///     }
///     Ok(())
/// }
/// ```
#[must_use = "a request that is decided may be denied"]
#[derive(Clone, Copy, Debug, PartialEq, Eq, Hash)]
pub enum Answer {
    /// The policy of the event holds.
    Grant,
    /// It doesn't.
    Deny,
}

impl Answer {
    /// Whether the policy holds.
    #[must_use = "a request that is decided may be denied"]
    pub fn is_grant(self) -> bool {
        self == Answer::Grant
    }
}

impl fmt::Display for Answer {
    fn fmt(&self, out: &mut fmt::Formatter<'_>) -> fmt::Result {
        out.pad(match self {
            Answer::Grant => "grant",
            Answer::Deny => "deny",
        })
    }
}
