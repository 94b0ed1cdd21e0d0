//! Why a text was not read within a bound.

use crate::TextError;
use core::error::Error;
use core::fmt;

/// Why [`Monitor::read_within`](crate::Monitor::read_within) gives no monitor.
///
/// ```
/// use cuckooormolu::{Monitor, WithinError};
///
/// let error = Monitor::read_within(b"M\t3\nL\t0\t1\nF\t0\tnot\t0\t0\n", 9).unwrap_err();
/// let WithinError::Refused(refused) = &error else { panic!("{error}") };
/// assert_eq!((refused.refusal().number(), refused.line()), (3, 3));
/// assert_eq!(error.to_string(), refused.to_string());
/// ```
#[non_exhaustive]
#[derive(Clone, Debug, PartialEq, Eq)]
pub enum WithinError {
    /// The text is refused.
    Refused(TextError),
    /// A request by its terms may work out so many rows, which is more than allowed.
    /// [`MOST_EFFORT`](crate::MOST_EFFORT) stands for more, too.
    Costly(usize),
}

impl From<TextError> for WithinError {
    fn from(error: TextError) -> WithinError {
        WithinError::Refused(error)
    }
}

impl fmt::Display for WithinError {
    fn fmt(&self, out: &mut fmt::Formatter<'_>) -> fmt::Result {
        match self {
            WithinError::Refused(error) => write!(out, "{error}"),
            WithinError::Costly(rows) => {
                write!(out, "a request by these terms may work out {rows} rows: more than allowed")
            }
        }
    }
}

impl Error for WithinError {
    fn source(&self) -> Option<&(dyn Error + 'static)> {
        match self {
            WithinError::Refused(error) => Some(error),
            WithinError::Costly(_) => None,
        }
    }
}
