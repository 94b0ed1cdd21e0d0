//! Answers, as the library and as the keeper give them.

use super::differ;
use crate::stop::Stop;
use std::fmt;

/// What a request or a look is answered.
#[derive(Clone, Copy, Debug, PartialEq, Eq)]
pub enum Verdict {
    Grant,
    Deny,
    /// Refused, with the refusal's number.
    Refused(u16),
}

impl fmt::Display for Verdict {
    fn fmt(&self, out: &mut fmt::Formatter<'_>) -> fmt::Result {
        match self {
            Verdict::Grant => out.pad("grant"),
            Verdict::Deny => out.pad("deny"),
            Verdict::Refused(number) => write!(out, "refuse {number}"),
        }
    }
}

/// A request as the binding takes it; a number that is too large for it names
/// nothing.
pub(super) fn named(
    event: usize,
    from: usize,
    to: usize,
) -> Result<proved::Request, proved::Refusal> {
    Ok(proved::Request { event: event.try_into()?, from: from.try_into()?, to: to.try_into()? })
}

pub(super) fn verdict(answer: Result<proved::Answer, proved::Refusal>) -> Verdict {
    match answer {
        Ok(proved::Answer::Grant) => Verdict::Grant,
        Ok(proved::Answer::Deny) => Verdict::Deny,
        Err(refusal) => Verdict::Refused(refusal.number() as u16),
    }
}

pub(super) fn kept_verdict(answer: keeper::record::Answer) -> Verdict {
    match answer {
        keeper::record::Answer::Grant => Verdict::Grant,
        keeper::record::Answer::Deny => Verdict::Deny,
        keeper::record::Answer::Refused(refusal) => Verdict::Refused(refusal.number),
    }
}

pub(super) fn agreed(
    proved: Verdict,
    kept: Verdict,
    event: usize,
    from: usize,
    to: usize,
) -> Result<Verdict, Stop> {
    if proved == kept {
        Ok(proved)
    } else {
        let asked = format!("event {event} from {from} to {to}");
        Err(differ(&format!("{asked}: library {proved}, keeper {kept}")))
    }
}
