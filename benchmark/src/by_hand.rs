//! The preset by hand: a request over the same lent memory, the floor's checks before it, whose policy and moment are
//! written for these terms alone.

use crate::floor;
use crate::workload::Request;
use keeper::terms::memory::{EVENT_WORD, FIRST_TABLE, SCRATCH_WORDS};

const SHARE: usize = 0;
const WITHDRAW: usize = 1;
const LOAD: usize = 2;

/// Whether a request is granted; none where it is refused.
pub fn request(
    terms: &[u16],
    state: &mut [u64],
    scratch: &mut [u64],
    [event, from, to]: Request,
) -> Option<bool> {
    let members = usize::from(*terms.first()?);
    if scratch.len() < SCRATCH_WORDS || floor::refusal(terms, state).is_some() {
        return None;
    }
    if event > LOAD || from.max(to) >= members {
        return None;
    }
    let (owners, rest) = state.split_at_mut(FIRST_TABLE);
    let shared = &mut rest[..members];
    // Some owner of the target has shared with the initiator and has not withdrawn since.
    let both = |all, (own, shared): (&u64, &u64)| all | own >> to & shared >> from;
    if event == LOAD && owners.iter().zip(&*shared).fold(0, both) & 1 == 0 {
        return Some(false);
    }
    match event {
        SHARE => shared[from] |= 1 << to,
        WITHDRAW => shared[from] &= !(1 << to),
        _ => {}
    }
    state[EVENT_WORD] = (1 + 4_096 * event + 64 * from + to) as u64;
    scratch[..SCRATCH_WORDS].fill(0);
    Some(true)
}

#[cfg(test)]
mod tests {
    use super::request;
    use crate::workload::Workload;
    use cuckooormolu::raw;

    /// Answers and states are the library's.
    #[test]
    fn answers_are_the_librarys() {
        for members in [3, 16, 64] {
            let workload = Workload::preset(members);
            let monitor = workload.monitor();
            let (terms, mut state) = (monitor.terms().words(), *monitor.state().words());
            let (mut other, mut scratch) = (state, [1; 64]);
            for asked in workload.requests(5, 4_000) {
                let [event, from, to] = asked;
                let named = raw::Request { event, from, to };
                let answer = raw::request(terms, &mut state, &mut scratch, named);
                let granted = request(terms, &mut other, &mut scratch, asked);
                assert_eq!(granted, answer.ok().map(|answer| answer.is_grant()));
                assert_eq!(state, other);
            }
        }
    }
}
