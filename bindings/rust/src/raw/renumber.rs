//! Members renumbered.

use super::done;
use crate::{library, Refusal};

/// Gives the members new numbers, byte m of the list being that of member m: fills
/// in the second state, in which everybody has under the new number what they had
/// under the old one; whatever that held is lost. The terms stay.
///
/// ```
/// use cuckooormolu::{raw, STATE_WORDS, TERMS_WORDS};
///
/// let (mut terms, mut state) = ([0; TERMS_WORDS], [0; STATE_WORDS]);
/// let text = b"M\t3\nL\t1\t1\nF\t0\ttop\t0\t0\nP\t0\t0\nG\t0\t0\t1\n";
/// assert_eq!(raw::read(text, &mut terms, &mut state), Ok(()));
/// assert_eq!(state[0], 1 << 1);
/// let mut second = [0; STATE_WORDS];
/// assert_eq!(raw::renumber(&terms, &state, &[2, 0, 1], &mut second), Ok(()));
/// assert_eq!(second[2], 1 << 0);
/// ```
///
/// # Errors
///
/// 6, 7, 8, or 15 where the list is not as long as there are members or lacks one of
/// their numbers.
pub fn renumber(
    terms: &[u16],
    state: &[u64],
    numbers: &[u8],
    second: &mut [u64],
) -> Result<(), Refusal> {
    // Safety: as in the other functions of one state.
    done(unsafe {
        library::cuckooormolu_raw_renumber(
            terms.as_ptr(),
            terms.len(),
            state.as_ptr(),
            state.len(),
            numbers.as_ptr(),
            numbers.len(),
            second.as_mut_ptr(),
            second.len(),
        )
    })
}
