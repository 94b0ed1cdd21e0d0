//! What stands where in terms and state.

use crate::{Refusal, STATE_WORDS};
use alloc::boxed::Box;

/// Where the entries of terms begin, and the words of each.
pub(crate) const FIRST_ENTRY: usize = 4;
pub(crate) const ENTRY_WORDS: usize = 4;
pub(crate) const FIRST_POLICY: usize = 1_028;
/// Where the effects begin, how many places an event has, and the words of
/// each.
pub(crate) const FIRST_EFFECT: usize = 1_044;
pub(crate) const EFFECTS: usize = 4;
pub(crate) const EFFECT_WORDS: usize = 3;
/// A word for each event: 1 where its denied requests are kept.
pub(crate) const FIRST_MARK: usize = 1_236;

/// The most members with which a past-time entry may have two free variables.
pub(crate) const PAIR_MEMBERS: u8 = 16;
/// Members, and so words, of one relation or table.
pub(crate) const ROWS: usize = 64;
pub(crate) const RELATIONS: usize = 16;
pub(crate) const FIRST_TABLE: usize = ROWS * RELATIONS;
pub(crate) const EVENT_WORD: usize = STATE_WORDS - 1;
/// What is added to an event's number in that word where it was denied.
pub(crate) const DENIED: u64 = 16;

/// The named words of a memory, boxed.
pub(crate) fn front<T: Copy, const WORDS: usize>(words: &[T]) -> Result<Box<[T; WORDS]>, Refusal> {
    let words = words.first_chunk().ok_or(Refusal::TooShort)?;
    Ok(Box::new(*words))
}
