//! How many words each memory has.

/// Words of 16 bits that terms fill.
pub const TERMS_WORDS: usize = 1_252;
/// Words of 64 bits that a state fills.
pub const STATE_WORDS: usize = 3_073;
/// Words of 64 bits at the front of a state that relations fill; two banks share
/// them.
pub const RELATION_WORDS: usize = 1_024;
/// Words of 64 bits that past-time tables and event fill, the rest of a state;
/// each of two banks has its own.
pub const OWN_WORDS: usize = 2_049;
/// Words of 64 bits that a call is lent besides.
pub const SCRATCH_WORDS: usize = 64;
/// Words of 64 bits that a plan is lent besides.
pub const PLAN_WORDS: usize = 9_283;
/// What stands for as many rows as this or more, where a request's effort is told.
pub const MOST_EFFORT: usize = 2_147_483_648;

const _: () = assert!(RELATION_WORDS + OWN_WORDS == STATE_WORDS);
