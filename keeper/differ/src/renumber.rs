//! The library's renumbering over slices.

use crate::archive::done;
use keeper::terms::Refusal;

extern "C" {
    // Links the archive that the binding names.
    fn cuckooormolu_raw_renumber(
        terms: *const u16,
        terms_length: usize,
        state: *const u64,
        state_length: usize,
        numbers: *const u8,
        numbers_length: usize,
        second: *mut u64,
        second_length: usize,
    ) -> usize;
}

/// Fills the second state in. The first three are mutable so that a stray write
/// into them is seen and is no undefined behaviour.
pub fn renumber(
    terms: &mut [u16],
    state: &mut [u64],
    numbers: &mut [u8],
    second: &mut [u64],
) -> Result<(), Refusal> {
    // SAFETY: each pointer is that of a slice of the length beside it, and none
    // overlaps another.
    let code = unsafe {
        cuckooormolu_raw_renumber(
            terms.as_mut_ptr(),
            terms.len(),
            state.as_mut_ptr(),
            state.len(),
            numbers.as_mut_ptr(),
            numbers.len(),
            second.as_mut_ptr(),
            second.len(),
        )
    };
    done(code)
}
