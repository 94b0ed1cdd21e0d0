//! The library's revision over slices.

use crate::archive::done;
use keeper::terms::Refusal;

extern "C" {
    // Links the archive that the binding names.
    fn cuckooormolu_raw_revise(
        old_terms: *const u16,
        old_terms_length: usize,
        old_state: *const u64,
        old_state_length: usize,
        new_terms: *const u16,
        new_terms_length: usize,
        second: *mut u64,
        second_length: usize,
    ) -> usize;
}

/// Fills the second state in. The first three are mutable so that a stray write
/// into them is seen and is no undefined behaviour.
pub fn revise(
    old_terms: &mut [u16],
    old_state: &mut [u64],
    new_terms: &mut [u16],
    second: &mut [u64],
) -> Result<(), Refusal> {
    // SAFETY: each pointer is that of a slice of the length beside it, and none
    // overlaps another.
    let code = unsafe {
        cuckooormolu_raw_revise(
            old_terms.as_mut_ptr(),
            old_terms.len(),
            old_state.as_mut_ptr(),
            old_state.len(),
            new_terms.as_mut_ptr(),
            new_terms.len(),
            second.as_mut_ptr(),
            second.len(),
        )
    };
    done(code)
}
