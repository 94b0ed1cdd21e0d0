//! The archive's plans and questions, over slices.

pub mod named;

use crate::archive::refusal;
use keeper::plan::{Plan, Question};
use keeper::terms::Refusal;

/// What the library returns for a verdict and for what is told; a refusal is its
/// number.
const REJECTED: usize = 400;
const ACCEPTED: usize = 500;
const FAILS: usize = 600;
const HOLDS: usize = 700;

extern "C" {
    fn cuckooormolu_raw_plan(
        terms: *const u16,
        terms_length: usize,
        state: *const u64,
        state_length: usize,
        scratch: *mut u64,
        scratch_length: usize,
        plan: *const usize,
        plan_length: usize,
        planner: usize,
        rival: usize,
        goal: usize,
        first: usize,
        second: usize,
    ) -> usize;

    fn cuckooormolu_raw_tell(
        terms: *const u16,
        terms_length: usize,
        state: *const u64,
        state_length: usize,
        entry: usize,
        first: usize,
        second: usize,
    ) -> usize;
}

// All memory is taken as mutable, so that a stray write into it is seen and is no
// undefined behaviour. SAFETY, here and below: each pointer is that of a slice of
// the length beside it, and none overlaps another.

pub fn plan(
    plan: &Plan,
    terms: &mut [u16],
    state: &mut [u64],
    scratch: &mut [u64],
    numbers: &mut [usize],
) -> Result<bool, Refusal> {
    let Question { entry, first, second } = plan.goal;
    let code = unsafe {
        cuckooormolu_raw_plan(
            terms.as_mut_ptr(),
            terms.len(),
            state.as_mut_ptr(),
            state.len(),
            scratch.as_mut_ptr(),
            scratch.len(),
            numbers.as_mut_ptr(),
            numbers.len(),
            plan.planner,
            plan.rival,
            entry,
            first,
            second,
        )
    };
    match code {
        ACCEPTED => Ok(true),
        REJECTED => Ok(false),
        code => Err(refusal(code)),
    }
}

pub fn tell(question: &Question, terms: &mut [u16], state: &mut [u64]) -> Result<bool, Refusal> {
    let code = unsafe {
        cuckooormolu_raw_tell(
            terms.as_mut_ptr(),
            terms.len(),
            state.as_mut_ptr(),
            state.len(),
            question.entry,
            question.first,
            question.second,
        )
    };
    match code {
        HOLDS => Ok(true),
        FAILS => Ok(false),
        code => Err(refusal(code)),
    }
}
