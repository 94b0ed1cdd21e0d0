//! The archive's functions. Each takes a slice as a pointer and a count, and
//! returns a code; [`crate::raw`] has them over slices.

use crate::raw::Record;

extern "C" {
    /// Crate and archive belong together: the version stands in the name.
    #[link_name = concat!(
        "cuckooormolu_raw_version_",
        env!("CARGO_PKG_VERSION_MAJOR"),
        "_",
        env!("CARGO_PKG_VERSION_MINOR"),
        "_",
        env!("CARGO_PKG_VERSION_PATCH")
    )]
    pub fn cuckooormolu_raw_version() -> usize;

    pub fn cuckooormolu_raw_check(
        terms: *const u16,
        terms_length: usize,
        state: *const u64,
        state_length: usize,
    ) -> usize;

    pub fn cuckooormolu_raw_open(
        terms: *const u16,
        terms_length: usize,
        state: *mut u64,
        state_length: usize,
    ) -> usize;

    pub fn cuckooormolu_raw_revise(
        old_terms: *const u16,
        old_terms_length: usize,
        old_state: *const u64,
        old_state_length: usize,
        new_terms: *const u16,
        new_terms_length: usize,
        state: *mut u64,
        state_length: usize,
    ) -> usize;

    pub fn cuckooormolu_raw_renumber(
        terms: *const u16,
        terms_length: usize,
        state: *const u64,
        state_length: usize,
        numbers: *const u8,
        numbers_length: usize,
        second: *mut u64,
        second_length: usize,
    ) -> usize;

    pub fn cuckooormolu_raw_effort(terms: *const u16, terms_length: usize) -> usize;

    pub fn cuckooormolu_raw_look(
        terms: *const u16,
        terms_length: usize,
        state: *const u64,
        state_length: usize,
        scratch: *const u64,
        scratch_length: usize,
        event: usize,
        from: usize,
        to: usize,
    ) -> usize;

    pub fn cuckooormolu_raw_request(
        terms: *const u16,
        terms_length: usize,
        state: *mut u64,
        state_length: usize,
        scratch: *mut u64,
        scratch_length: usize,
        event: usize,
        from: usize,
        to: usize,
    ) -> usize;

    pub fn cuckooormolu_raw_set_list(
        terms: *const u16,
        terms_length: usize,
        state: *mut u64,
        state_length: usize,
        scratch: *mut u64,
        scratch_length: usize,
        records: *mut Record,
        records_length: usize,
        count: *mut usize,
    ) -> usize;

    pub fn cuckooormolu_raw_plan(
        terms: *const u16,
        terms_length: usize,
        state: *const u64,
        state_length: usize,
        scratch: *mut u64,
        scratch_length: usize,
        plan: *const u64,
        plan_length: usize,
        planner: usize,
        rival: usize,
        goal: usize,
        first: usize,
        second: usize,
    ) -> usize;

    pub fn cuckooormolu_raw_tell(
        terms: *const u16,
        terms_length: usize,
        state: *const u64,
        state_length: usize,
        entry: usize,
        first: usize,
        second: usize,
    ) -> usize;

    pub fn cuckooormolu_raw_read(
        text: *const u8,
        text_length: usize,
        terms: *mut u16,
        terms_length: usize,
        state: *mut u64,
        state_length: usize,
        line: *mut usize,
    ) -> usize;

    pub fn cuckooormolu_raw_size(
        terms: *const u16,
        terms_length: usize,
        state: *const u64,
        state_length: usize,
        count: *mut usize,
    ) -> usize;

    pub fn cuckooormolu_raw_write(
        terms: *const u16,
        terms_length: usize,
        state: *const u64,
        state_length: usize,
        output: *mut u8,
        output_length: usize,
        count: *mut usize,
    ) -> usize;

    pub fn cuckooormolu_raw_store_size(
        terms: *const u16,
        terms_length: usize,
        state: *const u64,
        state_length: usize,
        count: *mut usize,
    ) -> usize;

    pub fn cuckooormolu_raw_store(
        terms: *const u16,
        terms_length: usize,
        state: *const u64,
        state_length: usize,
        output: *mut u8,
        output_length: usize,
        count: *mut usize,
    ) -> usize;

    pub fn cuckooormolu_raw_banks_read(
        text: *const u8,
        text_length: usize,
        terms: *mut u16,
        terms_length: usize,
        relations: *mut u64,
        relations_length: usize,
        own: *mut u64,
        own_length: usize,
        other: *mut u64,
        other_length: usize,
        line: *mut usize,
    ) -> usize;

    pub fn cuckooormolu_raw_banks_open(
        terms: *const u16,
        terms_length: usize,
        relations: *const u64,
        relations_length: usize,
        own: *mut u64,
        own_length: usize,
        other: *mut u64,
        other_length: usize,
    ) -> usize;

    pub fn cuckooormolu_raw_banks_revise(
        old_terms: *const u16,
        old_terms_length: usize,
        old_relations: *const u64,
        old_relations_length: usize,
        old_own: *const u64,
        old_own_length: usize,
        old_other: *const u64,
        old_other_length: usize,
        new_terms: *const u16,
        new_terms_length: usize,
        relations: *mut u64,
        relations_length: usize,
        own: *mut u64,
        own_length: usize,
        other: *mut u64,
        other_length: usize,
    ) -> usize;

    pub fn cuckooormolu_raw_banks_look(
        terms: *const u16,
        terms_length: usize,
        relations: *const u64,
        relations_length: usize,
        own: *const u64,
        own_length: usize,
        other: *const u64,
        other_length: usize,
        scratch: *const u64,
        scratch_length: usize,
        spare: *const u64,
        spare_length: usize,
        event: usize,
        from: usize,
        to: usize,
    ) -> usize;

    pub fn cuckooormolu_raw_banks_request(
        terms: *const u16,
        terms_length: usize,
        relations: *mut u64,
        relations_length: usize,
        own: *mut u64,
        own_length: usize,
        other: *mut u64,
        other_length: usize,
        scratch: *mut u64,
        scratch_length: usize,
        spare: *mut u64,
        spare_length: usize,
        event: usize,
        from: usize,
        to: usize,
    ) -> usize;

    pub fn cuckooormolu_raw_banks_set_list(
        terms: *const u16,
        terms_length: usize,
        relations: *mut u64,
        relations_length: usize,
        own: *mut u64,
        own_length: usize,
        other: *mut u64,
        other_length: usize,
        scratch: *mut u64,
        scratch_length: usize,
        spare: *mut u64,
        spare_length: usize,
        records: *mut Record,
        records_length: usize,
        count: *mut usize,
    ) -> usize;
}
