//! The archive's functions of two banks, over slices, and its set list of a state:
//! the binding's takes old answers away, which the archive leaves where it refuses.

use cuckooormolu::raw::Record;
use keeper::banks::lent::Lent;
use keeper::record::{Answer, Call};
use keeper::terms::Refusal;

/// What the library returns where it is done, denies or grants; a refusal is its
/// number.
const DONE: usize = 100;
const DENIED: usize = 200;
const GRANTED: usize = 300;

extern "C" {
    fn cuckooormolu_raw_set_list(
        terms: *const u16,
        terms_length: usize,
        state: *mut u64,
        state_length: usize,
        scratch: *mut u64,
        scratch_length: usize,
        records: *mut Record,
        records_length: usize,
        count: *mut usize,
    ) -> usize;

    fn cuckooormolu_raw_banks_read(
        text: *const u8,
        text_length: usize,
        terms: *mut u16,
        terms_length: usize,
        relations: *mut u64,
        relations_length: usize,
        own: *mut u64,
        own_length: usize,
        other: *mut u64,
        other_length: usize,
        line: *mut usize,
    ) -> usize;

    fn cuckooormolu_raw_banks_open(
        terms: *const u16,
        terms_length: usize,
        relations: *const u64,
        relations_length: usize,
        own: *mut u64,
        own_length: usize,
        other: *mut u64,
        other_length: usize,
    ) -> usize;

    fn cuckooormolu_raw_banks_look(
        terms: *const u16,
        terms_length: usize,
        relations: *const u64,
        relations_length: usize,
        own: *const u64,
        own_length: usize,
        other: *const u64,
        other_length: usize,
        scratch: *const u64,
        scratch_length: usize,
        spare: *const u64,
        spare_length: usize,
        event: usize,
        from: usize,
        to: usize,
    ) -> usize;

    fn cuckooormolu_raw_banks_request(
        terms: *const u16,
        terms_length: usize,
        relations: *mut u64,
        relations_length: usize,
        own: *mut u64,
        own_length: usize,
        other: *mut u64,
        other_length: usize,
        scratch: *mut u64,
        scratch_length: usize,
        spare: *mut u64,
        spare_length: usize,
        event: usize,
        from: usize,
        to: usize,
    ) -> usize;

    fn cuckooormolu_raw_banks_set_list(
        terms: *const u16,
        terms_length: usize,
        relations: *mut u64,
        relations_length: usize,
        own: *mut u64,
        own_length: usize,
        other: *mut u64,
        other_length: usize,
        scratch: *mut u64,
        scratch_length: usize,
        spare: *mut u64,
        spare_length: usize,
        records: *mut Record,
        records_length: usize,
        count: *mut usize,
    ) -> usize;

    fn cuckooormolu_raw_banks_revise(
        old_terms: *const u16,
        old_terms_length: usize,
        relations: *const u64,
        relations_length: usize,
        own: *const u64,
        own_length: usize,
        other: *const u64,
        other_length: usize,
        new_terms: *const u16,
        new_terms_length: usize,
        second_relations: *mut u64,
        second_relations_length: usize,
        second_own: *mut u64,
        second_own_length: usize,
        second_other: *mut u64,
        second_other_length: usize,
    ) -> usize;
}

/// The refusal that a code stands for.
pub fn refusal(code: usize) -> Refusal {
    match u16::try_from(code) {
        Ok(number @ 1..=15) => Refusal::plain(number),
        _ => panic!("a code that is none: {code}"),
    }
}

/// What the code of a call that gives no answer says.
pub fn done(code: usize) -> Result<(), Refusal> {
    match code {
        DONE => Ok(()),
        code => Err(refusal(code)),
    }
}

fn answered(code: usize) -> Answer {
    match code {
        DENIED => Answer::Deny,
        GRANTED => Answer::Grant,
        code => Answer::Refused(refusal(code)),
    }
}

pub fn state_set_list(
    terms: &[u16],
    state: &mut [u64],
    scratch: &mut [u64],
    records: &mut [Record],
) -> Result<usize, Refusal> {
    let mut count = usize::MAX;
    let code = unsafe {
        cuckooormolu_raw_set_list(
            terms.as_ptr(),
            terms.len(),
            state.as_mut_ptr(),
            state.len(),
            scratch.as_mut_ptr(),
            scratch.len(),
            records.as_mut_ptr(),
            records.len(),
            &mut count,
        )
    };
    done(code).map(|()| count)
}

/// Own words, or scratch, of the bank that is called, and of the other.
fn of(bank: usize, both: &mut [Vec<u64>; 2]) -> [&mut Vec<u64>; 2] {
    let [first, second] = both;
    if bank == 0 {
        [first, second]
    } else {
        [second, first]
    }
}

// All memory is taken as mutable, so that a stray write into it is seen and is no
// undefined behaviour. SAFETY, here and below: each pointer is that of a slice of
// the length beside it, and none overlaps another.

pub fn read(text: &[u8], lent: &mut Lent) -> Result<(), Refusal> {
    let Lent { terms, relations, own: [own, other] } = lent;
    let mut line = usize::MAX;
    let code = unsafe {
        cuckooormolu_raw_banks_read(
            text.as_ptr(),
            text.len(),
            terms.as_mut_ptr(),
            terms.len(),
            relations.as_mut_ptr(),
            relations.len(),
            own.as_mut_ptr(),
            own.len(),
            other.as_mut_ptr(),
            other.len(),
            &mut line,
        )
    };
    done(code).map_err(|refusal| Refusal { line, ..refusal })
}

pub fn open(lent: &mut Lent) -> Result<(), Refusal> {
    let Lent { terms, relations, own: [own, other] } = lent;
    done(unsafe {
        cuckooormolu_raw_banks_open(
            terms.as_mut_ptr(),
            terms.len(),
            relations.as_mut_ptr(),
            relations.len(),
            own.as_mut_ptr(),
            own.len(),
            other.as_mut_ptr(),
            other.len(),
        )
    })
}

pub fn call(bank: usize, call: &Call, lent: &mut Lent, scratch: &mut [Vec<u64>; 2]) -> Answer {
    let [own, other] = of(bank, &mut lent.own);
    let [scratch, spare] = of(bank, scratch);
    let (terms, relations) = (&mut lent.terms, &mut lent.relations);
    answered(unsafe {
        if call.look {
            cuckooormolu_raw_banks_look(
                terms.as_mut_ptr(),
                terms.len(),
                relations.as_mut_ptr(),
                relations.len(),
                own.as_mut_ptr(),
                own.len(),
                other.as_mut_ptr(),
                other.len(),
                scratch.as_mut_ptr(),
                scratch.len(),
                spare.as_mut_ptr(),
                spare.len(),
                call.event,
                call.from,
                call.to,
            )
        } else {
            cuckooormolu_raw_banks_request(
                terms.as_mut_ptr(),
                terms.len(),
                relations.as_mut_ptr(),
                relations.len(),
                own.as_mut_ptr(),
                own.len(),
                other.as_mut_ptr(),
                other.len(),
                scratch.as_mut_ptr(),
                scratch.len(),
                spare.as_mut_ptr(),
                spare.len(),
                call.event,
                call.from,
                call.to,
            )
        }
    })
}

pub fn set_list(
    bank: usize,
    records: &mut [Record],
    lent: &mut Lent,
    scratch: &mut [Vec<u64>; 2],
) -> Result<usize, Refusal> {
    let [own, other] = of(bank, &mut lent.own);
    let [scratch, spare] = of(bank, scratch);
    let (terms, relations) = (&mut lent.terms, &mut lent.relations);
    let mut count = usize::MAX;
    let code = unsafe {
        cuckooormolu_raw_banks_set_list(
            terms.as_mut_ptr(),
            terms.len(),
            relations.as_mut_ptr(),
            relations.len(),
            own.as_mut_ptr(),
            own.len(),
            other.as_mut_ptr(),
            other.len(),
            scratch.as_mut_ptr(),
            scratch.len(),
            spare.as_mut_ptr(),
            spare.len(),
            records.as_mut_ptr(),
            records.len(),
            &mut count,
        )
    };
    done(code).map(|()| count)
}

pub fn revise(old: &mut Lent, second: &mut Lent) -> Result<(), Refusal> {
    let Lent { terms: old_terms, relations, own: [own, other] } = old;
    let Lent { terms, relations: second_relations, own: [second_own, second_other] } = second;
    done(unsafe {
        cuckooormolu_raw_banks_revise(
            old_terms.as_mut_ptr(),
            old_terms.len(),
            relations.as_mut_ptr(),
            relations.len(),
            own.as_mut_ptr(),
            own.len(),
            other.as_mut_ptr(),
            other.len(),
            terms.as_mut_ptr(),
            terms.len(),
            second_relations.as_mut_ptr(),
            second_relations.len(),
            second_own.as_mut_ptr(),
            second_own.len(),
            second_other.as_mut_ptr(),
            second_other.len(),
        )
    })
}
