//! Two banks over one circle, which share terms and relations. The bank that is
//! called is named by the order alone: its own words and scratch come first, then
//! the other's, `other` and `spare`. [`crate::Banks`] cannot confuse them.

use super::{decided, done, unanswer, Record, Request};
use crate::{library, Answer, Refusal};

// Safety: as in the functions of one state.

/// Reads a text of the old form and fills the named words of terms, of relations
/// and of both banks' own words, which start together at moment 0.
///
/// # Errors
///
/// Those of [`super::read`], and 1 at line 1 where the text begins with an S
/// line: a stored text is one monitor's.
pub fn banks_read(
    text: &[u8],
    terms: &mut [u16],
    relations: &mut [u64],
    own: &mut [u64],
    other: &mut [u64],
) -> Result<(), (Refusal, usize)> {
    let mut line = 0;
    let code = unsafe {
        library::cuckooormolu_raw_banks_read(
            text.as_ptr(),
            text.len(),
            terms.as_mut_ptr(),
            terms.len(),
            relations.as_mut_ptr(),
            relations.len(),
            own.as_mut_ptr(),
            own.len(),
            other.as_mut_ptr(),
            other.len(),
            &mut line,
        )
    };
    done(code).map_err(|refusal| (refusal, line))
}

/// Makes moment 0 of the relations in both banks; whatever their own words held
/// is lost.
///
/// # Errors
///
/// 6, 7 or 8.
pub fn banks_open(
    terms: &[u16],
    relations: &[u64],
    own: &mut [u64],
    other: &mut [u64],
) -> Result<(), Refusal> {
    done(unsafe {
        library::cuckooormolu_raw_banks_open(
            terms.as_ptr(),
            terms.len(),
            relations.as_ptr(),
            relations.len(),
            own.as_mut_ptr(),
            own.len(),
            other.as_mut_ptr(),
            other.len(),
        )
    })
}

/// Revises the terms of both banks together, each as [`super::revise`] does:
/// fills in second relations and second own words of each, in the same order.
///
/// # Errors
///
/// 6, 7 (either terms), 8 (either bank's old state) or 13.
#[allow(clippy::too_many_arguments)]
pub fn banks_revise(
    old_terms: &[u16],
    old_relations: &[u64],
    old_own: &[u64],
    old_other: &[u64],
    new_terms: &[u16],
    relations: &mut [u64],
    own: &mut [u64],
    other: &mut [u64],
) -> Result<(), Refusal> {
    done(unsafe {
        library::cuckooormolu_raw_banks_revise(
            old_terms.as_ptr(),
            old_terms.len(),
            old_relations.as_ptr(),
            old_relations.len(),
            old_own.as_ptr(),
            old_own.len(),
            old_other.as_ptr(),
            old_other.len(),
            new_terms.as_ptr(),
            new_terms.len(),
            relations.as_mut_ptr(),
            relations.len(),
            own.as_mut_ptr(),
            own.len(),
            other.as_mut_ptr(),
            other.len(),
        )
    })
}

/// What a request of the bank would be answered now. It makes no moment.
///
/// # Errors
///
/// 6, 7, 8 or 9; 6 and 8 look at both banks.
pub fn banks_look(
    terms: &[u16],
    relations: &[u64],
    own: &[u64],
    other: &[u64],
    scratch: &[u64],
    spare: &[u64],
    request: Request,
) -> Result<Answer, Refusal> {
    decided(unsafe {
        library::cuckooormolu_raw_banks_look(
            terms.as_ptr(),
            terms.len(),
            relations.as_ptr(),
            relations.len(),
            own.as_ptr(),
            own.len(),
            other.as_ptr(),
            other.len(),
            scratch.as_ptr(),
            scratch.len(),
            spare.as_ptr(),
            spare.len(),
            request.event,
            request.from,
            request.to,
        )
    })
}

/// Answers a request of the bank. A grant, or a denial of an event whose denials
/// are kept, makes the next moment of both banks, without an event edge in the
/// other, and leaves the named words of both scratches 0; anything else leaves
/// all memory unchanged.
///
/// # Errors
///
/// Those of [`banks_look`].
pub fn banks_request(
    terms: &[u16],
    relations: &mut [u64],
    own: &mut [u64],
    other: &mut [u64],
    scratch: &mut [u64],
    spare: &mut [u64],
    request: Request,
) -> Result<Answer, Refusal> {
    decided(unsafe {
        library::cuckooormolu_raw_banks_request(
            terms.as_ptr(),
            terms.len(),
            relations.as_mut_ptr(),
            relations.len(),
            own.as_mut_ptr(),
            own.len(),
            other.as_mut_ptr(),
            other.len(),
            scratch.as_mut_ptr(),
            scratch.len(),
            spare.as_mut_ptr(),
            spare.len(),
            request.event,
            request.from,
            request.to,
        )
    })
}

/// Answers a list of records in order, each as [`banks_request`] would; gives the
/// count of grants. A record that is refused does not stop the list.
///
/// # Errors
///
/// 6, 7 or 8, an empty list too. Then no record has an answer, whatever it had
/// before.
pub fn banks_set_list(
    terms: &[u16],
    relations: &mut [u64],
    own: &mut [u64],
    other: &mut [u64],
    scratch: &mut [u64],
    spare: &mut [u64],
    records: &mut [Record],
) -> Result<usize, Refusal> {
    unanswer(records);
    let mut count = 0;
    let code = unsafe {
        library::cuckooormolu_raw_banks_set_list(
            terms.as_ptr(),
            terms.len(),
            relations.as_mut_ptr(),
            relations.len(),
            own.as_mut_ptr(),
            own.len(),
            other.as_mut_ptr(),
            other.len(),
            scratch.as_mut_ptr(),
            scratch.len(),
            spare.as_mut_ptr(),
            spare.len(),
            records.as_mut_ptr(),
            records.len(),
            &mut count,
        )
    };
    done(code).map(|()| count)
}
