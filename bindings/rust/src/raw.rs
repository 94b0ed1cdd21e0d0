//! The library's functions over slices and numbers. Two threads cannot share a
//! scratch, since a call borrows it alone.
//!
//! Each accepts every input: memory of any length with anything in it, and
//! any numbers. So all of them are safe to call. A refusal leaves every
//! memory unchanged, except that the records of a set list have no answers then, and
//! words beyond the named ones are never touched. `Ok` is not a grant: a denial is an
//! answer too.
//!
//! Nothing here allocates: without the feature `alloc` this module is what the
//! crate has.
//!
//! ```
//! use cuckooormolu::{raw, Answer, SCRATCH_WORDS, STATE_WORDS, TERMS_WORDS};
//!
//! let (mut terms, mut state) = ([0; TERMS_WORDS], [0; STATE_WORDS]);
//! let mut scratch = [0; SCRATCH_WORDS];
//! let text = b"M\t2\nL\t0\t1\nF\t0\ttop\t0\t0\nP\t0\t0\n";
//! assert_eq!(raw::read(text, &mut terms, &mut state), Ok(()));
//! let request = raw::Request { event: 0, from: 0, to: 1 };
//! assert_eq!(raw::request(&terms, &mut state, &mut scratch, request), Ok(Answer::Grant));
//! ```
//!
//! A scratch that two threads share does not compile:
//!
//! ```compile_fail,E0499
//! # use cuckooormolu::raw;
//! fn host(terms: &[u16], a: &mut [u64], b: &mut [u64], scratch: &mut [u64], asked: raw::Request) {
//!     std::thread::scope(|scope| {
//!         scope.spawn(|| raw::request(terms, a, scratch, asked));
//!         scope.spawn(|| raw::request(terms, b, scratch, asked));
//!     });
//! }
//! ```

use crate::{library, Answer, Refusal, Ruling, MOST_EFFORT, TERMS_WORDS};

mod banks;
mod renumber;
pub use banks::{banks_look, banks_open, banks_read, banks_request, banks_revise, banks_set_list};
pub use renumber::renumber;

/// A request by any numbers, whether or not there are such an event and
/// members.
#[derive(Clone, Copy, Debug, PartialEq, Eq, Hash)]
pub struct Request {
    /// What is asked for.
    pub event: usize,
    /// Its initiator.
    pub from: usize,
    /// Its target.
    pub to: usize,
}

impl From<crate::Request> for Request {
    fn from(request: crate::Request) -> Request {
        let crate::Request { event, from, to } = request;
        Request { event: event.into(), from: from.into(), to: to.into() }
    }
}

/// A plan by any numbers, whether or not there are such events, members and an
/// entry.
#[derive(Clone, Copy, Debug, PartialEq, Eq, Hash)]
pub struct Plan<'a> {
    /// Event and target of each request in turn.
    pub moves: &'a [u64],
    /// Who makes them.
    pub planner: usize,
    /// Who may make a request between two of them.
    pub rival: usize,
    /// The entry that is to hold after one of them.
    pub goal: usize,
    /// Where it is to hold: at the first member, with variable 0 standing for the
    /// second.
    pub pair: (usize, usize),
}

/// A record of a set list: a request by any numbers, and its answer, which
/// [`set_list`] fills in, whatever it was: 0 for a denial, 1 for a grant, 9
/// for a request that was refused by that number.
#[derive(Clone, Copy, Debug, PartialEq, Eq, Hash)]
#[repr(C)]
pub struct Record {
    /// What is asked for.
    pub event: u32,
    /// Its initiator.
    pub from: u32,
    /// Its target.
    pub to: u32,
    /// The number of the answer. [`Record::answered`] says what it means.
    pub answer: u32,
}

impl Record {
    /// The number of no answer. It stands in each record of a list that was
    /// refused, whatever stood there before.
    pub const UNANSWERED: u32 = u32::MAX;

    /// The answer; none where the number is no answer's.
    #[must_use = "a request that is decided may be denied"]
    pub fn answered(&self) -> Option<Result<Answer, Refusal>> {
        match self.answer {
            0 => Some(Ok(Answer::Deny)),
            1 => Some(Ok(Answer::Grant)),
            9 => Some(Err(Refusal::NoSuchName)),
            _ => None,
        }
    }
}

/// Takes old answers away: those of a list that is refused would be read as its.
fn unanswer(records: &mut [Record]) {
    records.iter_mut().for_each(|record| record.answer = Record::UNANSWERED);
}

const DONE: usize = 100;
const DENIED: usize = 200;
const GRANTED: usize = 300;
const REJECTED: usize = 400;
const ACCEPTED: usize = 500;
const FAILS: usize = 600;
const HOLDS: usize = 700;

/// Every call may come here and name the version, so that none links with an
/// archive of another one, which has no function of that name.
fn refused(code: usize) -> Refusal {
    Refusal::of_number(code).unwrap_or_else(|| {
        panic!("the library of version {} gave the unknown code {code}", version())
    })
}

fn done(code: usize) -> Result<(), Refusal> {
    match code {
        DONE => Ok(()),
        code => Err(refused(code)),
    }
}

fn decided(code: usize) -> Result<Answer, Refusal> {
    match code {
        GRANTED => Ok(Answer::Grant),
        DENIED => Ok(Answer::Deny),
        code => Err(refused(code)),
    }
}

fn ruled(code: usize) -> Result<Ruling, Refusal> {
    match code {
        ACCEPTED => Ok(Ruling::Accepted),
        REJECTED => Ok(Ruling::Rejected),
        code => Err(refused(code)),
    }
}

fn told(code: usize) -> Result<bool, Refusal> {
    match code {
        HOLDS => Ok(true),
        FAILS => Ok(false),
        code => Err(refused(code)),
    }
}

/// The version of the archive as one number, 15,000 for 0.15.0. It is the crate's:
/// an archive of another version does not link.
pub fn version() -> usize {
    // Safety: the function takes nothing and gives a number.
    unsafe { library::cuckooormolu_raw_version() }
}

// Safety, here and below: a slice is valid for its length, a mutable one is
// no other's, and the library keeps within the lengths it is given.

/// Whether terms and state are ones that a call accepts.
///
/// # Errors
///
/// 6, 7 or 8.
pub fn check(terms: &[u16], state: &[u64]) -> Result<(), Refusal> {
    done(unsafe {
        library::cuckooormolu_raw_check(terms.as_ptr(), terms.len(), state.as_ptr(), state.len())
    })
}

/// How many rows a request may work out, at most, by terms that are accepted: a row
/// is one entry at one member. [`MOST_EFFORT`] stands for more, too. Too few words, and
/// words without members, as zeroed ones, give that; of other words that are no
/// accepted terms it says nothing.
///
/// [`read`] of the old form opens the state, which may take as long as a request. To
/// ask before that, read the text with a line `S 2` before it, which is a stored text
/// with the same terms and relations and opens nothing; then [`open`] gives the words
/// that reading the old form gives.
///
/// ```
/// use cuckooormolu::{raw, STATE_WORDS, TERMS_WORDS};
///
/// let (mut terms, mut state) = ([0; TERMS_WORDS], [0; STATE_WORDS]);
/// let text = b"M\t2\nL\t0\t1\nF\t0\ttop\t0\t0\nF\t1\tnot\t0\t0\nP\t0\t1\n";
/// let stored = [&b"S\t2\n"[..], text].concat();
/// assert_eq!(raw::read(&stored, &mut terms, &mut state), Ok(()));
/// if raw::effort(&terms) <= 1_000_000 {
///     assert_eq!(raw::open(&terms, &mut state), Ok(()));
/// }
/// ```
pub fn effort(terms: &[u16]) -> usize {
    if terms.len() < TERMS_WORDS || terms[0] == 0 {
        return MOST_EFFORT;
    }
    unsafe { library::cuckooormolu_raw_effort(terms.as_ptr(), terms.len()) }
}

/// Makes the state of moment 0 of the relations that stand in it; whatever
/// its other words held is lost.
///
/// # Errors
///
/// 6, 7 or 8.
pub fn open(terms: &[u16], state: &mut [u64]) -> Result<(), Refusal> {
    done(unsafe {
        library::cuckooormolu_raw_open(terms.as_ptr(), terms.len(), state.as_mut_ptr(), state.len())
    })
}

/// From old terms, the state under them and new terms with as many members,
/// relations and events, fills in the state with which the new terms go on;
/// whatever that held is lost. Relations and event edge are carried over, and a
/// prev or since takes the table of the first old entry with the same formula,
/// spelled out; any other starts now.
///
/// # Errors
///
/// 6, 7 (either terms), 8 (the old state) or 13.
pub fn revise(
    old_terms: &[u16],
    old_state: &[u64],
    new_terms: &[u16],
    state: &mut [u64],
) -> Result<(), Refusal> {
    done(unsafe {
        library::cuckooormolu_raw_revise(
            old_terms.as_ptr(),
            old_terms.len(),
            old_state.as_ptr(),
            old_state.len(),
            new_terms.as_ptr(),
            new_terms.len(),
            state.as_mut_ptr(),
            state.len(),
        )
    })
}

/// What a request would be answered now. It makes no moment.
///
/// # Errors
///
/// 6, 7, 8 or 9.
pub fn look(
    terms: &[u16],
    state: &[u64],
    scratch: &[u64],
    request: Request,
) -> Result<Answer, Refusal> {
    decided(unsafe {
        library::cuckooormolu_raw_look(
            terms.as_ptr(),
            terms.len(),
            state.as_ptr(),
            state.len(),
            scratch.as_ptr(),
            scratch.len(),
            request.event,
            request.from,
            request.to,
        )
    })
}

/// Answers a request. A grant, or a denial of an event whose denials are kept,
/// makes the next moment and leaves the named words of scratch 0; anything else
/// leaves state and scratch unchanged.
///
/// # Errors
///
/// 6, 7, 8 or 9.
pub fn request(
    terms: &[u16],
    state: &mut [u64],
    scratch: &mut [u64],
    request: Request,
) -> Result<Answer, Refusal> {
    decided(unsafe {
        library::cuckooormolu_raw_request(
            terms.as_ptr(),
            terms.len(),
            state.as_mut_ptr(),
            state.len(),
            scratch.as_mut_ptr(),
            scratch.len(),
            request.event,
            request.from,
            request.to,
        )
    })
}

/// Answers a list of records in order, each as [`request`] would, but checks
/// terms, state and scratch once; gives the count of grants. A record that is
/// refused does not stop the list.
///
/// # Errors
///
/// 6, 7 or 8, an empty list too. Then no record has an answer, whatever it had
/// before.
pub fn set_list(
    terms: &[u16],
    state: &mut [u64],
    scratch: &mut [u64],
    records: &mut [Record],
) -> Result<usize, Refusal> {
    unanswer(records);
    let mut count = 0;
    let code = unsafe {
        library::cuckooormolu_raw_set_list(
            terms.as_ptr(),
            terms.len(),
            state.as_mut_ptr(),
            state.len(),
            scratch.as_mut_ptr(),
            scratch.len(),
            records.as_mut_ptr(),
            records.len(),
            &mut count,
        )
    };
    done(code).map(|()| count)
}

/// Whether a plan reaches its goal, whatever the rival does. A verdict leaves the
/// named words of scratch, [`crate::PLAN_WORDS`], 0.
///
/// # Errors
///
/// 6, 7, 8, 14 or 9, in this order.
pub fn plan(
    terms: &[u16],
    state: &[u64],
    scratch: &mut [u64],
    plan: Plan<'_>,
) -> Result<Ruling, Refusal> {
    ruled(unsafe {
        library::cuckooormolu_raw_plan(
            terms.as_ptr(),
            terms.len(),
            state.as_ptr(),
            state.len(),
            scratch.as_mut_ptr(),
            scratch.len(),
            plan.moves.as_ptr(),
            plan.moves.len(),
            plan.planner,
            plan.rival,
            plan.goal,
            plan.pair.0,
            plan.pair.1,
        )
    })
}

/// Whether an entry holds now, at the first member with variable 0 standing for
/// the second. It makes no moment.
///
/// # Errors
///
/// 6, 7, 8, 14 or 9, in this order.
pub fn tell(
    terms: &[u16],
    state: &[u64],
    entry: usize,
    first: usize,
    second: usize,
) -> Result<bool, Refusal> {
    told(unsafe {
        library::cuckooormolu_raw_tell(
            terms.as_ptr(),
            terms.len(),
            state.as_ptr(),
            state.len(),
            entry,
            first,
            second,
        )
    })
}

/// Reads a text of the old form, a terms file, or of the stored form, which begins
/// with a line `S 2`, and fills the named words of terms and state. The old form is
/// opened, which may take as long as a request.
///
/// # Errors
///
/// 1 to 6, 10 or 11, with the first faulty line, 0 where none is at fault.
pub fn read(text: &[u8], terms: &mut [u16], state: &mut [u64]) -> Result<(), (Refusal, usize)> {
    let mut line = 0;
    let code = unsafe {
        library::cuckooormolu_raw_read(
            text.as_ptr(),
            text.len(),
            terms.as_mut_ptr(),
            terms.len(),
            state.as_mut_ptr(),
            state.len(),
            &mut line,
        )
    };
    done(code).map_err(|refusal| (refusal, line))
}

/// How many bytes [`write()`] would write.
///
/// # Errors
///
/// 6, 7, 8 or 12.
pub fn size(terms: &[u16], state: &[u64]) -> Result<usize, Refusal> {
    let mut count = 0;
    let code = unsafe {
        library::cuckooormolu_raw_size(
            terms.as_ptr(),
            terms.len(),
            state.as_ptr(),
            state.len(),
            &mut count,
        )
    };
    done(code).map(|()| count)
}

/// Writes the old form, the terms with the present relations, from the output's
/// first byte on, numbers without leading zeros, and gives the count of bytes.
///
/// # Errors
///
/// 6, 7, 8, or 12 where the state is no fresh start.
pub fn write(terms: &[u16], state: &[u64], output: &mut [u8]) -> Result<usize, Refusal> {
    let mut count = 0;
    let code = unsafe {
        library::cuckooormolu_raw_write(
            terms.as_ptr(),
            terms.len(),
            state.as_ptr(),
            state.len(),
            output.as_mut_ptr(),
            output.len(),
            &mut count,
        )
    };
    done(code).map(|()| count)
}

/// How many bytes [`store`] would write.
///
/// # Errors
///
/// 6, 7 or 8.
pub fn store_size(terms: &[u16], state: &[u64]) -> Result<usize, Refusal> {
    let mut count = 0;
    let code = unsafe {
        library::cuckooormolu_raw_store_size(
            terms.as_ptr(),
            terms.len(),
            state.as_ptr(),
            state.len(),
            &mut count,
        )
    };
    done(code).map(|()| count)
}

/// Writes the stored form, terms and the whole state, from the output's first
/// byte on and gives the count of bytes. Reading it gives the same named words.
///
/// # Errors
///
/// 6, 7 or 8.
pub fn store(terms: &[u16], state: &[u64], output: &mut [u8]) -> Result<usize, Refusal> {
    let mut count = 0;
    let code = unsafe {
        library::cuckooormolu_raw_store(
            terms.as_ptr(),
            terms.len(),
            state.as_ptr(),
            state.len(),
            output.as_mut_ptr(),
            output.len(),
            &mut count,
        )
    };
    done(code).map(|()| count)
}
