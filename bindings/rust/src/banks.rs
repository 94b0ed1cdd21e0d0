//! Two banks over one circle: terms and relations in common, and for each bank
//! its own past-time tables, event and scratch.

use crate::{raw, Answer, Record, Refusal, Request, State, Terms, TextError};
use crate::{OWN_WORDS, RELATION_WORDS, SCRATCH_WORDS};
use alloc::boxed::Box;

const CHECKED: &str = "banks' memory has passed the checks";

/// Two banks that share terms and relations, with all their memory. A call of
/// one is made by its handle, [`Banks::left`] or [`Banks::right`].
///
/// A moment made in one bank is a moment in the other too, without an event edge
/// there: relations are the same, but neither sees which events the other used.
///
/// ```
/// use cuckooormolu::{Answer, Banks, Event, Member, Request};
///
/// // Event 0 makes an edge; event 1 is for whoever has one, event 2 for whoever
/// // has done event 0.
/// let text = "M 2\nL 1 3\nF 0 top 0 0\nF 1 out 0 0\nF 2 out 1 0\nF 3 since 0 2\n\
///             P 0 0\nP 1 1\nP 2 3\nE 0 add 0 fwd\n";
/// let mut banks = Banks::read(text.replace(' ', "\t").as_bytes())?;
/// let asked = |event| Request { event: Event(event), from: Member(0), to: Member(1) };
/// assert_eq!(banks.left().request(asked(0))?, Answer::Grant);
/// assert_eq!(banks.right().look(asked(1))?, Answer::Grant);
/// assert_eq!(banks.left().look(asked(2))?, Answer::Grant);
/// assert_eq!(banks.right().look(asked(2))?, Answer::Deny);
/// # Ok::<(), Box<dyn std::error::Error>>(())
/// ```
#[derive(Clone, Debug)]
pub struct Banks {
    terms: Terms,
    relations: Box<[u64; RELATION_WORDS]>,
    left: Own,
    right: Own,
}

/// What a bank has of its own.
#[derive(Clone, Debug)]
struct Own {
    words: Box<[u64; OWN_WORDS]>,
    scratch: Box<[u64; SCRATCH_WORDS]>,
}

/// The states of two banks, whose relations are the same.
#[derive(Clone, Debug, PartialEq, Eq)]
pub struct BankStates {
    /// That of [`Banks::left`].
    pub left: State,
    /// That of [`Banks::right`].
    pub right: State,
}

impl Banks {
    /// Reads a text of the old form, a terms file: both banks stand at its moment 0.
    /// Untrusted terms are read by
    /// [`Monitor::read_terms_within`](crate::Monitor::read_terms_within) first; a request
    /// of banks works out at most twice as many rows.
    ///
    /// # Errors
    ///
    /// The refusal of the first faulty line, and which line that is. A text of
    /// the stored form is one monitor's, and refused at its first line.
    pub fn read(text: &[u8]) -> Result<Banks, TextError> {
        let mut banks = Banks::blank();
        let Banks { terms, relations, left, right } = &mut banks;
        let words = (&mut left.words[..], &mut right.words[..]);
        raw::banks_read(text, &mut terms.0[..], &mut relations[..], words.0, words.1)
            .map_err(|(refusal, line)| TextError::new(refusal, line, text))?;
        Ok(banks)
    }

    /// Both banks stand at moment 0 of the relations of a state; its tables and
    /// event edge don't count.
    ///
    /// # Errors
    ///
    /// [`Refusal::BadState`] where the relations are not those of these terms.
    pub fn open(terms: Terms, relations: &State) -> Result<Banks, Refusal> {
        let mut banks = Banks { terms, ..Banks::blank() };
        banks.relations.copy_from_slice(&relations.words()[..RELATION_WORDS]);
        let words = (&mut banks.left.words[..], &mut banks.right.words[..]);
        raw::banks_open(banks.terms.words(), &banks.relations[..], words.0, words.1)?;
        Ok(banks)
    }

    /// Goes on from terms and states kept earlier, once they are checked.
    ///
    /// # Errors
    ///
    /// [`Refusal::BadState`] where a state does not have the layout of these
    /// terms, or the two have other relations. States of other terms with the
    /// same layout, or of other moments, are not noticed, and answers would be
    /// wrong: keep terms and both states together.
    pub fn resume(terms: Terms, states: BankStates) -> Result<Banks, Refusal> {
        let [left, right] = [&states.left, &states.right].map(|state| state.words());
        raw::check(terms.words(), left)?;
        raw::check(terms.words(), right)?;
        let (relations, own) = left.split_at(RELATION_WORDS);
        let (others, other) = right.split_at(RELATION_WORDS);
        if relations != others {
            return Err(Refusal::BadState);
        }
        let mut banks = Banks { terms, ..Banks::blank() };
        banks.relations.copy_from_slice(relations);
        banks.left.words.copy_from_slice(own);
        banks.right.words.copy_from_slice(other);
        Ok(banks)
    }

    /// The left bank.
    pub fn left(&mut self) -> Bank<'_> {
        let Banks { terms, relations, left: own, right: other } = self;
        Bank { terms, relations, own, other }
    }

    /// The right bank.
    pub fn right(&mut self) -> Bank<'_> {
        let Banks { terms, relations, left: other, right: own } = self;
        Bank { terms, relations, own, other }
    }

    /// Goes on under new terms in both banks together, each as
    /// [`crate::Monitor::revise`] does.
    ///
    /// ```
    /// use cuckooormolu::{Answer, Banks, Event, Member, Request};
    ///
    /// let read = |text: &str| Banks::read(text.replace(' ', "\t").as_bytes());
    /// let mut banks = read("M 2\nL 0 1\nF 0 top 0 0\nP 0 0\n")?;
    /// let request = Request { event: Event(0), from: Member(0), to: Member(1) };
    /// assert_eq!(banks.left().request(request)?, Answer::Grant);
    ///
    /// // For whoever has been granted it: from now on, the last grant included.
    /// let once = read("M 2\nL 0 1\nF 0 top 0 0\nF 1 out 0 0\nF 2 since 0 1\nP 0 2\n")?;
    /// banks.revise(once.terms())?;
    /// assert_eq!(banks.left().look(request)?, Answer::Grant);
    /// assert_eq!(banks.right().look(request)?, Answer::Deny);
    /// # Ok::<(), Box<dyn std::error::Error>>(())
    /// ```
    ///
    /// # Errors
    ///
    /// [`Refusal::OtherSize`], and then the banks are exactly as they were.
    pub fn revise(&mut self, new: &Terms) -> Result<(), Refusal> {
        let mut next = Banks { terms: new.clone(), ..Banks::blank() };
        raw::banks_revise(
            self.terms.words(),
            &self.relations[..],
            &self.left.words[..],
            &self.right.words[..],
            new.words(),
            &mut next.relations[..],
            &mut next.left.words[..],
            &mut next.right.words[..],
        )?;
        *self = next;
        Ok(())
    }

    /// The terms by which both answer.
    pub fn terms(&self) -> &Terms {
        &self.terms
    }

    /// The present moment of each bank.
    pub fn states(&self) -> BankStates {
        let [left, right] =
            [&self.left, &self.right].map(|own| State::joined(&self.relations, &own.words));
        BankStates { left, right }
    }

    /// Terms and states, to be kept.
    pub fn into_parts(self) -> (Terms, BankStates) {
        let states = self.states();
        (self.terms, states)
    }

    fn blank() -> Banks {
        let relations = Box::new([0; RELATION_WORDS]);
        Banks { terms: Terms::blank(), relations, left: Own::blank(), right: Own::blank() }
    }
}

impl Own {
    fn blank() -> Own {
        Own { words: Box::new([0; OWN_WORDS]), scratch: Box::new([0; SCRATCH_WORDS]) }
    }
}

/// One of two [`Banks`], to be called. Every call takes the memory of both, so
/// there is one handle at a time:
///
/// ```compile_fail,E0499
/// fn host(banks: &mut cuckooormolu::Banks, request: cuckooormolu::Request) -> bool {
///     let (left, right) = (banks.left(), banks.right());
///     left.look(request) == right.look(request)
/// }
/// ```
#[must_use = "a bank decides nothing by itself"]
#[derive(Debug)]
pub struct Bank<'a> {
    terms: &'a Terms,
    relations: &'a mut [u64; RELATION_WORDS],
    own: &'a mut Own,
    other: &'a mut Own,
}

impl Bank<'_> {
    /// Answers a request; a grant makes the next moment of both banks, and so
    /// does a denial of an event whose denials are kept. `Ok` is not a grant: a denial
    /// is an answer too.
    ///
    /// # Errors
    ///
    /// [`Refusal::NoSuchName`] where an event or member doesn't exist.
    pub fn request(&mut self, request: Request) -> Result<Answer, Refusal> {
        raw::banks_request(
            self.terms.words(),
            &mut self.relations[..],
            &mut self.own.words[..],
            &mut self.other.words[..],
            &mut self.own.scratch[..],
            &mut self.other.scratch[..],
            request.into(),
        )
    }

    /// Makes a request, as [`Bank::request`] does, and says whether it is granted: a
    /// denial and a refusal are a no.
    #[must_use = "a request may be denied"]
    pub fn grants(&mut self, request: Request) -> bool {
        self.request(request) == Ok(Answer::Grant)
    }

    /// What [`Bank::request`] would answer; it makes no moment, so it permits nothing.
    ///
    /// # Errors
    ///
    /// Those of [`Bank::request`].
    pub fn look(&self, request: Request) -> Result<Answer, Refusal> {
        raw::banks_look(
            self.terms.words(),
            &self.relations[..],
            &self.own.words[..],
            &self.other.words[..],
            &self.own.scratch[..],
            &self.other.scratch[..],
            request.into(),
        )
    }

    /// Answers a list of records in order, each as [`Bank::request`] would, and
    /// gives the count of grants.
    ///
    /// # Panics
    ///
    /// Never: the banks' memory has passed the checks.
    #[must_use = "requests of a list may be denied"]
    pub fn set_list(&mut self, records: &mut [Record]) -> usize {
        let listed = raw::banks_set_list(
            self.terms.words(),
            &mut self.relations[..],
            &mut self.own.words[..],
            &mut self.other.words[..],
            &mut self.own.scratch[..],
            &mut self.other.scratch[..],
            Record::plain(records),
        );
        listed.expect(CHECKED)
    }

    /// The present moment of this bank: the relations of both, and its own
    /// tables and event edge.
    pub fn state(&self) -> State {
        State::joined(self.relations, &self.own.words)
    }
}
