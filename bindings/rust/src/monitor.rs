//! The monitor: terms, the present state, and scratch for its calls.

use crate::{raw, Answer, Fact, Member, Plan, Record, Refusal, Request, Ruling, State, Terms};
use crate::{TextError, WithinError, PLAN_WORDS, SCRATCH_WORDS};
use alloc::boxed::Box;
use alloc::vec;
use alloc::vec::Vec;

const CHECKED: &str = "a monitor's terms and state have passed the checks";

/// A reference monitor that owns all its memory.
///
/// Two monitors share nothing, so they may be used on different threads.
#[derive(Clone, Debug)]
pub struct Monitor {
    terms: Terms,
    state: State,
    scratch: Box<[u64; SCRATCH_WORDS]>,
}

impl Monitor {
    /// Reads a text. The old form is a terms file, and stands at its moment 0; the
    /// stored form begins with a line `S 2`, and goes on from where it was stored.
    ///
    /// The old form is opened, which may take as long as a request: untrusted terms
    /// are read by [`Monitor::read_terms_within`].
    ///
    /// # Errors
    ///
    /// The refusal of the first faulty line, and which line that is.
    pub fn read(text: &[u8]) -> Result<Monitor, TextError> {
        let (mut terms, mut state) = (Terms::blank(), State::blank());
        raw::read(text, &mut terms.0[..], &mut state.0[..])
            .map_err(|(refusal, line)| TextError::new(refusal, line, text))?;
        Ok(Monitor::with(terms, state))
    }

    /// Reads a text as [`Monitor::read`] does, if a request by its terms works out at
    /// most so many rows ([`Terms::effort`]). Otherwise nothing is opened: the text
    /// takes no longer than such a request may, whatever it says.
    ///
    /// ```
    /// use cuckooormolu::{Monitor, WithinError};
    ///
    /// let text = "M 3\nL 1 1\nF 0 var 0 0\nF 1 out 0 0\nF 2 out 0 1\nP 0 2\n".replace(' ', "\t");
    /// assert!(Monitor::read_within(text.as_bytes(), 4).is_ok());
    /// let costly = Monitor::read_within(text.as_bytes(), 3).unwrap_err();
    /// assert_eq!(costly, WithinError::Costly(4));
    /// ```
    ///
    /// It reads a text of the old form with a line `S 2` before it first. That is a
    /// stored text with the same terms, and reading it opens nothing. The state of a
    /// text that is stored itself is believed: for untrusted terms there is
    /// [`Monitor::read_terms_within`].
    ///
    /// # Errors
    ///
    /// [`WithinError::Costly`] where a request may work out more rows, and
    /// [`WithinError::Refused`] where [`Monitor::read`] refuses the text.
    pub fn read_within(text: &[u8], most: usize) -> Result<Monitor, WithinError> {
        let first: &[u8] = if text.starts_with(b"S") { b"" } else { b"S\t2\n" };
        // Where this is refused, so is the text itself.
        if let Ok(unopened) = Monitor::read(&[first, text].concat()) {
            let rows = unopened.terms.effort();
            if rows > most {
                return Err(WithinError::Costly(rows));
            }
        }
        Ok(Monitor::read(text)?)
    }

    /// Reads a terms file as [`Monitor::read_within`] does, and no stored text, which
    /// would bring a past of its own. This is how to read untrusted terms.
    ///
    /// ```
    /// use cuckooormolu::{Monitor, WithinError};
    ///
    /// let monitor = Monitor::read(b"M\t2\nL\t0\t1\nF\t0\ttop\t0\t0\nP\t0\t0\n")?;
    /// assert!(Monitor::read_terms_within(&monitor.write()?, 1_000_000).is_ok());
    /// let error = Monitor::read_terms_within(&monitor.store(), 1_000_000).unwrap_err();
    /// let WithinError::Refused(refused) = error else { panic!("{error}") };
    /// assert_eq!((refused.refusal().number(), refused.line()), (1, 1));
    /// # Ok::<(), Box<dyn std::error::Error>>(())
    /// ```
    ///
    /// # Errors
    ///
    /// Those of [`Monitor::read_within`], and [`Refusal::Form`] at line 1 where the text
    /// is a stored one.
    pub fn read_terms_within(text: &[u8], most: usize) -> Result<Monitor, WithinError> {
        if text.starts_with(b"S") {
            return Err(TextError::new(Refusal::Form, 1, text).into());
        }
        Monitor::read_within(text, most)
    }

    /// Goes on from terms and a state kept earlier, once they are checked.
    ///
    /// ```
    /// use cuckooormolu::{Answer, Event, Member, Monitor, Refusal, Request, State};
    ///
    /// let text = b"M\t2\nL\t0\t1\nF\t0\ttop\t0\t0\nP\t0\t0\n";
    /// let mut monitor = Monitor::read(text)?;
    /// let request = Request { event: Event(0), from: Member(0), to: Member(1) };
    /// assert_eq!(monitor.request(request)?, Answer::Grant);
    /// let (terms, state) = monitor.into_parts();
    /// assert_eq!(State::from_words(&terms, &[9; 3_073]), Err(Refusal::BadState));
    /// let later = Monitor::resume(terms, state)?;
    /// assert_eq!(later.state().event().map(|edge| edge.request), Some(request));
    /// # Ok::<(), Box<dyn std::error::Error>>(())
    /// ```
    ///
    /// # Errors
    ///
    /// [`Refusal::BadState`] where the state does not have the layout of these
    /// terms. A state of other terms with the same layout is not noticed, and
    /// answers would be wrong: keep terms and state together.
    pub fn resume(terms: Terms, state: State) -> Result<Monitor, Refusal> {
        raw::check(terms.words(), state.words())?;
        Ok(Monitor::with(terms, state))
    }

    /// Stands at moment 0 of the relations of a state; its tables and event
    /// edge don't count. It may take as long as a request.
    ///
    /// # Errors
    ///
    /// [`Refusal::BadState`] where the relations are not those of these terms.
    pub fn open(terms: Terms, mut relations: State) -> Result<Monitor, Refusal> {
        raw::open(terms.words(), &mut relations.0[..])?;
        Ok(Monitor::with(terms, relations))
    }

    /// Answers a request; a grant makes the next moment, and so does a denial
    /// of an event whose denials are kept.
    ///
    /// `Ok` is not a grant: a denial is an answer too.
    ///
    /// ```
    /// use cuckooormolu::{Event, Member, Monitor, Request};
    ///
    /// // Event 0 is for nobody.
    /// let text = b"M\t2\nL\t0\t1\nF\t0\ttop\t0\t0\nF\t1\tnot\t0\t0\nP\t0\t1\n";
    /// let mut monitor = Monitor::read(text)?;
    /// let request = Request { event: Event(0), from: Member(0), to: Member(1) };
    /// assert!(monitor.request(request).is_ok());
    /// assert!(!monitor.request(request)?.is_grant());
    /// assert!(!monitor.grants(request));
    /// # Ok::<(), Box<dyn std::error::Error>>(())
    /// ```
    ///
    /// # Errors
    ///
    /// [`Refusal::NoSuchName`] where an event or member doesn't exist.
    pub fn request(&mut self, request: Request) -> Result<Answer, Refusal> {
        let (state, scratch) = (&mut self.state.0[..], &mut self.scratch[..]);
        raw::request(self.terms.words(), state, scratch, request.into())
    }

    /// Makes a request, as [`Monitor::request`] does, and says whether it is granted:
    /// a denial and a refusal are a no.
    ///
    /// ```compile_fail
    /// #![deny(unused_must_use)]
    /// # use cuckooormolu::{Monitor, Request};
    /// # fn load() {}
    /// fn host(monitor: &mut Monitor, request: Request) {
    ///     monitor.grants(request);
    ///     load();
    /// }
    /// ```
    #[must_use = "a request may be denied"]
    pub fn grants(&mut self, request: Request) -> bool {
        self.request(request) == Ok(Answer::Grant)
    }

    /// What [`Monitor::request`] would answer; it makes no moment, so it permits
    /// nothing.
    ///
    /// # Errors
    ///
    /// Those of [`Monitor::request`].
    pub fn look(&self, request: Request) -> Result<Answer, Refusal> {
        raw::look(self.terms.words(), self.state.words(), &self.scratch[..], request.into())
    }

    /// Answers a list of records in order, each as [`Monitor::request`] would,
    /// and gives the count of grants. It takes less time than single requests.
    ///
    /// ```
    /// use cuckooormolu::{Answer, Event, Member, Monitor, Record, Refusal, Request};
    ///
    /// let text = b"M\t2\nL\t0\t2\nF\t0\ttop\t0\t0\nF\t1\tin\t0\t0\nP\t0\t0\nP\t1\t1\n";
    /// let mut monitor = Monitor::read(text)?;
    /// let ask = |event| Request { event: Event(event), from: Member(1), to: Member(1) };
    /// let mut records = [1, 0, 2, 1].map(|event| Record::new(ask(event)));
    /// assert_eq!(monitor.set_list(&mut records), 2);
    /// assert_eq!(records[0].answer(), Some(Ok(Answer::Deny)));
    /// assert_eq!(records[2].answer(), Some(Err(Refusal::NoSuchName)));
    /// assert_eq!(records[3].answer(), Some(Ok(Answer::Grant)));
    /// # Ok::<(), cuckooormolu::TextError>(())
    /// ```
    ///
    /// A list whose outcome is not looked at is a mistake:
    ///
    /// ```compile_fail
    /// #![deny(unused_must_use)]
    /// fn host(monitor: &mut cuckooormolu::Monitor, records: &mut [cuckooormolu::Record]) {
    ///     monitor.set_list(records);
    /// }
    /// ```
    ///
    /// # Panics
    ///
    /// Never: a monitor's terms and state have passed the checks.
    #[must_use = "requests of a list may be denied"]
    pub fn set_list(&mut self, records: &mut [Record]) -> usize {
        let (state, scratch) = (&mut self.state.0[..], &mut self.scratch[..]);
        raw::set_list(self.terms.words(), state, scratch, Record::plain(records)).expect(CHECKED)
    }

    /// Goes on under new terms, with as many members, relations and events.
    /// Relations and event edge are carried over, and a prev or since takes the
    /// table of the first old entry with the same formula, spelled out; any
    /// other starts now.
    ///
    /// ```
    /// use cuckooormolu::{Answer, Event, Member, Monitor, Request};
    ///
    /// let read = |text: &str| Monitor::read(text.replace(' ', "\t").as_bytes());
    /// let mut monitor = read("M 2\nL 0 1\nF 0 top 0 0\nP 0 0\n")?;
    /// let request = Request { event: Event(0), from: Member(0), to: Member(1) };
    /// assert_eq!(monitor.request(request)?, Answer::Grant);
    ///
    /// // For whoever has been granted it: from now on, the last grant included.
    /// let once = read("M 2\nL 0 1\nF 0 top 0 0\nF 1 out 0 0\nF 2 since 0 1\nP 0 2\n")?;
    /// monitor.revise(once.terms())?;
    /// assert_eq!(monitor.request(request)?, Answer::Grant);
    /// assert_eq!(monitor.look(Request { from: Member(1), ..request })?, Answer::Deny);
    /// # Ok::<(), Box<dyn std::error::Error>>(())
    /// ```
    ///
    /// # Errors
    ///
    /// [`Refusal::OtherSize`], and then the monitor is exactly as it was.
    pub fn revise(&mut self, new: &Terms) -> Result<(), Refusal> {
        let mut state = State::blank();
        let (old, present) = (self.terms.words(), self.state.words());
        raw::revise(old, present, new.words(), &mut state.0[..])?;
        (self.terms, self.state) = (new.clone(), state);
        Ok(())
    }

    /// Whether a plan reaches its goal, whatever the rival does. It makes no
    /// moment: a plan that is accepted permits nothing.
    ///
    /// ```
    /// use cuckooormolu::{Event, Member, Monitor, Move, Plan, Ruling};
    ///
    /// // Event 0 takes a target that nobody has; entry 5 says that one has the target.
    /// let text = "M 3\nL 1 1\nF 0 top 0 0\nF 1 in 0 0\nF 2 not 1 0\nF 3 at 0 2\n\
    ///             F 4 var 0 0\nF 5 out 0 4\nP 0 3\nE 0 add 0 fwd\n";
    /// let monitor = Monitor::read(text.replace(' ', "\t").as_bytes())?;
    /// let take = |to| Move { event: Event(0), to: Member(to) };
    /// let (planner, rival, pair) = (Member(0), Member(1), (Member(0), Member(2)));
    /// let plan = Plan { moves: &[take(2)], planner, rival, goal: 5, pair };
    /// assert_eq!(monitor.plan(plan)?, Ruling::Accepted);
    /// // Whoever takes something else first is too late.
    /// let late = Plan { moves: &[take(1), take(2)], ..plan };
    /// assert_eq!(monitor.plan(late)?, Ruling::Rejected);
    /// # Ok::<(), Box<dyn std::error::Error>>(())
    /// ```
    ///
    /// # Errors
    ///
    /// [`Refusal::NoGame`] where there are more than 8 members or 4 events, the plan
    /// is not one to three requests long, planner and rival are one, or the goal is
    /// no entry or has a free variable other than 0; and then
    /// [`Refusal::NoSuchName`] where an event or member doesn't exist.
    pub fn plan(&self, plan: Plan<'_>) -> Result<Ruling, Refusal> {
        let moves: Vec<u64> =
            plan.moves.iter().flat_map(|step| [step.event.0.into(), step.to.0.into()]).collect();
        let mut scratch = vec![0; PLAN_WORDS];
        let plan = raw::Plan {
            moves: &moves,
            planner: plan.planner.into(),
            rival: plan.rival.into(),
            goal: plan.goal,
            pair: (plan.pair.0.into(), plan.pair.1.into()),
        };
        raw::plan(self.terms.words(), self.state.words(), &mut scratch, plan)
    }

    /// Whether an entry holds now, at the first member with variable 0 standing for
    /// the second. It makes no moment, and permits nothing.
    ///
    /// ```
    /// use cuckooormolu::{Fact, Member, Monitor, Refusal};
    ///
    /// let text = b"M\t2\nL\t0\t1\nF\t0\tvar\t0\t0\nF\t1\tvar\t1\t0\nP\t0\t0\n";
    /// let monitor = Monitor::read(text)?;
    /// assert_eq!(monitor.tell(0, Member(1), Member(1)), Ok(Fact::Holds));
    /// assert_eq!(monitor.tell(0, Member(1), Member(0)), Ok(Fact::Fails));
    /// assert_eq!(monitor.tell(1, Member(1), Member(1)), Err(Refusal::NoGame));
    /// # Ok::<(), cuckooormolu::TextError>(())
    /// ```
    ///
    /// # Errors
    ///
    /// [`Refusal::NoGame`] where there is no such entry or it has a free variable
    /// other than 0, and then [`Refusal::NoSuchName`] where a member doesn't exist.
    pub fn tell(&self, entry: usize, first: Member, second: Member) -> Result<Fact, Refusal> {
        let (terms, state) = (self.terms.words(), self.state.words());
        let holds = raw::tell(terms, state, entry, first.into(), second.into())?;
        Ok(if holds { Fact::Holds } else { Fact::Fails })
    }

    /// Gives the members new numbers, byte m of the list being that of member m.
    /// The terms stay, and everybody has under the new number what they had under
    /// the old one, relations, past and event edge. So requests that name the new
    /// numbers are answered as those that named the old ones.
    ///
    /// ```
    /// use cuckooormolu::{Answer, Event, Member, Monitor, Request};
    ///
    /// // Event 0 makes an edge; event 1 is for whoever has had one to the target.
    /// let text = "M 3\nL 1 2\nF 0 top 0 0\nF 1 var 0 0\nF 2 out 0 1\nF 3 since 0 2\n\
    ///             P 0 0\nP 1 3\nE 0 add 0 fwd\n";
    /// let mut monitor = Monitor::read(text.replace(' ', "\t").as_bytes())?;
    /// let make = Request { event: Event(0), from: Member(0), to: Member(1) };
    /// assert_eq!(monitor.request(make)?, Answer::Grant);
    ///
    /// // 0, 1 and 2 become 2, 0 and 1.
    /// let before = monitor.state().clone();
    /// monitor.renumber(&[2, 0, 1])?;
    /// let ask = Request { event: Event(1), from: Member(2), to: Member(0) };
    /// assert_eq!(monitor.look(ask)?, Answer::Grant);
    ///
    /// // This undoes it: 0, 1 and 2 become 1, 2 and 0.
    /// monitor.renumber(&[1, 2, 0])?;
    /// assert_eq!(*monitor.state(), before);
    /// # Ok::<(), Box<dyn std::error::Error>>(())
    /// ```
    ///
    /// It is for one monitor, and not for two banks, which share relations:
    ///
    /// ```compile_fail,E0599
    /// fn host(banks: &mut cuckooormolu::Banks) {
    ///     let _ = banks.renumber(&[1, 0]);
    /// }
    /// ```
    ///
    /// # Errors
    ///
    /// [`Refusal::BadNumbers`] where the list is not as long as there are members or
    /// lacks one of their numbers, and then the monitor is exactly as it was.
    pub fn renumber(&mut self, numbers: &[u8]) -> Result<(), Refusal> {
        let mut second = State::blank();
        raw::renumber(self.terms.words(), self.state.words(), numbers, &mut second.0[..])?;
        self.state = second;
        Ok(())
    }

    /// The old form, a terms file: the terms with the present relations, numbers
    /// without leading zeros. Reading it gives the same monitor.
    ///
    /// ```
    /// let text = b"M\t2\nL\t1\t1\nF\t0\ttop\t0\t0\nP\t0\t0\nG\t0\t0\t1\n";
    /// assert_eq!(cuckooormolu::Monitor::read(text)?.write()?, text);
    /// # Ok::<(), Box<dyn std::error::Error>>(())
    /// ```
    ///
    /// # Errors
    ///
    /// [`Refusal::NotFresh`] where this is no fresh start, since that would lose
    /// the past.
    pub fn write(&self) -> Result<Vec<u8>, Refusal> {
        let (terms, state) = (self.terms.words(), self.state.words());
        let mut output = vec![0; raw::size(terms, state)?];
        raw::write(terms, state, &mut output)?;
        Ok(output)
    }

    /// The stored form: terms, relations, what the policies need of the past,
    /// and the event edge. Reading it gives the same monitor, anywhere. A text that
    /// is cut at the end of a line is often read as another state: keep a length or a
    /// checksum beside it.
    ///
    /// ```
    /// use cuckooormolu::{Answer, Event, Member, Monitor, Refusal, Request};
    ///
    /// let mut monitor = Monitor::read(b"M\t2\nL\t0\t1\nF\t0\ttop\t0\t0\nP\t0\t0\n")?;
    /// let request = Request { event: Event(0), from: Member(0), to: Member(1) };
    /// assert_eq!(monitor.request(request)?, Answer::Grant);
    /// assert_eq!(monitor.write(), Err(Refusal::NotFresh));
    /// let later = Monitor::read(&monitor.store())?;
    /// assert_eq!(later.state(), monitor.state());
    /// # Ok::<(), Box<dyn std::error::Error>>(())
    /// ```
    ///
    /// # Panics
    ///
    /// Never: a monitor's terms and state have passed the checks.
    #[must_use = "what is stored is to be kept"]
    pub fn store(&self) -> Vec<u8> {
        let (terms, state) = (self.terms.words(), self.state.words());
        let mut output = vec![0; raw::store_size(terms, state).expect(CHECKED)];
        raw::store(terms, state, &mut output).expect(CHECKED);
        output
    }

    /// The terms by which it answers.
    pub fn terms(&self) -> &Terms {
        &self.terms
    }

    /// The present moment.
    pub fn state(&self) -> &State {
        &self.state
    }

    /// Terms and state, to be kept.
    pub fn into_parts(self) -> (Terms, State) {
        (self.terms, self.state)
    }

    fn with(terms: Terms, state: State) -> Monitor {
        Monitor { terms, state, scratch: Box::new([0; SCRATCH_WORDS]) }
    }
}
