//! The records of a set list.

use crate::{raw, Answer, Event, Member, Refusal, Request};

/// A record of a set list: a request, and its answer once
/// [`crate::Monitor::set_list`] or [`crate::Bank::set_list`] has filled it in.
#[derive(Clone, Copy, Debug, PartialEq, Eq, Hash)]
#[repr(transparent)]
pub struct Record(raw::Record);

impl Record {
    /// A request that is not answered yet.
    pub fn new(request: Request) -> Record {
        let Request { event, from, to } = request;
        let (event, from, to) = (event.0.into(), from.0.into(), to.0.into());
        Record(raw::Record { event, from, to, answer: raw::Record::UNANSWERED })
    }

    /// What is asked for.
    pub fn request(&self) -> Request {
        let raw::Record { event, from, to, .. } = self.0;
        Request { event: Event(event as u8), from: Member(from as u8), to: Member(to as u8) }
    }

    /// Whether a set list has granted it: a denial, a refusal and no answer are a no.
    #[must_use = "a request that is decided may be denied"]
    pub fn is_granted(&self) -> bool {
        self.answer() == Some(Ok(Answer::Grant))
    }

    /// What a single request would have been answered at the record's place in
    /// the list; none as long as no set list has answered. An answer is not a grant:
    /// [`Record::is_granted`] is.
    #[must_use = "a request that is decided may be denied"]
    pub fn answer(&self) -> Option<Result<Answer, Refusal>> {
        self.0.answered()
    }

    /// The records as the library takes them.
    pub(crate) fn plain(records: &mut [Record]) -> &mut [raw::Record] {
        // Safety: a record is its plain one and nothing else.
        unsafe { &mut *(records as *mut [Record] as *mut [raw::Record]) }
    }
}

impl From<Request> for Record {
    fn from(request: Request) -> Record {
        Record::new(request)
    }
}
