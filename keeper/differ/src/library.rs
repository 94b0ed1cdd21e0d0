//! The static library as the keeper's other implementation.
//!
//! Every call goes to the lent slices. Where the memory is regular the same
//! call is made of a `Monitor`, which has to agree in answer and state. A set
//! list is made besides by single requests.

mod plans;

use crate::archive;
use crate::renumber;
use crate::revise;
use crate::shown;
use crate::tally::Tally;
use cuckooormolu::{raw, Event, Member, Monitor, Record, Request};
use cuckooormolu::{SCRATCH_WORDS, STATE_WORDS, TERMS_WORDS};
use keeper::compare::Other;
use keeper::record::{Answer, Call};
use keeper::set_list::{self, Item};
use keeper::terms::{memory, Refusal};

/// The library, and what it and its binding have been seen to do.
pub struct Library<'a> {
    monitor: Option<Monitor>,
    stored: Vec<u8>,
    disagreement: Option<String>,
    tally: &'a mut Tally,
}

impl Library<'_> {
    pub fn new(tally: &mut Tally) -> Library<'_> {
        Library { monitor: None, stored: Vec::new(), disagreement: None, tally }
    }

    /// The text stored last, or what the library and its binding disagreed
    /// about. What the binding shows of its terms and state is compared once,
    /// here.
    pub fn agrees(mut self) -> Result<Vec<u8>, String> {
        if let Some(monitor) = self.monitor.take() {
            let (terms, state) = (monitor.terms().words(), monitor.state().words());
            let terms = memory::terms_of_words(terms).unwrap_or_default();
            let state = memory::state_of_words(&terms, state).unwrap_or_default();
            self.same("terms shown", shown::terms(&monitor), terms);
            self.same("state shown", shown::state(&monitor), state);
        }
        self.disagreement.map_or(Ok(self.stored), Err)
    }

    fn same<T: PartialEq + std::fmt::Debug>(&mut self, what: &str, bound: T, lent: T) {
        if bound != lent && self.disagreement.is_none() {
            let text = format!("{what} by the binding: {bound:?}, over lent memory: {lent:?}");
            self.disagreement = Some(text);
        }
    }

    /// The size that is told against what was written into an output.
    fn told(
        &mut self,
        size: Result<usize, cuckooormolu::Refusal>,
        output: &[u8],
        got: Result<usize, Refusal>,
    ) {
        let short = plain(cuckooormolu::Refusal::TooShort);
        let size = size.map_err(plain);
        let told = size.and_then(|n| if n <= output.len() { Ok(n) } else { Err(short) });
        self.same("size", told, got);
    }

    /// A monitor with these words, by the text that is stored of them.
    fn reload(&mut self, terms: &[u16], state: &[u64]) {
        let size = raw::store_size(terms, state).unwrap_or_default();
        let mut text = vec![0; size];
        let stored = raw::store(terms, state, &mut text);
        self.same("storing a second state", stored.is_ok(), true);
        self.monitor = Monitor::read(&text).ok();
        self.same("loading a second state", self.monitor.is_some(), true);
        self.same_words(terms, state);
    }

    fn same_words(&mut self, terms: &[u16], state: &[u64]) {
        if let Some(monitor) = &self.monitor {
            let right = monitor.terms().words()[..] == terms[..TERMS_WORDS]
                && monitor.state().words()[..] == state[..STATE_WORDS];
            self.same("equal words", right, true);
        }
    }
}

fn plain(refusal: cuckooormolu::Refusal) -> Refusal {
    Refusal::plain(refusal.number() as u16)
}

fn answer(result: Result<cuckooormolu::Answer, cuckooormolu::Refusal>) -> Answer {
    match result {
        Ok(cuckooormolu::Answer::Grant) => Answer::Grant,
        Ok(cuckooormolu::Answer::Deny) => Answer::Deny,
        Err(refusal) => Answer::Refused(plain(refusal)),
    }
}

/// The request of a call, as far as its numbers can be names.
fn named(call: &Call) -> Result<Request, cuckooormolu::Refusal> {
    Ok(Request {
        event: Event::try_from(call.event)?,
        from: Member::try_from(call.from)?,
        to: Member::try_from(call.to)?,
    })
}

pub fn plain_record(item: &Item) -> raw::Record {
    let Item { event, from, to, answer } = *item;
    raw::Record { event, from, to, answer }
}

/// The request of an item. No terms have a number that a byte doesn't hold, nor
/// the largest that it holds.
fn record(item: &Item) -> Record {
    let [event, from, to] =
        [item.event, item.from, item.to].map(|number| number.try_into().unwrap_or(u8::MAX));
    Record::new(Request { event: Event(event), from: Member(from), to: Member(to) })
}

/// A set list by single requests: answers and count. It is refused where a
/// request of nothing that exists is refused by another number than 9.
fn singly(
    terms: &[u16],
    state: &mut [u64],
    scratch: &mut [u64],
    items: &[Item],
) -> Result<(Vec<u32>, usize), Refusal> {
    let mut ask = |event, from, to| {
        answer(raw::request(terms, state, scratch, raw::Request { event, from, to }))
    };
    match ask(usize::MAX, 0, 0) {
        Answer::Refused(Refusal { number: 9, .. }) => {}
        Answer::Refused(refusal) => return Err(refusal),
        decided => panic!("an event that does not exist was decided: {decided:?}"),
    }
    let numbers: Vec<u32> = items
        .iter()
        .map(|item| ask(item.event as usize, item.from as usize, item.to as usize))
        .map(set_list::number)
        .collect();
    let count = numbers.iter().filter(|&&number| number == 1).count();
    Ok((numbers, count))
}

impl Other for Library<'_> {
    fn read(&mut self, text: &[u8], terms: &mut [u16], state: &mut [u64]) -> Result<(), Refusal> {
        let refused =
            |(refusal, line): (cuckooormolu::Refusal, _)| Refusal { line, ..plain(refusal) };
        let got = raw::read(text, terms, state).map_err(refused);
        self.tally.read(text, &got);
        self.monitor = None;
        if terms.len() >= TERMS_WORDS && state.len() >= STATE_WORDS {
            match Monitor::read(text) {
                Ok(monitor) => self.monitor = Some(monitor),
                Err(error) => {
                    let bound = refused((error.refusal(), error.line()));
                    self.same("reading", Err(bound), got);
                }
            }
            self.same("accepting", self.monitor.is_some(), got.is_ok());
            self.same_words(terms, state);
        }
        got
    }

    fn call(
        &mut self,
        call: &Call,
        terms: &mut [u16],
        state: &mut [u64],
        scratch: &mut [u64],
    ) -> Answer {
        let Call { event, from, to, .. } = *call;
        let request = raw::Request { event, from, to };
        let before = state.get(STATE_WORDS - 1).copied();
        let got = if call.look {
            raw::look(terms, state, scratch, request)
        } else {
            raw::request(terms, state, scratch, request)
        };
        let got = answer(got);
        let moved = state.get(STATE_WORDS - 1).copied() != before;
        self.tally.call(terms, call, got, moved);
        if let (Some(monitor), true) = (&mut self.monitor, scratch.len() >= SCRATCH_WORDS) {
            let bound = answer(named(call).and_then(|request| match call.look {
                true => monitor.look(request),
                false => monitor.request(request),
            }));
            self.same("answer", bound, got);
            self.same_words(terms, state);
        }
        got
    }

    fn set_list(
        &mut self,
        terms: &mut [u16],
        state: &mut [u64],
        scratch: &mut [u64],
        items: &mut [Item],
    ) -> Result<usize, Refusal> {
        let (mut single_state, mut single_scratch) = (state.to_vec(), scratch.to_vec());
        let single = singly(terms, &mut single_state, &mut single_scratch, items);
        let mut records: Vec<raw::Record> = items.iter().map(plain_record).collect();
        let mut bound: Vec<Record> = items.iter().map(record).collect();
        let got = archive::state_set_list(terms, state, scratch, &mut records);
        let numbers: Vec<u32> = records.iter().map(|record| record.answer).collect();
        self.same("single requests", single, got.map(|count| (numbers, count)));
        let right = single_state == state && single_scratch == scratch;
        self.same("memory after single requests", right, true);
        if let (Some(monitor), true) = (&mut self.monitor, scratch.len() >= SCRATCH_WORDS) {
            let count = monitor.set_list(&mut bound);
            self.same("set list", Ok(count), got);
            let answers = bound.iter().map(Record::answer);
            let right = answers.eq(records.iter().map(raw::Record::answered));
            self.same("equal answers", right, true);
            self.same_words(terms, state);
        }
        for (item, record) in items.iter_mut().zip(&records) {
            let raw::Record { event, from, to, answer } = *record;
            *item = Item { event, from, to, answer };
        }
        self.tally.set_list(terms, &got, items);
        got
    }

    fn revise(
        &mut self,
        old_terms: &mut [u16],
        old_state: &mut [u64],
        new_terms: &mut [u16],
        second: &mut [u64],
    ) -> Result<(), Refusal> {
        let got = revise::revise(old_terms, old_state, new_terms, second);
        self.tally.revise(old_terms, new_terms, &got);
        if got.is_ok() && self.monitor.is_some() {
            self.reload(new_terms, second);
        }
        got
    }

    fn renumber(
        &mut self,
        terms: &mut [u16],
        state: &mut [u64],
        numbers: &mut [u8],
        second: &mut [u64],
    ) -> Result<(), Refusal> {
        let got = renumber::renumber(terms, state, numbers, second);
        self.tally.renumber((terms, state), numbers, second, &got);
        if got.is_ok() && self.monitor.is_some() {
            self.reload(terms, second);
        }
        got
    }

    fn write(&mut self, terms: &[u16], state: &[u64], output: &mut [u8]) -> Result<usize, Refusal> {
        let got = raw::write(terms, state, output).map_err(plain);
        self.tally.write("write", &got);
        self.told(raw::size(terms, state), output, got);
        if let Ok(count) = got {
            let bound = self.monitor.as_ref().map(Monitor::write);
            let right = bound.is_none_or(|text| text.as_deref() == Ok(&output[..count]));
            self.same("equal text", right, true);
        }
        got
    }

    fn store(&mut self, terms: &[u16], state: &[u64], output: &mut [u8]) -> Result<usize, Refusal> {
        let got = raw::store(terms, state, output).map_err(plain);
        self.tally.write("store", &got);
        self.told(raw::store_size(terms, state), output, got);
        if let Ok(count) = got {
            self.stored = output[..count].to_vec();
            let bound = self.monitor.as_ref().map(Monitor::store);
            let right = bound.is_none_or(|text| text == self.stored);
            self.same("equal stored text", right, true);
        }
        got
    }
}
