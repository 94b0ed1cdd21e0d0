//! What each kind of case must give.

use super::source::Case;
use crate::expect::{self, Form};
use crate::record::{Answer, Call, Record};
use crate::terms::memory::{STATE_WORDS, TERMS_WORDS};
use crate::terms::{self, Refusal};

/// Words that memory may have beyond those named.
const BEYOND: usize = 10;

/// Bytes that a writing has room for where the case says nothing.
const ROOM: usize = 8_192;

/// The result of a case; none if its kind or arguments are not known.
pub fn result(case: &Case) -> Option<String> {
    let head = &case.head;
    let size = |index| case.size(index);
    match (case.kind.as_str(), case.count()) {
        ("reads", 1) => Some(reading(&case.text(0)?, TERMS_WORDS, STATE_WORDS)),
        ("reads_parts", 1) => {
            Some(reading(&[&head[..], &case.text(0)?].concat(), TERMS_WORDS, STATE_WORDS))
        }
        ("reads_lines", 5) => {
            let (before, after, tail) = (case.text(0)?, case.text(3)?, case.text(4)?);
            let mut text = head.clone();
            for index in size(1)?..size(2)? {
                text.extend([&before[..], index.to_string().as_bytes(), &after].concat());
            }
            text.extend(tail);
            Some(reading(&text, TERMS_WORDS, STATE_WORDS))
        }
        ("reads_into", 2) => {
            let lent = size(0)? <= TERMS_WORDS + BEYOND && size(1)? <= STATE_WORDS + BEYOND;
            lent.then_some(reading(head, size(0)?, size(1)?))
        }
        ("asks", 3) => asked(head, &[request(case, 0)?]),
        ("looks", 3) => asked(head, &[look(case, 0)?]),
        ("asks_after", 6) => asked(head, &[request(case, 0)?, request(case, 3)?]),
        ("asks_after_two", 9) => {
            asked(head, &[request(case, 0)?, request(case, 3)?, request(case, 6)?])
        }
        ("asks_after_look", 6) => asked(head, &[look(case, 0)?, request(case, 3)?]),
        ("asks_with", 6) => {
            let call = Call { scratch_words: size(2)?, ..request(case, 3)? };
            Some(answer(Lent::read(head).call(size(0)?, size(1)?, &call)?))
        }
        ("looks_with", 6) => {
            let call = Call { scratch_words: size(2)?, ..look(case, 3)? };
            Some(answer(Lent::read(head).call(size(0)?, size(1)?, &call)?))
        }
        ("asks_damaged_terms", 2) => damaged_terms(case)?.ask(&Call::request(0, 0, 0)),
        ("asks_damaged_state", 2) => damaged_state(case)?.ask(&Call::request(0, 0, 0)),
        ("writes", 3) => writes(case, Form::Old),
        ("writes_damaged_terms", 2) => Some(written(&damaged_terms(case)?.write(Form::Old))),
        ("writes_damaged_state", 2) => Some(written(&damaged_state(case)?.write(Form::Old))),
        ("writes_back", 0) => Some(same(&Lent::read(head).write(Form::Old), head)),
        ("writes_after", 4) => writes_after(case, Form::Old),
        ("stores", 3) => writes(case, Form::Stored),
        ("stores_damaged_terms", 2) => Some(written(&damaged_terms(case)?.write(Form::Stored))),
        ("stores_damaged_state", 2) => Some(written(&damaged_state(case)?.write(Form::Stored))),
        ("stores_back", 0) => Some(same(&Lent::read(head).write(Form::Stored), head)),
        ("stores_after", 4) => writes_after(case, Form::Stored),
        ("asks_stored", 6) => {
            let mut lent = Lent::read(head);
            lent.ask(&request(case, 0)?)?;
            asked(&lent.write(Form::Stored).ok()?, &[request(case, 3)?])
        }
        ("revises", 5) => {
            let lent = Lent::read(head);
            let new = Lent::read(&case.text(4)?);
            let (old, state) = (lent.terms.get(..size(0)?)?, lent.state.get(..size(1)?)?);
            Some(revised(old, state, new.terms.get(..size(2)?)?, size(3)?))
        }
        ("revises_damaged_old", 3) => damaged_terms(case)?.revised(&case.text(2)?),
        ("revises_damaged_state", 3) => damaged_state(case)?.revised(&case.text(2)?),
        ("revises_damaged_new", 3) => {
            let (lent, mut new) = (Lent::read(head), Lent::read(&case.text(2)?));
            *new.terms[..TERMS_WORDS].get_mut(size(0)?)? = u16::try_from(case.number(1)?).ok()?;
            Some(revised(&lent.terms, &lent.state, &new.terms, STATE_WORDS))
        }
        ("asks_revised", 7) => {
            let mut lent = Lent::read(head);
            lent.ask(&request(case, 0)?)?;
            lent.revise(&case.text(3)?)?.ask(&request(case, 4)?)
        }
        ("asks_revised_after", 10) => {
            let mut lent = Lent::read(head);
            lent.ask(&request(case, 0)?)?;
            let mut lent = lent.revise(&case.text(3)?)?;
            lent.ask(&request(case, 4)?)?;
            lent.ask(&request(case, 7)?)
        }
        ("asks_revised_twice", 8) => {
            let mut lent = Lent::read(head);
            lent.ask(&request(case, 0)?)?;
            let lent = lent.revise(&case.text(3)?)?;
            lent.revise(&case.text(4)?)?.ask(&request(case, 5)?)
        }
        _ => None,
    }
}

/// Writes so many words of terms and state into so many bytes.
fn writes(case: &Case, form: Form) -> Option<String> {
    let mut lent = Lent::read(&case.head);
    lent.terms = lent.terms.get(..case.size(0)?)?.to_vec();
    lent.state = lent.state.get(..case.size(1)?)?.to_vec();
    Some(written(&lent.write_into(form, case.size(2)?)))
}

/// A request, then a writing that has to give a text.
fn writes_after(case: &Case, form: Form) -> Option<String> {
    let mut lent = Lent::read(&case.head);
    lent.ask(&request(case, 0)?)?;
    Some(same(&lent.write(form), &case.text(3)?))
}

/// A request of three arguments: event, from, to.
fn request(case: &Case, first: usize) -> Option<Call> {
    Some(Call::request(case.size(first)?, case.size(first + 1)?, case.size(first + 2)?))
}

fn look(case: &Case, first: usize) -> Option<Call> {
    Some(Call { look: true, ..request(case, first)? })
}

fn refused(refusal: &Refusal) -> String {
    format!("{}\t{}", refusal.number, refusal.line)
}

fn reading(text: &[u8], terms_words: usize, state_words: usize) -> String {
    match expect::reading(text, terms_words, state_words) {
        Ok(_) => "accepted".into(),
        Err(refusal) => refused(&refusal),
    }
}

/// What new terms give, with so many words of a second state.
fn revised(old: &[u16], state: &[u64], new: &[u16], second_words: usize) -> String {
    match expect::revising(old, state, new, second_words) {
        Ok(_) => "accepted".into(),
        Err(refusal) => refused(&refusal),
    }
}

fn answer(answer: Answer) -> String {
    match answer {
        Answer::Grant => "grant".into(),
        Answer::Deny => "deny".into(),
        Answer::Refused(refusal) => format!("refuse\t{}", refusal.number),
    }
}

fn written(written: &Result<Vec<u8>, Refusal>) -> String {
    match written {
        Ok(text) => format!("bytes\t{}", text.len()),
        Err(refusal) => refused(refusal),
    }
}

/// What was written, if it is the wanted text, or the refusal.
fn same(text: &Result<Vec<u8>, Refusal>, wanted: &[u8]) -> String {
    match text {
        Ok(text) if text != wanted => "different".into(),
        text => written(text),
    }
}

/// The answer to the last of some calls after reading a text.
fn asked(text: &[u8], calls: &[Call]) -> Option<String> {
    let mut lent = Lent::read(text);
    let mut last = None;
    for call in calls {
        last = Some(lent.ask(call)?);
    }
    last
}

/// Memory after reading the head and putting a value into a word of terms.
fn damaged_terms(case: &Case) -> Option<Lent> {
    let mut lent = Lent::read(&case.head);
    *lent.terms[..TERMS_WORDS].get_mut(case.size(0)?)? = u16::try_from(case.number(1)?).ok()?;
    Some(Lent { record: None, ..lent })
}

/// Memory after reading the head and putting a value into a word of state.
fn damaged_state(case: &Case) -> Option<Lent> {
    let mut lent = Lent::read(&case.head);
    *lent.state[..STATE_WORDS].get_mut(case.size(0)?)? = case.number(1)?;
    Some(Lent { record: None, ..lent })
}

/// Lent memory after reading a text. It was lent as zeros, which a refused
/// text leaves; the record is lost when a word is changed, and what the words
/// say then stands for one.
struct Lent {
    terms: Vec<u16>,
    state: Vec<u64>,
    record: Option<Record>,
}

impl Lent {
    fn read(text: &[u8]) -> Lent {
        let read = expect::reading(text, TERMS_WORDS, STATE_WORDS);
        let (mut terms, mut state) = read.unwrap_or_default();
        terms.resize(TERMS_WORDS + BEYOND, 0);
        state.resize(STATE_WORDS + BEYOND, 0);
        Lent { terms, state, record: terms::read(text).ok().map(Record::of) }
    }

    /// Answers a call with so many words of terms and state; none if there are
    /// fewer.
    fn call(&mut self, terms_words: usize, state_words: usize, call: &Call) -> Option<Answer> {
        let (terms, state) = (self.terms.get(..terms_words)?, self.state.get(..state_words)?);
        let (terms, state) = match expect::calling(terms, state, call) {
            Err(refusal) => return Some(Answer::Refused(refusal)),
            Ok(lent) => lent,
        };
        let record = self.record.get_or_insert_with(|| expect::going_on(&terms, &state));
        let answer = record.answer(call);
        self.state[..STATE_WORDS].copy_from_slice(&record.state_words());
        Some(answer)
    }

    /// The same with the named words, as it is shown.
    fn ask(&mut self, call: &Call) -> Option<String> {
        self.call(TERMS_WORDS, STATE_WORDS, call).map(answer)
    }

    /// What the terms of a text give when they take the place of these.
    fn revised(&self, text: &[u8]) -> Option<String> {
        Some(revised(&self.terms, &self.state, &Lent::read(text).terms, STATE_WORDS))
    }

    /// The memory in use once the terms of a text have taken the place of these.
    /// None if they are refused, or if there is no record to go on with.
    fn revise(&self, text: &[u8]) -> Option<Lent> {
        let mut record = self.record.clone()?;
        record.revise(&terms::read(text).ok()?.terms).ok()?;
        let (terms, mut state) = (Lent::read(text).terms, self.state.clone());
        state[..STATE_WORDS].copy_from_slice(&record.state_words());
        Some(Lent { terms, state, record: Some(record) })
    }

    fn write(&self, form: Form) -> Result<Vec<u8>, Refusal> {
        self.write_into(form, ROOM)
    }

    fn write_into(&self, form: Form, room: usize) -> Result<Vec<u8>, Refusal> {
        form.writing(&self.terms, &self.state, room)
    }
}
