//! An implementation of lent memory that has the record itself, and perhaps a
//! fault.

use crate::renumbered_mirror::renumber;
use keeper::compare::Other;
use keeper::expect;
use keeper::record::{Answer, Call, Record};
use keeper::set_list::{self, Item};
use keeper::terms::formula::first_same;
use keeper::terms::{self, memory, Bit, Entry, Refusal, Terms};

#[derive(Clone, Copy, PartialEq, Debug)]
pub enum Fault {
    None,
    RefusesAll,
    DeniesAll,
    GrantsAll,
    MovesNoTable,
    MovesTablesOnce,
    FixedLine,
    KeepsScratch,
    TouchesBeyond,
    LookMakesMoment,
    WritesTooMuch,
    AnswersLate,
    StopsAtRefusal,
    CountsRefusals,
    KeepsDenials,
    WritesUnchecked,
    TrustsEmptyLists,
    WritesThePast,
    StoresNoEvent,
    StoresOneBitLess,
    LoadsAsFresh,
    ForgetsDenials,
    KeepsAllDenials,
    LookIsKept,
    DenialKeepsScratch,
    SinceStartsEmpty,
    TakesLast,
    TablesByNumber,
    EventLeftBehind,
    RevisesAnySize,
    WritesRefusedSecond,
    StaysWithOldTerms,
    VariablesSwapped,
    StoresThemSwapped,
    TakesInverse,
    TakesLongLists,
    TakesNumbersTwice,
    ChecksNumbersFirst,
    ColumnsStay,
    LastColumnStays,
    TablesStay,
    EndsSwapped,
    EventStays,
}

/// The words with the two variables of each table that has two in the other order.
fn swapped(terms: &Terms, words: &[u64]) -> Vec<u64> {
    let mut state = memory::state_of_words(terms, words).expect("words of these terms");
    for table in &mut state.past.tables {
        let swap = |bit: &Bit| match *bit {
            Bit::Triple(a, b, c) => Bit::Triple(a, c, b),
            pair => pair,
        };
        *table = table.iter().map(swap).collect();
    }
    memory::state_words(&state)
}

pub struct Mirror {
    fault: Fault,
    record: Option<Record>,
}

impl Mirror {
    pub fn new(fault: Fault) -> Mirror {
        Mirror { fault, record: None }
    }

    /// The right words of a second state, with the fault put in.
    fn second_words(
        &self,
        old: &Terms,
        new: &Terms,
        old_state: &[u64],
        mut words: Vec<u64>,
    ) -> Vec<u64> {
        let place = |t: usize| memory::FIRST_TABLE + 64 * t;
        let (same, past) = (first_same(old, new), old.past());
        let first = first_same(old, old);
        for (t, entry) in new.past().into_iter().enumerate() {
            let taken = match self.fault {
                Fault::TakesLast => past.iter().rposition(|&past| first[past] == same[entry]),
                Fault::TablesByNumber => (t < past.len()).then_some(t),
                _ => None,
            };
            if let Some(taken) = taken {
                let table = &old_state[place(taken)..place(taken + 1)];
                words[place(t)..place(t + 1)].copy_from_slice(table);
            }
            let starts = same[entry].is_none() && matches!(new.entries[entry], Entry::Since(_, _));
            if self.fault == Fault::SinceStartsEmpty && starts {
                words[place(t)..place(t + 1)].fill(0);
            }
        }
        if self.fault == Fault::EventLeftBehind {
            words[memory::EVENT_WORD] = 0;
        }
        words
    }

    fn put(&self, text: Vec<u8>, output: &mut [u8]) -> Result<usize, Refusal> {
        if text.len() > output.len() {
            return Err(Refusal::plain(6));
        }
        if self.fault == Fault::WritesTooMuch {
            output.fill(0);
        }
        output[..text.len()].copy_from_slice(&text);
        Ok(text.len())
    }
}

impl Other for Mirror {
    fn read(&mut self, text: &[u8], terms: &mut [u16], state: &mut [u64]) -> Result<(), Refusal> {
        if self.fault == Fault::RefusesAll {
            return Err(Refusal::plain(6));
        }
        let line = |refusal: Refusal| match self.fault {
            Fault::FixedLine => Refusal { line: 1, ..refusal },
            _ => refusal,
        };
        let (front_terms, mut front_state) =
            expect::reading(text, terms.len(), state.len()).map_err(line)?;
        self.record = terms::read(text).ok().map(|mut file| {
            match self.fault {
                Fault::LoadsAsFresh => file.past = None,
                Fault::ForgetsDenials => file.terms.kept.clear(),
                Fault::KeepsAllDenials => file.terms.kept = (0..file.terms.events).collect(),
                _ => {}
            }
            Record::of(file)
        });
        if let (Fault::LoadsAsFresh, Some(record)) = (self.fault, &self.record) {
            front_state = record.state_words();
        }
        terms[..front_terms.len()].copy_from_slice(&front_terms);
        state[..front_state.len()].copy_from_slice(&front_state);
        Ok(())
    }

    fn call(
        &mut self,
        call: &Call,
        terms: &mut [u16],
        state: &mut [u64],
        scratch: &mut [u64],
    ) -> Answer {
        if let Err(refusal) = expect::calling(terms, state, call) {
            return Answer::Refused(refusal);
        }
        match self.fault {
            Fault::DeniesAll => return Answer::Deny,
            Fault::GrantsAll => return Answer::Grant,
            _ => {}
        }
        // Over memory that was not read, the tables stand for the record.
        let record = self.record.get_or_insert_with(|| {
            let (terms, state) = expect::lent(terms, state).expect("nothing was refused");
            expect::going_on(&terms, &state)
        });
        let denied = !record.permits(call.event, call.from, call.to);
        let look = match self.fault {
            Fault::LookMakesMoment => call.look && denied,
            Fault::LookIsKept => call.look && !denied,
            _ => call.look,
        };
        let before = record.graphs().len();
        let answer = record.answer(&Call { look, ..*call });
        if record.graphs().len() > before {
            let mut words = record.state_words();
            if self.fault == Fault::VariablesSwapped {
                words = swapped(record.terms(), &words);
            }
            let tables = match self.fault {
                Fault::MovesNoTable => false,
                Fault::MovesTablesOnce => record.graphs().len() < 3,
                _ => true,
            };
            state[..1_024].copy_from_slice(&words[..1_024]);
            state[3_072] = words[3_072];
            if tables {
                state[1_024..3_072].copy_from_slice(&words[1_024..3_072]);
            }
            let kept = self.fault == Fault::DenialKeepsScratch && denied;
            if self.fault != Fault::KeepsScratch && !kept {
                scratch[..64].fill(0);
            }
            if let (Fault::TouchesBeyond, Some(word)) = (self.fault, state.get_mut(3_073)) {
                *word = 0;
            }
        }
        answer
    }

    fn set_list(
        &mut self,
        terms: &mut [u16],
        state: &mut [u64],
        scratch: &mut [u64],
        items: &mut [Item],
    ) -> Result<usize, Refusal> {
        let fault = self.fault;
        if let Err(refusal) = expect::listing(terms, state, scratch.len()) {
            if fault == Fault::WritesUnchecked {
                items.iter_mut().for_each(|item| item.answer = 0);
            }
            let trusted = fault == Fault::TrustsEmptyLists && items.is_empty();
            return if trusted { Ok(0) } else { Err(refusal) };
        }
        let mut count = 0;
        for place in 0..items.len() {
            let Item { event, from, to, .. } = items[place];
            let call = Call::request(event as usize, from as usize, to as usize);
            let number = set_list::number(self.call(&call, terms, state, scratch));
            let late = usize::from(fault == Fault::AnswersLate);
            if let Some(item) = items.get_mut(place + late) {
                if number > 0 || fault != Fault::KeepsDenials {
                    item.answer = number;
                }
            }
            count += usize::from(number == 1 || number == 9 && fault == Fault::CountsRefusals);
            if number == 9 && fault == Fault::StopsAtRefusal {
                break;
            }
        }
        Ok(count)
    }

    fn revise(
        &mut self,
        old_terms: &mut [u16],
        old_state: &mut [u64],
        new_terms: &mut [u16],
        second: &mut [u64],
    ) -> Result<(), Refusal> {
        let revised = match expect::revising(old_terms, old_state, new_terms, second.len()) {
            Err(Refusal { number: 13, .. }) if self.fault == Fault::RevisesAnySize => return Ok(()),
            Err(refusal) => {
                if self.fault == Fault::WritesRefusedSecond {
                    second.fill(0);
                }
                return Err(refusal);
            }
            Ok(revised) => revised,
        };
        // Over memory that was not read, the tables stand for the record.
        let old = memory::terms_of_words(old_terms).expect("nothing was refused");
        let new = revised.terms().clone();
        let mut record = self.record.take().unwrap_or_else(|| revised.clone());
        if self.fault != Fault::StaysWithOldTerms {
            record.revise(&new)?;
        }
        let words = self.second_words(&old, &new, old_state, record.state_words());
        self.record = Some(record);
        second[..words.len()].copy_from_slice(&words);
        if let (Fault::TouchesBeyond, Some(word)) = (self.fault, second.get_mut(3_073)) {
            *word = 0;
        }
        Ok(())
    }

    fn renumber(
        &mut self,
        terms: &mut [u16],
        state: &mut [u64],
        numbers: &mut [u8],
        second: &mut [u64],
    ) -> Result<(), Refusal> {
        renumber(self.fault, &mut self.record, (terms, state), numbers, second)
    }

    fn write(&mut self, terms: &[u16], state: &[u64], output: &mut [u8]) -> Result<usize, Refusal> {
        let mut text = expect::writing(terms, state, output.len());
        if self.fault == Fault::WritesThePast {
            let (terms, state) = expect::lent(terms, state)?;
            text = Ok(terms::write(&terms, &state.edges));
        }
        self.put(text?, output)
    }

    fn store(&mut self, terms: &[u16], state: &[u64], output: &mut [u8]) -> Result<usize, Refusal> {
        if self.fault == Fault::StoresThemSwapped {
            let (said, _) = expect::lent(terms, state)?;
            let text = expect::storing(terms, &swapped(&said, state), output.len());
            return self.put(text?, output);
        }
        let mut text = expect::storing(terms, state, output.len())?;
        let last = match self.fault {
            Fault::StoresNoEvent => b"V\t",
            Fault::StoresOneBitLess => b"T\t",
            _ => return self.put(text, output),
        };
        let mut lines: Vec<&[u8]> = text.split_inclusive(|&byte| byte == b'\n').collect();
        if let Some(place) = lines.iter().rposition(|line| line.starts_with(last)) {
            lines.remove(place);
        }
        text = lines.concat();
        self.put(text, output)
    }
}
