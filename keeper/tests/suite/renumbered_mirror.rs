//! Renumberings of lent memory by the record itself, with one fault each.

use crate::mirror::Fault;
use keeper::expect;
use keeper::record::Record;
use keeper::renumber::{self, Numbering};
use keeper::terms::memory;
use keeper::terms::{Bit, Refusal};

/// The list that the fault takes in the place of the one that is lent.
fn taken(fault: Fault, members: usize, numbers: &[u8]) -> Vec<u8> {
    let numbering = Numbering::of(members, numbers);
    match (fault, numbering) {
        (Fault::TakesInverse, Ok(numbering)) => numbering.undone().numbers().to_vec(),
        (Fault::TakesLongLists, Err(_)) => numbers.iter().copied().take(members).collect(),
        (Fault::TakesNumbersTwice, Err(_)) if numbers.len() == members => {
            (0..members as u8).collect()
        }
        _ => numbers.to_vec(),
    }
}

/// The words of a second state with the fault put in.
fn words(fault: Fault, record: &Record, numbering: &Numbering) -> Vec<u64> {
    let undone = numbering.undone();
    let mut state = record.state();
    let had = |bit: &Bit| match *bit {
        Bit::Pair(a, b) => Bit::Pair(a, undone.member(b)),
        Bit::Triple(a, b, c) => Bit::Triple(a, undone.member(b), undone.member(c)),
    };
    let last = |bit: &Bit| match *bit {
        Bit::Triple(a, b, c) => Bit::Triple(a, b, undone.member(c)),
        pair => pair,
    };
    for table in &mut state.past.tables {
        match fault {
            Fault::ColumnsStay => *table = table.iter().map(had).collect(),
            Fault::LastColumnStays => *table = table.iter().map(last).collect(),
            Fault::TablesStay => *table = undone.table(table),
            _ => {}
        }
    }
    if let Some(event) = &mut state.past.event {
        match fault {
            Fault::EndsSwapped => (event.from, event.to) = (event.to, event.from),
            Fault::EventStays => {
                (event.from, event.to) = (undone.member(event.from), undone.member(event.to));
            }
            _ => {}
        }
    }
    memory::state_words(&state)
}

/// Fills the second state in. Over memory that was not read, the tables stand for
/// the record.
pub fn renumber(
    fault: Fault,
    record: &mut Option<Record>,
    (terms, state): (&[u16], &[u64]),
    numbers: &[u8],
    second: &mut [u64],
) -> Result<(), Refusal> {
    let members = terms.first().map_or(0, |&members| members.into());
    if fault == Fault::ChecksNumbersFirst {
        Numbering::of(members, numbers)?;
    }
    let numbers = taken(fault, members, numbers);
    if let Err(refusal) = renumber::renumbering(terms, state, &numbers, second.len()) {
        if fault == Fault::WritesRefusedSecond {
            second.fill(0);
        }
        return Err(refusal);
    }
    let going_on = || {
        let (terms, state) = expect::lent(terms, state).expect("nothing was refused");
        expect::going_on(&terms, &state)
    };
    let record = record.get_or_insert_with(going_on);
    record.renumber(&numbers)?;
    let words = words(fault, record, &Numbering::of(members, &numbers)?);
    second[..words.len()].copy_from_slice(&words);
    if let (Fault::TouchesBeyond, Some(word)) = (fault, second.get_mut(words.len())) {
        *word = 0;
    }
    Ok(())
}
