//! A set list: a lent list of request records, answered in order.

use crate::record::{Answer, Call, Record};
use crate::terms::memory::SCRATCH_WORDS;
use crate::terms::Refusal;

/// One request record of a set list. The list of graphs is called the record,
/// so this is an item.
#[derive(Clone, Copy, Debug, PartialEq, Eq)]
pub struct Item {
    pub event: u32,
    pub from: u32,
    pub to: u32,
    pub answer: u32,
}

/// The number of an answer: 0 for deny, 1 for grant, and a refusal's own.
pub fn number(answer: Answer) -> u32 {
    match answer {
        Answer::Deny => 0,
        Answer::Grant => 1,
        Answer::Refused(refusal) => refusal.number.into(),
    }
}

/// Answers the items by a record. The checks come first: short scratch leaves
/// every item as it is.
pub fn answer(
    record: &mut Record,
    items: &mut [Item],
    scratch_words: usize,
) -> Result<usize, Refusal> {
    if scratch_words < SCRATCH_WORDS {
        return Err(Refusal::plain(6));
    }
    Ok(fill(items, |call| record.answer(call)))
}

/// Fills in each answer in order and gives how many were granted.
pub fn fill(items: &mut [Item], mut ask: impl FnMut(&Call) -> Answer) -> usize {
    let mut granted = 0;
    for item in items {
        let [event, from, to] = [item.event, item.from, item.to].map(|number| number as usize);
        let answer = ask(&Call::request(event, from, to));
        granted += usize::from(answer == Answer::Grant);
        item.answer = number(answer);
    }
    granted
}
