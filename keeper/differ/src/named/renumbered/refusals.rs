//! Refusals of a renumbering, in their order.

use super::super::{accepted, equal};
use super::TEXT;
use crate::library::Library;
use crate::tally::Tally;
use keeper::compare::{self, Other};
use keeper::record::Record;
use keeper::renumber::Renumbering;
use keeper::terms::memory::{self, EVENT_WORD, FIRST_TABLE, STATE_WORDS, TERMS_WORDS};
use keeper::terms::Refusal;

/// What is wrong with what is lent.
#[derive(Clone, Copy, Debug, PartialEq)]
enum Harm {
    ShortTerms(usize),
    ShortState(usize),
    ShortSecond(usize),
    BadTerms(usize),
    BadState(usize, u64),
    BadList,
}

/// Each refusal alone, and with what would be refused later.
pub fn all(tally: &mut Tally) -> Result<(), String> {
    let mut all = vec![(Vec::new(), None), (vec![Harm::BadList], Some(15))];
    // No entries, and the mark of an event that there is not.
    let terms = [Harm::BadTerms(3), Harm::BadTerms(TERMS_WORDS - 1)];
    let state = [
        // A member, and a relation, that there is not.
        Harm::BadState(0, 1 << 3),
        Harm::BadState(3, 1),
        Harm::BadState(64, 1),
        // Of no variable, unequal bits; of one, a member; of two, members that there are not.
        Harm::BadState(FIRST_TABLE, 0b011),
        Harm::BadState(FIRST_TABLE + 64, 0b1000),
        Harm::BadState(FIRST_TABLE + 128, 1 << 3),
        Harm::BadState(FIRST_TABLE + 128, 1 << 48),
        Harm::BadState(FIRST_TABLE + 129, 1),
        Harm::BadState(FIRST_TABLE + 140, 1),
        // A table, an event and members that there are not.
        Harm::BadState(EVENT_WORD - 1, 1),
        Harm::BadState(EVENT_WORD, 1 + 9 * 4_096),
        Harm::BadState(EVENT_WORD, 1 + 25 * 4_096),
        Harm::BadState(EVENT_WORD, 1 + 3 * 64),
        Harm::BadState(EVENT_WORD, 1 + 3),
        Harm::BadState(EVENT_WORD, 1 << 32),
    ];
    for words in [0, TERMS_WORDS - 1] {
        all.push((vec![Harm::ShortTerms(words)], Some(6)));
        all.push((vec![Harm::ShortTerms(words), state[0], Harm::BadList], Some(6)));
    }
    for short in [Harm::ShortState, Harm::ShortSecond] {
        for words in [0, STATE_WORDS - 1] {
            all.push((vec![short(words)], Some(6)));
            all.push((vec![short(words), terms[0], Harm::BadList], Some(6)));
        }
    }
    all.push((vec![Harm::ShortSecond(STATE_WORDS - 1), state[0]], Some(6)));
    for harm in terms {
        all.push((vec![harm], Some(7)));
        all.push((vec![harm, state[0], Harm::BadList], Some(7)));
    }
    for harm in state {
        all.push((vec![harm], Some(8)));
        all.push((vec![harm, Harm::BadList], Some(8)));
    }
    for (harms, number) in all {
        refused(&harms, number, tally).map_err(|wrong| format!("with {harms:?}: {wrong}"))?;
    }
    Ok(())
}

/// Renumbers memory of moment 0 that was harmed.
fn refused(harms: &[Harm], number: Option<u16>, tally: &mut Tally) -> Result<(), String> {
    let record = Record::new(accepted(TEXT));
    let (mut terms, mut state) = (memory::terms_words(record.terms()), record.state_words());
    let mut renumbering = Renumbering::by(&[1, 2, 0]);
    for &harm in harms {
        match harm {
            Harm::ShortTerms(words) => renumbering.terms_words = words,
            Harm::ShortState(words) => renumbering.state_words = words,
            Harm::ShortSecond(words) => renumbering.second_words = words,
            Harm::BadTerms(place) => terms[place] = if place == 3 { 0 } else { 1 },
            Harm::BadState(place, word) => state[place] |= word,
            Harm::BadList => renumbering.numbers = vec![1, 2, 2],
        }
    }
    let mut library = Library::new(tally);
    let got = library.renumber(
        &mut terms[..renumbering.terms_words].to_vec(),
        &mut state[..renumbering.state_words].to_vec(),
        &mut renumbering.numbers.clone(),
        &mut vec![0; renumbering.second_words],
    );
    equal(got, number.map_or(Ok(()), |number| Err(Refusal::plain(number))))?;
    compare::renumber(&mut library, &renumbering, &terms, &state)
}
