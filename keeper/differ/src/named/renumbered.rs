//! Named cases of members renumbered.
//!
//! A step is `ask` or `look` with event, from and to, and after a colon the answer;
//! `renumber` with the numbers, or `revise`, and `done` or a refusal; or `load`:
//! what is stored is read into other memory.

mod refusals;

use super::{accepted, bytes, equal};
use crate::library::Library;
use crate::tally::Tally;
use keeper::compare::{self, Other};
use keeper::generate::Case;
use keeper::record::{Answer, Call};
use keeper::renumber::Renumbering;
use keeper::step::{Revision, Step};
use keeper::terms::memory::{STATE_WORDS, TERMS_WORDS};

/// The terms of the cases: spaces for tabs, slashes for line feeds.
///
/// Event 0 is free to all and adds its edge. The others ask, at the initiator, for:
/// 1 an event 0 ever, 2 one to the target, by a table of one variable, 3 the same by
/// a table of two, 4 an edge to the target, 5 an event 0 to the target now, 6
/// nothing that there is, 7 a denied event 6 to the target ever, 8 a moment before.
/// Denials of event 6 are kept.
const TEXT: &str = "M 3/L 1 9/F 0 top 0 0/F 1 var 0 0/F 2 var 1 0/F 3 var 2 0/F 4 out 1 0/\
    F 5 since 0 4/F 6 out 1 2/F 7 since 0 6/F 8 at 3 7/F 9 bind 1 8/F 10 at 0 9/F 11 bind 3 10/\
    F 12 out 1 3/F 13 at 1 12/F 14 since 0 13/F 15 bind 2 14/F 16 at 0 15/F 17 bind 1 16/\
    F 18 out 0 1/F 19 out 1 1/F 20 not 0 0/F 21 out 16 1/F 22 since 0 21/F 23 prev 0 0/\
    P 0 0/P 1 5/P 2 11/P 3 17/P 4 18/P 5 19/P 6 20/P 7 22/P 8 23/K 6/E 0 add 0 fwd/";

/// New terms: event 1 asks for an event 0 ever, event 2 for an event 1 ever, event 8
/// for an event 0 to the target now. The others are free to all.
const NEW: &str = "M 3/L 1 9/F 0 top 0 0/F 1 out 2 0/F 2 since 0 1/F 3 out 1 0/F 4 since 0 3/\
    F 5 var 0 0/F 6 out 1 5/P 0 0/P 1 4/P 2 2/P 3 0/P 4 0/P 5 0/P 6 0/P 7 0/P 8 6/";

const SCRIPTS: &[(&str, &str)] = &[
    (
        "byte m is the new number of m",
        "ask 0 0 1: grant; renumber 1 2 0: done; look 1 1 0: grant; look 1 0 0: deny; \
         look 1 2 0: deny; look 2 1 2: grant; look 2 0 1: deny; look 2 2 1: deny; \
         look 3 1 2: grant; look 3 0 1: deny; look 3 2 1: deny; look 4 1 2: grant; \
         look 4 0 1: deny; look 5 1 2: grant; look 5 2 1: deny",
    ),
    (
        "an edge from a member to itself",
        "ask 0 2 2: grant; renumber 1 2 0: done; look 3 0 0: grant; look 3 2 2: deny; \
         look 5 0 0: grant; look 4 2 2: deny",
    ),
    (
        "earlier moments are renumbered too",
        "ask 0 0 1: grant; ask 0 2 1: grant; renumber 2 1 0: done; look 3 2 1: grant; \
         look 3 0 1: grant; look 5 2 1: deny; look 5 0 1: grant; look 2 1 0: deny",
    ),
    (
        "an edge of a denied event",
        "ask 6 0 2: deny; renumber 2 0 1: done; look 7 2 1: grant; look 7 0 2: deny; \
         look 7 1 2: deny",
    ),
    (
        "no moment is made",
        "look 8 0 0: deny; renumber 1 2 0: done; look 8 0 0: deny; ask 0 0 0: grant; \
         look 8 0 0: grant; renumber 1 2 0: done; look 5 1 1: grant",
    ),
    (
        "later requests name the numbers that members have then",
        "renumber 1 2 0: done; ask 0 1 2: grant; look 3 1 2: grant; look 3 0 1: deny; \
         renumber 2 0 1: done; look 3 0 1: grant; look 3 1 2: deny",
    ),
    (
        "undone",
        "ask 0 0 1: grant; renumber 1 2 0: done; renumber 2 0 1: done; look 1 0 0: grant; \
         look 3 0 1: grant; look 3 1 2: deny; look 5 0 1: grant",
    ),
    ("twice", "ask 0 0 1: grant; renumber 1 2 0: done; renumber 1 2 0: done; look 3 2 0: grant"),
    (
        "the same numbers",
        "ask 0 0 1: grant; renumber 0 1 2: done; look 3 0 1: grant; look 3 1 0: deny",
    ),
    (
        "what is no member's number is refused as before",
        "renumber 1 2 0: done; ask 0 3 0: 9; ask 0 0 3: 9; look 0 64 0: 9; ask 9 0 0: 9; \
         ask 0 18446744073709551615 0: 9; look 8 0 0: deny",
    ),
    (
        "refused lists change nothing",
        "ask 0 0 1: grant; renumber: 15; renumber 1 2: 15; renumber 0 1: 15; \
         renumber 1 2 0 3: 15; renumber 0 1 2 2: 15; renumber 1 2 0 255: 15; renumber 1 1 0: 15; \
         renumber 2 2 2: 15; renumber 0 1 3: 15; renumber 3 1 2: 15; renumber 1 2 64: 15; \
         renumber 255 1 2: 15; look 3 0 1: grant; look 5 0 1: grant; look 3 1 2: deny",
    ),
    (
        "new terms after",
        "ask 0 0 1: grant; renumber 1 2 0: done; revise: done; look 1 1 0: grant; \
         look 1 0 0: deny; look 2 1 0: deny; look 8 1 2: grant; ask 1 1 0: grant; \
         look 2 1 0: grant",
    ),
    (
        "new terms before",
        "ask 0 0 1: grant; revise: done; ask 1 0 2: grant; renumber 1 2 0: done; \
         look 1 1 0: grant; look 2 1 0: grant; look 2 0 0: deny; look 8 1 2: deny",
    ),
    (
        "stored and loaded",
        "ask 0 0 1: grant; renumber 1 2 0: done; load: done; look 1 1 0: grant; \
         look 3 1 2: grant; look 5 1 2: grant; renumber 2 0 1: done; load: done; \
         look 3 0 1: grant; look 5 0 1: grant",
    ),
];

/// Runs every case.
pub fn all(tally: &mut Tally) -> Result<(), String> {
    for (label, script) in SCRIPTS {
        check(script, tally).map_err(|wrong| format!("{label}: {wrong}"))?;
    }
    refusals::all(tally)
}

/// The library gives what is wanted, and so does the keeper, since they agree.
fn check(script: &str, tally: &mut Tally) -> Result<(), String> {
    let mut library = Library::new(tally);
    let (mut terms, mut state) = (vec![0; TERMS_WORDS], vec![0; STATE_WORDS]);
    library.read(&bytes(TEXT), &mut terms, &mut state).map_err(|_| "the text is refused")?;
    let mut steps = Vec::new();
    for part in script.split(';') {
        let (said, wanted) = part.split_once(':').ok_or("a step says what it gives")?;
        let given = match step(said.trim()) {
            None => load(&mut library, &mut terms, &mut state),
            Some(step) => {
                let given = taken(&mut library, &step, &mut terms, &mut state);
                steps.push(step);
                given
            }
        };
        equal(given.as_str(), wanted.trim()).map_err(|wrong| format!("{said}: {wrong}"))?;
    }
    library.agrees()?;
    let mut library = Library::new(tally);
    compare::case(&mut library, &Case { seed: 1, text: bytes(TEXT), steps })?;
    library.agrees().map(drop)
}

/// A step; none where what is stored is to be loaded.
fn step(said: &str) -> Option<Step> {
    let (verb, rest) = said.split_once(' ').unwrap_or((said, ""));
    let numbers: Vec<usize> = rest.split_whitespace().map(|word| word.parse().unwrap()).collect();
    match (verb, &numbers[..]) {
        ("ask", &[event, from, to]) => Some(Step::Call(Call::request(event, from, to))),
        ("look", &[event, from, to]) => Some(Step::Call(Call::look(event, from, to))),
        ("renumber", numbers) => {
            let numbers: Vec<u8> = numbers.iter().map(|&number| number as u8).collect();
            Some(Step::Renumbering(Renumbering::by(&numbers)))
        }
        ("revise", []) => Some(Step::Revision(Revision::to(&accepted(NEW)))),
        ("load", []) => None,
        _ => panic!("{said}: no step"),
    }
}

/// Takes a step and says what it gives.
fn taken(library: &mut Library, step: &Step, terms: &mut Vec<u16>, state: &mut Vec<u64>) -> String {
    let mut second = vec![0; STATE_WORDS];
    let got = match step {
        Step::Call(call) => {
            let mut scratch = vec![0; call.scratch_words];
            return match library.call(call, terms, state, &mut scratch) {
                Answer::Grant => "grant".into(),
                Answer::Deny => "deny".into(),
                Answer::Refused(refusal) => refusal.number.to_string(),
            };
        }
        Step::Revision(revision) => {
            let mut new = revision.terms.clone();
            let got = library.revise(terms, state, &mut new, &mut second);
            if got.is_ok() {
                *terms = new;
            }
            got
        }
        Step::Renumbering(renumbering) => {
            library.renumber(terms, state, &mut renumbering.numbers.clone(), &mut second)
        }
    };
    if got.is_ok() {
        *state = second;
    }
    got.map_or_else(|refusal| refusal.number.to_string(), |()| "done".into())
}

/// Stores what is lent and reads it into other memory.
fn load(library: &mut Library, terms: &mut Vec<u16>, state: &mut Vec<u64>) -> String {
    let mut text = vec![0; 65_536];
    let length = library.store(terms, state, &mut text).unwrap_or(0);
    *terms = vec![9; TERMS_WORDS];
    *state = vec![9; STATE_WORDS];
    let got = library.read(&text[..length], terms, state);
    got.map_or_else(|refusal| refusal.number.to_string(), |()| "done".into())
}

#[cfg(test)]
mod tests {
    #[test]
    fn named_cases_give_what_they_say() {
        assert_eq!(super::all(&mut super::Tally::default()), Ok(()));
    }
}
