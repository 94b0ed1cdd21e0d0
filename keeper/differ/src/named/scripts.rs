//! Cases of steps, each with what it gives.
//!
//! A step is a bank, `ask` or `look` with event, from and to, and after a colon
//! the answer; or a bank, `list` with requests separated by commas, and the answers;
//! or `revise` with `new` or `larger`, and `done` or a refusal.

use super::{accepted, LARGER, NEW};
use keeper::banks::step::{Deed, Outcome, Step};
use keeper::record::{Answer, Call};
use keeper::set_list::Item;
use keeper::terms::Refusal;

const SCRIPTS: &[(&str, &str)] = &[
    (
        "a moment in one is a moment in the other",
        "a look 3 0 0: deny; b look 3 0 0: deny; a ask 7 0 0: grant; a look 3 0 0: grant; \
         b look 3 0 0: grant",
    ),
    ("and the other way round", "b ask 7 0 0: grant; a look 3 0 0: grant; b look 3 0 0: grant"),
    ("the event edge is not there", "a ask 0 0 1: grant; a look 6 0 1: grant; b look 6 0 1: deny"),
    (
        "events ever are each bank's own",
        "a ask 0 0 1: grant; b ask 0 2 1: grant; a look 1 0 1: grant; b look 1 0 1: deny; \
         a look 1 2 1: deny; b look 1 2 1: grant",
    ),
    ("the relations are of both", "b look 5 0 1: deny; a ask 0 0 1: grant; b look 5 0 1: grant"),
    (
        "a moment of the other ends the event edge",
        "a ask 0 0 1: grant; a look 6 0 1: grant; b ask 7 2 2: grant; a look 6 0 1: deny; \
         a look 1 0 1: grant",
    ),
    (
        "a kept denial makes a moment in both",
        "a look 4 0 1: deny; a ask 2 0 1: deny; a look 3 0 1: grant; b look 3 0 1: grant; \
         a look 4 0 1: grant; b look 4 0 1: deny",
    ),
    (
        "a kept denial of the other ends the event edge",
        "b ask 0 0 1: grant; a ask 2 0 1: deny; b look 6 0 1: deny; b look 1 0 1: grant",
    ),
    (
        "other denials make none",
        "a ask 1 0 1: deny; b ask 4 0 1: deny; a look 3 0 1: deny; b look 3 0 1: deny",
    ),
    (
        "looks make none",
        "a look 0 0 1: grant; b look 2 0 1: deny; a look 3 0 1: deny; b look 5 0 1: deny",
    ),
    (
        "refused calls make none",
        "a ask 8 0 0: 9; b ask 0 3 0: 9; a ask 0 0 3: 9; a look 8 0 0: 9; a look 3 0 1: deny; \
         b look 3 0 1: deny",
    ),
    (
        "no number is too large",
        "a ask 18446744073709551615 0 0: 9; b look 0 18446744073709551615 0: 9; \
         a ask 0 0 4294967296: 9",
    ),
    (
        "a set list is requests of one bank",
        "a list 0 0 1, 1 0 1, 1 1 0, 2 0 1, 4 0 1: 1 1 0 0 1; b list 1 0 1, 4 0 1, 5 0 1: 0 0 1; \
         a look 6 0 1: deny",
    ),
    (
        "a refused record does not stop the list",
        "b list 9 0 0, 0 0 1, 0 3 0, 4294967295 0 0, 1 0 1: 9 1 9 9 1; a look 1 0 1: deny",
    ),
    ("an empty list", "a list: ; b list: ; a look 3 0 1: deny; b look 3 0 1: deny"),
    ("a list of denials", "a list 1 0 1, 1 0 1: 0 0; a look 3 0 1: deny; b look 3 0 1: deny"),
    (
        "each bank carries its own past over",
        "a ask 0 0 1: grant; b ask 0 2 1: grant; revise new: done; a look 3 0 1: grant; \
         b look 3 0 1: deny; a look 3 2 1: deny; b look 3 2 1: grant",
    ),
    (
        "what is new starts with each bank's own event",
        "a ask 7 0 1: grant; b ask 7 2 1: grant; revise new: done; a look 1 0 1: deny; \
         b look 1 0 1: deny; a look 1 2 1: deny; b look 1 2 1: grant",
    ),
    (
        "new terms are those of both",
        "revise new: done; a ask 7 0 1: grant; a look 1 0 1: grant; b look 1 0 1: deny; \
         b ask 2 0 1: grant; b ask 8 0 0: 9",
    ),
    ("terms of another size", "revise larger: 13; a ask 0 0 1: grant; b ask 0 3 1: 9"),
];

/// Each label with its steps and what they give.
pub fn all() -> Vec<(&'static str, Vec<(Step, Outcome)>)> {
    let steps = |script: &str| script.split(';').map(step).collect();
    SCRIPTS.iter().map(|(label, script)| (*label, steps(script))).collect()
}

fn step(text: &str) -> (Step, Outcome) {
    let (said, given) = text.split_once(':').expect("a step says what it gives");
    let (said, given) = (said.trim(), given.trim());
    let (deed, outcome) = match said.split_once(' ').expect("a step has two words") {
        ("revise", new) => {
            let terms = accepted(if new == "new" { NEW } else { LARGER });
            let done = if given == "done" { Ok(()) } else { Err(refusal(given)) };
            (Deed::revision(&terms), Outcome::Revised(done))
        }
        (bank, said) => of_bank(usize::from(bank == "b"), said, given),
    };
    (Step::of(deed), outcome)
}

fn of_bank(bank: usize, said: &str, given: &str) -> (Deed, Outcome) {
    let (verb, rest) = said.split_once(' ').unwrap_or((said, ""));
    if verb == "list" {
        return list(bank, rest, given);
    }
    let [event, from, to] = numbers(rest);
    let call = match verb {
        "look" => Call::look(event, from, to),
        _ => Call::request(event, from, to),
    };
    let answer = match given {
        "grant" => Answer::Grant,
        "deny" => Answer::Deny,
        number => Answer::Refused(refusal(number)),
    };
    (Deed::Call(bank, call), Outcome::Answered(answer))
}

fn list(bank: usize, requests: &str, given: &str) -> (Deed, Outcome) {
    let item = |request: &str| {
        let [event, from, to] = numbers(request).map(|number| number as u32);
        Item { event, from, to, answer: 77 }
    };
    let requests = requests.split(',').filter(|request| !request.is_empty());
    let items: Vec<Item> = requests.map(item).collect();
    let answers: Vec<u32> = given.split_whitespace().map(|word| word.parse().unwrap()).collect();
    assert_eq!(answers.len(), items.len());
    let filled = items.iter().zip(&answers).map(|(item, &answer)| Item { answer, ..*item });
    let outcome = Outcome::Listed(
        Ok(answers.iter().filter(|&&answer| answer == 1).count()),
        filled.collect(),
    );
    (Deed::List(bank, items), outcome)
}

fn numbers(text: &str) -> [usize; 3] {
    let numbers: Vec<usize> = text.split_whitespace().map(|word| word.parse().unwrap()).collect();
    numbers.try_into().expect("event, from and to")
}

fn refusal(number: &str) -> Refusal {
    Refusal::plain(number.parse().expect("a refusal's number"))
}
