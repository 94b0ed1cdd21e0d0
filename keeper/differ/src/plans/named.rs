//! Named cases of plans and questions. What each gives stands in the table, and the
//! keeper and the library must both give it.

mod refusals;

use crate::library::Library;
use crate::tally::Tally;
use keeper::compare::plans::{self as compare, Other};
use keeper::plan::{Plan, Question, SCRATCH_WORDS};
use keeper::record::{Call, Record};
use keeper::terms::{self, memory, Refusal};

/// The terms of the cases: spaces for tabs, slashes for line feeds.
///
/// Events 0, share, and 1, withdraw, are free to all; share adds an edge to its
/// target, withdraw deletes it. Event 2, load, asks for an edge from its target.
/// Event 3 is never granted, and its denials are kept.
///
/// Entries, at the first of a pair: 2 an edge to the second, 3 shared with it just
/// now, 4 ever, 8 just before, 5 someone withdrew just now, 7 shared with the second
/// and nobody withdrew since, 9 an edge from the second, 11 a denied event 3 just
/// now, 12 ever, 13 a moment before this, 14 none, 16 loaded the second just now.
const TEXT: &str = "M 3/L 1 4/F 0 top 0 0/F 1 var 0 0/F 2 out 0 1/F 3 out 1 1/F 4 since 0 3/\
    F 5 in 2 0/F 6 not 5 0/F 7 since 6 3/F 8 prev 3 0/F 9 in 0 1/F 10 not 0 0/F 11 out 8 0/\
    F 12 since 0 11/F 13 prev 0 0/F 14 not 13 0/F 15 var 1 0/F 16 out 3 1/\
    P 0 0/P 1 0/P 2 9/P 3 10/K 3/E 0 add 0 fwd/E 1 del 0 fwd/";

/// Terms in which entry 6 asks for an event from here one moment ago, or four.
const AGO: &str = "M 2/L 0 1/F 0 top 0 0/F 1 out 0 0/F 2 prev 1 0/F 3 prev 2 0/F 4 prev 3 0/\
    F 5 prev 4 0/F 6 or 2 5/P 0 0/";

/// Under these terms it depends on the replies after which move the goal holds.
const SOME_MOVE: &str = "plan 0 1 by 0 1 for 6 0 0: no; plan 0 1 0 1 by 0 1 for 6 0 0: no; \
    plan 0 1 0 1 0 1 by 0 1 for 6 0 0: yes; plan 0 1 0 1 0 1 by 0 1 for 2 0 0: no";

/// Steps, each with what it gives. `ask` has event, from and to; `plan` its numbers,
/// planner and rival, goal and pair; `tell` an entry and a pair.
const SCRIPTS: &[(&str, &str)] = &[
    ("at the first move", "plan 0 2 by 0 1 for 3 0 2: yes; plan 0 2 by 1 0 for 3 1 2: yes"),
    ("at the second move", "plan 1 1 0 2 by 0 1 for 3 0 2: yes"),
    ("at the third move", "plan 1 1 1 1 0 2 by 0 1 for 3 0 2: yes"),
    ("at no move", "plan 1 1 1 1 1 1 by 0 1 for 3 0 2: no; plan 0 1 by 0 1 for 3 0 2: no"),
    ("the pair in its order", "plan 0 2 by 0 1 for 3 2 0: no; plan 0 2 by 0 1 for 2 0 2: yes"),
    ("variable 0 is the second", "plan 0 2 by 0 1 for 1 2 2: yes; plan 0 2 by 0 1 for 1 2 1: no"),
    ("the players need not be of the pair", "plan 0 1 by 0 2 for 13 1 1: yes"),
    (
        "a reply undoes it",
        "ask 0 1 0: grant; plan 2 1 by 0 1 for 16 0 1: yes; plan 1 2 2 1 by 0 1 for 16 0 1: no; \
         plan 1 2 2 1 by 0 2 for 16 0 1: yes; plan 1 2 1 2 2 1 by 0 1 for 16 0 1: no",
    ),
    (
        "a reply of another event at another target",
        "plan 0 2 1 1 by 0 1 for 8 0 2: no; plan 0 2 0 2 by 0 1 for 8 0 2: no; \
         plan 0 2 0 1 by 0 1 for 4 0 2: yes; plan 0 2 by 0 1 for 7 0 2: yes",
    ),
    (
        "a pass undoes it",
        "plan 1 2 1 2 by 0 1 for 9 0 1: no; plan 1 2 1 2 1 2 by 0 1 for 9 0 1: no",
    ),
    (
        "what the rival makes so is seen after the next move only",
        "ask 0 0 2: grant; plan 1 0 1 1 by 0 1 for 7 0 2: no; plan 1 1 by 0 1 for 7 0 2: yes; \
         plan 1 0 0 2 by 0 1 for 7 0 2: yes",
    ),
    (
        "the past counts",
        "plan 1 1 by 0 1 for 4 0 2: no; ask 0 0 2: grant; plan 1 1 by 0 1 for 4 0 2: yes; \
         plan 1 1 by 0 1 for 8 0 2: yes; ask 1 1 1: grant; plan 1 1 by 0 1 for 8 0 2: no",
    ),
    (
        "it is not asked before the first move",
        "tell 14 0 0: yes; plan 0 1 0 1 0 1 by 0 1 for 14 0 0: no",
    ),
    (
        "a denied move changes nothing",
        "plan 2 2 by 0 1 for 14 0 0: yes; plan 2 2 by 0 1 for 13 0 0: no; \
         plan 2 2 2 2 by 0 1 for 13 0 0: no; plan 2 2 by 0 1 for 16 0 2: no",
    ),
    (
        "a kept denial makes a moment",
        "plan 3 1 by 0 1 for 11 0 0: yes; plan 3 1 by 0 1 for 12 0 0: yes; \
         plan 3 1 by 0 1 for 13 0 0: yes; plan 3 1 by 0 1 for 14 0 0: no; \
         plan 3 1 1 1 by 0 1 for 11 1 0: no; plan 3 1 0 2 1 1 by 0 1 for 8 0 2: no",
    ),
    (
        "and so does a kept denial of the rival's",
        "ask 0 0 2: grant; plan 2 2 2 2 by 0 1 for 8 0 2: no; plan 2 2 by 0 1 for 3 0 2: yes; \
         ask 3 2 2: deny; plan 2 2 by 0 1 for 8 0 2: yes; plan 2 2 by 0 1 for 12 2 0: yes",
    ),
    (
        "what holds",
        "tell 0 0 0: yes; tell 10 0 0: no; tell 1 2 2: yes; tell 1 2 1: no; tell 3 0 2: no; \
         ask 0 0 2: grant; tell 3 0 2: yes; tell 3 2 0: no; tell 2 0 2: yes; tell 9 2 0: yes; \
         ask 1 0 2: grant; tell 3 0 2: no; tell 4 0 2: yes; tell 2 0 2: no; tell 5 2 0: yes",
    ),
    (
        "refused questions",
        "tell 15 0 0: 14; tell 17 0 0: 14; tell 15 3 0: 14; tell 16 3 0: 9; tell 16 0 3: 9; \
         tell 18446744073709551615 0 0: 14; tell 0 18446744073709551615 0: 9",
    ),
];

fn bytes(text: &str) -> Vec<u8> {
    text.replace(' ', "\t").replace('/', "\n").into_bytes()
}

/// The record of terms at moment 0.
fn opened(text: &str) -> Record {
    let file = terms::read(&bytes(text)).expect("the terms of the cases are accepted");
    Record::of(file)
}

/// Runs every case.
pub fn all(tally: &mut Tally) -> Result<(), String> {
    let scripts = SCRIPTS.iter().map(|(label, script)| (*label, TEXT, *script));
    let some_move = ("after some move, not one for all replies", AGO, SOME_MOVE);
    for (label, text, script) in scripts.chain([some_move]) {
        let mut record = opened(text);
        for step in script.split(';') {
            let wrong = |wrong| format!("{label}: {step}: {wrong}");
            take(step, &mut record, tally).map_err(wrong)?;
        }
    }
    refusals::all(tally)
}

/// Takes one step of a script; a request only moves the record on.
fn take(step: &str, record: &mut Record, tally: &mut Tally) -> Result<(), String> {
    let (said, given) = step.split_once(':').expect("a step says what it gives");
    let (verb, rest) = said.trim().split_once(' ').expect("a step has two words");
    let (state, wanted) = (record.state_words(), given.trim());
    let terms = memory::terms_words(record.terms());
    match verb {
        "ask" => {
            let [event, from, to] = numbers(rest)[..] else { panic!("event, from and to") };
            let answer = format!("{:?}", record.answer(&Call::request(event, from, to)));
            equal(answer.to_lowercase(), wanted.into())
        }
        "tell" => {
            equal(shown(record.tell(&question(rest))), wanted.into())?;
            tell(&question(rest), &terms, &state, wanted, tally)
        }
        _ => {
            let (moves, rest) = rest.split_once("by").expect("a plan is by someone");
            let (players, goal) = rest.split_once("for").expect("a plan is for something");
            let [planner, rival] = numbers(players)[..] else { panic!("planner and rival") };
            let (goal, scratch_words) = (question(goal), SCRATCH_WORDS);
            let plan = Plan { numbers: numbers(moves), planner, rival, goal, scratch_words };
            equal(shown(record.judge(&plan)), wanted.into())?;
            judge(&plan, &terms, &state, wanted, tally)
        }
    }
}

fn question(text: &str) -> Question {
    let [entry, first, second] = numbers(text)[..] else { panic!("an entry and a pair") };
    Question { entry, first, second }
}

fn numbers(text: &str) -> Vec<usize> {
    text.split_whitespace().map(|word| word.parse().expect("a number")).collect()
}

/// The library gives what is wanted, and so does the keeper, since they agree.
fn judge(
    plan: &Plan,
    terms: &[u16],
    state: &[u64],
    wanted: &str,
    tally: &mut Tally,
) -> Result<(), String> {
    let mut library = Library::new(tally);
    let mut scratch = vec![1; plan.scratch_words];
    let (mut lent, mut words) = (terms.to_vec(), state.to_vec());
    let got = library.plan(plan, &mut lent, &mut words, &mut scratch, &mut plan.numbers.clone());
    equal(shown(got), wanted.into())?;
    compare::plan(&mut library, plan, terms, state)
}

fn tell(
    question: &Question,
    terms: &[u16],
    state: &[u64],
    wanted: &str,
    tally: &mut Tally,
) -> Result<(), String> {
    let mut library = Library::new(tally);
    let got = library.tell(question, &mut terms.to_vec(), &mut state.to_vec());
    equal(shown(got), wanted.into())?;
    compare::tell(&mut library, question, terms, state)
}

fn shown(result: Result<bool, Refusal>) -> String {
    match result {
        Ok(true) => "yes".into(),
        Ok(false) => "no".into(),
        Err(refusal) => refusal.number.to_string(),
    }
}

fn equal(got: String, wanted: String) -> Result<(), String> {
    (got == wanted).then_some(()).ok_or(format!("got {got}, wanted {wanted}"))
}

#[cfg(test)]
mod tests {
    #[test]
    fn named_cases_give_what_they_say() {
        assert_eq!(super::all(&mut super::Tally::default()), Ok(()));
    }
}
