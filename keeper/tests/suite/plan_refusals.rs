//! Refusals of plans and questions, each and in their order.

use crate::help::*;
use keeper::expect;
use keeper::plan::{Plan, Question, SCRATCH_WORDS};
use keeper::terms::memory::{terms_words, EVENT_WORD, STATE_WORDS, TERMS_WORDS};
use keeper::terms::Refusal;

/// So many members and events, all free. Entry 1 has variable 0 free, entry 2
/// variable 1, entry 3 both, and entry 4 is entry 2 bound.
fn words(members: usize, events: usize) -> (Vec<u16>, Vec<u64>) {
    let policies: Vec<String> = (0..events).map(|event| format!("/P {event} 0")).collect();
    let text = format!(
        "M {members}/L 0 {events}/F 0 top 0 0/F 1 var 0 0/F 2 var 1 0/F 3 or 1 2/F 4 bind 1 2{}",
        policies.concat()
    );
    let record = record(&text);
    (terms_words(record.terms()), record.state_words())
}

fn goal(entry: usize, first: usize, second: usize) -> Question {
    Question { entry, first, second }
}

/// A plan of two moves that nothing is wrong with, for 2 members and more.
fn good() -> Plan {
    let goal = goal(1, 0, 0);
    let (numbers, scratch_words) = (vec![0, 1, 0, 0], SCRATCH_WORDS);
    Plan { numbers, planner: 0, rival: 1, goal, scratch_words }
}

/// The number that a plan is refused with; 0 where there is a verdict.
fn number((terms, state): &(Vec<u16>, Vec<u64>), plan: &Plan) -> u16 {
    refused(expect::planning(terms, state, plan))
}

fn refused(result: Result<bool, Refusal>) -> u16 {
    let number = |refusal: Refusal| {
        assert_eq!(refusal.line, 0);
        refusal.number
    };
    result.map_or_else(number, |_| 0)
}

fn with(change: impl FnOnce(&mut Plan)) -> Plan {
    let mut plan = good();
    change(&mut plan);
    plan
}

/// Plans that are refused with 14, whatever the terms.
fn no_games() -> Vec<Plan> {
    let numbers = |count: usize| with(|plan| plan.numbers = vec![0; count]);
    let mut all: Vec<Plan> = [0, 1, 3, 5, 7, 8, 9].map(numbers).into();
    all.push(with(|plan| plan.rival = 0));
    // One and the same, and no member.
    all.push(with(|plan| (plan.planner, plan.rival) = (99, 99)));
    let entries = [2, 3, 5, 6, 256, usize::MAX];
    all.extend(entries.map(|entry| with(|plan| plan.goal.entry = entry)));
    all
}

/// Plans that are refused with 9 where there are 3 members and 2 events.
fn no_names() -> Vec<Plan> {
    let far = [3, 64, usize::MAX];
    let mut all = Vec::new();
    for number in far {
        all.push(with(|plan| plan.planner = number));
        all.push(with(|plan| plan.rival = number));
        all.push(with(|plan| plan.goal.first = number));
        all.push(with(|plan| plan.goal.second = number));
        all.push(with(|plan| plan.numbers[1] = number));
        all.push(with(|plan| plan.numbers[3] = number));
    }
    for event in [2, 16, usize::MAX] {
        all.push(with(|plan| plan.numbers[0] = event));
        all.push(with(|plan| plan.numbers[2] = event));
    }
    all
}

#[test]
fn a_game_has_eight_members_and_four_events_at_most() {
    for (members, events, wanted) in
        [(2, 1, 0), (8, 4, 0), (9, 4, 14), (8, 5, 14), (64, 16, 14), (16, 1, 14), (2, 16, 14)]
    {
        assert_eq!(number(&words(members, events), &good()), wanted, "{members} {events}");
    }
    // There is no rival where there is one member.
    assert_eq!(number(&words(1, 1), &good()), 9);
    assert_eq!(number(&words(1, 1), &with(|plan| plan.rival = 0)), 14);
}

#[test]
fn each_is_refused() {
    let words = words(3, 2);
    for entry in [0, 1, 4] {
        assert_eq!(number(&words, &with(|plan| plan.goal.entry = entry)), 0);
    }
    for count in [2, 4, 6] {
        assert_eq!(number(&words, &with(|plan| plan.numbers = vec![0; count])), 0);
    }
    for plan in no_games() {
        assert_eq!(number(&words, &plan), 14, "{plan:?}");
    }
    for plan in no_names() {
        assert_eq!(number(&words, &plan), 9, "{plan:?}");
    }
    // A move that is never reached is looked at too: the goal holds after the first.
    let late = with(|plan| (plan.numbers, plan.goal.entry) = (vec![0, 0, 0, 0, 0, 3], 0));
    assert_eq!(number(&words, &late), 9);
    for (scratch_words, wanted) in
        [(0, 6), (64, 6), (9_282, 6), (9_283, 0), (9_284, 0), (20_000, 0)]
    {
        let plan = Plan { scratch_words, ..good() };
        assert_eq!(number(&words, &plan), wanted, "{scratch_words}");
    }
}

#[test]
fn fourteen_comes_before_nine() {
    for words in [words(9, 4), words(8, 5)] {
        for plan in no_names() {
            assert_eq!(number(&words, &plan), 14, "{plan:?}");
        }
    }
    for plan in no_games() {
        for other in no_names() {
            let mut both = plan.clone();
            if plan.planner != plan.rival {
                (both.planner, both.rival) = (other.planner, other.rival);
            }
            if plan.numbers.len() == 4 {
                both.numbers = other.numbers;
            }
            (both.goal.first, both.goal.second) = (other.goal.first, other.goal.second);
            assert_eq!(number(&words(3, 2), &both), 14, "{both:?}");
        }
    }
}

#[test]
fn memory_comes_first() {
    let (terms, state) = words(3, 2);
    let (mut bad_terms, mut bad_state) = (terms.clone(), state.clone());
    bad_terms[3] = 0;
    bad_state[EVENT_WORD] = 1 + 2 * 4_096;
    for plan in [good(), no_games().remove(0), no_names().remove(0)] {
        let short = Plan { scratch_words: SCRATCH_WORDS - 1, ..plan.clone() };
        let number = |terms: &[u16], state: &[u64], plan: &Plan| {
            refused(expect::planning(terms, state, plan))
        };
        assert_eq!(number(&bad_terms[..TERMS_WORDS - 1], &bad_state, &plan), 6);
        assert_eq!(number(&bad_terms, &bad_state[..STATE_WORDS - 1], &plan), 6);
        assert_eq!(number(&bad_terms, &bad_state, &short), 6);
        assert_eq!(number(&bad_terms, &bad_state, &plan), 7);
        assert_eq!(number(&terms, &bad_state, &plan), 8);
    }
}

#[test]
fn questions_are_refused_in_the_same_order() {
    let (terms, state) = words(3, 2);
    let (mut bad_terms, mut bad_state) = (terms.clone(), state.clone());
    bad_terms[3] = 0;
    bad_state[EVENT_WORD] = 1 + 2 * 4_096;
    let number = |terms: &[u16], state: &[u64], question: Question| {
        refused(expect::telling(terms, state, &question))
    };
    for question in [goal(1, 0, 0), goal(2, 0, 0), goal(1, 3, 0)] {
        assert_eq!(number(&bad_terms[..TERMS_WORDS - 1], &bad_state, question), 6);
        assert_eq!(number(&bad_terms, &bad_state[..STATE_WORDS - 1], question), 6);
        assert_eq!(number(&bad_terms, &bad_state, question), 7);
        assert_eq!(number(&terms, &bad_state, question), 8);
    }
    for entry in [2, 3, 5, usize::MAX] {
        assert_eq!(number(&terms, &state, goal(entry, 0, 0)), 14);
        assert_eq!(number(&terms, &state, goal(entry, 3, 3)), 14);
    }
    for (first, second) in [(3, 0), (0, 3), (usize::MAX, 0), (0, usize::MAX)] {
        assert_eq!(number(&terms, &state, goal(1, first, second)), 9);
    }
    // A question is of any number of members and events.
    let (terms, state) = words(64, 16);
    assert_eq!(number(&terms, &state, goal(1, 63, 63)), 0);
}
