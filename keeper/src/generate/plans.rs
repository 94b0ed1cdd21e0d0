//! Plans against a rival and questions, among the other calls.

use super::wakeful::{push, wake};
use super::{calls, formulas, item, outside, revised, stored, Case, Rng, Size};
use crate::plan::turn::Turn;
use crate::plan::{Plan, Question, MOST_MOVES, SCRATCH_WORDS};
use crate::record::{Call, Record};
use crate::step::Step;
use crate::terms::{memory, Entry, File, Terms, MOST_ENTRIES, MOST_PAST};
use std::collections::BTreeSet;

/// So many entries are added for goals, at most.
const GOALS: usize = 15;

/// So many plans are drawn to find a lively one.
const TRIES: usize = 12;

/// Above so many replies a plan has two moves mostly.
const MANY_REPLIES: usize = 12;

/// An accepted text, now and then of the stored form, with calls, set lists, new
/// terms, plans and questions. No number is above `largest`.
pub fn case(seed: u64, largest: usize) -> Case<Turn> {
    let mut rng = Rng::new(seed);
    let size = size(&mut rng);
    let terms = terms_of(&mut rng, &size);
    let count = rng.below(size.calls / 2 + 1);
    let calls = calls(&mut rng, &terms, count, largest);
    let steps = revised::steps(&mut rng, &terms, calls);
    let file = match rng.below(6) {
        0 => stored::file(&mut rng, &terms),
        _ => File { terms, past: None },
    };
    let text = file.text();
    Case { seed, text, steps: turns(&mut rng, Record::of(file), steps, largest) }
}

/// Mostly of a size that a game may have.
fn size(rng: &mut Rng) -> Size {
    match rng.below(50) {
        0 => Size::paired(rng),
        1 => Size { members: rng.between(7, 10), ..Size::small(rng) },
        2 => Size { events: rng.between(3, 6), ..Size::small(rng) },
        3..=9 => Size::middle(rng),
        _ => {
            let size = Size::small(rng);
            Size { members: size.members.max(2), relations: size.relations.max(1), ..size }
        }
    }
}

/// Terms, mostly with goals that moves can bring about and replies can undo.
fn terms_of(rng: &mut Rng, size: &Size) -> Terms {
    let mut terms = formulas::terms(rng, size);
    if size.members <= 8 && rng.percent(50) {
        wake(rng, &mut terms);
    }
    if rng.percent(80) {
        add_goals(rng, &mut terms);
    }
    terms
}

/// Adds goals about events, alone and two together; perhaps policies name them.
fn add_goals(rng: &mut Rng, terms: &mut Terms) {
    let full = terms.entries.len() + GOALS > MOST_ENTRIES || terms.past().len() + 2 > MOST_PAST;
    if full {
        return;
    }
    let top = push(terms, Entry::Top);
    for event in 0..terms.events {
        if rng.percent(60) {
            terms.policies[event] = top;
        }
    }
    let [one, other] = [(); 2].map(|()| goal(rng, terms, top));
    let [no_one, no_other] = [one, other].map(|f| push(terms, Entry::Not(f)));
    let either = push(terms, Entry::Or(no_one, no_other));
    let both = push(terms, Entry::Not(either));
    let event = rng.below(terms.events);
    if rng.percent(50) {
        terms.policies[event] = rng.pick(&[one, other, no_one, both, either]);
    }
}

/// An event from or to the member, just now, just before or once, or with no other
/// event of the kind since.
fn goal(rng: &mut Rng, terms: &mut Terms, top: usize) -> usize {
    let end = if rng.percent(60) { push(terms, Entry::Var(0)) } else { top };
    let event = rng.below(terms.events);
    let denied = rng.percent(20) && terms.kept.contains(&event);
    let label = terms.relations + event + if denied { terms.events } else { 0 };
    let [out, into] = [Entry::Out(label, end), Entry::In(label, end)];
    let edge = push(terms, if rng.percent(70) { out } else { into });
    let again = push(terms, if rng.percent(30) { out } else { Entry::In(label, top) });
    let none = push(terms, Entry::Not(again));
    match rng.below(6) {
        0 => edge,
        1 | 2 => push(terms, Entry::Prev(edge)),
        3 | 4 => push(terms, Entry::Since(none, edge)),
        _ => push(terms, Entry::Since(top, edge)),
    }
}

/// The steps, some of their requests as set lists, with plans and questions before
/// the first and after each.
fn turns(rng: &mut Rng, mut record: Record, steps: Vec<Step>, largest: usize) -> Vec<Turn> {
    let mut turns = Vec::new();
    asked(rng, &record, largest, &mut turns);
    for step in steps {
        let turn = match step {
            Step::Call(Call { look: false, .. }) if rng.percent(20) => {
                let count = rng.below(4);
                let calls = calls(rng, record.terms(), count, largest);
                Turn::List(calls.iter().map(|call| item(rng, call)).collect())
            }
            step => Turn::Step(step),
        };
        turn.take(&mut record);
        turns.push(turn);
        asked(rng, &record, largest, &mut turns);
    }
    turns
}

fn asked(rng: &mut Rng, record: &Record, largest: usize, turns: &mut Vec<Turn>) {
    if rng.percent(45) {
        let plan = match rng.percent(50) {
            true => lively(rng, record),
            false => plan(rng, record.terms(), largest),
        };
        turns.push(Turn::Plan(plan));
    }
    if rng.percent(20) {
        turns.push(Turn::Tell(question(rng, record.terms(), largest)));
    }
}

/// A plan that takes more than its first move to judge, if there is one among a
/// few: accepted later, or rejected because the rival need not pass.
fn lively(rng: &mut Rng, record: &Record) -> Plan {
    let is_lively = |plan: &Plan| match record.judge(plan) {
        Ok(true) => record.unopposed(plan) != Some(0),
        Ok(false) => record.unopposed(plan).is_some(),
        Err(_) => true,
    };
    let terms = record.terms();
    let tries = if has_many_replies(terms) { 2 } else { TRIES };
    let mut plans = (0..tries).map(|_| unspoiled(rng, terms));
    plans.find(is_lively).unwrap_or_else(|| unspoiled(rng, terms))
}

/// A plan, mostly of a game that there is.
pub fn plan(rng: &mut Rng, terms: &Terms, largest: usize) -> Plan {
    let mut plan = unspoiled(rng, terms);
    while rng.percent(20) {
        spoil(rng, terms, largest, &mut plan);
    }
    plan
}

/// A plan and a question for lent words, also where no accepted file yields them.
pub fn of_words(rng: &mut Rng, terms: &[u16], largest: usize) -> (Plan, Question) {
    let terms = memory::terms_of_words(terms).unwrap_or_else(|| {
        let size = Size::small(rng);
        formulas::terms(rng, &size)
    });
    (plan(rng, &terms, largest), question(rng, &terms, largest))
}

/// Whether the rival has so many replies that games take long.
fn has_many_replies(terms: &Terms) -> bool {
    terms.members * terms.events > MANY_REPLIES
}

/// A plan of a game, if the terms are of its size and have two members.
fn unspoiled(rng: &mut Rng, terms: &Terms) -> Plan {
    let many = has_many_replies(terms) && rng.percent(90);
    let count = rng.between(1, if many { 2 } else { MOST_MOVES });
    let planner = rng.below(terms.members);
    let other = rng.between(1, terms.members.saturating_sub(1).max(1));
    let rival = (planner + other) % terms.members;
    let [one, two] = [(); 2].map(|()| rng.below(terms.members));
    let goal = Question {
        entry: askable(rng, terms),
        first: rng.pick(&[planner, planner, rival, one]),
        second: rng.pick(&[planner, rival, two, two]),
    };
    let numbers = numbers(rng, terms, &goal, count);
    let scratch_words = SCRATCH_WORDS + rng.below(4);
    Plan { numbers, planner, rival, goal, scratch_words }
}

/// So many moves, often of an event that the goal speaks of, and often to one of
/// its pair.
fn numbers(rng: &mut Rng, terms: &Terms, goal: &Question, count: usize) -> Vec<usize> {
    let spoken = events(terms, goal.entry);
    let mut numbers = Vec::new();
    for _ in 0..count {
        let any = (rng.below(terms.events), rng.below(terms.members));
        let is_near = !spoken.is_empty() && rng.percent(50);
        numbers.push(if is_near { rng.pick(&spoken) } else { any.0 });
        numbers.push(rng.pick(&[goal.second, goal.second, goal.first, any.1]));
    }
    numbers
}

/// The events that an entry speaks of, granted or denied.
fn events(terms: &Terms, entry: usize) -> Vec<usize> {
    let mut parts = BTreeSet::from([entry]);
    let mut events = Vec::new();
    while let Some(part) = parts.pop_last() {
        let part = terms.entries[part];
        parts.extend(part.operands());
        if let Entry::Out(l, _) | Entry::In(l, _) | Entry::Many(l, _, _) = part {
            events.extend(l.checked_sub(terms.relations).map(|label| label % terms.events));
        }
    }
    events
}

/// A question, mostly of an entry that may be asked.
pub fn question(rng: &mut Rng, terms: &Terms, largest: usize) -> Question {
    let mut question = Question {
        entry: askable(rng, terms),
        first: rng.below(terms.members),
        second: rng.below(terms.members),
    };
    while rng.percent(12) {
        spoil_question(rng, terms, largest, &mut question);
    }
    question
}

/// An entry without a free variable besides 0, if there is one; the last ones,
/// past-time entries and those that policies name come up more often.
fn askable(rng: &mut Rng, terms: &Terms) -> usize {
    let (free, count) = (terms.free(), terms.entries.len());
    let mut entries: Vec<usize> = match rng.below(3) {
        0 => (0..count).collect(),
        1 => terms.past().into_iter().chain(terms.policies.clone()).collect(),
        _ => (count.saturating_sub(GOALS)..count).collect(),
    };
    entries.retain(|&entry| free[entry] & !1 == 0);
    match entries[..] {
        [] => rng.below(count),
        _ => rng.pick(&entries),
    }
}

/// Spoils one thing of a plan: its scratch, its length, who plays, the goal, or a
/// number.
fn spoil(rng: &mut Rng, terms: &Terms, largest: usize, plan: &mut Plan) {
    let count = plan.numbers.len();
    match rng.below(12) {
        0 => {
            let few = [0, 64, 2_048, SCRATCH_WORDS - 1, SCRATCH_WORDS - 1];
            plan.scratch_words = rng.pick(&few);
        }
        1 => plan.numbers.truncate(rng.below(count + 1)),
        2 => plan.numbers.push(0),
        3 => plan.numbers.resize(rng.between(7, 9), 0),
        4 => plan.rival = plan.planner,
        5 => {
            plan.planner = outside(rng, terms.members, largest);
            plan.rival = plan.planner;
        }
        6 | 7 => spoil_question(rng, terms, largest, &mut plan.goal),
        8 => plan.planner = outside(rng, terms.members, largest),
        9 => plan.rival = outside(rng, terms.members, largest),
        _ => {
            if let Some(place) = count.checked_sub(1).map(|last| rng.between(0, last)) {
                let bound = if place % 2 == 0 { terms.events } else { terms.members };
                plan.numbers[place] = outside(rng, bound, largest);
            }
        }
    }
}

fn spoil_question(rng: &mut Rng, terms: &Terms, largest: usize, question: &mut Question) {
    match rng.below(4) {
        0 => question.entry = outside(rng, terms.entries.len(), largest),
        1 => question.entry = rng.below(terms.entries.len()),
        2 => question.first = outside(rng, terms.members, largest),
        _ => question.second = outside(rng, terms.members, largest),
    }
}
