//! Refusals of plans and questions, each alone and each before those that come
//! after it.

use super::{judge, opened, tell};
use crate::tally::Tally;
use keeper::plan::{Plan, Question, SCRATCH_WORDS};
use keeper::terms::memory::{self, STATE_WORDS, TERMS_WORDS};

type Words = (Vec<u16>, Vec<u64>);

/// So many members and events, all free. Entry 1 has variable 0 free, entry 2
/// variable 1, entry 3 both, and entry 4 is entry 2 bound.
fn words(members: usize, events: usize) -> Words {
    let policies: String = (0..events).map(|event| format!("P {event} 0/")).collect();
    let record = opened(&format!(
        "M {members}/L 0 {events}/F 0 top 0 0/F 1 var 0 0/F 2 var 1 0/F 3 or 1 2/F 4 bind 1 2/\
         {policies}"
    ));
    (memory::terms_words(record.terms()), record.state_words())
}

/// What may be wrong, in the order of the refusals.
#[derive(Clone, Copy, Debug, PartialEq, PartialOrd)]
enum Wrong {
    ShortTerms,
    ShortState,
    ShortScratch,
    Terms,
    State,
    Members,
    Events,
    Length(usize),
    OnePlayer,
    Goal(usize),
    Planner,
    Rival,
    First,
    Second,
    Event(usize),
    Target(usize),
}

use Wrong::*;

impl Wrong {
    fn number(self) -> u16 {
        match self {
            ShortTerms | ShortState | ShortScratch => 6,
            Terms => 7,
            State => 8,
            Members | Events | Length(_) | OnePlayer | Goal(_) => 14,
            Planner | Rival | First | Second | Event(_) | Target(_) => 9,
        }
    }

    /// Makes it so. Members and events are those of the words from the start.
    fn put(self, (terms, state): &mut Words, plan: &mut Plan) {
        match self {
            ShortTerms => terms.truncate(TERMS_WORDS - 1),
            ShortState => state.truncate(STATE_WORDS - 1),
            ShortScratch => plan.scratch_words = SCRATCH_WORDS - 1,
            Terms => terms[3] = 0,
            // There is no relation.
            State => state[0] = 1,
            Members | Events => {}
            Length(count) => plan.numbers.resize(count, 0),
            OnePlayer => plan.rival = plan.planner,
            Goal(entry) => plan.goal.entry = entry,
            Planner => plan.planner = 64,
            Rival => plan.rival = 9,
            First => plan.goal.first = 9,
            Second => plan.goal.second = usize::MAX,
            Event(place) => set(plan, 2 * place, 5),
            Target(place) => set(plan, 2 * place + 1, 9),
        }
    }
}

/// Puts a number into a plan that is long enough for it.
fn set(plan: &mut Plan, place: usize, number: usize) {
    if let Some(old) = plan.numbers.get_mut(place) {
        *old = number;
    }
}

const ALL: [Wrong; 28] = [
    ShortTerms,
    ShortState,
    ShortScratch,
    Terms,
    State,
    Members,
    Events,
    Length(0),
    Length(1),
    Length(3),
    Length(5),
    Length(7),
    Length(8),
    OnePlayer,
    Goal(2),
    Goal(3),
    Goal(5),
    Goal(usize::MAX),
    Planner,
    Rival,
    First,
    Second,
    Event(0),
    Event(1),
    Event(2),
    Target(0),
    Target(1),
    Target(2),
];

/// A plan with these things wrong, and what it is judged over.
fn spoiled(wrong: &[Wrong]) -> (Words, Plan) {
    let members = if wrong.contains(&Members) { 9 } else { 8 };
    let events = if wrong.contains(&Events) { 5 } else { 4 };
    let goal = Question { entry: 0, first: 7, second: 0 };
    let mut plan = Plan {
        numbers: vec![3, 7, 0, 0, 3, 7],
        planner: 7,
        rival: 0,
        goal,
        scratch_words: SCRATCH_WORDS,
    };
    let mut words = words(members, events);
    // Players become one after either was changed.
    let (last, others): (Vec<Wrong>, Vec<Wrong>) = wrong.iter().partition(|&&w| w == OnePlayer);
    others.iter().chain(&last).for_each(|wrong| wrong.put(&mut words, &mut plan));
    (words, plan)
}

pub fn all(tally: &mut Tally) -> Result<(), String> {
    check(&[], "yes", tally)?;
    for wrong in ALL {
        check(&[wrong], &wrong.number().to_string(), tally)?;
    }
    for (index, first) in ALL.into_iter().enumerate() {
        for &later in &ALL[index + 1..] {
            // Nine members or five events make more numbers good.
            if first.number() != later.number() {
                check(&[first, later], &first.number().to_string(), tally)?;
            }
        }
    }
    lengths(tally)?;
    questions(tally)
}

fn check(wrong: &[Wrong], wanted: &str, tally: &mut Tally) -> Result<(), String> {
    let ((terms, state), plan) = spoiled(wrong);
    let label = |difference| format!("plan with {wrong:?}: {difference}");
    judge(&plan, &terms, &state, wanted, tally).map_err(label)
}

/// Scratch and plans of all lengths that are near, and the largest games.
fn lengths(tally: &mut Tally) -> Result<(), String> {
    let ((terms, state), plan) = spoiled(&[]);
    for (scratch_words, wanted) in
        [(0, "6"), (64, "6"), (9_282, "6"), (9_283, "yes"), (9_300, "yes")]
    {
        judge(&Plan { scratch_words, ..plan.clone() }, &terms, &state, wanted, tally)?;
    }
    for count in 0..12 {
        let numbers = vec![0; count];
        let wanted = if [2, 4, 6].contains(&count) { "yes" } else { "14" };
        judge(&Plan { numbers, ..plan.clone() }, &terms, &state, wanted, tally)?;
    }
    // Variable 0 is another, so that no move will do.
    let goal = Question { entry: 1, first: 7, second: 0 };
    judge(&Plan { goal, ..plan.clone() }, &terms, &state, "no", tally)?;
    for (members, events, wanted) in
        [(2, 1, "yes"), (8, 1, "yes"), (9, 1, "14"), (64, 16, "14"), (2, 5, "14"), (1, 1, "9")]
    {
        let (terms, state) = words(members, events);
        let goal = Question { entry: 0, first: 0, second: 0 };
        let plan = Plan { numbers: vec![0, 0], planner: 0, rival: 1, goal, ..plan.clone() };
        judge(&plan, &terms, &state, wanted, tally)?;
    }
    Ok(())
}

/// The same of questions, which any number of members and events may be asked.
fn questions(tally: &mut Tally) -> Result<(), String> {
    let of_questions = |wrong: &Wrong| match wrong {
        ShortTerms | ShortState | Terms | State | First | Second | Goal(_) => true,
        Members | Events | ShortScratch | Length(_) | OnePlayer => false,
        Planner | Rival | Event(_) | Target(_) => false,
    };
    let all: Vec<Wrong> = ALL.into_iter().filter(of_questions).collect();
    for (index, &first) in all.iter().enumerate() {
        for &later in &all[index..] {
            let ((terms, state), plan) = spoiled(&[first, later]);
            let label = |wrong| format!("question with {first:?}, {later:?}: {wrong}");
            let wanted = first.number().to_string();
            tell(&plan.goal, &terms, &state, &wanted, tally).map_err(label)?;
        }
    }
    let (terms, state) = words(64, 16);
    tell(&Question { entry: 1, first: 63, second: 63 }, &terms, &state, "yes", tally)?;
    tell(&Question { entry: 4, first: 63, second: 0 }, &terms, &state, "yes", tally)?;
    tell(&Question { entry: 1, first: 63, second: 64 }, &terms, &state, "9", tally)
}
