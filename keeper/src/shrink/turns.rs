//! Plainer turns, plans and questions among them.

use super::plainer::Shrinks;
use super::smaller::Less;
use crate::plan::turn::Turn;
use crate::plan::{Plan, Question, SCRATCH_WORDS};

impl Shrinks for Turn {
    fn plainer(&self) -> Vec<Turn> {
        match self {
            Turn::Step(step) => step.plainer().into_iter().map(Turn::Step).collect(),
            Turn::List(items) => {
                let without = |place| [&items[..place], &items[place + 1..]].concat();
                (0..items.len()).map(|place| Turn::List(without(place))).collect()
            }
            Turn::Plan(plan) => plainer_plans(plan).into_iter().map(Turn::Plan).collect(),
            Turn::Tell(question) => plainer_questions(question).map(Turn::Tell).to_vec(),
        }
    }

    fn with_less(&self, less: Less) -> Turn {
        match self {
            Turn::Step(step) => Turn::Step(step.with_less(less)),
            turn => turn.clone(),
        }
    }
}

/// Plans without one of the moves, and those with a number less.
fn plainer_plans(plan: &Plan) -> Vec<Plan> {
    let with = |numbers: Vec<usize>| Plan { numbers, ..plan.clone() };
    let without = |place: usize| {
        let end = (place + 2).min(plan.numbers.len());
        with([&plan.numbers[..place], &plan.numbers[end..]].concat())
    };
    let nought = |place: usize| {
        let mut numbers = plan.numbers.clone();
        numbers[place] = 0;
        with(numbers)
    };
    let count = plan.numbers.len();
    let mut all: Vec<Plan> = (0..count).step_by(2).map(without).collect();
    all.extend((0..count).map(nought));
    all.extend(plainer_questions(&plan.goal).map(|goal| Plan { goal, ..plan.clone() }));
    all.push(Plan { planner: 0, ..plan.clone() });
    all.push(Plan { rival: 0, ..plan.clone() });
    all.push(Plan { scratch_words: SCRATCH_WORDS, ..plan.clone() });
    all
}

fn plainer_questions(question: &Question) -> [Question; 4] {
    [
        Question { entry: 0, ..*question },
        Question { entry: question.entry.saturating_sub(1), ..*question },
        Question { first: 0, ..*question },
        Question { second: 0, ..*question },
    ]
}
