//! The comparison of plans and questions accepts a faithful implementation and
//! catches impostors, and its cases reach what they should.

use crate::help::{any_memory, opened, slashes};
use crate::plan_mirror::{Fault, Mirror};
use keeper::compare::plans as compare;
use keeper::expect;
use keeper::generate::plans as generate;
use keeper::generate::{Case, Rng};
use keeper::plan::turn::Turn;
use keeper::plan::{Plan, Question, SCRATCH_WORDS};
use keeper::shrink::shrink;
use keeper::terms::memory;
use std::collections::BTreeMap;

fn case_differs(fault: Fault, case: &Case<Turn>) -> Option<String> {
    compare::case(&mut Mirror::new(fault), case).err()
}

/// Cases without those that take long.
fn small(seeds: std::ops::Range<u64>) -> Vec<Case<Turn>> {
    let cases = seeds.map(|seed| generate::case(seed, 99_999));
    cases.filter(|case| case.text.len() < 1_500).collect()
}

/// A plan and a question over memory that was damaged, or whose tables are drawn.
fn memory_differs(fault: Fault, seed: u64) -> Option<String> {
    let (terms, state) = any_memory(seed);
    let (plan, question) = generate::of_words(&mut Rng::new(!seed), &terms, 99_999);
    let mut other = Mirror::new(fault);
    let judged = compare::plan(&mut other, &plan, &terms, &state);
    judged.and_then(|()| compare::tell(&mut other, &question, &terms, &state)).err()
}

#[test]
fn a_faithful_one_passes() {
    for case in small(0..250) {
        assert_eq!(case_differs(Fault::None, &case), None, "{case}");
    }
    for seed in 0..300 {
        assert_eq!(memory_differs(Fault::None, seed), None, "seed {seed}");
    }
}

#[test]
fn impostors_are_caught() {
    let cases = small(0..400);
    let rare = [Fault::OneMoveForAll, Fault::LongIsPlayed];
    for fault in Fault::ALL.iter().copied().filter(|fault| !rare.contains(fault)) {
        let caught = cases.iter().filter(|case| case_differs(fault, case).is_some()).count();
        println!("{fault:?}: {caught} of {}", cases.len());
        assert!(caught > 2, "{fault:?}: {caught}");
    }
}

/// Two that cases seldom catch: an event one moment ago or four moments ago, which
/// is at the second move or at the third; and a plan of four moves.
#[test]
fn rare_impostors_are_caught() {
    let text = slashes(
        "M 2/L 0 1/F 0 top 0 0/F 1 out 0 0/F 2 prev 1 0/F 3 prev 2 0/F 4 prev 3 0/F 5 prev 4 0/\
         F 6 or 2 5/P 0 0",
    );
    for (fault, moves) in [(Fault::OneMoveForAll, 3), (Fault::LongIsPlayed, 4)] {
        let goal = Question { entry: 6, first: 0, second: 0 };
        let numbers = [0, 1].repeat(moves);
        let plan = Plan { numbers, planner: 0, rival: 1, goal, scratch_words: SCRATCH_WORDS };
        let case = Case { seed: 1, text: text.clone(), steps: vec![Turn::Plan(plan)] };
        assert_eq!(case_differs(Fault::None, &case), None);
        assert!(case_differs(fault, &case).is_some(), "{fault:?}");
    }
}

#[test]
fn every_outcome_comes_up() {
    let mut seen: BTreeMap<String, usize> = BTreeMap::new();
    for case in small(0..400) {
        let mut record = opened(&case.text);
        for turn in &case.steps {
            turn.take(&mut record);
            let outcome = match turn {
                Turn::Plan(plan) => match record.judge(plan) {
                    Ok(verdict) => format!("{verdict} {:?}", record.unopposed(plan)),
                    Err(refusal) => format!("refuse {}", refusal.number),
                },
                Turn::Tell(question) => format!("tell {:?}", record.tell(question)),
                Turn::Step(_) | Turn::List(_) => continue,
            };
            *seen.entry(outcome).or_default() += 1;
        }
    }
    println!("{seen:#?}");
    let plans = ["true Some(0)", "true Some(1)", "true Some(2)", "false Some(1)", "false None"];
    let refusals = ["refuse 6", "refuse 9", "refuse 14", "tell Ok(true)", "tell Ok(false)"];
    for outcome in plans.into_iter().chain(refusals) {
        assert!(seen.get(outcome).is_some_and(|&count| count > 10), "{outcome}");
    }
}

#[test]
fn over_tables_alone_the_verdicts_are_the_records() {
    let mut verdicts = 0;
    for case in small(400..600) {
        let mut record = opened(&case.text);
        for turn in &case.steps {
            turn.take(&mut record);
            let (terms, state) = (memory::terms_words(record.terms()), record.state_words());
            match turn {
                Turn::Plan(plan) => {
                    let verdict = record.judge(plan);
                    assert_eq!(expect::planning(&terms, &state, plan), verdict, "{case}");
                    verdicts += usize::from(verdict.is_ok());
                }
                Turn::Tell(question) => {
                    let told = record.tell(question);
                    assert_eq!(expect::telling(&terms, &state, question), told, "{case}");
                }
                Turn::Step(_) | Turn::List(_) => {}
            }
        }
    }
    assert!(verdicts > 200, "{verdicts}");
}

#[test]
fn a_difference_shrinks() {
    let fault = Fault::OnlyPasses;
    let found = small(0..200).into_iter().find(|case| case_differs(fault, case).is_some());
    let case = found.expect("an impostor is caught");
    let fails = |text: &[u8], turns: &[Turn]| {
        let (text, steps) = (text.to_vec(), turns.to_vec());
        case_differs(fault, &Case { seed: case.seed, text, steps }).is_some()
    };
    let (text, steps) = shrink(&case.text, &case.steps, fails);
    assert!(fails(&text, &steps));
    let small = Case { seed: case.seed, text, steps };
    assert!(small.steps.len() <= 3, "{small}");
}
