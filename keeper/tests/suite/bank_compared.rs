//! The comparison of two banks accepts a faithful implementation and catches
//! impostors, and its cases reach what they should.

use crate::bank_mirror::{Fault, Mirror};
use keeper::banks::lent::Lent;
use keeper::banks::step::{Deed, Harm, Outcome, Step};
use keeper::banks::Banks;
use keeper::compare::banks as compare;
use keeper::generate::{self, Case, Rng};
use keeper::record::Answer;
use keeper::shrink::shrink;
use keeper::terms;

fn case(seed: u64) -> Case<Step> {
    generate::banks::case(seed, 99_999)
}

fn case_differs(fault: Fault, case: &Case<Step>) -> Option<String> {
    compare::case(&mut Mirror { fault }, case).err()
}

/// Steps from states that are drawn.
fn drawn_differs(fault: Fault, seed: u64) -> Option<String> {
    let (banks, steps) = generate::banks::drawn(seed, 99_999);
    let mut rng = Rng::new(seed);
    let mut lent = Lent::noise(&mut rng);
    lent.put(&banks.words());
    compare::steps(&mut Mirror { fault }, &steps, banks, lent, &mut rng).err()
}

/// Cases without those that take long.
fn small(seeds: std::ops::Range<u64>) -> impl Iterator<Item = Case<Step>> {
    seeds.map(case).filter(|case| case.text.len() < 1_500)
}

#[test]
fn a_faithful_one_passes() {
    for case in small(0..250) {
        assert_eq!(case_differs(Fault::None, &case), None, "{case}");
    }
    for seed in 0..250 {
        assert_eq!(drawn_differs(Fault::None, seed), None, "seed {seed}");
    }
}

#[test]
fn impostors_are_caught() {
    let cases: Vec<Case<Step>> = small(0..300).collect();
    for &fault in Fault::ALL {
        let in_cases = cases.iter().filter(|case| case_differs(fault, case).is_some()).count();
        let drawn = (0..400).filter(|&seed| drawn_differs(fault, seed).is_some()).count();
        println!("{fault:?}: {in_cases} of {} cases, {drawn} of 400 drawn", cases.len());
        let enough = in_cases > 3 && (drawn > 3 || fault == Fault::StoredIsRead);
        assert!(enough, "{fault:?}: {in_cases}, {drawn}");
    }
}

#[test]
fn a_difference_shrinks() {
    let fault = Fault::EventLivesOn;
    let case = small(0..400).find(|case| case_differs(fault, case).is_some()).unwrap();
    let with = |text: &[u8], steps: &[Step]| Case {
        seed: case.seed,
        text: text.to_vec(),
        steps: steps.to_vec(),
    };
    let fails = |text: &[u8], steps: &[Step]| case_differs(fault, &with(text, steps)).is_some();
    let (text, steps) = shrink(&case.text, &case.steps, fails);
    assert!(fails(&text, &steps));
    // A moment of one bank, and then one of the other.
    let lines = text.iter().filter(|&&byte| byte == b'\n').count();
    assert!(steps.len() == 2 && lines <= 5, "{}", with(&text, &steps));
    assert!(steps.iter().all(|step| step.harms.is_empty()), "{}", with(&text, &steps));
}

#[test]
fn equal_seeds_give_equal_cases() {
    for seed in [0, 1, 77, u64::MAX] {
        assert_eq!(case(seed), case(seed));
        let [one, two] = [(); 2].map(|()| generate::banks::drawn(seed, 99_999));
        assert_eq!((one.0.words(), one.1), (two.0.words(), two.1));
    }
}

#[test]
fn steps_are_mixed() {
    let (mut calls, mut lists, mut revised, mut harmed) = ([0; 2], 0, 0, [0; 4]);
    let (mut grants, mut kept, mut others_event, mut stored) = (0, 0, 0, 0);
    for case in (0..1_000).map(case) {
        let Ok(terms) = terms::read_old(&case.text) else {
            stored += 1;
            continue;
        };
        let mut banks = Banks::new(terms);
        for Step { deed, harms } in &case.steps {
            for harm in harms {
                harmed[match harm {
                    Harm::Short(_, _) => 0,
                    Harm::Terms(_, _) => 1,
                    Harm::State(bank, _) => 2 + bank,
                    Harm::Word(_, _, _) => unreachable!("no case has it"),
                }] += 1;
            }
            let moments = banks.moments();
            let last = [0, 1].map(|bank| banks.record(bank).last().event);
            let outcome = banks.take(deed);
            let is_moment = banks.moments() > moments;
            match deed {
                Deed::Call(bank, _) => {
                    calls[*bank] += 1;
                    grants += usize::from(outcome == Outcome::Answered(Answer::Grant));
                    kept += usize::from(outcome == Outcome::Answered(Answer::Deny) && is_moment);
                    others_event += usize::from(is_moment && last[1 - bank].is_some());
                }
                Deed::List(_, _) => lists += 1,
                Deed::Revision(_) => revised += usize::from(outcome == Outcome::Revised(Ok(()))),
            }
        }
    }
    println!("{calls:?} calls, {lists} lists, {revised} revised, harmed {harmed:?}");
    println!("{grants} grants, {kept} kept, {others_event} end an event edge, {stored} stored");
    assert!(calls.iter().all(|&count| count > 2_000) && lists > 500 && revised > 300);
    assert!(harmed.iter().all(|&count| count > 150) && stored > 5);
    assert!(grants > 2_000 && kept > 300 && others_event > 700);
}
