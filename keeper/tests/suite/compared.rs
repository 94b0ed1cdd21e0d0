//! The comparison accepts a faithful implementation and catches impostors.

use crate::help::any_memory;
use crate::mirror::{Fault, Mirror};
use keeper::compare;
use keeper::generate::{self, revised, Rng};
use keeper::record::Call;
use keeper::set_list::Item;
use keeper::shrink::shrink;
use keeper::step::Step;

fn differs(fault: Fault, case: &generate::Case) -> bool {
    compare::case(&mut Mirror::new(fault), case).is_err()
}

fn lists_differ(fault: Fault, case: &generate::Case) -> bool {
    compare::lists(&mut Mirror::new(fault), case).is_err()
}

#[test]
fn a_faithful_one_passes() {
    for seed in 0..120 {
        let case = generate::case(seed, 99_999);
        let result = compare::case(&mut Mirror::new(Fault::None), &case);
        assert_eq!(result, Ok(()), "{case}");
        let result = compare::lists(&mut Mirror::new(Fault::None), &case);
        assert_eq!(result, Ok(()), "{case}");
        let text = generate::damaged_text(seed);
        for (terms, state) in [(1_252, 3_073), (1_251, 3_073), (1_252, 3_072), (2_000, 4_000)] {
            let result = compare::read(&mut Mirror::new(Fault::None), &text, terms, state);
            assert_eq!(result, Ok(()), "seed {seed}");
        }
    }
}

#[test]
fn impostors_are_caught() {
    use Fault::*;
    let faults = [
        RefusesAll,
        DeniesAll,
        GrantsAll,
        MovesNoTable,
        MovesTablesOnce,
        KeepsScratch,
        TouchesBeyond,
        LookMakesMoment,
        WritesTooMuch,
        WritesThePast,
        StoresNoEvent,
        StoresOneBitLess,
        LoadsAsFresh,
        ForgetsDenials,
        KeepsAllDenials,
        LookIsKept,
        DenialKeepsScratch,
    ];
    for fault in faults {
        let caught = (0..60).filter(|&seed| differs(fault, &generate::case(seed, 99_999))).count();
        assert!(caught > 3, "{fault:?}: {caught}");
    }
    for fault in [VariablesSwapped, StoresThemSwapped] {
        let caught = (0..90).filter(|&seed| differs(fault, &generate::case(seed, 99_999))).count();
        assert!(caught > 3, "{fault:?}: {caught}");
    }
    let named = |seed| {
        let text = generate::damaged_text(seed);
        compare::read(&mut Mirror::new(FixedLine), &text, 1_252, 3_073).is_err()
    };
    assert!((0..60).filter(|&seed| named(seed)).count() > 20);
}

#[test]
fn impostors_are_caught_by_revisions() {
    use Fault::*;
    let cases: Vec<_> = (0..120).map(|seed| generate::case(seed, 99_999)).collect();
    let is_new = |step: &Step| matches!(step, Step::Revision(_));
    let revised = |case: &&generate::Case| case.steps.iter().any(is_new);
    let cases: Vec<_> = cases.iter().filter(revised).collect();
    let faults = [
        SinceStartsEmpty,
        TablesByNumber,
        EventLeftBehind,
        RevisesAnySize,
        WritesRefusedSecond,
        StaysWithOldTerms,
    ];
    for fault in faults {
        let caught = cases.iter().filter(|case| differs(fault, case)).count();
        println!("{fault:?}: {caught} of {}", cases.len());
        assert!(caught > 3, "{fault:?}: {caught}");
    }
}

#[test]
fn impostors_are_caught_by_set_lists() {
    use Fault::*;
    let faults = [
        DeniesAll,
        GrantsAll,
        MovesNoTable,
        KeepsScratch,
        TouchesBeyond,
        AnswersLate,
        StopsAtRefusal,
        CountsRefusals,
        KeepsDenials,
        WritesUnchecked,
        ForgetsDenials,
        KeepsAllDenials,
        DenialKeepsScratch,
    ];
    for fault in faults {
        let cases = (0..90).map(|seed| generate::case(seed, 99_999));
        let caught = cases.filter(|case| lists_differ(fault, case)).count();
        assert!(caught > 3, "{fault:?}: {caught}");
    }
}

#[test]
fn a_difference_shrinks() {
    let fault = Fault::MovesTablesOnce;
    let found = (0..).map(|seed| generate::case(seed, 99_999)).find(|case| differs(fault, case));
    let case = found.unwrap();
    let fails = |text: &[u8], steps: &[Step]| {
        let (text, steps) = (text.to_vec(), steps.to_vec());
        differs(fault, &generate::Case { seed: case.seed, text, steps })
    };
    let (text, steps) = shrink(&case.text, &case.steps, fails);
    assert!(fails(&text, &steps));
    assert!(steps.len() <= 3, "{}", generate::Case { seed: case.seed, text, steps });
}

#[test]
fn damaged_memory_is_compared() {
    for seed in 0..150 {
        let (terms, state) = generate::damaged_memory(seed);
        for call in [Call::request(0, 0, 0), Call::look(0, 0, 0), Call::request(9, 0, 0)] {
            let other = &mut Mirror::new(Fault::None);
            assert_eq!(compare::call(other, &call, &terms, &state), Ok(()), "seed {seed}");
        }
        let other = &mut Mirror::new(Fault::None);
        assert_eq!(compare::write(other, &terms, &state), Ok(()), "seed {seed}");
        let items = [(0, 0, 0), (9, 0, 0), (0, u32::MAX, 0)];
        let items = items.map(|(event, from, to)| Item { event, from, to, answer: 7 });
        for (length, scratch) in [(3, 64), (3, 63), (0, 66), (0, 9)] {
            let other = &mut Mirror::new(Fault::None);
            let result = compare::set_list(other, &items[..length], scratch, &terms, &state);
            assert_eq!(result, Ok(()), "seed {seed}");
        }
    }
}

#[test]
fn set_lists_over_damaged_memory_are_compared() {
    let caught = |fault| {
        let differs = |seed: &u64| {
            let (terms, state) = generate::damaged_memory(*seed);
            let item = Item { event: 0, from: 0, to: 0, answer: 7 };
            let other = &mut Mirror::new(fault);
            let length = (*seed % 2) as usize;
            compare::set_list(other, &[item][..length], 64, &terms, &state).is_err()
        };
        (0..150).filter(differs).count()
    };
    assert_eq!(caught(Fault::None), 0);
    assert!(caught(Fault::WritesUnchecked) > 10 && caught(Fault::TrustsEmptyLists) > 10);
}

/// Revisions of memory after some calls, sound or damaged, and of states that
/// are true of no record.
fn revision_differs(fault: Fault, seed: u64) -> bool {
    let mut rng = Rng::new(seed);
    let (terms, state) = any_memory(seed);
    let revision = revised::of_words(&mut rng, &terms);
    compare::revise(&mut Mirror::new(fault), &revision, &terms, &state).is_err()
}

#[test]
fn revisions_of_any_memory_are_compared() {
    use Fault::*;
    let caught = |fault| (0..600).filter(|&seed| revision_differs(fault, seed)).count();
    assert_eq!(caught(None), 0);
    let faults = [
        SinceStartsEmpty,
        TakesLast,
        TablesByNumber,
        EventLeftBehind,
        RevisesAnySize,
        WritesRefusedSecond,
        TouchesBeyond,
    ];
    for fault in faults {
        let count = caught(fault);
        println!("{fault:?}: {count}");
        assert!(count > 3, "{fault:?}: {count}");
    }
}
