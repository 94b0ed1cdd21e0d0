//! Shrinking keeps a case failing and makes it small.

use crate::help::{accepted, slashes};
use keeper::generate;
use keeper::record::{Answer, Record};
use keeper::shrink::{drop_parts, shrink};
use keeper::step::Step;
use keeper::terms::{self, Entry, Refusal};

#[test]
fn parts_are_dropped() {
    let mut items: Vec<u32> = (0..50).collect();
    assert!(drop_parts(&mut items, |left| left.contains(&7) && left.contains(&31)));
    assert_eq!(items, [7, 31]);
}

/// Whether a step changes something: a call that is granted, or new terms or other
/// numbers that are not refused.
fn succeeds(step: &Step, record: &mut Record) -> bool {
    match step {
        Step::Call(call) => record.answer(call) == Answer::Grant,
        Step::Revision(revision) => revision.answer(record).is_ok(),
        Step::Renumbering(renumbering) => renumbering.answer(record).is_ok(),
    }
}

#[test]
fn accepted_texts_get_small_and_stay_accepted() {
    let since = |text: &[u8], steps: &[Step]| {
        let Ok(file) = terms::read(text) else { return false };
        let entries = &file.terms.entries;
        let has_since = entries.iter().any(|entry| matches!(entry, Entry::Since(_, _)));
        let mut record = Record::of(file);
        has_since
            && steps.iter().any(|step| succeeds(step, &mut record) && matches!(step, Step::Call(_)))
    };
    let mut shrunk = 0;
    for seed in 0..60 {
        let case = generate::case(seed, 99_999);
        if since(&case.text, &case.steps) && accepted(&case.text).members <= 8 {
            let (text, steps) = shrink(&case.text, &case.steps, since);
            assert!(since(&text, &steps));
            assert_eq!(steps.len(), 1);
            let terms = accepted(&text);
            assert!(terms.entries.len() <= 3, "seed {seed}: {}", text.escape_ascii());
            assert!(terms.edges.is_empty() && terms.events == 1);
            shrunk += 1;
        }
    }
    assert!(shrunk > 10);
}

#[test]
fn refused_texts_lose_lines() {
    let refused =
        |text: &[u8], _: &[Step]| terms::read(text).is_err_and(|refusal| refusal.number == 3);
    let seed = (0..).find(|&seed| refused(&generate::damaged_text(seed), &[])).unwrap();
    let (text, _) = shrink(&generate::damaged_text(seed), &[], refused);
    // Nothing stands after the faulty line.
    let lines = text.iter().filter(|&&byte| byte == b'\n').count();
    assert_eq!(terms::read(&text), Err(Refusal { number: 3, line: lines }));
}

#[test]
fn stored_files_lose_lines_and_stay_accepted() {
    let passed = |text: &[u8], _: &[Step]| {
        let past = terms::read(text).ok().and_then(|file| file.past);
        past.is_some_and(|past| {
            past.event.is_some() && past.tables.iter().any(|table| !table.is_empty())
        })
    };
    let cases = (0..400).map(|seed| generate::case(seed, 99_999));
    let mut shrunk = 0;
    for case in cases.filter(|case| case.text.len() < 2_000 && passed(&case.text, &[])) {
        let (text, _) = shrink(&case.text, &[], passed);
        assert!(passed(&text, &[]));
        // S, M, L, an entry or two with a policy, one T line and V.
        let lines = text.iter().filter(|&&byte| byte == b'\n').count();
        assert!(lines <= 10, "{}", text.escape_ascii());
        shrunk += 1;
    }
    assert!(shrunk > 10, "{shrunk}");
}

#[test]
fn zeros_that_do_not_count_go() {
    let text = slashes("M 004/L 00 1/F 0 top 00 0/P 0 00");
    let first = |text: &[u8], _: &[Step]| text.windows(3).any(|part| part == b"L\t0");
    let (small, _) = shrink(&text, &[], first);
    assert_eq!(small, b"L\t0\t1\n");
    let padded = |text: &[u8], _: &[Step]| terms::normal(text) != text;
    let (small, _) = shrink(&text, &[], padded);
    assert_eq!(small.iter().filter(|&&byte| byte == b'\n').count(), 1);
}

#[test]
fn new_terms_that_do_not_count_go() {
    // A grant under terms that a revision brought in, with a prev among them.
    let revised = |text: &[u8], steps: &[Step]| {
        let Ok(file) = terms::read(text) else { return false };
        let mut record = Record::of(file);
        let prev = |entry: &Entry| matches!(entry, Entry::Prev(_));
        let mut is_new = false;
        for step in steps {
            let succeeds = succeeds(step, &mut record);
            match step {
                Step::Revision(_) => is_new |= succeeds,
                Step::Renumbering(_) => {}
                Step::Call(_) => {
                    let has_prev = record.terms().entries.iter().any(prev);
                    if is_new && succeeds && has_prev {
                        return true;
                    }
                }
            }
        }
        false
    };
    let mut shrunk = 0;
    for seed in 0..120 {
        let case = generate::case(seed, 99_999);
        if revised(&case.text, &case.steps) && accepted(&case.text).members <= 4 {
            let (text, steps) = shrink(&case.text, &case.steps, revised);
            let [Step::Revision(revision), Step::Call(_)] = &steps[..] else {
                panic!("seed {seed}: {steps:?}");
            };
            let (old, new) = (accepted(&text), revision.said().unwrap());
            assert!(old.is_same_size(&new), "seed {seed}");
            let small = new.members == 1 && new.relations == 0;
            assert!(small && new.entries.len() <= 3, "seed {seed}: {new:?}");
            shrunk += 1;
        }
    }
    assert!(shrunk > 5, "{shrunk}");
}
