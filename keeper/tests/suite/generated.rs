//! What the generator reaches with sound cases.

use crate::help::{accepted, opened};
use keeper::generate;
use keeper::record::Answer;
use keeper::terms::{normal, Entry, Terms};

/// Whether the entries below one hold the given kind.
fn below(terms: &Terms, entry: usize, wanted: impl Fn(Entry) -> bool + Copy) -> bool {
    let operands = terms.entries[entry].operands();
    operands.iter().any(|&f| wanted(terms.entries[f]) || below(terms, f, wanted))
}

fn past_in_past(terms: &Terms) -> bool {
    terms.past().iter().any(|&entry| below(terms, entry, Entry::is_past))
}

fn bound_again(terms: &Terms) -> bool {
    (0..terms.entries.len()).any(|entry| match terms.entries[entry] {
        Entry::Bind(x, _) => {
            below(terms, entry, |inner| matches!(inner, Entry::Bind(y, _) if x == y))
        }
        _ => false,
    })
}

#[test]
fn equal_seeds_give_equal_cases() {
    for seed in [0, 1, 77, u64::MAX] {
        assert_eq!(generate::case(seed, 99_999), generate::case(seed, 99_999));
        assert_eq!(generate::damaged_text(seed), generate::damaged_text(seed));
        assert_eq!(generate::damaged_memory(seed), generate::damaged_memory(seed));
        assert_eq!(generate::drawn_memory(seed), generate::drawn_memory(seed));
    }
}

#[test]
fn every_feature_is_reached() {
    let mut operators = [0; 12];
    let (mut no_relation, mut self_edge, mut nested, mut again) = (0, 0, 0, 0);
    let (mut most_members, mut most_entries, mut most_tables, mut full_effects) = (0, 0, 0, 0);
    let (mut two_free, mut small, mut kept, mut tried) = (0, 0, 0, 0);
    for seed in 0..2_000 {
        let terms = accepted(&generate::case(seed, 99_999).text);
        terms.entries.iter().for_each(|entry| operators[entry.parts().0] += 1);
        no_relation += usize::from(terms.relations == 0);
        self_edge += usize::from(terms.edges.iter().any(|(_, from, to)| from == to));
        full_effects += usize::from(terms.effects.iter().any(|effects| effects.len() == 4));
        two_free += usize::from(terms.free().iter().any(|free| free.count_ones() > 1));
        small += usize::from(terms.members <= 8);
        kept += usize::from(!terms.kept.is_empty());
        let first = terms.relations + terms.events;
        tried += usize::from(terms.entries.iter().any(|entry| match *entry {
            Entry::Out(l, _) | Entry::In(l, _) | Entry::Many(l, _, _) => l >= first,
            _ => false,
        }));
        most_members = most_members.max(terms.members);
        most_entries = most_entries.max(terms.entries.len());
        most_tables = most_tables.max(terms.past().len());
        if terms.entries.len() <= 24 {
            nested += usize::from(past_in_past(&terms));
            again += usize::from(bound_again(&terms));
        }
    }
    println!("{operators:?} {no_relation} {self_edge} {nested} {again} {full_effects} {two_free}");
    assert!(operators.iter().all(|&count| count > 200), "{operators:?}");
    for count in [no_relation, self_edge, nested, again, full_effects, two_free, kept, tried] {
        assert!(count > 50, "{count}");
    }
    assert!(small > 1_500);
    assert_eq!([most_members, most_entries, most_tables], [64, 256, 32]);
}

#[test]
fn some_texts_are_padded() {
    let (mut padded, mut fives) = (0, 0);
    for seed in 0..1_200 {
        let text = generate::case(seed, 99_999).text;
        let plain = normal(&text);
        assert_eq!(accepted(&plain), accepted(&text), "seed {seed}");
        assert_eq!(normal(&plain), plain, "seed {seed}");
        padded += usize::from(plain != text);
        fives += usize::from(text.windows(6).any(|part| part == b"\t00000"));
    }
    println!("{padded} padded, {fives} with five zeros");
    assert!((120..300).contains(&padded), "{padded}");
    assert!(fives > 20, "{fives}");
}

#[test]
fn calls_are_mixed() {
    let (mut grants, mut denies, mut looks, mut moments, mut kept) = (0, 0, 0, 0, 0);
    let mut refusals = [0; 10];
    for seed in 0..600 {
        let case = generate::case(seed, 99_999);
        let mut record = opened(&case.text);
        for call in case.calls() {
            let before = record.graphs().len();
            looks += usize::from(call.look);
            match record.answer(call) {
                Answer::Grant => grants += 1,
                Answer::Deny => {
                    denies += 1;
                    kept += record.graphs().len() - before;
                }
                Answer::Refused(refusal) => refusals[usize::from(refusal.number)] += 1,
            }
        }
        moments = moments.max(record.graphs().len());
    }
    println!("{grants} grants, {denies} denies, {kept} kept, {looks} looks, {refusals:?}");
    assert!(grants > 1_000 && denies > 1_000 && kept > 400 && looks > 500 && moments > 15);
    assert!(refusals[6] > 100 && refusals[9] > 100);
}

#[test]
fn numbers_stay_within_the_largest() {
    for seed in 0..300 {
        let case = generate::case(seed, 300);
        assert!(case.calls().all(|call| call.event.max(call.from).max(call.to) <= 300));
    }
}
