//! All small formulas are read aloud, and those that sound alike are the same
//! but for the laws by which clauses are made.

use crate::alike::in_order;
use cuckooormolu_tool::aloud::form::Forms;
use cuckooormolu_tool::aloud::{resolve, Aloud};
use cuckooormolu_tool::names::{Kind, Names};
use keeper::terms::{read, write, Entry, Terms};
use std::collections::HashMap;

/// A formula as the list of its entries; the last one is the whole.
type Formula = Vec<Entry>;

const MEMBERS: usize = 2;
const RELATIONS: usize = 1;
const EVENTS: usize = 1;

fn leaves() -> Vec<Formula> {
    vec![vec![Entry::Top], vec![Entry::Var(0)], vec![Entry::Var(1)]]
}

fn unary(formula: &Formula) -> Vec<Formula> {
    let f = formula.len() - 1;
    let above = [
        Entry::Not(f),
        Entry::Out(0, f),
        Entry::In(0, f),
        Entry::Out(1, f),
        Entry::In(1, f),
        Entry::Many(0, f, 1),
        Entry::Many(0, f, 2),
        Entry::Many(1, f, 1),
        Entry::Prev(f),
        Entry::Bind(1, f),
        Entry::At(0, f),
        Entry::At(1, f),
    ];
    above.iter().map(|&entry| [&formula[..], &[entry]].concat()).collect()
}

fn binary(one: &Formula, other: &Formula) -> Vec<Formula> {
    let first = one.len() - 1;
    let moved = other.iter().map(|entry| entry.with_operands(|f| f + one.len()));
    let both: Formula = one.iter().copied().chain(moved).collect();
    let second = both.len() - 1;
    let above =
        [Entry::Or(first, second), Entry::Since(first, second), Entry::Reach(2, first, second)];
    above.iter().map(|&entry| [&both[..], &[entry]].concat()).collect()
}

/// A formula with variable 1 for the initiator as the one policy, if it is
/// accepted.
fn policy(formula: &Formula) -> Option<Terms> {
    let whole = formula.len() - 1;
    let entries = [&formula[..], &[Entry::Bind(1, whole)]].concat();
    let terms = Terms {
        members: MEMBERS,
        relations: RELATIONS,
        events: EVENTS,
        policies: vec![entries.len() - 1],
        entries,
        effects: vec![Vec::new()],
        ..Terms::default()
    };
    read(&write(&terms, &terms.edges)).ok().map(|file| file.terms)
}

#[test]
fn small_formulas_that_sound_alike_are_the_same() {
    let leaves = leaves();
    let mut first = leaves.clone();
    first.extend(leaves.iter().flat_map(unary));
    for one in &leaves {
        first.extend(leaves.iter().flat_map(|other| binary(one, other)));
    }
    let mut second = first.clone();
    second.extend(first.iter().flat_map(unary));
    for one in &first {
        second.extend(first.iter().flat_map(|other| binary(one, other)));
    }
    let third = second.iter().flat_map(unary).step_by(3);
    let all = second.iter().cloned().chain(third);

    for (relation, event) in [("own", "share"), ("friend", "join"), ("member-of", "album")] {
        let mut names = Names::default();
        names.set(Kind::Relation, 0, relation).unwrap();
        names.set(Kind::Event, 0, event).unwrap();
        sound_different(all.clone(), &names);
    }
}

fn sound_different(all: impl Iterator<Item = Formula>, names: &Names) {
    let mut said: HashMap<String, String> = HashMap::new();
    for terms in all.filter_map(|formula| policy(&formula)) {
        let clause = resolve::of_policy(&Forms::new(&terms, &Names::default()), terms.policies[0]);
        let aloud = Aloud::of(&terms, names);
        assert!(aloud.clauses.is_empty(), "small formulas have no parts of their own");
        let (sentence, clause) = (aloud.events[0].policy.text(), in_order(&clause, &[]));
        let before = said.entry(sentence.clone()).or_insert_with(|| clause.clone());
        assert_eq!(*before, clause, "{sentence}");
    }
    assert!(said.len() > 5_000, "{}", said.len());
}
