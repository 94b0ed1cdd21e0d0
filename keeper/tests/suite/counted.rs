//! At least so many neighbours: the sentence on `many`, and its laws.

use crate::help::*;
use keeper::generate;
use keeper::record::meaning::Assigned;
use keeper::record::Answer::{Deny, Grant};
use keeper::record::Record;
use keeper::terms::memory::pairs;
use keeper::terms::{Entry, Terms};

/// Member 0 has friends 1, 2 and 3 and is its own friend; 4 has friend 0.
fn friends(policy: &str) -> Record {
    let edges = "G 0 0 0/G 0 0 1/G 0 0 2/G 0 0 3/G 0 4 0";
    let entries = "F 0 top 0 0/F 1 var 0 0/F 2 not 1 0";
    record(&format!("M 5/L 1 1/{entries}/F 3 {policy}/P 0 3/{edges}"))
}

#[test]
fn different_members_are_counted() {
    for (policy, wanted) in [
        ("many 0 0 1", Grant),
        ("many 0 0 4", Grant),
        ("many 0 0 5", Deny),
        ("many 0 0 64", Deny),
        ("many 0 2 3", Grant),
        ("many 0 2 4", Deny),
        ("many 0 1 1", Grant),
        ("many 0 1 2", Deny),
    ] {
        assert_eq!(look(&mut friends(policy), 0, 0, 1), wanted, "{policy}");
    }
    // Outward only.
    assert_eq!(look(&mut friends("many 0 0 1"), 0, 1, 0), Deny);
    assert_eq!(look(&mut friends("many 0 0 1"), 0, 4, 0), Grant);
    assert_eq!(look(&mut friends("many 0 0 2"), 0, 4, 0), Deny);
}

#[test]
fn an_event_has_one_edge() {
    let text = "M 3/L 0 2/F 0 top 0 0/F 1 many 0 0 1/F 2 many 0 0 2/F 3 since 0 2/P 0 0/P 1 1";
    let mut record = record(text);
    assert_eq!(look(&mut record, 1, 0, 1), Deny);
    request(&mut record, 0, 0, 1);
    assert_eq!(look(&mut record, 1, 0, 2), Grant);
    request(&mut record, 0, 0, 2);
    assert!(record.state().past.tables[0].is_empty());
}

/// The terms with three entries more: a many with its k one less and one more,
/// and an out. None where k is at an end of its range.
fn beside(terms: &Terms, entry: usize) -> Option<(Terms, [usize; 3])> {
    let Entry::Many(l, f, k @ 2..=63) = terms.entries[entry] else { return None };
    let mut terms = terms.clone();
    let first = terms.entries.len();
    let more = [Entry::Many(l, f, k - 1), Entry::Many(l, f, 1), Entry::Out(l, f)];
    terms.entries.extend(more);
    Some((terms, [first, first + 1, first + 2]))
}

#[test]
fn laws() {
    let (mut compared, mut held, mut above) = (0, 0, 0);
    for seed in 0..1_500 {
        let case = generate::case(seed, 99_999);
        let terms = accepted(&case.text);
        let many = (0..terms.entries.len()).find_map(|entry| Some((entry, beside(&terms, entry)?)));
        let Some((entry, (terms, [fewer, one, out]))) = many else { continue };
        let mut record = Record::new(terms);
        for call in case.calls().take(6) {
            record.answer(call);
        }
        let now = record.graphs().len() - 1;
        let members = record.terms().members;
        for (m, b) in pairs(members.min(5)) {
            let assigned = (0..16).fold(Assigned::default(), |all, x| all.with(x, b));
            let holds = |entry| record.holds(entry, now, m, assigned);
            assert!(!holds(entry) || holds(fewer), "seed {seed}");
            assert_eq!(holds(one), holds(out), "seed {seed}");
            let Entry::Many(_, _, k) = record.terms().entries[entry] else { unreachable!() };
            assert!(k <= members || !holds(entry), "seed {seed}");
            compared += 1;
            held += usize::from(holds(entry));
            above += usize::from(k > members);
        }
    }
    println!("{compared} compared, {held} held, {above} above the members");
    assert!(compared > 2_000 && held > 100 && above > 100, "{compared} {held} {above}");
}

/// Near the degree: a many of the generated terms holds here and fails there.
#[test]
fn counts_are_near_the_degree() {
    let (mut holding, mut failing) = (0, 0);
    for seed in 0..1_000 {
        let terms = accepted(&generate::case(seed, 99_999).text);
        let record = Record::new(terms);
        let many = |entry: &usize| matches!(record.terms().entries[*entry], Entry::Many(_, _, 2..));
        for entry in (0..record.terms().entries.len()).filter(many) {
            for m in 0..record.terms().members.min(8) {
                let holds = record.holds(entry, 0, m, Assigned::default());
                *if holds { &mut holding } else { &mut failing } += 1;
            }
        }
    }
    println!("{holding} hold, {failing} fail");
    assert!(holding > 100 && failing > 100, "{holding} {failing}");
}
