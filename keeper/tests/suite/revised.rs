//! New terms while playing, worked out by hand.

use crate::help::*;
use keeper::expect;
use keeper::record::Answer::{Deny, Grant};
use keeper::record::{Record, Start};
use keeper::terms::formula::first_same;
use keeper::terms::memory::*;
use keeper::terms::{store, Refusal, Terms};

/// Terms of two members and three events: 0 and 2 are free to all, 1 asks for an
/// entry. Entry 0 is top.
fn terms(entries: &str, asked: usize) -> Terms {
    accepted(&slashes(&format!("M 2/L 1 3/F 0 top 0 0/{entries}/P 0 0/P 1 {asked}/P 2 0")))
}

fn revise(record: &mut Record, terms: &Terms) {
    let moments = record.graphs().len();
    assert_eq!(record.revise(terms), Ok(()));
    assert_eq!(record.graphs().len(), moments);
}

/// "Ever event 0" and "ever event 2", at this member.
const SHARED: &str = "F 1 out 1 0/F 2 since 0 1";
const LOADED: &str = "F 1 out 3 0/F 2 since 0 1";
const BOTH: &str = "F 1 out 3 0/F 2 since 0 1/F 3 out 1 0/F 4 since 0 3";

#[test]
fn in_the_season_one_entry_is_carried_and_one_is_new() {
    let mut record = Record::new(terms(SHARED, 2));
    for (event, from) in [(0, 0), (2, 1), (0, 0)] {
        assert_eq!(request(&mut record, event, from, 1), Grant);
    }
    revise(&mut record, &terms(BOTH, 4));
    assert_eq!(record.starts(), [Start::Moment(3), Start::Moment(0)]);
    // "Ever event 0" is carried: member 0 did it before.
    assert_eq!([look(&mut record, 1, 0, 0), look(&mut record, 1, 1, 0)], [Grant, Deny]);
    // "Ever event 2" starts now: what member 1 did before does not count.
    revise(&mut record, &terms(BOTH, 2));
    assert_eq!([look(&mut record, 1, 0, 0), look(&mut record, 1, 1, 0)], [Deny, Deny]);
    assert_eq!(request(&mut record, 2, 1, 0), Grant);
    assert_eq!([look(&mut record, 1, 0, 0), look(&mut record, 1, 1, 0)], [Deny, Grant]);
}

#[test]
fn a_since_that_starts_now_is_what_its_second_operand_is() {
    // The last event was member 1's event 2, so "ever event 2" begins true there.
    let mut record = Record::new(terms(SHARED, 2));
    assert_eq!(request(&mut record, 2, 1, 0), Grant);
    revise(&mut record, &terms(LOADED, 2));
    assert_eq!([look(&mut record, 1, 0, 0), look(&mut record, 1, 1, 0)], [Deny, Grant]);
    assert_eq!(record.state_words()[FIRST_TABLE..FIRST_TABLE + 2], [0, 0b11]);
    assert_eq!(record.state_words()[EVENT_WORD], 1 + 2 * 4_096 + 64);
}

#[test]
fn the_edge_of_a_denied_event_is_carried_too() {
    let kept = accepted(&slashes("M 2/L 0 1/F 0 top 0 0/F 1 not 0 0/P 0 1/K 0"));
    let tried = accepted(&slashes("M 2/L 0 1/F 0 top 0 0/F 1 out 1 0/F 2 since 0 1/P 0 2"));
    let mut record = Record::new(kept);
    assert_eq!(request(&mut record, 0, 1, 0), Deny);
    revise(&mut record, &tried);
    assert_eq!(record.state_words()[EVENT_WORD], 1 + 16 * 4_096 + 64);
    assert_eq!([look(&mut record, 0, 0, 0), look(&mut record, 0, 1, 0)], [Deny, Grant]);
}

#[test]
fn a_prev_that_starts_now_is_false() {
    let mut record = Record::new(terms("F 1 not 0 0", 1));
    request(&mut record, 0, 0, 1);
    revise(&mut record, &terms("F 1 prev 0 0", 1));
    assert_eq!(look(&mut record, 1, 0, 1), Deny);
    request(&mut record, 0, 0, 1);
    assert_eq!(look(&mut record, 1, 0, 1), Grant);
}

#[test]
fn an_inner_entry_keeps_its_own_start_under_a_new_outer_one() {
    // prev top is carried and true, so since(top, prev top) begins true, though
    // over the record from its own start alone prev top would be false.
    let mut record = Record::new(terms("F 1 prev 0 0", 1));
    request(&mut record, 0, 0, 1);
    revise(&mut record, &terms("F 1 prev 0 0/F 2 since 0 1", 2));
    assert_eq!(record.starts(), [Start::Moment(0), Start::Moment(1)]);
    assert_eq!(look(&mut record, 1, 0, 1), Grant);
    // Where both are new, both are false, and true from the next moment on.
    let mut record = Record::new(terms("F 1 not 0 0", 1));
    request(&mut record, 0, 0, 1);
    revise(&mut record, &terms("F 1 prev 0 0/F 2 since 0 1", 2));
    assert_eq!(look(&mut record, 1, 0, 1), Deny);
    request(&mut record, 0, 0, 1);
    assert_eq!(look(&mut record, 1, 0, 1), Grant);
}

#[test]
fn a_formula_dropped_and_back_starts_anew() {
    let (shared, none) = (terms(SHARED, 2), terms("F 1 not 0 0", 1));
    let mut record = Record::new(shared.clone());
    request(&mut record, 0, 0, 1);
    request(&mut record, 2, 0, 1);
    assert_eq!(look(&mut record, 1, 0, 1), Grant);
    revise(&mut record, &none);
    revise(&mut record, &shared);
    assert_eq!(record.starts(), [Start::Moment(2)]);
    assert_eq!(look(&mut record, 1, 0, 1), Deny);
    request(&mut record, 0, 0, 1);
    assert_eq!(look(&mut record, 1, 0, 1), Grant);
}

#[test]
fn the_very_same_terms_change_nothing() {
    let mut record = preset();
    let preset = record.terms().clone();
    for (event, from, to) in [(0, 0, 1), (2, 1, 2), (1, 0, 1), (0, 0, 1)] {
        request(&mut record, event, from, to);
        let before = (record.state(), record.starts().to_vec());
        revise(&mut record, &preset);
        assert_eq!((record.state(), record.starts().to_vec()), before);
    }
}

#[test]
fn policies_effects_and_marks_change_freely() {
    let mut record = Record::new(terms(SHARED, 2));
    assert_eq!(request(&mut record, 1, 0, 1), Deny);
    let text =
        format!("M 2/L 1 3/F 0 top 0 0/{SHARED}/P 0 0/P 1 0/P 2 2/K 2/E 1 add 0 fwd/G 0 1 1");
    revise(&mut record, &accepted(&slashes(&text)));
    // Its first edges count for nothing.
    assert!(record.last().edges.is_empty());
    assert_eq!(request(&mut record, 1, 0, 1), Grant);
    assert_eq!(record.last().edges.iter().collect::<Vec<_>>(), [&(0, 0, 1)]);
    let moments = record.graphs().len();
    assert_eq!(request(&mut record, 2, 0, 1), Deny);
    assert_eq!(record.graphs().len(), moments + 1);
}

#[test]
fn a_stored_panel_goes_on_by_its_tables() {
    let mut going = Record::new(terms(SHARED, 2));
    request(&mut going, 0, 0, 1);
    revise(&mut going, &terms(BOTH, 2));
    let mut loaded = opened(&store(going.terms(), &going.state()));
    for event in [1, 2, 1] {
        assert_eq!(request(&mut loaded, event, 0, 1), request(&mut going, event, 0, 1));
        assert_eq!(loaded.state_words(), going.state_words());
    }
    revise(&mut going, &terms(SHARED, 2));
    revise(&mut loaded, &terms(SHARED, 2));
    assert_eq!(loaded.state_words(), going.state_words());
    assert_eq!(going.starts(), [Start::Moment(0)]);
}

#[test]
fn formulas_are_spelled_out() {
    let same = |old: &str, new: &str| {
        let last = |terms: &Terms| terms.entries.len() - 1;
        let (old, new) = (terms(old, 0), terms(new, 0));
        first_same(&old, &new)[last(&new)] == Some(last(&old))
    };
    assert!(same("F 1 var 1 0/F 2 not 1 0", "F 1 top 0 0/F 2 var 1 0/F 3 not 2 0"));
    assert!(same("F 1 top 0 0/F 2 out 0 1", "F 1 out 0 0"));
    assert!(!same("F 1 var 1 0", "F 1 var 2 0"));
    assert!(!same("F 1 var 1 0/F 2 bind 1 1", "F 1 var 2 0/F 2 bind 2 1"));
    assert!(!same("F 1 out 0 0", "F 1 out 1 0") && !same("F 1 out 0 0", "F 1 in 0 0"));
    assert!(!same("F 1 many 0 0 1", "F 1 many 0 0 2") && !same("F 1 out 0 0", "F 1 many 0 0 1"));
    assert!(!same("F 1 not 0 0/F 2 or 0 1", "F 1 not 0 0/F 2 or 1 0"));
    assert!(!same("F 1 not 0 0/F 2 not 1 0", "F 1 top 0 0"));
    // The first of several, among the old terms alone.
    let (old, new) = (terms("F 1 prev 0 0/F 2 prev 0 0", 0), terms("F 1 prev 0 0", 0));
    assert_eq!(first_same(&old, &new), [Some(0), Some(1)]);
    assert_eq!(first_same(&new, &old), [Some(0), Some(1), Some(1)]);
}

#[test]
fn a_state_true_of_no_record_is_carried_by_its_first_table() {
    // Two entries with one formula: one table is full, the other empty. An inner
    // prev is said to hold at member 1 only.
    let old = terms("F 1 prev 0 0/F 2 prev 0 0", 1);
    let new = terms("F 1 prev 0 0/F 2 since 0 1/F 3 prev 2 0/F 4 prev 0 0", 2);
    let mut state = vec![0; STATE_WORDS];
    state[FIRST_TABLE + 1] = 0b11;
    state[FIRST_TABLE + 64] = 0b11;
    let record = expect::revising(&terms_words(&old), &state, &terms_words(&new), STATE_WORDS);
    let words = record.unwrap().state_words();
    let table = |t: usize| [words[FIRST_TABLE + 64 * t], words[FIRST_TABLE + 64 * t + 1]];
    assert_eq!([0, 1, 2, 3].map(table), [[0, 0b11], [0, 0b11], [0, 0], [0, 0b11]]);
}

#[test]
fn refusals_come_in_order() {
    let (old, new) = (terms(SHARED, 2), terms(LOADED, 2));
    let (old_words, new_words) = (terms_words(&old), terms_words(&new));
    let state = Record::new(old).state_words();
    let (mut bad_old, mut bad_new, mut bad_state) =
        (old_words.clone(), new_words.clone(), state.clone());
    bad_old[3] = 0;
    bad_new[1_251] = 1;
    bad_state[EVENT_WORD] = 1 + 3 * 4_096;
    let other = |text: &str| terms_words(&accepted(&slashes(text)));
    let sizes = [
        other("M 3/L 1 3/F 0 top 0 0/P 0 0/P 1 0/P 2 0"),
        other("M 2/L 0 3/F 0 top 0 0/P 0 0/P 1 0/P 2 0"),
        other("M 2/L 1 2/F 0 top 0 0/P 0 0/P 1 0"),
    ];
    let number = |old: &[u16], state: &[u64], new: &[u16], second: usize| {
        let line = |refusal: Refusal| (refusal.number, refusal.line);
        expect::revising(old, state, new, second).map_or_else(line, |_| (0, 0))
    };
    let short = STATE_WORDS - 1;
    assert_eq!(number(&bad_old[..1_251], &bad_state, &bad_new, STATE_WORDS), (6, 0));
    assert_eq!(number(&bad_old, &bad_state[..short], &bad_new, STATE_WORDS), (6, 0));
    assert_eq!(number(&bad_old, &bad_state, &bad_new[..1_251], STATE_WORDS), (6, 0));
    assert_eq!(number(&bad_old, &bad_state, &bad_new, short), (6, 0));
    assert_eq!(number(&bad_old, &bad_state, &sizes[0], STATE_WORDS), (7, 0));
    assert_eq!(number(&old_words, &bad_state, &bad_new, STATE_WORDS), (7, 0));
    assert_eq!(number(&old_words, &bad_state, &sizes[0], STATE_WORDS), (8, 0));
    for size in &sizes {
        assert_eq!(number(&old_words, &state, size, STATE_WORDS), (13, 0));
    }
    assert_eq!(number(&old_words, &state, &new_words, STATE_WORDS + 9), (0, 0));
}
