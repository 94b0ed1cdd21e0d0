//! Every case of docs/SCOPE.md, Cases.

use crate::help::*;
use keeper::expect;
use keeper::record::Answer::{Deny, Grant};
use keeper::terms::memory::{STATE_WORDS, TERMS_WORDS};

const SHARE: usize = 0;
const WITHDRAW: usize = 1;
const LOAD: usize = 2;

#[test]
fn fresh_preset_denies_load() {
    assert_eq!(request(&mut preset(), LOAD, 1, 2), Deny);
}

#[test]
fn load_is_granted_after_share() {
    let mut record = preset();
    assert_eq!(request(&mut record, SHARE, 0, 1), Grant);
    assert_eq!(request(&mut record, LOAD, 1, 2), Grant);
}

#[test]
fn load_is_denied_after_withdraw() {
    let mut record = preset();
    assert_eq!(request(&mut record, SHARE, 0, 1), Grant);
    assert_eq!(request(&mut record, WITHDRAW, 0, 1), Grant);
    assert_eq!(request(&mut record, LOAD, 1, 2), Deny);
}

#[test]
fn share_by_one_who_owns_nothing_helps_nobody() {
    let mut record = preset();
    assert_eq!(request(&mut record, SHARE, 2, 1), Grant);
    assert_eq!(request(&mut record, LOAD, 1, 2), Deny);
}

#[test]
fn prev_of_top_needs_a_moment_before() {
    let mut record = record("M 2/L 0 2/F 0 top 0 0/F 1 prev 0 0/P 0 1/P 1 0");
    assert_eq!(look(&mut record, 0, 0, 1), Deny);
    assert_eq!(request(&mut record, 1, 0, 1), Grant);
    assert_eq!(look(&mut record, 0, 0, 1), Grant);
}

#[test]
fn since_of_not_top_and_top_always_holds() {
    let text = "M 2/L 0 2/F 0 top 0 0/F 1 not 0 0/F 2 since 1 0/P 0 2/P 1 0";
    let mut record = record(text);
    for _ in 0..4 {
        assert_eq!(look(&mut record, 0, 1, 0), Grant);
        assert_eq!(request(&mut record, 1, 0, 1), Grant);
    }
}

#[test]
fn var_0_holds_where_initiator_is_target() {
    let mut record = record("M 3/L 0 1/F 0 var 0 0/P 0 0");
    for from in 0..3 {
        for to in 0..3 {
            let wanted = if from == to { Grant } else { Deny };
            assert_eq!(look(&mut record, 0, from, to), wanted);
        }
    }
}

/// A policy that must hold for every initiator and target.
fn holds_everywhere(text: &str) {
    let mut record = record(text);
    for from in 0..3 {
        for to in 0..3 {
            assert_eq!(look(&mut record, 0, from, to), Grant);
        }
    }
}

#[test]
fn bind_1_of_var_1_always_holds() {
    holds_everywhere("M 3/L 0 1/F 0 var 1 0/F 1 bind 1 0/P 0 1");
}

#[test]
fn the_innermost_binding_counts() {
    let text = "M 3/L 0 1/F 0 var 0 0/F 1 at 1 0/F 2 bind 1 1/F 3 at 0 2/F 4 bind 1 3/P 0 4";
    holds_everywhere(text);
}

#[test]
fn effects_go_in_listed_order() {
    let head = "M 2/L 1 1/F 0 top 0 0/P 0 0";
    let mut gone = record(&format!("{head}/E 0 add 0 fwd/E 0 del 0 fwd"));
    assert_eq!(request(&mut gone, 0, 0, 1), Grant);
    assert!(gone.last().edges.is_empty());
    let mut there = record(&format!("{head}/E 0 del 0 fwd/E 0 add 0 fwd"));
    assert_eq!(request(&mut there, 0, 0, 1), Grant);
    assert!(there.last().edges.contains(&(0, 0, 1)));
}

#[test]
fn direction_back_runs_from_target_to_initiator() {
    let mut record = record("M 2/L 1 1/F 0 top 0 0/P 0 0/E 0 add 0 back/E 0 del 0 fwd/G 0 0 1");
    assert_eq!(request(&mut record, 0, 0, 1), Grant);
    assert_eq!(record.last().edges.iter().collect::<Vec<_>>(), [&(0, 1, 0)]);
}

#[test]
fn member_counts() {
    let rest = "L 0 1/F 0 top 0 0/P 0 0";
    assert_eq!(accepted(&slashes(&format!("M 64/{rest}"))).members, 64);
    assert_eq!(refused(&slashes(&format!("M 65/{rest}"))), (2, 1));
    assert_eq!(refused(&slashes(&format!("M 0/{rest}"))), (2, 1));
}

#[test]
fn empty_text() {
    assert_eq!(refused(b""), (1, 1));
}

#[test]
fn thirty_two_past_time_entries() {
    let with = |past: usize| {
        let mut text = "M 2/L 0 1/F 0 top 0 0".to_string();
        for entry in 1..=past {
            text.push_str(&format!("/F {entry} prev {} 0", entry - 1));
        }
        slashes(&format!("{text}/P 0 0"))
    };
    assert_eq!(accepted(&with(32)).past().len(), 32);
    assert_eq!(refused(&with(33)), (2, 36));
}

#[test]
fn refusals_3_4_and_5() {
    assert_eq!(refused(&slashes("M 2/L 0 1/F 0 not 0 0/P 0 0")), (3, 3));
    let since = "L 0 1/F 0 var 1 0/F 1 var 2 0/F 2 since 0 1/P 0 0";
    assert_eq!(refused(&slashes(&format!("M 17/{since}"))), (4, 5));
    assert_eq!(refused(&slashes(&format!("M 16/{since}"))), (5, 6));
    let three = "M 2/L 0 1/F 0 var 1 0/F 1 at 2 0/F 2 at 3 1/F 3 prev 2 0/P 0 0";
    assert_eq!(refused(&slashes(three)), (4, 6));
    assert_eq!(refused(&slashes("M 2/L 0 1/F 0 var 1 0/P 0 0")), (5, 4));
}

#[test]
fn short_memory() {
    let text = tabs(PRESET);
    let reading = |terms, state| expect::reading(&text, terms, state).map(|_| ());
    let six = Err(keeper::terms::Refusal { number: 6, line: 0 });
    assert_eq!(reading(979, STATE_WORDS), six);
    assert_eq!(reading(TERMS_WORDS, STATE_WORDS - 1), six);
    assert_eq!(reading(TERMS_WORDS, STATE_WORDS), Ok(()));
    assert_eq!(expect::reading(b"", 979, STATE_WORDS).map(|_| ()), six);
}
