//! The three traps in the past.

use crate::help::*;
use keeper::record::Answer::{Deny, Grant};

/// Event 0 is free to all, event 1 asks for the last entry.
fn asks(entries: &str, last: usize) -> keeper::record::Record {
    record(&format!("M 2/L 0 3/{entries}/P 0 0/P 1 {last}/P 2 0"))
}

#[test]
fn prev_of_a_since_sees_the_moment_before() {
    // Once event 0 happened, as seen one moment ago.
    let entries = "F 0 top 0 0/F 1 out 0 0/F 2 since 0 1/F 3 prev 2 0";
    let mut record = asks(entries, 3);
    assert_eq!(look(&mut record, 1, 0, 1), Deny);
    assert_eq!(request(&mut record, 0, 0, 1), Grant);
    assert_eq!(look(&mut record, 1, 0, 1), Deny);
    assert_eq!(request(&mut record, 2, 0, 1), Grant);
    assert_eq!(look(&mut record, 1, 0, 1), Grant);
    assert_eq!(look(&mut record, 1, 1, 0), Deny);
}

#[test]
fn since_does_not_need_its_first_operand_where_its_second_holds() {
    // No event 0 since event 0: holds at the moment of event 0 itself.
    let entries = "F 0 top 0 0/F 1 out 0 0/F 2 not 1 0/F 3 since 2 1";
    let mut record = asks(entries, 3);
    assert_eq!(look(&mut record, 1, 0, 1), Deny);
    assert_eq!(request(&mut record, 0, 0, 1), Grant);
    assert_eq!(look(&mut record, 1, 0, 1), Grant);
}

#[test]
fn an_event_edge_lives_for_one_moment() {
    let entries = "F 0 top 0 0/F 1 out 0 0/F 2 since 0 1";
    let (mut just, mut once) = (asks(entries, 1), asks(entries, 2));
    for record in [&mut just, &mut once] {
        assert_eq!(request(record, 0, 0, 1), Grant);
        assert_eq!(look(record, 1, 0, 1), Grant);
        assert_eq!(request(record, 2, 0, 1), Grant);
    }
    assert_eq!(look(&mut just, 1, 0, 1), Deny);
    assert_eq!(look(&mut once, 1, 0, 1), Grant);
}

#[test]
fn a_look_and_a_deny_make_no_moment() {
    let mut record = asks("F 0 top 0 0/F 1 not 0 0", 1);
    assert_eq!(look(&mut record, 0, 0, 1), Grant);
    assert_eq!(request(&mut record, 1, 0, 1), Deny);
    assert_eq!(record.graphs().len(), 1);
    assert_eq!(request(&mut record, 0, 0, 1), Grant);
    assert_eq!(record.graphs().len(), 2);
}
