//! Kept denials: K lines, the moments that denied requests make, and the numbers
//! from 16 on that stand for them.

use crate::help::*;
use keeper::expect;
use keeper::generate;
use keeper::record::Answer::{Deny, Grant};
use keeper::record::{Call, Record};
use keeper::set_list::{self, Item};
use keeper::terms::memory::*;
use keeper::terms::{store, EventEdge, Refusal};

/// Load (0) is never granted and lift (1) always; the denied loads have label
/// 3, the denied lifts label 4. Entry 3 asks for a denied load by here.
const BODY: &str = "M 3/L 1 2/F 0 top 0 0/F 1 not 0 0/F 2 var 0 0/F 3 out 3 0/P 0 1/P 1 0";

fn after(lines: &str) -> (u16, usize) {
    refused(&slashes(&format!("{BODY}/{lines}")))
}

fn with(lines: &str) -> Record {
    record(&format!("{BODY}/{lines}"))
}

#[test]
fn places_and_numbers_of_k() {
    with("K 0");
    with("K 0/K 1");
    with("K 00000/K 01/E 1 add 0 fwd/G 0 1 1");
    assert_eq!(after("K 1/K 0"), (1, 10));
    assert_eq!(after("K 0/K 0"), (1, 10));
    assert_eq!(after("K 1/K 01"), (1, 10));
    assert_eq!(after("K 2"), (2, 9));
    assert_eq!(after("K 0/K 2"), (2, 10));
    assert_eq!(after("K 99999"), (2, 9));
    assert_eq!(after("K"), (1, 9));
    assert_eq!(after("K 0 0"), (1, 9));
    assert_eq!(after("K x"), (1, 9));
    assert_eq!(after("K 000000"), (1, 9));
    assert_eq!(after("k 0"), (1, 9));
    assert_eq!(after("E 1 add 0 fwd/K 0"), (1, 10));
    assert_eq!(after("G 0 0 0/K 0"), (1, 10));
    assert_eq!(after("E 1 add 0 fwd/K 2"), (1, 10));
    assert_eq!(refused(&slashes("M 1/L 0 2/F 0 top 0 0/P 0 0/K 0/P 1 0")), (1, 5));
    assert_eq!(refused(&slashes("M 1/L 0 1/F 0 top 0 0/K 0/P 0 0")), (1, 4));
    assert_eq!(refused(&slashes("M 1/K 0")), (1, 2));
    let stored = |lines: &str| refused(&slashes(&format!("S 2/{BODY}/{lines}")));
    record(&format!("S 2/{BODY}/K 1/V 17 0 1"));
    assert_eq!(stored("V 0 0 0/K 0"), (1, 11));
    assert_eq!(stored("K 1/K 1"), (1, 11));
    assert_eq!(stored("K 2"), (2, 10));
}

#[test]
fn labels_go_up_to_the_last_denied_event() {
    let line = |label: usize| format!("M 1/L 1 2/F 0 top 0 0/F 1 out {label} 0/P 0 0/P 1 1");
    accepted(&slashes(&line(4)));
    assert_eq!(refused(&slashes(&line(5))), (2, 4));
}

#[test]
fn a_kept_denial_makes_a_moment_without_effects() {
    let mut record = with("K 0/E 0 add 0 fwd");
    assert_eq!(request(&mut record, 0, 1, 2), Deny);
    assert_eq!(record.graphs().len(), 2);
    assert!(record.last().edges.is_empty());
    assert_eq!(record.last().event, Some(EventEdge::denied(0, 1, 2)));
    assert_eq!(record.state_words()[EVENT_WORD], 1 + 16 * 4_096 + 64 + 2);
    assert!(record.state_words()[..EVENT_WORD].iter().all(|&word| word == 0));
}

#[test]
fn what_makes_no_moment() {
    let mut record = with("K 0");
    assert_eq!(look(&mut record, 0, 1, 2), Deny);
    assert_eq!(request(&mut record, 2, 1, 2), keeper::record::Answer::Refused(Refusal::plain(9)));
    let short = Call { scratch_words: 63, ..Call::request(0, 1, 2) };
    assert_eq!(record.answer(&short), keeper::record::Answer::Refused(Refusal::plain(6)));
    assert_eq!(record.graphs().len(), 1);
    let mut unkept = with("K 1");
    assert_eq!(request(&mut unkept, 0, 1, 2), Deny);
    assert_eq!(unkept.graphs().len(), 1);
}

#[test]
fn a_denial_and_a_grant_have_labels_of_their_own() {
    // Event 0 asks for the given entry; 1 is never granted, 2 always.
    let text = |entry: &str| {
        format!("M 2/L 0 3/F 0 top 0 0/F 1 not 0 0/F 2 {entry}/P 0 2/P 1 1/P 2 0/K 1/K 2")
    };
    for (entry, wanted) in [
        ("out 4 0", Grant),
        ("in 4 0", Deny),
        ("many 4 0 1", Grant),
        ("many 4 0 2", Deny),
        ("out 1 0", Deny),
        ("out 5 0", Deny),
        ("prev 0 0", Grant),
    ] {
        let mut record = record(&text(entry));
        assert_eq!(request(&mut record, 1, 0, 1), Deny);
        assert_eq!(look(&mut record, 0, 0, 1), wanted, "{entry}");
    }
    let mut granted = record(&text("out 5 0"));
    assert_eq!(request(&mut granted, 2, 0, 1), Grant);
    assert_eq!(look(&mut granted, 0, 0, 1), Deny);
}

/// Two denied loads suspend, until a lift.
#[test]
fn two_denied_loads_suspend() {
    let entries = "F 0 top 0 0/F 1 out 3 0/F 2 in 2 0/F 3 not 2 0/F 4 since 3 1/F 5 prev 4 0/\
                   F 6 not 1 0/F 7 not 5 0/F 8 or 6 7/F 9 not 8 0/F 10 since 3 9/F 11 not 10 0/\
                   F 12 var 0 0/F 13 out 0 12/F 14 not 13 0/F 15 or 14 10/F 16 not 15 0";
    let text = format!("M 3/L 1 2/{entries}/P 0 16/P 1 0/K 0/G 0 1 2");
    let mut record = record(&text);
    assert_eq!(look(&mut record, 0, 1, 2), Grant);
    assert_eq!(request(&mut record, 0, 1, 0), Deny);
    assert_eq!(look(&mut record, 0, 1, 2), Grant);
    assert_eq!(request(&mut record, 0, 1, 0), Deny);
    assert_eq!(look(&mut record, 0, 1, 2), Deny);
    assert_eq!(request(&mut record, 1, 0, 1), Grant);
    assert_eq!(request(&mut record, 0, 1, 2), Grant);
}

#[test]
fn a_set_list_goes_on_with_the_moment_of_a_denial() {
    // Load is allowed to whom one was denied.
    let mut record = record("M 2/L 0 1/F 0 top 0 0/F 1 out 1 0/F 2 since 0 1/P 0 2/K 0");
    let item = Item { event: 0, from: 0, to: 1, answer: 7 };
    let mut items = [item, item];
    assert_eq!(set_list::answer(&mut record, &mut items, SCRATCH_WORDS), Ok(1));
    assert_eq!(items.map(|item| item.answer), [0, 1]);
}

#[test]
fn words_of_marks_and_events() {
    let record = with("K 1");
    let terms = terms_words(record.terms());
    assert_eq!(terms[1_236..1_252], [0, 1, 0, 0, 0, 0, 0, 0, 0, 0, 0, 0, 0, 0, 0, 0]);
    let mut state = record.state_words();
    let mut event = |number: u64, from: u64, to: u64| {
        state[EVENT_WORD] = 1 + number * 4_096 + from * 64 + to;
        expect::lent(&terms, &state).map(|(_, state)| state.past.event)
    };
    assert_eq!(event(1, 0, 2), Ok(Some(EventEdge::granted(1, 0, 2))));
    // Kept or not.
    assert_eq!(event(16, 0, 2), Ok(Some(EventEdge::denied(0, 0, 2))));
    assert_eq!(event(17, 2, 1), Ok(Some(EventEdge::denied(1, 2, 1))));
    for (number, from, to) in [(2, 0, 0), (15, 0, 0), (18, 0, 0), (31, 0, 0), (32, 0, 0)] {
        assert_eq!(event(number, from, to), Err(Refusal::plain(8)), "{number}");
    }
    assert_eq!(event(16, 3, 0), Err(Refusal::plain(8)));
    assert_eq!(event(16, 0, 3), Err(Refusal::plain(8)));
}

#[test]
fn a_denial_is_stored_and_is_no_fresh_start() {
    let mut panel = with("K 0/G 0 0 1");
    assert_eq!(request(&mut panel, 0, 1, 2), Deny);
    let text = store(panel.terms(), &panel.state());
    assert_eq!(text, slashes(&format!("S 2/{BODY}/K 0/G 0 0 1/V 16 1 2")));
    assert_eq!(opened(&text).state(), panel.state());
    let words = (terms_words(panel.terms()), panel.state_words());
    assert_eq!(expect::writing(&words.0, &words.1, usize::MAX), Err(Refusal::plain(12)));
}

/// Without K lines, what is said of denied events never holds.
#[test]
fn unkept_denials_leave_no_trace() {
    let (mut denied, mut compared) = (0, 0);
    for seed in 0..400 {
        let case = generate::case(seed, 99_999);
        let mut file = file(&case.text);
        file.terms.kept.clear();
        if file.past.is_some() {
            continue;
        }
        let mut record = Record::of(file);
        for call in case.calls() {
            let before = record.graphs().len();
            if record.answer(call) == Deny {
                denied += 1;
                assert_eq!(record.graphs().len(), before, "seed {seed}");
            }
        }
        assert!(record.graphs().iter().all(|graph| graph.event.is_none_or(|edge| !edge.denied)));
        compared += 1;
    }
    assert!(denied > 300 && compared > 200, "{denied} {compared}");
}
