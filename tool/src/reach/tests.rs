//! Searches over small terms.

use super::fixed::Fixed;
use super::*;
use keeper::generate;
use keeper::record::Record;
use keeper::step::Step;
use keeper::terms;

fn read(text: &str) -> Monitor {
    Monitor::read(text.replace(' ', "\t").as_bytes()).unwrap()
}

/// Event 0 makes an edge, event 1 is for a target that one has had an edge to since
/// an earlier moment, event 2 for nobody.
const TEXT: &str = "M 2\nL 1 3\nF 0 top 0 0\nF 1 var 0 0\nF 2 out 0 1\nF 3 prev 2 0\n\
                    F 4 not 0 0\nP 0 0\nP 1 3\nP 2 4\nE 0 add 0 fwd\n";

fn sought(text: &str, event: usize, limits: Limits) -> Found {
    search(&read(text), Request { event, from: 0, to: 1 }, limits)
}

#[test]
fn the_shortest_list() {
    let make = Request { event: 0, from: 0, to: 1 };
    assert_eq!(sought(TEXT, 0, Limits::USUAL), Found::After(vec![]));
    let Found::After(list) = sought(TEXT, 1, Limits::USUAL) else { panic!() };
    assert_eq!((list.len(), list[0]), (2, make));
    let within = |within| sought(TEXT, 1, Limits { within, ..Limits::USUAL });
    assert!(matches!(within(1), Found::NotWithin { states: 5 }));
    assert_eq!(within(2), Found::After(list));
}

#[test]
fn never_and_given_up() {
    let Found::Never { states } = sought(TEXT, 2, Limits::USUAL) else { panic!() };
    assert!(states > 16, "{states}");
    let few = Limits { tries: 12, ..Limits::USUAL };
    assert!(matches!(sought(TEXT, 2, few), Found::GivenUp { within: 1, .. }));
    let small = Limits { bytes: 1, ..Limits::USUAL };
    assert!(matches!(sought(TEXT, 2, small), Found::GivenUp { within: 0, .. }));
    let within = Limits { within: 100, ..Limits::USUAL };
    assert_eq!(sought(TEXT, 2, within), Found::Never { states });
}

#[test]
fn an_event_of_any_two() {
    let sought = |event| search_event(&read(TEXT), event, (&[true; 3], &[0, 1]), Limits::USUAL);
    assert_eq!(sought(0), Found::After(vec![]));
    assert!(matches!(sought(1), Found::After(list) if list.len() == 2));
    assert!(matches!(sought(2), Found::Never { .. }));
    let few = Limits { tries: 12, ..Limits::USUAL };
    assert!(matches!(
        search_event(&read(TEXT), 2, (&[true; 3], &[0, 1]), few),
        Found::GivenUp { .. }
    ));
}

#[test]
fn a_denied_request_that_is_kept_is_a_step() {
    let text = "M 2\nL 0 2\nF 0 top 0 0\nF 1 not 0 0\nF 2 out 2 0\nP 0 1\nP 1 2\nK 0\n";
    let Found::After(list) = sought(text, 1, Limits::USUAL) else { panic!() };
    assert_eq!(list, [Request { event: 0, from: 0, to: 0 }]);
}

#[test]
fn what_is_never_granted_stays_denied() {
    let (mut by_past, mut by_others) = (0, 0);
    for seed in 0..400 {
        let case = generate::case(seed, 99_999);
        let mut record = Record::of(terms::read(&case.text).unwrap());
        let (members, events) = (record.terms().members, record.terms().events);
        if members > 4 {
            continue;
        }
        let all: Vec<[usize; 3]> = (0..events * members * members)
            .map(|place| [place / members / members, place / members % members, place % members])
            .collect();
        let mut never = Vec::new();
        for step in case.steps.iter().take(12) {
            // A revision may begin anew what was remembered.
            let Step::Call(call) = step else { break };
            let mut fixed = Fixed::new(&record);
            for asked @ [event, from, to] in &all {
                let Some(lacks) = fixed.fails(*event, *from, *to) else { continue };
                let is_past = lacks.iter().any(|lack| record.terms().entries[lack.at.0].is_past());
                *if is_past { &mut by_past } else { &mut by_others } += 1;
                never.push(*asked);
            }
            drop(fixed);
            record.answer(call);
            for [event, from, to] in &never {
                assert!(!record.permits(*event, *from, *to), "seed {seed}: {event} {from} {to}");
            }
        }
    }
    assert!(by_past > 10 && by_others > 10, "{by_past} {by_others}");
}
