//! Members renumbered: that everybody keeps what they have, that answers stay, what
//! undoes it, what is refused and what is left alone.
#![cfg(feature = "alloc")]

use cuckooormolu::{raw, Answer, Edge, Event, EventEdge, Member, Monitor, Record, Refusal};
use cuckooormolu::{Relation, Request, STATE_WORDS, TERMS_WORDS};

/// Event 0 makes an edge, event 1 takes it away, and a denied event 1 counts. Table
/// 0 has one free variable: I have had an edge to it. Table 1 has none: I have had
/// an edge. Table 2 has two: one of them has had an edge to the other. Table 3: I
/// have just asked for event 1 and was denied.
const TEXT: &str = "M 5\nL 1 5\nF 0 top 0 0\nF 1 var 0 0\nF 2 out 0 1\nF 3 since 0 2\n\
                    F 4 out 0 0\nF 5 since 0 4\nF 6 at 1 2\nF 7 since 0 6\nF 8 bind 1 7\n\
                    F 9 out 7 0\nF 10 prev 9 0\nP 0 0\nP 1 3\nP 2 5\nP 3 8\nP 4 10\nK 1\n\
                    E 0 add 0 fwd\nE 1 del 0 fwd\nG 0 3 4\n";
const MEMBERS: u8 = 5;
const EVENTS: u8 = 5;

/// A renumbering, and the one that undoes it.
const FORTH: [u8; 5] = [2, 0, 4, 1, 3];
const BACK: [u8; 5] = [1, 3, 0, 4, 2];

fn read(text: &str) -> Monitor {
    Monitor::read(text.replace(' ', "\t").as_bytes()).unwrap()
}

fn asked(event: u8, from: u8, to: u8) -> Request {
    Request { event: Event(event), from: Member(from), to: Member(to) }
}

/// A member by its new number, and a request by them.
fn named(numbers: &[u8], member: Member) -> Member {
    Member(numbers[usize::from(member)])
}

fn by(numbers: &[u8], request: Request) -> Request {
    Request { from: named(numbers, request.from), to: named(numbers, request.to), ..request }
}

/// A monitor with something in all of its parts.
fn played() -> Monitor {
    let mut monitor = read(TEXT);
    for request in [asked(0, 0, 1), asked(0, 2, 2), asked(1, 0, 1)] {
        assert_eq!(monitor.request(request), Ok(Answer::Grant));
    }
    assert_eq!(monitor.request(asked(1, 4, 1)), Ok(Answer::Deny));
    monitor
}

fn renumbered(monitor: &Monitor, numbers: &[u8]) -> Monitor {
    let mut other = monitor.clone();
    other.renumber(numbers).unwrap();
    other
}

/// Where a table holds: at whom, and for whom its variables stand.
fn table(monitor: &Monitor, t: usize) -> Vec<(Member, Vec<Member>)> {
    let table = monitor.state().table(monitor.terms(), t).unwrap();
    let mut holding: Vec<_> =
        table.holding().map(|holding| (holding.at(), holding.others().to_vec())).collect();
    holding.sort();
    holding
}

/// All requests there are.
fn all() -> impl Iterator<Item = Request> {
    let pairs = (0..MEMBERS).flat_map(|from| (0..MEMBERS).map(move |to| (from, to)));
    pairs.flat_map(|(from, to)| (0..EVENTS).map(move |event| asked(event, from, to)))
}

#[test]
fn everybody_keeps_their_edges() {
    let monitor = renumbered(&played(), &FORTH);
    let edge = |from, to| Edge { relation: Relation(0), from: Member(from), to: Member(to) };
    let edges: Vec<Edge> = monitor.state().edges().collect();
    assert_eq!(edges, [edge(1, 3), edge(4, 4)]);
    let denied = EventEdge { request: asked(1, 3, 0), answer: Answer::Deny };
    assert_eq!(monitor.state().event(), Some(denied));
    assert_eq!(monitor.terms(), played().terms());
}

#[test]
fn everybody_keeps_their_past() {
    let (before, after) = (played(), renumbered(&played(), &FORTH));
    for t in 0..4 {
        let of = |(at, others): (Member, Vec<Member>)| {
            let others = others.into_iter().map(|other| named(&FORTH, other)).collect();
            (named(&FORTH, at), others)
        };
        let mut wanted: Vec<_> = table(&before, t).into_iter().map(of).collect();
        wanted.sort();
        assert_eq!(table(&after, t), wanted, "table {t}");
    }
    assert_eq!([0, 1, 2, 3].map(|t| table(&after, t).len()), [3, 3, 15, 0]);
}

#[test]
fn all_answers_stay() {
    let mut before = played();
    let mut after = renumbered(&before, &FORTH);
    for later in [asked(1, 4, 0), asked(0, 1, 3), asked(4, 4, 2), asked(1, 3, 4), asked(0, 2, 4)] {
        for request in all() {
            assert_eq!(before.look(request), after.look(by(&FORTH, request)), "{request:?}");
        }
        assert_eq!(before.request(later), after.request(by(&FORTH, later)));
        assert_eq!(after.state(), renumbered(&before, &FORTH).state());
    }
    let nobody = asked(0, MEMBERS, 0);
    assert_eq!(after.request(nobody), Err(Refusal::NoSuchName));
}

#[test]
fn set_lists_stay() {
    let mut before = played();
    let mut after = renumbered(&before, &FORTH);
    let mut records: Vec<Record> = all().map(Record::new).collect();
    let mut others: Vec<Record> = all().map(|request| Record::new(by(&FORTH, request))).collect();
    assert_eq!(before.set_list(&mut records), after.set_list(&mut others));
    assert!(records.iter().map(Record::answer).eq(others.iter().map(Record::answer)));
    assert_eq!(after.state(), renumbered(&before, &FORTH).state());
}

#[test]
fn it_is_undone() {
    let before = played();
    let after = renumbered(&before, &FORTH);
    assert_ne!(after.state(), before.state());
    assert_eq!(renumbered(&after, &BACK).state(), before.state());
    assert_eq!(renumbered(&before, &[0, 1, 2, 3, 4]).state(), before.state());
}

#[test]
fn one_after_another_is_one() {
    let once = renumbered(&played(), &FORTH);
    let twice = renumbered(&once, &FORTH);
    let both = FORTH.map(|number| FORTH[usize::from(number)]);
    assert_eq!(twice.state(), renumbered(&played(), &both).state());
}

#[test]
fn a_renumbered_monitor_is_stored_read_and_revised() {
    let mut monitor = renumbered(&played(), &FORTH);
    let later = Monitor::read(&monitor.store()).unwrap();
    assert_eq!((later.terms(), later.state()), (monitor.terms(), monitor.state()));
    let fewer = read(&TEXT.replace("K 1\n", "")).into_parts().0;
    let mut revised_first = played();
    revised_first.revise(&fewer).unwrap();
    monitor.revise(&fewer).unwrap();
    assert_eq!(monitor.state(), renumbered(&revised_first, &FORTH).state());
}

#[test]
fn the_only_member_stays() {
    let mut monitor = read("M 1\nL 0 1\nF 0 top 0 0\nP 0 0\n");
    assert_eq!(monitor.request(asked(0, 0, 0)), Ok(Answer::Grant));
    assert_eq!(renumbered(&monitor, &[0]).state(), monitor.state());
}

#[test]
fn sixty_four_members_turn_round() {
    let edges: String = (0..63).map(|m| format!("G 0 {m} {}\n", m + 1)).collect();
    let text = format!("M 64\nL 1 1\nF 0 var 0 0\nF 1 out 0 0\nF 2 since 1 1\nP 0 2\n{edges}");
    let monitor = read(&text);
    let turned: Vec<u8> = (0..64).rev().collect();
    let after = renumbered(&monitor, &turned);
    assert!(after.state().edges().all(|edge| edge.from.0 == edge.to.0 + 1));
    assert_eq!(after.look(asked(0, 63, 62)), Ok(Answer::Grant));
    assert_eq!(after.look(asked(0, 62, 63)), Ok(Answer::Deny));
    assert_eq!(renumbered(&after, &turned).state(), monitor.state());
}

#[test]
fn a_list_that_numbers_nobody_leaves_the_monitor_as_it_was() {
    let mut monitor = played();
    let before = monitor.clone();
    let lists: [&[u8]; 8] = [
        &[],
        &[2, 0, 4, 1],
        &[2, 0, 4, 1, 3, 5],
        &[2, 0, 4, 1, 3, 3],
        &[2, 0, 4, 1, 1],
        &[2, 0, 5, 1, 3],
        &[2, 0, 68, 1, 3],
        &[255; 5],
    ];
    for list in lists {
        assert_eq!(monitor.renumber(list), Err(Refusal::BadNumbers), "{list:?}");
        assert_eq!((monitor.terms(), monitor.state()), (before.terms(), before.state()));
    }
    assert_eq!(monitor.request(asked(0, 0, 1)), Ok(Answer::Grant));
}

/// What is refused over lent memory, after a look that nothing was written.
fn refused(terms: &[u16], state: &[u64], numbers: &[u8], words: usize) -> Refusal {
    let mut second = vec![7; words];
    let refusal = raw::renumber(terms, state, numbers, &mut second).unwrap_err();
    assert_eq!(second, vec![7; words]);
    refusal
}

#[test]
fn each_check_hides_those_after_it() {
    let (terms, state) = played().into_parts();
    let (terms, state) = (*terms.words(), *state.words());
    let (bad, broken, twice) = ([1; TERMS_WORDS], [9; STATE_WORDS], [2, 0, 4, 1, 1]);
    assert_eq!(refused(&terms, &state, &twice, STATE_WORDS), Refusal::BadNumbers);
    assert_eq!(refused(&terms, &broken, &twice, STATE_WORDS), Refusal::BadState);
    assert_eq!(refused(&bad, &broken, &twice, STATE_WORDS), Refusal::BadTerms);
    assert_eq!(refused(&bad[1..], &broken, &twice, STATE_WORDS), Refusal::TooShort);
    assert_eq!(refused(&bad, &broken[1..], &twice, STATE_WORDS), Refusal::TooShort);
    assert_eq!(refused(&bad, &broken, &twice, STATE_WORDS - 1), Refusal::TooShort);
    assert_eq!(refused(&[], &[], &[], 0), Refusal::TooShort);
}

#[test]
fn further_words_are_not_touched() {
    let (terms, state) = played().into_parts();
    let longer = [&terms.words()[..], &[1]].concat();
    let present = [&state.words()[..], &[2]].concat();
    let mut second = vec![3; STATE_WORDS + 1];
    assert_eq!(raw::renumber(&longer, &present, &FORTH, &mut second), Ok(()));
    let wanted = renumbered(&played(), &FORTH);
    assert_eq!((&second[..STATE_WORDS], second[STATE_WORDS]), (&wanted.state().words()[..], 3));
}
