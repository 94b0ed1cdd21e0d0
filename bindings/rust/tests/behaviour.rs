//! One test for each behaviour of the binding.
#![cfg(feature = "alloc")]

use cuckooormolu::{raw, Answer, Monitor, Refusal, State, Terms};
use cuckooormolu::{Action, Direction, Effect, Entry, Label};
use cuckooormolu::{Edge, Event, EventEdge, Member, Relation, Request, Variable};
use cuckooormolu::{PLAN_WORDS, SCRATCH_WORDS, STATE_WORDS, TERMS_WORDS};

/// Relation 0 is own; events are 0 share, 1 withdraw, 2 load. Spaces for tabs.
const PRESET: &str = "\
M 3
L 1 3
F 0 var 1 0
F 1 out 1 0
F 2 out 2 0
F 3 not 2 0
F 4 since 3 1
F 5 in 0 4
F 6 at 0 5
F 7 bind 1 6
F 8 top 0 0
P 0 8
P 1 8
P 2 7
G 0 0 2
";

const SHARE: Event = Event(0);
const WITHDRAW: Event = Event(1);
const LOAD: Event = Event(2);

fn asked(event: Event, from: u8, to: u8) -> Request {
    Request { event, from: Member(from), to: Member(to) }
}

fn edge(relation: u8, from: u8, to: u8) -> Edge {
    Edge { relation: Relation(relation), from: Member(from), to: Member(to) }
}

fn tabs(text: &str) -> Vec<u8> {
    text.replace(' ', "\t").into_bytes()
}

fn preset() -> Monitor {
    Monitor::read(&tabs(PRESET)).unwrap()
}

fn refused(text: &str) -> (usize, usize) {
    let error = Monitor::read(&tabs(text)).unwrap_err();
    (error.refusal().number(), error.line())
}

#[test]
fn the_preset_answers_as_written() {
    let mut monitor = preset();
    assert_eq!(monitor.request(asked(LOAD, 1, 2)), Ok(Answer::Deny));
    assert_eq!(monitor.request(asked(SHARE, 0, 1)), Ok(Answer::Grant));
    assert_eq!(monitor.request(asked(LOAD, 1, 2)), Ok(Answer::Grant));
    assert_eq!(monitor.request(asked(WITHDRAW, 0, 1)), Ok(Answer::Grant));
    assert_eq!(monitor.request(asked(LOAD, 1, 2)), Ok(Answer::Deny));
    assert_eq!(monitor.request(asked(Event(9), 0, 0)), Err(Refusal::NoSuchName));
}

#[test]
fn a_share_by_somebody_who_owns_nothing_does_not_count() {
    let mut monitor = preset();
    assert_eq!(monitor.request(asked(SHARE, 2, 1)), Ok(Answer::Grant));
    assert_eq!(monitor.look(asked(LOAD, 1, 2)), Ok(Answer::Deny));
}

#[test]
fn a_look_makes_no_moment() {
    let monitor = preset();
    let before = monitor.state().clone();
    assert_eq!(monitor.look(asked(SHARE, 0, 1)), Ok(Answer::Grant));
    assert_eq!(*monitor.state(), before);
}

#[test]
fn a_denied_or_refused_request_changes_nothing() {
    let mut monitor = preset();
    let before = monitor.state().clone();
    assert_eq!(monitor.request(asked(LOAD, 1, 2)), Ok(Answer::Deny));
    assert_eq!(monitor.request(asked(LOAD, 1, 3)), Err(Refusal::NoSuchName));
    assert_eq!(monitor.request(asked(LOAD, u8::MAX, 0)), Err(Refusal::NoSuchName));
    assert_eq!(*monitor.state(), before);
}

#[test]
fn terms_are_shown() {
    let monitor = preset();
    let terms = monitor.terms();
    let counts = [terms.members().len(), terms.relations().len(), terms.events().len()];
    assert_eq!(counts, [3, 1, 3]);
    let entries = [
        Entry::Var(Variable(1)),
        Entry::Out(Label::Event(SHARE), 0),
        Entry::Out(Label::Event(WITHDRAW), 0),
        Entry::Not(2),
        Entry::Since(3, 1),
        Entry::In(Label::Relation(Relation(0)), 4),
        Entry::At(Variable(0), 5),
        Entry::Bind(Variable(1), 6),
        Entry::Top,
    ];
    assert!(terms.entries().eq(entries));
    assert_eq!((terms.entry(4), terms.entry(9)), (Some(Entry::Since(3, 1)), None));
    let words: Vec<_> = terms.entries().map(Entry::word).collect();
    assert_eq!(words, ["var", "out", "out", "not", "since", "in", "at", "bind", "top"]);
    assert!(terms.tables().eq([4]));
    assert!(terms.events().map(|event| terms.policy(event)).eq([Some(8), Some(8), Some(7)]));
    assert_eq!((terms.policy(Event(3)), terms.policy(Event(255))), (None, None));
    assert_eq!((terms.effects(LOAD).count(), terms.effects(Event(255)).count()), (0, 0));
}

#[test]
fn entries_and_effects_of_each_kind_are_shown() {
    let text = "M 1\nL 1 2\nF 0 top 0 0\nF 1 or 0 0\nF 2 prev 1 0\nP 0 2\nP 1 0\n\
                E 1 add 0 fwd\nE 1 del 0 back\n";
    let monitor = Monitor::read(&tabs(text)).unwrap();
    let terms = monitor.terms();
    assert!(terms.entries().eq([Entry::Top, Entry::Or(0, 0), Entry::Prev(1)]));
    let relation = Relation(0);
    let effects = [
        Effect { action: Action::Add, relation, direction: Direction::Fwd },
        Effect { action: Action::Del, relation, direction: Direction::Back },
    ];
    assert!(terms.effects(Event(1)).eq(effects));
    assert_eq!(terms.effects(Event(0)).count(), 0);
}

#[test]
fn a_state_is_shown() {
    let mut monitor = preset();
    let state = monitor.state();
    assert!(state.edges().eq([edge(0, 0, 2)]));
    assert!(state.has_edge(edge(0, 0, 2)) && !state.has_edge(edge(0, 2, 0)));
    assert!(!state.has_edge(edge(16, 0, 0)));
    assert!(!state.has_edge(edge(0, 64, 0)) && !state.has_edge(edge(0, 0, 64)));
    let table = state.table(monitor.terms(), 0).unwrap();
    assert_eq!((state.event(), table.holding().count()), (None, 0));
    assert_eq!(monitor.request(asked(SHARE, 0, 1)), Ok(Answer::Grant));
    let state = monitor.state();
    let table = state.table(monitor.terms(), 0).unwrap();
    assert!(table.variables().eq([Variable(1)]));
    let holding = table.holding().next().unwrap();
    assert_eq!((holding.at(), holding.others()), (Member(0), &[Member(1)][..]));
    assert_eq!(table.holding().count(), 1);
    let holds = |at, others: &[u8]| {
        let others: Vec<Member> = others.iter().copied().map(Member).collect();
        table.holds(Member(at), &others)
    };
    assert_eq!((holds(0, &[1]), holds(1, &[0])), (Some(true), Some(false)));
    assert!([holds(64, &[1]), holds(0, &[64]), holds(255, &[255])] == [Some(false); 3]);
    assert!([holds(0, &[]), holds(0, &[1, 1]), holds(0, &[1, 1, 1])] == [None; 3]);
    for t in [1, 31, 32, usize::MAX] {
        assert!(state.table(monitor.terms(), t).is_none());
    }
    let request = asked(SHARE, 0, 1);
    assert_eq!(state.event(), Some(EventEdge { request, answer: Answer::Grant }));
}

#[test]
fn numbers_that_name_nothing_are_no_names() {
    assert_eq!(Event::try_from(255usize), Ok(Event(255)));
    assert_eq!(Event::try_from(256usize), Err(Refusal::NoSuchName));
    assert_eq!(Member::try_from(usize::MAX), Err(Refusal::NoSuchName));
    assert_eq!((Member::from(7), usize::from(Member(7))), (Member(7), 7));
    assert_eq!(format!("{} {:>3}", Member(7), Relation(8)), "7   8");
}

#[test]
fn a_text_comes_back_byte_by_byte() {
    assert_eq!(preset().write(), Ok(tabs(PRESET)));
}

#[test]
fn a_padded_text_comes_back_without_leading_zeros() {
    let padded = "M 002\nL 00000 01\nF 0 top 00 0\nP 00 00000\n";
    let monitor = Monitor::read(&tabs(padded)).unwrap();
    assert_eq!(monitor.write(), Ok(tabs("M 2\nL 0 1\nF 0 top 0 0\nP 0 0\n")));
    assert_eq!(refused("M 000002\n"), (1, 1));
}

#[test]
fn the_longest_text_is_written() {
    let mut text = "M 64\nL 16 16\nF 0 top 0 0\n".to_string();
    text.extend((1..256).map(|n| format!("F {n} reach 15 {0} {0}\n", n - 1)));
    text.extend((0..16).map(|event| format!("P {event} 255\n")));
    text.extend((0..16).map(|event| format!("K {event}\n")));
    for event in 0..16 {
        text.push_str(&format!("E {event} add 15 back\n").repeat(4));
    }
    for place in 0..16 * 64 * 64 {
        text.push_str(&format!("G {} {} {}\n", place / 4_096, place / 64 % 64, place % 64));
    }
    let monitor = Monitor::read(&tabs(&text)).unwrap();
    assert_eq!(monitor.state().edges().count(), 65_536);
    assert!(text.len() <= defined("CUCKOOORMOLU_TEXT_BYTES"));
    assert!(monitor.write() == Ok(tabs(&text)));
}

/// Every bit of 16 relations and 32 tables of 64 members, and an event edge.
#[test]
fn the_longest_stored_text_is_stored() {
    let mut text = "S 2\nM 64\nL 16 16\nF 0 top 0 0\n".to_string();
    for n in 1..256 {
        let word =
            if n < 224 { format!("reach 15 {0}", n - 1) } else { format!("since {}", n - 2) };
        text.push_str(&format!("F {n} {word} {}\n", n - 1));
    }
    text.extend((0..16).map(|event| format!("P {event} 255\n")));
    text.extend((0..16).map(|event| format!("K {event}\n")));
    for event in 0..16 {
        text.push_str(&format!("E {event} add 15 back\n").repeat(4));
    }
    for (kind, count) in [("G", 16), ("T", 32)] {
        for place in 0..count * 64 * 64 {
            let (k, a, b) = (place / 4_096, place / 64 % 64, place % 64);
            text.push_str(&format!("{kind} {k} {a} {b}\n"));
        }
    }
    text.push_str("V 31 63 63\n");
    let monitor = Monitor::read(&tabs(&text)).unwrap();
    let tables = (0..32).map(|t| monitor.state().table(monitor.terms(), t).unwrap());
    // They have no free variable.
    assert_eq!(tables.map(|table| table.holding().count()).sum::<usize>(), 32 * 64);
    assert!(text.len() <= defined("CUCKOOORMOLU_STORED_BYTES"));
    assert!(monitor.store() == tabs(&text));
    assert_eq!(monitor.write(), Err(Refusal::NotFresh));
}

/// Each line as long as it gets.
#[test]
fn the_longest_texts_are_worked_out() {
    let lines = |count, line: &str| count * (line.len() + 1);
    let old = lines(1, "M 64")
        + lines(1, "L 16 16")
        + lines(256, "F 255 reach 15 255 255")
        + lines(16, "P 15 255")
        + lines(16, "K 15")
        + lines(64, "E 15 add 15 back")
        + lines(16 * 64 * 64, "G 15 63 63");
    let more = lines(1, "S 2") + lines(32 * 64 * 64, "T 31 63 63") + lines(1, "V 31 63 63");
    assert_eq!(defined("CUCKOOORMOLU_TEXT_BYTES"), old);
    assert_eq!(defined("CUCKOOORMOLU_STORED_BYTES"), old + more);
}

#[test]
fn a_stored_text_keeps_the_past() {
    let mut monitor = preset();
    assert_eq!(monitor.store(), tabs(&format!("S 2\n{PRESET}")));
    assert_eq!(monitor.request(asked(SHARE, 0, 1)), Ok(Answer::Grant));
    let text = monitor.store();
    assert_eq!(text, tabs(&format!("S 2\n{PRESET}T 0 0 1\nV 0 0 1\n")));
    let mut later = Monitor::read(&text).unwrap();
    assert_eq!((later.terms(), later.state()), (monitor.terms(), monitor.state()));
    assert_eq!(later.request(asked(LOAD, 1, 2)), Ok(Answer::Grant));
    assert_eq!(later.request(asked(WITHDRAW, 0, 1)), Ok(Answer::Grant));
    let mut latest = Monitor::read(&later.store()).unwrap();
    assert_eq!(latest.request(asked(LOAD, 1, 2)), Ok(Answer::Deny));
}

#[test]
fn the_old_form_is_written_of_a_fresh_start_only() {
    let mut monitor = preset();
    assert_eq!(monitor.request(asked(LOAD, 1, 2)), Ok(Answer::Deny));
    assert_eq!(monitor.write(), Ok(tabs(PRESET)));
    assert_eq!(monitor.request(asked(SHARE, 0, 1)), Ok(Answer::Grant));
    assert_eq!(monitor.write(), Err(Refusal::NotFresh));
    let (terms, state) = monitor.into_parts();
    assert_eq!(raw::size(terms.words(), state.words()), Err(Refusal::NotFresh));
    assert_eq!(raw::write(terms.words(), state.words(), &mut []), Err(Refusal::NotFresh));
    assert_eq!(Monitor::open(terms, state).unwrap().write(), Ok(tabs(PRESET)));
}

#[test]
fn stored_texts_are_refused_by_line() {
    let rest = "M 2\nL 0 1\nF 0 top 0 0\nF 1 prev 0 0\nP 0 1\n";
    assert_eq!(refused(&format!("S 1\n{rest}")), (2, 1));
    assert_eq!(refused(&format!("{rest}T 0 0 0\n")), (1, 6));
    assert_eq!(refused(&format!("S 2\n{rest}T 0 0 0\nT 0 0 0\n")), (1, 8));
    assert_eq!(refused(&format!("S 2\n{rest}T 1 0 0\n")), (2, 7));
    assert_eq!(refused(&format!("S 2\n{rest}V 0 0 0\nV 0 0 0\n")), (1, 8));
    assert_eq!(refused(&format!("S 2\n{rest}T 0 0 0\nT 0 0 1\nT 0 1 1\n")), (11, 9));
    let error = Monitor::read(&tabs(&format!("S 2\n{rest}T 0 1 0\n"))).unwrap_err();
    assert_eq!((error.refusal(), error.shown()), (Refusal::PartlyFilled, Some("T\\t0\\t1\\t0")));
}

#[test]
fn kept_words_are_resumed() {
    let mut monitor = preset();
    assert_eq!(monitor.request(asked(SHARE, 0, 1)), Ok(Answer::Grant));
    let terms = Terms::from_words(monitor.terms().words()).unwrap();
    let state = State::from_words(&terms, monitor.state().words()).unwrap();
    let later = Monitor::resume(terms, state).unwrap();
    assert_eq!(later.look(asked(LOAD, 1, 2)), Ok(Answer::Grant));
}

#[test]
fn opening_keeps_the_relations_only() {
    let mut monitor = preset();
    assert_eq!(monitor.request(asked(SHARE, 0, 1)), Ok(Answer::Grant));
    let (terms, state) = monitor.into_parts();
    let fresh = Monitor::open(terms, state).unwrap();
    assert_eq!(fresh.state(), preset().state());
}

#[test]
fn a_state_that_breaks_the_layout_is_not_resumed() {
    let (terms, state) = preset().into_parts();
    let mut words = *state.words();
    words[3] = 1;
    assert_eq!(State::from_words(&terms, &words), Err(Refusal::BadState));
    let larger = Terms::from_words(&[&[4], &terms.words()[1..]].concat()).unwrap();
    let state = State::from_words(&larger, &words).unwrap();
    assert_eq!(Monitor::resume(terms.clone(), state.clone()).unwrap_err(), Refusal::BadState);
    assert_eq!(Monitor::open(terms, state).unwrap_err(), Refusal::BadState);
}

#[test]
fn terms_that_no_text_yields_are_refused() {
    assert_eq!(Terms::from_words(&[1; TERMS_WORDS]), Err(Refusal::BadTerms));
}

#[test]
fn short_words_are_refused_and_longer_ones_cut() {
    let (terms, state) = preset().into_parts();
    assert_eq!(Terms::from_words(&terms.words()[1..]), Err(Refusal::TooShort));
    assert_eq!(State::from_words(&terms, &state.words()[1..]), Err(Refusal::TooShort));
    let longer = [&state.words()[..], &[7; 3]].concat();
    assert_eq!(State::from_words(&terms, &longer), Ok(state));
    let longer = [&terms.words()[..], &[7; 3]].concat();
    assert_eq!(Terms::from_words(&longer), Ok(terms));
}

#[test]
fn each_refusal_of_a_text_names_its_line() {
    assert_eq!(refused(""), (1, 1));
    assert_eq!(refused("M 3\nL 1 3\n"), (1, 3));
    assert_eq!(refused("M 3\nL 1 3\nF 0 and 0 0\n"), (1, 3));
    assert_eq!(refused("M 65\n"), (2, 1));
    assert_eq!(refused("M 0\n"), (2, 1));
    assert_eq!(refused("M 1\nL 0 1\nF 0 not 0 0\n"), (3, 3));
    let two = "M 17\nL 0 1\nF 0 var 1 0\nF 1 var 2 0\nF 2 since 0 1\n";
    assert_eq!(refused(two), (4, 5));
    assert_eq!(refused("M 1\nL 0 1\nF 0 var 1 0\nP 0 0\n"), (5, 4));
    assert_eq!(refused("M 1\nL 0 1\nF 0 top 0 0\nF 1 reach 0 0 0\n"), (10, 4));
    assert_eq!(refused("M 1\nL 0 1\nF 0 var 1 0\nF 1 reach 1 0 0\n"), (10, 4));
}

#[test]
fn an_error_shows_the_offending_line() {
    let error = Monitor::read(&tabs("M 3\nL 1 x\n")).unwrap_err();
    assert_eq!(error.shown(), Some("L\\t1\\tx"));
    assert!(error.to_string().starts_with("line 2: unknown kind or word"));
    assert!(error.to_string().ends_with("(refusal 1)\n  2 | L\\t1\\tx"));
    let error = Monitor::read(&tabs("M 3")).unwrap_err();
    assert_eq!(error.shown(), Some("M\\t3 (no line feed)"));
    let error = Monitor::read(&tabs("M 3\n")).unwrap_err();
    assert_eq!(error.shown(), None);
    assert!(error.to_string().ends_with("\n  2 | (the end of the text)"));
}

#[test]
fn refusals_have_numbers_and_words() {
    let numbers: Vec<usize> = Refusal::ALL.iter().map(|refusal| refusal.number()).collect();
    assert!(numbers.is_sorted_by(|a, b| a < b));
    assert_eq!((numbers.first(), numbers.last()), (Some(&1), Some(&15)));
    for &refusal in Refusal::ALL {
        assert_eq!(Refusal::of_number(refusal.number()), Some(refusal));
        assert!(refusal.to_string().ends_with(&format!("(refusal {})", refusal.number())));
    }
    assert_eq!((Refusal::of_number(0), Refusal::of_number(16)), (None, None));
}

#[test]
fn answers_are_shown_as_words() {
    assert_eq!(format!("{} {:>6}", Answer::Grant, Answer::Deny), "grant   deny");
    assert!(Answer::Grant.is_grant() && !Answer::Deny.is_grant());
}

#[test]
fn monitors_may_move_between_threads() {
    let mut monitor = preset();
    let thread = std::thread::spawn(move || monitor.request(asked(SHARE, 0, 1)));
    assert_eq!(thread.join().unwrap(), Ok(Answer::Grant));
}

#[test]
fn raw_calls_take_memory_of_any_length() {
    let (terms, state) = preset().into_parts();
    let (terms, mut words) = (terms.words(), state.words().to_vec());
    let mut scratch = vec![5; SCRATCH_WORDS];
    let request = raw::Request { event: 0, from: 0, to: 1 };
    assert_eq!(raw::check(&terms[1..], &words), Err(Refusal::TooShort));
    assert_eq!(raw::look(terms, &words, &scratch[1..], request), Err(Refusal::TooShort));
    assert_eq!(raw::request(terms, &mut words, &mut [], request), Err(Refusal::TooShort));
    assert_eq!(raw::open(terms, &mut words[1..]), Err(Refusal::TooShort));
    let none = raw::Request { from: usize::MAX, ..request };
    assert_eq!(raw::request(terms, &mut words, &mut scratch, none), Err(Refusal::NoSuchName));
    assert_eq!(words, state.words());
    words.push(6);
    scratch.push(7);
    assert_eq!(raw::request(terms, &mut words, &mut scratch, request), Ok(Answer::Grant));
    assert_eq!((words[STATE_WORDS], scratch[SCRATCH_WORDS]), (6, 7));
    assert_eq!(scratch[..SCRATCH_WORDS], [0; SCRATCH_WORDS]);
}

#[test]
fn raw_reading_and_writing_keep_to_their_memory() {
    let text = tabs(PRESET);
    let (mut terms, mut state) = (vec![3; TERMS_WORDS + 1], vec![4; STATE_WORDS + 1]);
    assert_eq!(raw::read(&text, &mut terms[2..], &mut state), Err((Refusal::TooShort, 0)));
    assert_eq!(raw::read(&text[1..], &mut terms, &mut state), Err((Refusal::Form, 1)));
    assert_eq!((&terms, &state), (&vec![3; TERMS_WORDS + 1], &vec![4; STATE_WORDS + 1]));
    assert_eq!(raw::read(&text, &mut terms, &mut state), Ok(()));
    assert_eq!((terms[TERMS_WORDS], state[STATE_WORDS]), (3, 4));
    assert_eq!(raw::size(&terms, &state), Ok(text.len()));
    assert_eq!(raw::size(&terms[2..], &state), Err(Refusal::TooShort));
    let mut output = vec![9; text.len() + 1];
    let short = &mut output[2..];
    assert_eq!(raw::write(&terms, &state, short), Err(Refusal::TooShort));
    assert_eq!(short, vec![9; text.len() - 1]);
    assert_eq!(raw::write(&terms, &state, &mut output), Ok(text.len()));
    assert_eq!((&output[..text.len()], output[text.len()]), (&text[..], 9));
}

#[test]
fn raw_storing_keeps_to_its_memory() {
    let stored = tabs(&format!("S 2\n{PRESET}T 0 0 1\nV 0 0 1\n"));
    let (mut terms, mut state) = (vec![3; TERMS_WORDS + 1], vec![4; STATE_WORDS + 1]);
    assert_eq!(raw::read(&stored, &mut terms, &mut state), Ok(()));
    assert_eq!((terms[TERMS_WORDS], state[STATE_WORDS]), (3, 4));
    assert_eq!(raw::store_size(&terms, &state), Ok(stored.len()));
    assert_eq!(raw::store_size(&terms, &state[2..]), Err(Refusal::TooShort));
    let mut output = vec![9; stored.len() + 1];
    let short = &mut output[2..];
    assert_eq!(raw::store(&terms, &state, short), Err(Refusal::TooShort));
    assert_eq!(short, vec![9; stored.len() - 1]);
    assert_eq!(raw::store(&terms, &state, &mut output), Ok(stored.len()));
    assert_eq!((&output[..stored.len()], output[stored.len()]), (&stored[..], 9));
    state[3_072] = 4;
    assert_eq!(raw::store_size(&terms, &state), Err(Refusal::BadState));
    terms[0] = 0;
    assert_eq!(raw::store(&terms, &state, &mut output), Err(Refusal::BadTerms));
}

/// Event 0 is always granted. Event 1 is for whoever at some time did it to
/// somebody that is the target, by a step along the past.
const ONCE: &str = "M 3\nL 0 2\nF 0 top 0 0\nF 1 var 1 0\nF 2 out 0 1\nF 3 since 0 2\n\
                    F 4 var 0 0\nF 5 reach 1 3 4\nP 0 0\nP 1 5\n";

#[test]
fn a_step_goes_along_the_past() {
    let mut monitor = Monitor::read(&tabs(ONCE)).unwrap();
    let entry = monitor.terms().entry(5);
    assert_eq!(entry, Some(Entry::Reach(Variable(1), 3, 4)));
    assert_eq!(entry.map(Entry::word), Some("reach"));
    assert_eq!(monitor.look(asked(Event(1), 0, 1)), Ok(Answer::Deny));
    assert_eq!(monitor.request(asked(Event(0), 0, 1)), Ok(Answer::Grant));
    assert_eq!(monitor.request(asked(Event(0), 2, 0)), Ok(Answer::Grant));
    assert_eq!(monitor.look(asked(Event(1), 0, 1)), Ok(Answer::Grant));
    assert_eq!(monitor.look(asked(Event(1), 1, 0)), Ok(Answer::Deny));
    let tables = "T 0 0 1\nT 0 2 0\nV 0 2 0\n";
    assert_eq!(monitor.store(), tabs(&format!("S 2\n{ONCE}{tables}")));
}

/// Event 0 makes a friend. Event 1 is for whoever has two friends who are not the
/// target.
const FRIENDS: &str = "M 4\nL 1 2\nF 0 top 0 0\nF 1 var 0 0\nF 2 not 1 0\nF 3 many 0 2 2\n\
                       P 0 0\nP 1 3\nE 0 add 0 fwd\nG 0 0 1\nG 0 0 2\n";

#[test]
fn different_members_are_counted() {
    let mut monitor = Monitor::read(&tabs(FRIENDS)).unwrap();
    let entry = monitor.terms().entry(3);
    assert_eq!(entry, Some(Entry::Many(Label::Relation(Relation(0)), 2, 2)));
    assert_eq!(entry.map(Entry::word), Some("many"));
    assert_eq!(monitor.look(asked(Event(1), 0, 3)), Ok(Answer::Grant));
    assert_eq!(monitor.look(asked(Event(1), 0, 1)), Ok(Answer::Deny));
    assert_eq!(monitor.look(asked(Event(1), 1, 3)), Ok(Answer::Deny));
    assert_eq!(monitor.write(), Ok(tabs(FRIENDS)));
    assert_eq!(monitor.request(asked(Event(0), 0, 3)), Ok(Answer::Grant));
    assert_eq!(monitor.look(asked(Event(1), 0, 1)), Ok(Answer::Grant));
    assert_eq!(refused(&FRIENDS.replace("many 0 2 2", "many 0 2 65")), (2, 6));
    assert_eq!(refused(&FRIENDS.replace("many 0 2 2", "many 0 2 0")), (2, 6));
    assert_eq!(refused(&FRIENDS.replace("many 0 2 2", "many 0 2")), (1, 6));
}

/// The number that the C header defines a name as.
fn defined(name: &str) -> usize {
    let header = include_str!("../../c/cuckooormolu.h");
    let mut words = header.split_whitespace().skip_while(|word| *word != name);
    let value = words.by_ref().skip(1).find(|word| *word != "=").expect(name);
    value.trim_end_matches(',').parse().expect(name)
}

/// A denial and a refusal are a no, and the moment is that of a request.
#[test]
fn only_a_grant_is_a_yes() {
    let (mut asked, mut single) = (preset(), preset());
    let share = Request { event: Event(0), from: Member(0), to: Member(1) };
    let load = Request { event: Event(2), from: Member(1), to: Member(2) };
    let nobody = Request { event: Event(3), ..load };
    for (request, granted) in [(load, false), (share, true), (nobody, false), (load, true)] {
        assert_eq!(asked.grants(request), granted);
        assert_eq!(single.request(request) == Ok(Answer::Grant), granted);
        assert_eq!(asked.state(), single.state());
    }
}

#[test]
fn the_c_header_has_the_same_numbers() {
    let version = ["MAJOR", "MINOR", "PATCH"]
        .map(|part| defined(&format!("CUCKOOORMOLU_VERSION_{part}")).to_string());
    assert_eq!(version.join("."), env!("CARGO_PKG_VERSION"));
    let [major, minor, patch] = version.map(|part| part.parse::<usize>().unwrap());
    assert_eq!(raw::version(), 1_000_000 * major + 1_000 * minor + patch);
    assert_eq!(defined("CUCKOOORMOLU_TERMS_WORDS"), TERMS_WORDS);
    assert_eq!(defined("CUCKOOORMOLU_STATE_WORDS"), STATE_WORDS);
    assert_eq!(defined("CUCKOOORMOLU_SCRATCH_WORDS"), SCRATCH_WORDS);
    assert_eq!(defined("CUCKOOORMOLU_PLAN_WORDS"), PLAN_WORDS);
    let refusals = [
        "FORM", "RANGE", "OPERAND", "PAST", "POLICY", "SHORT", "TERMS", "STATE", "NAME", "REACH",
        "TABLE", "FRESH", "SIZE", "PLAN", "NUMBERS",
    ];
    assert_eq!(refusals.len(), Refusal::ALL.len());
    for (name, refusal) in refusals.into_iter().zip(Refusal::ALL) {
        assert_eq!(defined(&format!("CUCKOOORMOLU_REFUSED_{name}")), refusal.number());
    }
    for (name, answer) in [("DENY", 0), ("GRANT", 1), ("REFUSED", 9)] {
        assert_eq!(defined(&format!("CUCKOOORMOLU_ANSWER_{name}")), answer);
    }
    let header: String = include_str!("../../c/cuckooormolu.h").lines().map(str::trim).collect();
    let header = header.replace("\"\"", "");
    for refusal in Refusal::ALL {
        assert!(header.contains(refusal.words()), "{refusal}");
    }
}
