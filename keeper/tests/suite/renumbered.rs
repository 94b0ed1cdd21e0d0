//! Members renumbered.

use crate::help::*;
use crate::mirror::{Fault, Mirror};
use keeper::compare;
use keeper::generate::{self, formulas, renumbered, revised, size::Size, stored, Rng};
use keeper::record::Answer::{Deny, Grant};
use keeper::record::{Answer, Graph, Record, Start};
use keeper::renumber::{renumbering, Numbering, Renumbering};
use keeper::step::Step;
use keeper::terms::memory::*;
use keeper::terms::{store, File, Past, Refusal, Terms};

fn numbering(numbers: &[u8]) -> Numbering {
    Numbering::of(numbers.len(), numbers).unwrap()
}

fn renumber(record: &mut Record, numbers: &[u8]) {
    let moments = record.graphs().len();
    assert_eq!(record.renumber(numbers), Ok(()));
    assert_eq!(record.graphs().len(), moments);
}

/// What is stored of a file after its members got other numbers.
fn stored_after(lines: &str, numbers: &[u8]) -> String {
    let mut record = record(lines);
    renumber(&mut record, numbers);
    let text = String::from_utf8(store(record.terms(), &record.state())).unwrap();
    text.trim_end().replace('\t', " ").replace('\n', "/")
}

#[test]
fn byte_m_is_the_new_number_of_m() {
    let mut record = preset();
    assert_eq!(request(&mut record, 0, 0, 1), Grant);
    assert_eq!([look(&mut record, 2, 1, 2), look(&mut record, 2, 2, 0)], [Grant, Deny]);
    let terms = record.terms().clone();
    renumber(&mut record, &[1, 2, 0]);
    assert_eq!(record.terms(), &terms);
    // Member 0 owned 2 and shared with 1: now 1 owns 0 and has shared with 2.
    let words = record.state_words();
    assert_eq!(words[..3], [0, 0b001, 0]);
    assert_eq!(words[FIRST_TABLE..FIRST_TABLE + 3], [0, 0b100, 0]);
    assert_eq!(words[EVENT_WORD], 1 + 64 + 2);
    assert_eq!([look(&mut record, 2, 1, 2), look(&mut record, 2, 2, 0)], [Deny, Grant]);
    assert_eq!(request(&mut record, 1, 1, 2), Grant);
    assert_eq!(look(&mut record, 2, 2, 0), Deny);
}

/// Three members. Table 0 has two free variables, table 1 one and table 2 none.
const HEAD: &str = "S 2/M 3/L 2 1/F 0 var 1 0/F 1 var 2 0/F 2 since 0 1/F 3 prev 0 0/F 4 top 0 0/\
    F 5 prev 4 0/P 0 4";

#[test]
fn relations_tables_and_event_move() {
    let after = |lines: &str| stored_after(&format!("{HEAD}/{lines}"), &[1, 2, 0]);
    let is = |lines: &str| format!("{HEAD}/{lines}");
    assert_eq!(after("G 0 0 1/G 1 2 2"), is("G 0 1 2/G 1 0 0"));
    assert_eq!(after("T 0 0 1 2"), is("T 0 1 2 0"));
    assert_eq!(after("T 0 0 0 1/T 0 2 1 0"), is("T 0 0 2 1/T 0 1 1 2"));
    assert_eq!(after("T 1 0 1/T 1 2 0"), is("T 1 0 1/T 1 1 2"));
    assert_eq!(after("T 2 0 0/T 2 0 1/T 2 0 2"), is("T 2 1 0/T 2 1 1/T 2 1 2"));
    assert_eq!(after("V 0 0 1"), is("V 0 1 2"));
    assert_eq!(after("V 16 2 0"), is("V 16 0 1"));
}

#[test]
fn every_graph_of_the_record_is_renumbered() {
    let mut record = preset();
    for (event, from, to) in [(0, 0, 1), (1, 0, 1), (0, 2, 1), (0, 1, 1)] {
        request(&mut record, event, from, to);
    }
    let before = record.graphs().to_vec();
    renumber(&mut record, &[2, 0, 1]);
    let numbering = numbering(&[2, 0, 1]);
    let wanted: Vec<Graph> = before.iter().map(|graph| numbering.graph(graph)).collect();
    assert_eq!(record.graphs(), wanted);
    let events: Vec<_> = record.graphs().iter().filter_map(|graph| graph.event).collect();
    let ends: Vec<_> = events.iter().map(|event| (event.from, event.to)).collect();
    assert_eq!(ends, [(2, 0), (2, 0), (1, 0), (0, 0)]);
    assert!(record.graphs().iter().all(|graph| graph.edges.contains(&(0, 2, 1))));
}

#[test]
fn starts_stay() {
    let terms = |entries: &str, asked: usize| {
        accepted(&slashes(&format!("M 2/L 0 2/F 0 top 0 0/{entries}/P 0 0/P 1 {asked}")))
    };
    let ever = "F 1 out 0 0/F 2 since 0 1";
    let mut record = Record::new(terms("F 1 top 0 0", 1));
    request(&mut record, 0, 1, 0);
    request(&mut record, 0, 0, 1);
    record.revise(&terms(ever, 2)).unwrap();
    assert_eq!(record.starts(), [Start::Moment(2)]);
    renumber(&mut record, &[1, 0]);
    assert_eq!(record.starts(), [Start::Moment(2)]);
    // What began with the last event edge is judged from there under other numbers.
    assert_eq!([look(&mut record, 1, 0, 0), look(&mut record, 1, 1, 0)], [Deny, Grant]);
    request(&mut record, 0, 0, 0);
    assert_eq!(look(&mut record, 1, 0, 0), Grant);
}

#[test]
fn the_same_numbers_change_nothing() {
    let mut record = preset();
    request(&mut record, 0, 0, 1);
    let before = (record.graphs().to_vec(), record.state_words());
    renumber(&mut record, &[0, 1, 2]);
    assert_eq!((record.graphs().to_vec(), record.state_words()), before);
}

#[test]
fn a_list_names_each_number_once() {
    let refused = Err(Refusal::plain(15));
    let number = |members: usize, numbers: &[u8]| Numbering::of(members, numbers).map(drop);
    assert_eq!(number(1, &[0]), Ok(()));
    assert_eq!(number(3, &[2, 1, 0]), Ok(()));
    for numbers in [&[][..], &[0, 1], &[1, 2, 0, 3], &[0, 1, 2, 0], &[0, 1, 2, 255]] {
        assert_eq!(number(3, numbers), refused, "{numbers:?}");
    }
    for numbers in [[0, 1, 1], [0, 0, 0], [0, 1, 3], [3, 2, 1], [255, 1, 2], [0, 1, 64]] {
        assert_eq!(number(3, &numbers), refused, "{numbers:?}");
    }
    let full: Vec<u8> = (0..64).rev().collect();
    assert_eq!(number(64, &full), Ok(()));
    assert_eq!(number(63, &full), refused);
}

#[test]
fn a_refusal_changes_nothing() {
    let mut record = preset();
    request(&mut record, 0, 0, 1);
    let before = (record.graphs().to_vec(), record.starts().to_vec());
    for numbers in [&[0, 1][..], &[1, 2, 0, 0], &[1, 1, 0]] {
        assert_eq!(record.renumber(numbers), Err(Refusal::plain(15)));
        assert_eq!((record.graphs().to_vec(), record.starts().to_vec()), before);
    }
    let short = Renumbering { second_words: STATE_WORDS - 1, ..Renumbering::by(&[1, 2, 0]) };
    assert_eq!(short.answer(&mut record), Err(Refusal::plain(6)));
    assert_eq!((record.graphs().to_vec(), record.starts().to_vec()), before);
}

#[test]
fn refusals_come_in_order() {
    let record = preset();
    let (terms, state) = (terms_words(record.terms()), record.state_words());
    let (mut bad_terms, mut bad_state) = (terms.clone(), state.clone());
    bad_terms[3] = 0;
    bad_state[EVENT_WORD] = 1 + 3 * 64;
    let number = |terms: &[u16], state: &[u64], numbers: &[u8], second: usize| {
        let line = |refusal: Refusal| (refusal.number, refusal.line);
        renumbering(terms, state, numbers, second).map_or_else(line, |_| (0, 0))
    };
    let (good, bad) = (&[1, 2, 0][..], &[1, 2, 2][..]);
    let short = STATE_WORDS - 1;
    assert_eq!(number(&bad_terms[..1_251], &bad_state, bad, STATE_WORDS), (6, 0));
    assert_eq!(number(&bad_terms, &bad_state[..short], bad, STATE_WORDS), (6, 0));
    assert_eq!(number(&bad_terms, &bad_state, bad, short), (6, 0));
    assert_eq!(number(&terms, &state, good, 0), (6, 0));
    assert_eq!(number(&bad_terms, &bad_state, bad, STATE_WORDS), (7, 0));
    assert_eq!(number(&terms, &bad_state, bad, STATE_WORDS), (8, 0));
    assert_eq!(number(&terms, &bad_state, good, STATE_WORDS), (8, 0));
    assert_eq!(number(&terms, &state, bad, STATE_WORDS), (15, 0));
    assert_eq!(number(&terms, &state, &[], STATE_WORDS), (15, 0));
    assert_eq!(number(&terms, &state, good, STATE_WORDS + 3), (0, 0));
}

#[test]
fn a_number_that_is_no_members_stays() {
    let numbering = numbering(&[2, 0, 1]);
    assert_eq!([0, 1, 2].map(|member| numbering.member(member)), [2, 0, 1]);
    for number in [3, 4, 64, 255, 99_999, usize::MAX] {
        assert_eq!(numbering.member(number), number);
    }
    let mut record = preset();
    renumber(&mut record, &[2, 0, 1]);
    assert_eq!(request(&mut record, 0, 3, 0), Answer::Refused(Refusal::plain(9)));
}

/// A file with its members renumbered from the start.
fn from_the_start(file: &File, numbering: &Numbering) -> File {
    let graph = |file: &File| Graph {
        edges: file.terms.edges.clone(),
        event: file.past.as_ref().and_then(|past| past.event),
    };
    let Graph { edges, event } = numbering.graph(&graph(file));
    let tables = |past: &Past| past.tables.iter().map(|table| numbering.table(table)).collect();
    let past = file.past.as_ref().map(|past| Past { tables: tables(past), event });
    File { terms: Terms { edges, ..file.terms.clone() }, past }
}

/// A run with a renumbering in it, beside one that had the new numbers from the
/// start: the same graphs, starts and words after it, and the same answers.
#[test]
fn later_or_from_the_start() {
    let (mut grants, mut revisions, mut paired) = (0, 0, 0);
    for seed in 0..400 {
        let mut rng = Rng::new(seed);
        let size = if seed % 4 == 0 { Size::middle(&mut rng) } else { Size::small(&mut rng) };
        let terms = formulas::terms(&mut rng, &size);
        paired += usize::from(!terms.paired().is_empty());
        let file = match seed % 3 {
            0 => stored::file(&mut rng, &terms),
            _ => File { terms: terms.clone(), past: None },
        };
        let calls = generate::calls(&mut rng, &terms, 24, 99_999);
        let steps = revised::steps(&mut rng, &terms, calls);
        let numbering = renumbered::numbering(&mut rng, terms.members);
        let place = rng.below(steps.len() + 1);
        let mut later = Record::of(file.clone());
        let mut first = Record::of(from_the_start(&file, &numbering));
        for (index, step) in steps.iter().enumerate() {
            if index == place {
                renumber(&mut later, numbering.numbers());
            }
            match step {
                Step::Call(call) => {
                    let moved = if index < place { numbering.call(call) } else { *call };
                    let answer = later.answer(call);
                    assert_eq!(first.answer(&moved), answer, "seed {seed}");
                    grants += usize::from(answer == Grant);
                }
                Step::Revision(revision) => {
                    let answer = revision.answer(&mut later);
                    assert_eq!(revision.answer(&mut first), answer, "seed {seed}");
                    revisions += usize::from(answer.is_ok());
                }
                Step::Renumbering(_) => {}
            }
        }
        if place == steps.len() {
            renumber(&mut later, numbering.numbers());
        }
        assert_eq!(later.graphs(), first.graphs(), "seed {seed}");
        assert_eq!(later.starts(), first.starts(), "seed {seed}");
        assert_eq!(later.state_words(), first.state_words(), "seed {seed}");
        // Undone, it is the record of the old numbers.
        let undone = numbering.undone();
        assert_eq!(undone.undone(), numbering);
        renumber(&mut first, undone.numbers());
        let before: Vec<Graph> = later.graphs().iter().map(|graph| undone.graph(graph)).collect();
        assert_eq!(first.graphs(), before, "seed {seed}");
        renumber(&mut later, undone.numbers());
        assert_eq!(first.state_words(), later.state_words(), "seed {seed}");
    }
    println!("{grants} grants, {revisions} revisions, {paired} with two free variables");
    assert!(grants > 3_000 && revisions > 400 && paired > 60);
}

fn differs(fault: Fault, case: &generate::Case) -> bool {
    compare::case(&mut Mirror::new(fault), case).is_err()
}

#[test]
fn impostors_are_caught_by_renumberings() {
    use Fault::*;
    let cases: Vec<_> = (0..240).map(|seed| generate::case(seed, 99_999)).collect();
    let is_other = |step: &Step| matches!(step, Step::Renumbering(_));
    let other = |case: &&generate::Case| case.steps.iter().any(is_other);
    let cases: Vec<_> = cases.iter().filter(other).collect();
    let faults = [
        TakesInverse,
        TakesLongLists,
        TakesNumbersTwice,
        ColumnsStay,
        LastColumnStays,
        TablesStay,
        EndsSwapped,
        EventStays,
        WritesRefusedSecond,
    ];
    for fault in faults {
        let caught = cases.iter().filter(|case| differs(fault, case)).count();
        println!("{fault:?}: {caught} of {}", cases.len());
        assert!(caught > 3, "{fault:?}: {caught}");
    }
}

/// Renumberings of memory after some calls, sound or damaged, and of states that
/// are true of no record.
fn renumbering_differs(fault: Fault, seed: u64) -> bool {
    let mut rng = Rng::new(seed);
    let (terms, state) = any_memory(seed);
    let renumbering = renumbered::of_words(&mut rng, &terms);
    compare::renumber(&mut Mirror::new(fault), &renumbering, &terms, &state).is_err()
}

#[test]
fn renumberings_of_any_memory_are_compared() {
    use Fault::*;
    let caught = |fault| (0..600).filter(|&seed| renumbering_differs(fault, seed)).count();
    assert_eq!(caught(None), 0);
    let faults = [
        TakesInverse,
        TakesLongLists,
        TakesNumbersTwice,
        ChecksNumbersFirst,
        ColumnsStay,
        LastColumnStays,
        TablesStay,
        EndsSwapped,
        EventStays,
        WritesRefusedSecond,
        TouchesBeyond,
    ];
    for fault in faults {
        let count = caught(fault);
        println!("{fault:?}: {count}");
        assert!(count > 3, "{fault:?}: {count}");
    }
}
