//! The stored form: what it says, when it is refused, and that nobody can tell
//! a panel that stopped from one that did not.

use crate::help::*;
use keeper::expect;
use keeper::generate::{self, formulas, renumbered, revised, size::Size, Rng};
use keeper::record::Answer::{Deny, Grant};
use keeper::record::Record;
use keeper::step::Step;
use keeper::terms::memory::*;
use keeper::terms::{normal, store, Refusal};

/// The preset after share 0 1, stored.
fn shared() -> Vec<u8> {
    tabs(&format!("S 2\n{PRESET}T 0 0 1\nV 0 0 1\n"))
}

/// Two members; entry 1 is always true at some moment before, entry 2 is open.
/// Table 0 has no free variable, table 1 has one.
const HEAD: &str = "S 2/M 2/L 1 2/F 0 top 0 0/F 1 since 0 0/F 2 var 1 0/F 3 prev 2 0/P 0 0/P 1 0";

fn after(lines: &str) -> (u16, usize) {
    refused(&slashes(&format!("{HEAD}/{lines}")))
}

fn sound(lines: &str) -> Record {
    record(&format!("{HEAD}/{lines}"))
}

#[test]
fn the_preset_remembers_a_share() {
    let mut panel = preset();
    assert_eq!(request(&mut panel, 0, 0, 1), Grant);
    assert_eq!(store(panel.terms(), &panel.state()), shared());
    let mut later = opened(&shared());
    assert_eq!(later.state_words(), panel.state_words());
    assert_eq!(request(&mut later, 2, 1, 2), Grant);
    assert_eq!(request(&mut later, 1, 0, 1), Grant);
    assert_eq!(request(&mut later, 2, 1, 2), Deny);
}

#[test]
fn an_old_file_becomes_a_new_one_as_a_fresh_start() {
    let old = slashes("M 2/L 1 1/F 0 top 0 0/F 1 not 0 0/F 2 since 1 0/P 0 2/G 0 1 0");
    let new = "S 2/M 2/L 1 1/F 0 top 0 0/F 1 not 0 0/F 2 since 1 0/P 0 2/G 0 1 0";
    let record = opened(&old);
    let bits = "T 0 0 0/T 0 0 1/T 0 1 0/T 0 1 1";
    assert_eq!(store(record.terms(), &record.state()), slashes(&format!("{new}/{bits}")));
    assert_eq!(opened(&slashes(&format!("{new}/{bits}"))).state(), record.state());
    // Without its T lines it is no fresh start: nothing has held before.
    let empty = opened(&slashes(new));
    assert_ne!(empty.state(), record.state());
    assert_eq!(look(&mut empty.clone(), 0, 0, 0), Deny);
    let (terms, words) = (terms_words(empty.terms()), empty.state_words());
    assert_eq!(expect::writing(&terms, &words, usize::MAX), Err(Refusal::plain(12)));
    assert_eq!(expect::writing(&terms, &record.state_words(), usize::MAX), Ok(old));
}

/// What the tables say of the first moment counts at that moment only.
#[test]
fn tables_of_no_record_are_gone_on_from() {
    // Event 0 is free; event 1 asks for a prev of top, event 2 for the prev of that.
    let text = "S 2/M 2/L 0 3/F 0 top 0 0/F 1 prev 0 0/F 2 prev 1 0/P 0 0/P 1 1/P 2 2";
    let mut record = record(&format!("{text}/T 1 0 0/T 1 0 1"));
    assert_eq!([look(&mut record, 1, 0, 0), look(&mut record, 2, 0, 0)], [Deny, Grant]);
    assert_eq!(look(&mut record, 2, 1, 0), Deny);
    request(&mut record, 0, 0, 0);
    assert_eq!([look(&mut record, 1, 0, 0), look(&mut record, 2, 0, 0)], [Grant, Deny]);
    request(&mut record, 0, 0, 0);
    assert_eq!([look(&mut record, 1, 1, 0), look(&mut record, 2, 1, 0)], [Grant, Grant]);
}

#[test]
fn first_lines() {
    let rest = "M 2/L 0 1/F 0 top 0 0/P 0 0";
    let first = |line: &str| refused(&slashes(&format!("{line}/{rest}")));
    accepted(&slashes(&format!("S 2/{rest}")));
    accepted(&slashes(&format!("S 00002/{rest}")));
    assert_eq!(first("S 1"), (2, 1));
    assert_eq!(first("S 3"), (2, 1));
    assert_eq!(first("S 0"), (2, 1));
    assert_eq!(first("S 99999"), (2, 1));
    assert_eq!(first("S 000002"), (1, 1));
    assert_eq!(first("S"), (1, 1));
    assert_eq!(first("S 2 2"), (1, 1));
    assert_eq!(first("S x"), (1, 1));
    assert_eq!(first("s 2"), (1, 1));
    assert_eq!(first("S 2/S 2"), (1, 2));
    assert_eq!(first("M 2/S 2"), (1, 2));
    assert_eq!(first("T 0 0 0"), (1, 1));
    assert_eq!(first("V 0 0 0"), (1, 1));
    assert_eq!(refused(&slashes("S 2")), (1, 2));
    assert_eq!(refused(&slashes(&format!("{rest}/S 2"))), (1, 5));
    assert_eq!(refused(&slashes(&format!("{rest}/S 3"))), (1, 5));
    assert_eq!(refused(&slashes("S 2/M 2/L 0 1/F 0 top 0 0")), (1, 5));
    assert_eq!(refused(b"S\t2"), (1, 1));
}

#[test]
fn places_of_t_and_v() {
    let old = HEAD.strip_prefix("S 2/").unwrap();
    assert_eq!(refused(&slashes(&format!("{old}/T 1 0 0"))), (1, 9));
    assert_eq!(refused(&slashes(&format!("{old}/V 0 0 0"))), (1, 9));
    assert_eq!(refused(&slashes(&format!("{old}/T 9 9 9"))), (1, 9));
    assert_eq!(after("T 1 0 0/G 0 0 0"), (1, 11));
    assert_eq!(after("T 1 0 0/E 0 add 0 fwd"), (1, 11));
    assert_eq!(after("V 0 0 0/V 0 0 0"), (1, 11));
    assert_eq!(after("V 0 0 0/T 1 0 0"), (1, 11));
    assert_eq!(after("V 0 0 0/G 0 0 0"), (1, 11));
    assert_eq!(after("V 0 0 0/V 9 9 9"), (1, 11));
    assert_eq!(after("V 0 0 0/"), (1, 11));
    assert_eq!(after("S 2"), (1, 10));
    let early = "S 2/M 2/L 1 2/F 0 top 0 0/F 1 prev 0 0/P 0 0";
    assert_eq!(refused(&slashes(&format!("{early}/T 0 0 0"))), (1, 7));
    assert_eq!(refused(&slashes(&format!("{early}/V 0 0 0"))), (1, 7));
    sound("E 0 add 0 fwd/G 0 0 0/T 1 0 0/T 1 0 1/T 1 1 0/V 1 1 1");
    sound("V 1 1 1");
    sound("G 0 0 0");
}

#[test]
fn order_and_ranges_of_t() {
    assert_eq!(after("T 1 0 0/T 1 0 0"), (1, 11));
    assert_eq!(after("T 1 0 1/T 1 0 0"), (1, 11));
    assert_eq!(after("T 1 1 0/T 1 0 1"), (1, 11));
    assert_eq!(after("T 1 0 0/T 0 1 1"), (1, 11));
    assert_eq!(after("T 1 0 0/T 0 99 99"), (1, 11));
    assert_eq!(after("T 1 0 01/T 1 00 1"), (1, 11));
    assert_eq!(after("T 1 0"), (1, 10));
    assert_eq!(after("T 1 0 0 0"), (1, 10));
    assert_eq!(after("T 1 0 x"), (1, 10));
    assert_eq!(after("T 1 0 000000"), (1, 10));
    assert_eq!(after("T 2 0 0"), (2, 10));
    assert_eq!(after("T 99999 0 0"), (2, 10));
    assert_eq!(after("T 1 2 0"), (2, 10));
    assert_eq!(after("T 1 0 2"), (2, 10));
    assert_eq!(after("V 2 0 0"), (2, 10));
    assert_eq!(after("V 15 0 0"), (2, 10));
    assert_eq!(after("V 18 0 0"), (2, 10));
    assert_eq!(after("V 31 0 0"), (2, 10));
    assert_eq!(after("V 32 0 0"), (2, 10));
    assert_eq!(after("V 99999 0 0"), (2, 10));
    assert_eq!(after("V 17 2 0"), (2, 10));
    assert_eq!(after("V 16 0 2"), (2, 10));
    assert_eq!(after("V 0 2 0"), (2, 10));
    assert_eq!(after("V 0 0 2"), (2, 10));
    assert_eq!(after("V 0 0"), (1, 10));
    assert_eq!(after("V 0 0 0 0"), (1, 10));
    assert_eq!(after("V 0 0 -1"), (1, 10));
    sound("T 01 00000 1/T 1 0001 0/V 01 0 00");
    sound("V 16 0 1");
    sound("V 00017 1 1");
}

#[test]
fn partly_filled_words() {
    sound("T 0 0 0/T 0 0 1");
    sound("T 0 1 0/T 0 1 1/T 1 0 1");
    assert_eq!(after("T 0 0 0"), (11, 10));
    assert_eq!(after("T 0 0 1"), (11, 10));
    assert_eq!(after("G 0 0 0/T 0 0 0/T 0 0 1/T 0 1 1"), (11, 13));
    assert_eq!(after("T 0 0 0/T 0 1 0/T 0 1 1"), (11, 10));
    assert_eq!(after("T 0 0 0/T 0 1 0/T 1 0 0/V 0 0 0"), (11, 10));
    // Only where no line has another fault.
    assert_eq!(after("T 0 0 0/T 0 0 0"), (1, 11));
    assert_eq!(after("T 0 0 0/T 0 2 0"), (2, 11));
    assert_eq!(after("T 0 0 0/V 2 0 0"), (2, 11));
    assert_eq!(after("T 0 0 0/V 0 0 0/V 0 0 0"), (1, 12));
    let mut cut = slashes(&format!("{HEAD}/T 0 0 0/V 0 0 0"));
    cut.pop();
    assert_eq!(refused(&cut), (1, 11));
    // Of one member's tables every word is full or empty.
    record("S 2/M 1/L 0 1/F 0 top 0 0/F 1 prev 0 0/P 0 1/T 0 0 0");
    // The first word counts, and in it its first line.
    let three = "S 2/M 3/L 0 1/F 0 top 0 0/F 1 prev 0 0/F 2 since 0 0/P 0 1";
    let text = |lines: &str| refused(&slashes(&format!("{three}/{lines}")));
    assert_eq!(text("T 0 0 0/T 0 0 1/T 0 0 2/T 0 1 1/T 0 1 2/T 1 0 0"), (11, 11));
    assert_eq!(text("T 1 2 0/T 1 2 2"), (11, 8));
}

#[test]
fn the_old_form_is_written_only_from_a_fresh_start() {
    let mut panel = preset();
    let terms = terms_words(panel.terms());
    let write = |panel: &Record, room| expect::writing(&terms, &panel.state_words(), room);
    assert_eq!(write(&panel, usize::MAX), Ok(tabs(PRESET)));
    assert_eq!(write(&panel, 0), Err(Refusal::plain(6)));
    request(&mut panel, 0, 0, 1);
    assert_eq!(write(&panel, usize::MAX), Err(Refusal::plain(12)));
    // 12 comes before the output's length.
    assert_eq!(write(&panel, 0), Err(Refusal::plain(12)));
    // An event edge alone is a difference, and so is one bit of a table.
    let mut words = preset().state_words();
    words[EVENT_WORD] = 1;
    assert_eq!(expect::writing(&terms, &words, usize::MAX), Err(Refusal::plain(12)));
    words[EVENT_WORD] = 0;
    words[FIRST_TABLE] = 1;
    assert_eq!(expect::writing(&terms, &words, usize::MAX), Err(Refusal::plain(12)));
    assert!(expect::storing(&terms, &words, usize::MAX).is_ok());
    // 8 comes first.
    words[1] = 1 << 63;
    assert_eq!(expect::writing(&terms, &words, usize::MAX), Err(Refusal::plain(8)));
}

#[test]
fn generated_files_of_the_stored_form() {
    let (mut stored, mut bits, mut events, mut strange, mut denied) = (0, 0, 0, 0, 0);
    for seed in 0..2_000 {
        let text = generate::case(seed, 99_999).text;
        let file = file(&text);
        assert_eq!(file.text(), normal(&text), "seed {seed}");
        let Some(past) = &file.past else { continue };
        stored += 1;
        bits += usize::from(past.tables.iter().any(|table| !table.is_empty()));
        events += usize::from(past.event.is_some());
        denied += usize::from(past.event.is_some_and(|edge| edge.denied));
        let record = Record::of(file.clone());
        assert_eq!(&record.state().past, past, "seed {seed}");
        // True of no record: a since over its second operand is false.
        strange +=
            usize::from(past.event.is_none() && record.state() != Record::new(file.terms).state());
    }
    println!("{stored} stored, {bits} bits, {events} events, {denied} denied, {strange} strange");
    assert!(stored > 200 && bits > 100 && events > 100 && denied > 60 && strange > 30);
}

/// Run, revise, renumber, store, load, go on, any number of times: answers and words are those
/// of a panel that never stopped.
#[test]
fn a_panel_that_stopped_answers_as_one_that_did_not() {
    let (mut loads, mut grants, mut revisions, mut renumberings) = (0, 0, 0, 0);
    for seed in 0..400 {
        let mut rng = Rng::new(seed);
        let size = if seed % 4 == 0 { Size::middle(&mut rng) } else { Size::small(&mut rng) };
        let terms = formulas::terms(&mut rng, &size);
        let calls = generate::calls(&mut rng, &terms, 24, 99_999);
        let steps = revised::steps(&mut rng, &terms, calls);
        let steps = renumbered::among(&mut rng, terms.members, steps);
        let mut going = Record::new(terms);
        let mut stopped = going.clone();
        for step in &steps {
            match step {
                Step::Call(call) => {
                    let answer = going.answer(call);
                    grants += usize::from(answer == Grant);
                    assert_eq!(stopped.answer(call), answer, "seed {seed}");
                }
                Step::Revision(revision) => {
                    let answer = revision.answer(&mut going);
                    revisions += usize::from(answer.is_ok());
                    assert_eq!(revision.answer(&mut stopped), answer, "seed {seed}");
                }
                Step::Renumbering(renumbering) => {
                    let answer = renumbering.answer(&mut going);
                    renumberings += usize::from(answer.is_ok());
                    assert_eq!(renumbering.answer(&mut stopped), answer, "seed {seed}");
                }
            }
            if rng.percent(40) {
                let text = store(stopped.terms(), &stopped.state());
                assert_eq!(text, store(going.terms(), &going.state()), "seed {seed}");
                stopped = opened(&text);
                assert_eq!(stopped.graphs().len(), 1);
                loads += 1;
            }
            assert_eq!(stopped.state_words(), going.state_words(), "seed {seed}");
        }
    }
    println!(
        "{loads} loadings, {grants} grants, {revisions} revisions, {renumberings} renumberings"
    );
    assert!(loads > 3_000 && grants > 3_000 && revisions > 400 && renumberings > 400);
}
