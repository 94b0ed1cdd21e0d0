//! Past-time entries with two free variables: their tables, and their T lines.

use crate::help::*;
use keeper::expect;
use keeper::generate;
use keeper::record::Answer::{Deny, Grant};
use keeper::record::{Call, Record};
use keeper::terms::memory::*;
use keeper::terms::{self, store, Bit, Refusal};
use std::collections::BTreeSet;

/// Entry 4: the member of variable 1 once did event 0 to that of 2. Event 1 asks
/// that of the initiator and the target.
const ONCE: &str = "L 0 2/F 0 top 0 0/F 1 var 2 0/F 2 out 0 1/F 3 at 1 2/F 4 since 0 3/\
    F 5 bind 2 4/F 6 at 0 5/F 7 bind 1 6/P 0 0/P 1 7";

/// Three members. Entry 2, table 0, has variables 1 and 2 free, entry 3, table 1,
/// has one.
const HEAD: &str =
    "S 2/M 3/L 1 1/F 0 var 1 0/F 1 var 2 0/F 2 since 0 1/F 3 prev 0 0/F 4 top 0 0/P 0 4";

fn after(lines: &str) -> (u16, usize) {
    refused(&slashes(&format!("{HEAD}/{lines}")))
}

fn sound(lines: &str) -> Record {
    record(&format!("{HEAD}/{lines}"))
}

fn once(members: usize) -> Record {
    record(&format!("M {members}/{ONCE}"))
}

#[test]
fn one_did_it_to_the_other() {
    let mut record = once(3);
    assert_eq!(look(&mut record, 1, 0, 1), Deny);
    request(&mut record, 0, 0, 1);
    assert_eq!(look(&mut record, 1, 0, 1), Grant);
    assert_eq!([look(&mut record, 1, 1, 0), look(&mut record, 1, 0, 2)], [Deny, Deny]);
    request(&mut record, 0, 2, 2);
    assert_eq!([look(&mut record, 1, 0, 1), look(&mut record, 1, 2, 2)], [Grant, Grant]);
    assert_eq!(look(&mut record, 1, 2, 1), Deny);
}

/// Bit 16 (b mod 4) + c of word 4 a + b / 4, the lower-numbered variable first.
#[test]
fn places_of_bits() {
    assert_eq!(Bit::Triple(0, 0, 0).place(), (0, 0));
    assert_eq!(Bit::Triple(0, 3, 15).place(), (0, 63));
    assert_eq!(Bit::Triple(0, 4, 0).place(), (1, 0));
    assert_eq!(Bit::Triple(5, 6, 7).place(), (21, 39));
    assert_eq!(Bit::Triple(15, 15, 15).place(), (63, 63));
    let places: BTreeSet<_> = Bit::all(16, 0b110).into_iter().map(Bit::place).collect();
    assert_eq!(places.len(), 4_096);

    let mut record = once(16);
    request(&mut record, 0, 6, 7);
    let words = record.state_words();
    for a in 0..16 {
        assert_eq!(words[1_024 + 4 * a..][..4], [0, 1 << 39, 0, 0], "{a}");
    }
    assert_eq!(words[1_024 + 64..3_072].iter().filter(|&&word| word != 0).count(), 0);
    // The other way round where the numbers of the variables are.
    let text = ONCE.replace("var 2", "var 3").replace("at 1", "at 4");
    let text = text.replace("bind 2", "bind 3").replace("bind 1", "bind 4");
    let mut other = self::record(&format!("M 16/{text}"));
    request(&mut other, 0, 6, 7);
    assert_eq!(other.state_words()[1_024..1_028], [0, 1 << (16 * 3 + 6), 0, 0]);
    assert_eq!([look(&mut other, 1, 6, 7), look(&mut other, 1, 7, 6)], [Grant, Deny]);
}

/// Also the member at which it is asked counts.
#[test]
fn a_table_of_three() {
    let text = "M 4/L 0 1/F 0 var 1 0/F 1 var 0 0/F 2 out 0 1/F 3 or 0 2/F 4 prev 3 0/\
        F 5 top 0 0/P 0 5";
    let mut record = record(text);
    request(&mut record, 0, 2, 3);
    request(&mut record, 0, 0, 0);
    let table = &record.state().past.tables[0];
    for bit in Bit::all(4, 0b11) {
        // Variable 0 is the first of the two.
        let (a, [target, who]) = bit.parts();
        assert_eq!(table.contains(&bit), a == who || (a, target) == (2, 3), "{bit:?}");
    }
}

#[test]
fn words_that_break_the_layout() {
    let mut panel = once(3);
    request(&mut panel, 0, 0, 1);
    let (terms, words) = (terms_words(panel.terms()), panel.state_words());
    let number = |word: usize, bit: usize| {
        let mut words = words.clone();
        words[word] |= 1 << bit;
        expect::calling(&terms, &words, &Call::request(0, 0, 0))
            .map_or_else(|refusal| refusal.number, |_| 0)
    };
    assert_eq!(number(1_024, 0), 0);
    assert_eq!(number(1_024 + 8, 34), 0);
    assert_eq!(number(1_024, 3), 8, "the last stands for member 3");
    assert_eq!(number(1_024, 15), 8);
    assert_eq!(number(1_024, 48), 8, "the first stands for member 3");
    assert_eq!(number(1_025, 0), 8, "the first stands for member 4");
    assert_eq!(number(1_036, 0), 8, "at member 3");
    assert_eq!(number(1_087, 63), 8);
    assert_eq!(number(1_088, 0), 8, "a table that is not there");
    let full = record(&format!("M 16/{ONCE}"));
    let (terms, mut words) = (terms_words(full.terms()), full.state_words());
    words[1_024..1_088].fill(u64::MAX);
    assert!(expect::calling(&terms, &words, &Call::request(0, 0, 0)).is_ok());
    words[1_088] = 1;
    let refusal = expect::calling(&terms, &words, &Call::request(0, 0, 0)).unwrap_err();
    assert_eq!(refusal, Refusal::plain(8));
}

#[test]
fn words_of_terms() {
    let terms = terms_words(once(16).terms());
    let with = |members: u16| {
        let mut words = terms.clone();
        words[0] = members;
        terms_of_words(&words).is_some()
    };
    assert!(with(16) && with(1) && !with(17) && !with(64));
}

#[test]
fn fields_of_t() {
    sound("T 0 0 0 0");
    sound("T 0 2 2 2/T 1 0 0");
    sound("T 00 0002 001 02");
    assert_eq!(after("T 0 0 0"), (1, 10));
    assert_eq!(after("T 0 0 0 0 0"), (1, 10));
    assert_eq!(after("T 0"), (1, 10));
    assert_eq!(after("T"), (1, 10));
    assert_eq!(after("T 1 0 0 0"), (1, 10));
    assert_eq!(after("T 2 0 0"), (2, 10));
    assert_eq!(after("T 2 0 0 0"), (1, 10));
    assert_eq!(after("T 99999 9 9 9"), (1, 10));
    assert_eq!(after("T 0 0 9"), (1, 10));
    assert_eq!(after("T 0 0 0 x"), (1, 10));
    assert_eq!(after("T x 0 0 0"), (1, 10));
    assert_eq!(after("T 0 0 0 000000"), (1, 10));
    assert_eq!(after("T 0 3 0 0"), (2, 10));
    assert_eq!(after("T 0 0 3 0"), (2, 10));
    assert_eq!(after("T 0 0 0 3"), (2, 10));
    assert_eq!(after("T 0 0 0 99999"), (2, 10));
}

#[test]
fn order_of_t() {
    sound("T 0 0 0 1/T 0 0 0 2/T 0 0 1 0/T 0 1 0 0/T 0 2 2 2/T 1 0 1");
    assert_eq!(after("T 0 0 1 2/T 0 0 1 2"), (1, 11));
    assert_eq!(after("T 0 0 1 2/T 0 0 1 1"), (1, 11));
    assert_eq!(after("T 0 0 1 2/T 0 0 0 2"), (1, 11));
    assert_eq!(after("T 0 1 1 2/T 0 0 2 2"), (1, 11));
    assert_eq!(after("T 1 0 0/T 0 0 1 2"), (1, 11));
    assert_eq!(after("T 0 0 1 2/T 0 0 0 99999"), (1, 11));
    assert_eq!(after("T 0 0 1 2/T 0 0 01 02"), (1, 11));
    // No word of it is partly filled.
    sound("T 0 0 0 0/T 0 0 0 1");
}

#[test]
fn stored_and_loaded() {
    let mut panel = once(3);
    request(&mut panel, 0, 0, 1);
    let bits = "T 0 0 0 1/T 0 1 0 1/T 0 2 0 1/V 0 0 1";
    let text = slashes(&format!("S 2/M 3/{ONCE}/{bits}"));
    assert_eq!(store(panel.terms(), &panel.state()), text);
    let mut later = opened(&text);
    assert_eq!(later.state_words(), panel.state_words());
    assert_eq!([look(&mut later, 1, 0, 1), look(&mut later, 1, 1, 0)], [Grant, Deny]);
    // What is said counts, also where it is true of no record.
    let mut strange = record(&format!("S 2/M 3/{ONCE}/T 0 1 1 0/T 0 2 0 1"));
    assert_eq!([look(&mut strange, 1, 0, 1), look(&mut strange, 1, 1, 0)], [Deny, Deny]);
    request(&mut strange, 0, 2, 2);
    let said = [Bit::Triple(1, 1, 0), Bit::Triple(2, 0, 1)];
    let table = &strange.state().past.tables[0];
    assert!(said.iter().all(|bit| table.contains(bit)) && table.len() == 5);
}

#[test]
fn new_terms() {
    let mut panel = once(4);
    request(&mut panel, 0, 0, 1);
    request(&mut panel, 0, 2, 3);
    let old = panel.state();
    // The same formula under another number, and one that starts now.
    let new = "M 4/L 0 2/F 0 top 0 0/F 1 var 1 0/F 2 out 0 1/F 3 at 2 2/F 4 since 0 3/F 5 var 2 0/\
        F 6 out 0 5/F 7 at 1 6/F 8 since 0 7/F 9 prev 7 0/P 0 0/P 1 0";
    panel.revise(&accepted(&slashes(new))).unwrap();
    let tables = panel.state().past.tables;
    assert_eq!(tables[1], old.past.tables[0]);
    assert_eq!(tables[2], BTreeSet::new());
    // The other order of the variables is another formula: the event just now.
    let only = |(_, b, c): (usize, usize, usize)| (b, c) == (3, 2);
    let said = Bit::all(4, 0b110).into_iter().filter(|bit| match *bit {
        Bit::Triple(a, b, c) => only((a, b, c)),
        Bit::Pair(_, _) => false,
    });
    assert_eq!(tables[0], said.collect());
}

/// Good shares of the generated cases have such tables.
#[test]
fn generated() {
    let (mut few, mut paired, mut several, mut above, mut full, mut more) = (0, 0, 0, 0, 0, 0);
    let (mut stored, mut revised, mut lines) = (0, 0, 0);
    for seed in 0..2_000 {
        let case = generate::case(seed, 99_999);
        let file = file(&case.text);
        let count = file.terms.paired().len();
        few += usize::from(file.terms.members <= 16);
        paired += usize::from(count > 0);
        several += usize::from(count > 1);
        above += usize::from(count > 0 && file.terms.members > 8);
        full += usize::from(count > 0 && file.terms.members == 16);
        more += usize::from(file.terms.members == 17);
        if count == 0 {
            continue;
        }
        revised += usize::from(case.calls().count() < case.steps.len());
        let Some(past) = file.past else { continue };
        stored += 1;
        lines += past.tables.iter().flatten().filter(|bit| bit.members().len() == 3).count();
    }
    println!("{few} of few members, {paired} with a table of two, {several} with several");
    println!("{above} above 8 members, {full} of 16, {more} of 17");
    println!("{stored} stored with {lines} lines, {revised} revised");
    assert!(paired * 3 > few && several * 6 > few && above > 25 && full > 10 && more > 5);
    assert!(stored > 60 && lines > 1_000 && revised > 150);
}

#[test]
fn damaged() {
    let (mut lines, mut three, mut many, mut words) = ([0; 3], 0, 0, 0);
    for seed in 0..8_000 {
        let text = generate::damaged_text(seed);
        let Err(refusal) = terms::read(&text) else { continue };
        let line = text.split(|&byte| byte == b'\n').nth(refusal.line - 1).unwrap_or_default();
        let fields = line.split(|&byte| byte == b'\t').count();
        if line.starts_with(b"T\t") && fields == 5 && refusal.number < 3 {
            lines[usize::from(refusal.number)] += 1;
        }
        if refusal.number == 4 {
            let above = text.starts_with(b"M\t") && text[2..4] > b"16"[..] && text[3] != b'\n';
            *if above { &mut many } else { &mut three } += 1;
        }
    }
    for seed in 0..1_500 {
        let (terms, state) = generate::damaged_memory(seed);
        let Some(said) = terms_of_words(&terms) else { continue };
        let refused = state_of_words(&said, &state).is_none();
        words += usize::from(refused && !said.paired().is_empty());
    }
    println!(
        "{lines:?} T lines, {three} of three variables, {many} of many members, {words} words"
    );
    assert!(lines[1] > 100 && lines[2] > 30 && three > 100 && many > 60 && words > 80);
}
