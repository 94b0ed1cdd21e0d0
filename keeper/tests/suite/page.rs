//! The worked example of docs/MEMORY.md.

use crate::help::*;
use keeper::banks::lent::{OWN_WORDS, RELATION_WORDS};
use keeper::banks::Banks;
use keeper::record::Answer::{Deny, Grant};
use keeper::record::{Call, Record};
use keeper::set_list::{self, Item};
use keeper::terms::memory::{terms_words, SCRATCH_WORDS, STATE_WORDS, TERMS_WORDS};
use keeper::terms::{store, Entry};

const PAGE: &str = include_str!("../../../docs/MEMORY.md");

/// The cells of the rows of the table with these first columns.
fn table(columns: &str) -> Vec<Vec<&'static str>> {
    let rows = PAGE.lines().skip_while(|line| !line.starts_with(columns)).skip(2);
    let rows = rows.take_while(|line| line.starts_with('|'));
    let rows: Vec<Vec<_>> =
        rows.map(|row| row.split('|').skip(1).map(str::trim).collect()).collect();
    assert!(!rows.is_empty(), "no table {columns}");
    rows
}

/// A number of the page.
fn number(cell: &str) -> u64 {
    cell.parse().unwrap_or_else(|_| panic!("{cell} is no number"))
}

/// The words of a record, as a cell of the page has them.
fn item(cell: &str) -> Item {
    let words: Vec<u32> = cell.split(' ').map(|word| number(word) as u32).collect();
    let [event, from, to, answer] = words[..] else { panic!("{cell} is no record") };
    Item { event, from, to, answer }
}

/// The text of the lines that the page names, with the first edge.
fn text() -> Vec<u8> {
    let lines = table("| line | word |").into_iter().filter_map(|row| row[0].strip_prefix('`'));
    let text: String = lines.map(|line| line.replace('`', "\n")).collect();
    tabs(&format!("{text}G 0 0 2\n"))
}

#[test]
fn its_lines_are_the_preset_with_a_kept_event_and_one_effect() {
    let more = "K 2\nE 2 add 0 fwd\n";
    assert_eq!(text(), tabs(&PRESET.replace("G 0 0 2\n", &format!("{more}G 0 0 2\n"))));
}

#[test]
fn its_words_of_terms() {
    let mut words = vec![0; TERMS_WORDS];
    for row in table("| line | word |") {
        let place = number(row[1]) as usize;
        for (index, value) in row[2].split(' ').enumerate() {
            words[place + index] = number(value) as u16;
        }
    }
    assert_eq!(terms_words(&accepted(&text())), words);
}

#[test]
fn its_words_of_state() {
    let mut record = Record::new(accepted(&text()));
    let mut stored = Vec::new();
    let calls = [None, Some(([0, 0, 1], Grant)), Some(([2, 1, 2], Grant)), Some(([2, 2, 0], Deny))];
    for (column, call) in calls.into_iter().enumerate() {
        if let Some(([event, from, to], answer)) = call {
            assert_eq!(request(&mut record, event, from, to), answer);
        }
        let mut words = vec![0; STATE_WORDS];
        for row in table("| word | moment 0 | share 0 1 | load 1 2 | load 2 0 |") {
            words[number(row[0]) as usize] = number(row[1 + column]);
        }
        assert_eq!(record.state_words(), words, "column {column}");
        stored.push(store(record.terms(), &record.state()));
    }
    let said = "`G 0 0 2`, `G 0 1 2`, `T 0 0 1` and `V 2 1 2`";
    assert!(PAGE.contains(said));
    let lines: String =
        said.split('`').skip(1).step_by(2).map(|line| format!("{line}\n")).collect();
    assert!(stored[2].ends_with(&[b"fwd\n", &tabs(&lines)[..]].concat()));
    assert!(PAGE.contains("`V 18 2 0`") && stored[3].ends_with(&tabs("V 18 2 0\n")));
}

#[test]
fn its_second_state() {
    let mut record = Record::new(accepted(&text()));
    assert_eq!(request(&mut record, 0, 0, 1), Grant);
    let old = record.state_words();
    let mut terms = record.terms().clone();
    terms.put_in(4, &[Entry::Prev(3)]);
    assert_eq!(record.revise(&terms), Ok(()));
    for (column, words) in [old, record.state_words()].into_iter().enumerate() {
        let mut shown = vec![0; STATE_WORDS];
        for row in table("| word | old state | second state |") {
            shown[number(row[0]) as usize] = number(row[1 + column]);
        }
        assert_eq!(words, shown, "column {column}");
    }
}

#[test]
fn its_renumbered_state() {
    let mut record = Record::new(accepted(&text()));
    assert_eq!(request(&mut record, 0, 0, 1), Grant);
    assert_eq!(request(&mut record, 2, 1, 2), Grant);
    let old = record.state_words();
    assert!(PAGE.contains("by the list 2 0 1:") && PAGE.contains("The list 1 2 0 undoes it"));
    assert_eq!(record.renumber(&[2, 0, 1]), Ok(()));
    for (column, words) in [&old, &record.state_words()].into_iter().enumerate() {
        let mut shown = vec![0; STATE_WORDS];
        for row in table("| word | by the old numbers | by the new numbers |") {
            shown[number(row[0]) as usize] = number(row[1 + column]);
        }
        assert_eq!(*words, shown, "column {column}");
    }
    assert_eq!(record.renumber(&[1, 2, 0]), Ok(()));
    assert_eq!(record.state_words(), old);
}

#[test]
fn its_two_banks() {
    let mut banks = Banks::new(accepted(&text()));
    let share = Call { look: false, event: 0, from: 0, to: 1, scratch_words: SCRATCH_WORDS };
    for column in 0..2 {
        if column == 1 {
            assert_eq!(banks.call(0, &share, SCRATCH_WORDS), Grant);
        }
        let mut relations = vec![0; RELATION_WORDS];
        let mut own = [0, 1].map(|_| vec![0; OWN_WORDS]);
        for row in table("| word | moment 0 | share 0 1 in the first bank |") {
            let (part, place) = row[0].rsplit_once(' ').unwrap();
            let words = match part {
                "relations, word" => &mut relations,
                "first bank, own word" => &mut own[0],
                "second bank, own word" => &mut own[1],
                _ => panic!("{part} is no part"),
            };
            words[number(place) as usize] = number(row[1 + column]);
        }
        let words = banks.words();
        assert_eq!((words.relations, words.own), (relations, own), "column {column}");
    }
}

#[test]
fn its_records() {
    let rows = table("| record | lent | left |");
    let mut items: Vec<Item> = rows.iter().map(|row| item(row[1])).collect();
    let left: Vec<Item> = rows.iter().map(|row| item(row[2])).collect();
    let mut record = Record::new(accepted(&text()));
    assert_eq!(set_list::answer(&mut record, &mut items, SCRATCH_WORDS), Ok(2));
    assert_eq!(items, left);
    let mut single = Record::new(accepted(&text()));
    for [event, from, to] in [[0, 0, 1], [2, 1, 2]] {
        request(&mut single, event, from, to);
    }
    assert_eq!(record.state_words(), single.state_words());
}
