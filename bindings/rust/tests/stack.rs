//! The stack that is told of terms is enough for a thread to read them and to answer by them.
//! bindings/c/test_stack.c measures it.
#![cfg(feature = "alloc")]

use cuckooormolu::{Monitor, Request};
use std::fmt::Write;
use std::fs;
use std::thread;

/// What the thread and this test take besides.
const BESIDES: usize = 64 << 10;

/// Entries that nest so deep by an operator, and then so often by or of the one below twice.
fn terms(operator: &str, depth: usize, doubled: usize) -> Vec<u8> {
    let mut text = "M 64\nL 1 2\nF 0 top 0 0\nF 1 var 0 0\n".to_string();
    for entry in 2..depth + 2 {
        writeln!(
            text,
            "F {entry} {operator} {}{}",
            entry - 1,
            ["", " 0"][(operator == "not") as usize]
        )
        .unwrap();
    }
    let last = depth + 1 + doubled;
    for entry in depth + 2..=last {
        writeln!(text, "F {entry} or {0} {0}", entry - 1).unwrap();
    }
    writeln!(text, "F {} since {last} {last}\nP 0 0\nP 1 {last}\nG 0 0 1", last + 1).unwrap();
    text.replace(' ', "\t").into_bytes()
}

/// Reads, asks and writes on a thread with the stack that is told.
fn lives_with_what_is_told(text: Vec<u8>) {
    let told = Monitor::read(&text).unwrap().terms().stack();
    let work = move || {
        let mut monitor = Monitor::read(&text).unwrap();
        monitor.write().unwrap();
        for event in monitor.terms().events().collect::<Vec<_>>() {
            let [from, to] = [0, 1].map(|n| monitor.terms().members().nth(n).unwrap());
            let _ = monitor.request(Request { event, from, to });
        }
        monitor.revise(&monitor.terms().clone()).unwrap();
    };
    thread::Builder::new().stack_size(told + BESIDES).spawn(work).unwrap().join().unwrap();
}

#[test]
fn it_is_enough_for_every_example() {
    let examples = concat!(env!("CARGO_MANIFEST_DIR"), "/../../examples");
    let mut count = 0;
    for folder in fs::read_dir(examples).unwrap() {
        let Ok(text) = fs::read(folder.unwrap().path().join("terms.tsv")) else { continue };
        if text.starts_with(b"S") {
            continue;
        }
        lives_with_what_is_told(text);
        count += 1;
    }
    assert!(count > 10);
}

#[test]
fn it_is_enough_for_deep_terms() {
    for operator in ["not", "out 0", "bind 1", "at 0"] {
        for depth in [1, 30, 120] {
            for doubled in [0, 8, 12] {
                lives_with_what_is_told(terms(operator, depth, doubled));
            }
        }
    }
}

/// The numbers of the C header, where the archive is linked.
#[test]
fn it_is_told_by_depth_and_memo() {
    let told = |operator, depth, doubled| {
        Monitor::read(&terms(operator, depth, doubled)).unwrap().terms().stack()
    };
    let level = told("not", 9, 0) - told("not", 8, 0);
    assert_eq!(told("not", 8, 0), (40 << 10) + 10 * level);
    // 511 for either operand of the since, and 767.
    assert_eq!(told("not", 1, 8), (40 << 10) + 11 * level);
    assert_eq!(told("not", 2, 8), (312 << 10) + 12 * level);
    assert_eq!(told("bind 1", 6, 0), (40 << 10) + 8 * level);
    assert_eq!(told("bind 1", 60, 0), (312 << 10) + 62 * level);
}
