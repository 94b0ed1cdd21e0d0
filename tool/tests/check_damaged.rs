//! Whatever is refused gets a cause with the refusal's number, at its line.

use cuckooormolu_tool::both::Both;
use cuckooormolu_tool::check::{diagnose, Fault};
use cuckooormolu_tool::names::Names;
use keeper::generate::{case, damaged_text};
use keeper::terms::Refusal;
use std::collections::BTreeMap;

/// What both say of a text is what the diagnosis says.
fn held(text: &[u8], seed: u64) -> Option<Fault> {
    let refusal = Both::read(text).expect("library and keeper agree").err();
    let fault = diagnose(text, &Names::default());
    let found = fault.as_ref().map(|fault| Refusal { number: fault.number, line: fault.line });
    assert_eq!(found, refusal, "seed {seed}: {}", text.escape_ascii());
    fault
}

#[test]
fn damaged_files_get_a_cause() {
    let mut causes: BTreeMap<(u16, String), usize> = BTreeMap::new();
    for seed in 0..15_000 {
        let text = damaged_text(seed);
        let Some(fault) = held(&text, seed) else { continue };
        assert!(!fault.what.is_empty(), "seed {seed}");
        if let Some([line, marks]) = fault.shown(&text) {
            let (line, marks) = (line.chars().count(), marks.chars().count());
            assert!(marks <= line.max(1) + 1, "seed {seed}: {fault:?}");
        }
        // Numbers and quotations aside, so many kinds of causes.
        let kind: String = fault.what.chars().filter(|letter| !letter.is_ascii_digit()).collect();
        let kind = kind.split('`').step_by(2).collect();
        *causes.entry((fault.number, kind)).or_default() += 1;
    }
    assert!(causes.len() > 60, "{causes:#?}");
    for number in [1, 2, 3, 4, 5, 10, 11] {
        assert!(causes.keys().any(|(of, _)| *of == number), "{number}");
    }
}

#[test]
fn sound_files_get_none() {
    for seed in 0..1_000 {
        assert_eq!(held(&case(seed, 99).text, seed), None);
    }
}

#[test]
fn every_byte_changed_in_turn() {
    let preset = include_bytes!("../../examples/preset/terms.tsv");
    let stored = [b"S\t2\n", &preset[..], b"T\t0\t0\t1\nV\t0\t0\t1\n"].concat();
    for text in [&preset[..], &stored] {
        for place in 0..text.len() {
            for byte in b" \t\n\r09FTVx-\0\xff" {
                let mut damaged = text.to_vec();
                damaged[place] = *byte;
                held(&damaged, place as u64);
                damaged.truncate(place);
                held(&damaged, place as u64);
            }
        }
    }
}
