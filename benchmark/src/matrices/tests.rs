use super::Matrices;
use keeper::generate;
use keeper::record::Record;
use keeper::terms::{self, Entry};

/// Reach, many and all else, from both forms: the answers are the keeper's.
#[test]
fn answers_are_the_keepers() {
    let (mut reaching, mut counting) = (0, 0);
    for seed in 0..400 {
        let case = generate::case(seed, 99_999);
        let file = terms::read(&case.text).expect("an accepted text");
        let terms = file.terms.clone();
        // 001 has no tables of two variables.
        if terms.members > 8 || terms.entries.len() > 60 || !terms.paired().is_empty() {
            continue;
        }
        reaching += usize::from(terms.entries.iter().any(|e| matches!(e, Entry::Reach(..))));
        counting += usize::from(terms.entries.iter().any(|e| matches!(e, Entry::Many(..))));
        let mut record = Record::of(file);
        let mut matrices = Matrices::resume(&terms, &record.state_words());
        for call in case.calls() {
            let right = call.event < terms.events && call.from.max(call.to) < terms.members;
            if right {
                let permits = record.permits(call.event, call.from, call.to);
                assert_eq!(matrices.look(call.event, call.from, call.to), permits, "seed {seed}");
                record.call(false, call.event, call.from, call.to, 64);
                matrices.request(call.event, call.from, call.to);
            }
        }
    }
    assert!(reaching > 20 && counting > 20, "{reaching} {counting}");
}
