//! Formulas spelled out as texts, and the new terms that the generator reaches.

use crate::help::file;
use keeper::generate;
use keeper::record::Record;
use keeper::step::Step;
use keeper::terms::formula::first_same;
use keeper::terms::{Field, Terms, OPERATORS};

/// The formula of an entry as a text, operands in place of entry numbers.
pub fn spelled(terms: &Terms, entry: usize) -> String {
    let (number, values) = terms.entries[entry].parts();
    let operator = OPERATORS[number];
    let mut parts = vec![operator.word.to_string()];
    for (field, value) in operator.fields.into_iter().zip(values) {
        parts.push(match field {
            Field::Unused => continue,
            Field::Entry => spelled(terms, value),
            _ => value.to_string(),
        });
    }
    format!("({})", parts.join(" "))
}

/// What a revision of small terms does with past-time entries.
#[derive(Debug, Default)]
struct Seen {
    carried: usize,
    begun: usize,
    /// Carried from another place, or where several old entries would do.
    moved: usize,
    several: usize,
    /// Carried inside one that begins.
    inner: usize,
    same: usize,
    done: usize,
    refused: [usize; 14],
}

impl Seen {
    fn compare(&mut self, old: &Terms, new: &Terms) {
        let texts = |terms: &Terms| -> Vec<String> {
            (0..terms.entries.len()).map(|entry| spelled(terms, entry)).collect()
        };
        let (old_texts, new_texts) = (texts(old), texts(new));
        let first = |text| old_texts.iter().position(|other| other == text);
        let wanted: Vec<_> = new_texts.iter().map(first).collect();
        assert_eq!(first_same(old, new), wanted);
        self.same += usize::from(old == new);
        for entry in new.past() {
            let Some(from) = wanted[entry] else {
                self.begun += 1;
                let inner = |&f: &usize| new.entries[f].is_past() && wanted[f].is_some();
                self.inner += usize::from(new.entries[entry].operands().iter().any(inner));
                continue;
            };
            self.carried += 1;
            self.moved += usize::from(from != entry);
            let count = old_texts.iter().filter(|text| **text == new_texts[entry]).count();
            self.several += usize::from(count > 1);
        }
    }
}

#[test]
fn new_terms_are_mixed() {
    let mut seen = Seen::default();
    for seed in 0..1_200 {
        let case = generate::case(seed, 99_999);
        let file = file(&case.text);
        if file.terms.entries.len() > 24 {
            continue;
        }
        let mut record = Record::of(file);
        for step in &case.steps {
            let Step::Revision(revision) = step else {
                continue;
            };
            let old = record.terms().clone();
            match revision.answer(&mut record) {
                Err(refusal) => seen.refused[usize::from(refusal.number)] += 1,
                Ok(()) => {
                    seen.done += 1;
                    seen.compare(&old, record.terms());
                }
            }
        }
    }
    println!("{seen:?}");
    let Seen { carried, begun, moved, several, inner, same, done, refused } = seen;
    assert!(done > 400 && carried > 400 && begun > 100 && moved > 100 && several > 40);
    assert!(inner > 20 && same > 40 && refused[6] > 10 && refused[7] > 10 && refused[13] > 10);
}
