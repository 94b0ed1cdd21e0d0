//! Whether an event is granted somewhere else than where requests were tried: in the
//! folder's tests, or after a few requests that are sought.

use super::effort::work;
use super::tried::{busiest, varied, Count};
use crate::both::Both;
use crate::folder::Folder;
use crate::names::Labelled;
use crate::reach::{search_event, Found, Limits};
use crate::stop::Stop;
use crate::testing::read::read;
use crate::testing::run::answers;
use crate::testing::TESTS;
use keeper::terms::{Entry, Terms};
use std::fs;

/// So many answers of the tests are counted.
const ANSWERS: usize = 4_000;

/// Requests are sought among so many members.
const SOUGHT: usize = 12;

/// So far they are sought, for all events together.
const LIMITS: Limits = Limits { within: 4, tries: 200_000, bytes: 64 * 1024 * 1024 };

/// And so much is worked out for that: part of a second.
const WORK: usize = 1_500_000_000;

/// How the folder's tests are answered, whatever they expect; nothing for tests that
/// can't be read.
pub fn tested(both: &Both, folder: &Folder) -> Result<Vec<Count>, Stop> {
    let mut counts = vec![Count::default(); both.terms().events];
    let text = fs::read_to_string(folder.path.join(TESTS)).unwrap_or_default();
    let Ok(tests) = read(&text, both, &folder.names) else { return Ok(counts) };
    let mut counted = 0;
    for test in &tests {
        if counted > ANSWERS {
            break;
        }
        for (event, granted) in answers(test, both, &folder.terms)? {
            let count = &mut counts[event];
            *(if granted { &mut count.granted } else { &mut count.denied }) += 1;
            counted += 1;
        }
    }
    Ok(counts)
}

/// Whether a search, one of some, finds requests after which somebody is granted an event.
pub fn is_found(both: &Both, event: usize, searches: usize) -> bool {
    let terms = both.terms();
    let members = varied(terms, &busiest(terms), SOUGHT);
    let tries = LIMITS.tries.min(WORK / work(terms).max(1));
    let limits = Limits { tries: tries / searches.max(1), ..LIMITS };
    let among = (&concerned(terms, event)[..], &members[..]);
    matches!(search_event(both.monitor(), event, among, limits), Found::After(_))
}

/// For each event whether the policy of one may depend on it: by its edges, its effects, or
/// those that its own policy depends on.
fn concerned(terms: &Terms, event: usize) -> Vec<bool> {
    let mut concerned = vec![false; terms.events];
    let (mut open, mut seen) = (vec![terms.policies[event]], vec![false; terms.entries.len()]);
    while let Some(entry) = open.pop() {
        if std::mem::replace(&mut seen[entry], true) {
            continue;
        }
        open.extend(terms.entries[entry].operands());
        let found: Vec<usize> = match terms.entries[entry] {
            Entry::Out(label, _) | Entry::In(label, _) | Entry::Many(label, _, _) => {
                match Labelled::of(terms, label) {
                    Labelled::Event(event) | Labelled::Denied(event) => vec![event],
                    Labelled::Relation(relation) => {
                        let changes = |event: &usize| {
                            terms.effects[*event].iter().any(|effect| effect.relation == relation)
                        };
                        (0..terms.events).filter(changes).collect()
                    }
                }
            }
            // Any event makes a moment: one that is always granted will do.
            Entry::Prev(_) => {
                let free = |event: &usize| terms.entries[terms.policies[*event]] == Entry::Top;
                (0..terms.events).find(free).into_iter().collect()
            }
            _ => Vec::new(),
        };
        for event in found {
            concerned[event] = true;
            open.push(terms.policies[event]);
        }
    }
    concerned
}
