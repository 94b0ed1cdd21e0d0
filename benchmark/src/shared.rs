//! Terms whose entries are used again and again, at 64 members: chains in which an entry uses the one below it twice.

use crate::chains::chains;
use crate::markdown::{self, whole, Goal};
use crate::measure::{in_turn, timed, Batch};
use cuckooormolu::{raw, SCRATCH_WORDS, STATE_WORDS, TERMS_WORDS};
use std::hint::black_box;
use std::time::Duration;

const LEVELS: usize = 255;
/// Event 0 is always granted, event 1 is decided by the last entry.
const CALLS: [raw::Request; 2] =
    [raw::Request { event: 0, from: 1, to: 2 }, raw::Request { event: 1, from: 1, to: 2 }];
/// The goal: a request, in ns.
const MOST: f64 = 100_000.0;

/// Prints a request and a look on each chain, and gives the goals.
pub fn print() -> Vec<Goal> {
    markdown::table(
        "Shared entries",
        "Chains of 255 levels at 64 members, least ns of a call:",
        &["terms", "request", "look"],
    );
    chains(LEVELS).map(|(name, text)| row(name, &text)).into()
}

fn row(name: &str, text: &[u8]) -> Goal {
    let (mut terms, mut start) = (vec![0; TERMS_WORDS], vec![0; STATE_WORDS]);
    raw::read(text, &mut terms, &mut start).expect("the terms are accepted");
    let requests = || {
        let (mut state, mut scratch) = (start.clone(), [0; SCRATCH_WORDS]);
        let mut request =
            |call| _ = black_box(raw::request(&terms, &mut state, &mut scratch, call));
        timed(|| CALLS.into_iter().for_each(&mut request))
    };
    let looks = || {
        let look = |call| _ = black_box(raw::look(&terms, &start, &[0; SCRATCH_WORDS], call));
        timed(|| CALLS.into_iter().for_each(look))
    };
    let batches: Vec<Batch> =
        vec![(CALLS.len(), Box::new(requests)), (CALLS.len(), Box::new(looks))];
    let times = in_turn(Duration::from_millis(1_500), 20, batches);
    let [request, look] = [0, 1].map(|place| times[place].least);
    markdown::row(&[name.into(), whole(request), whole(look)]);
    let text = format!("{name}: a request at most {} ns", whole(MOST));
    Goal::new(text, whole(request), request <= MOST)
}
