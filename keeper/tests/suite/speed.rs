//! How long many calls take; run by name, built for release.

use crate::help::opened;
use keeper::generate::{self, formulas, size::Size, Rng};
use keeper::record::Record;
use std::time::{Duration, Instant};

/// An answer and all words of state after every call.
#[test]
#[ignore]
fn twenty_thousand_calls_on_small_terms() {
    let begin = Instant::now();
    let mut count = 0;
    for seed in 0.. {
        let mut rng = Rng::new(seed);
        let size = if seed % 3 == 0 { Size::middle(&mut rng) } else { Size::small(&mut rng) };
        let terms = formulas::terms(&mut rng, &size);
        let calls = generate::calls(&mut rng, &terms, 40, 99_999);
        let mut record = Record::new(terms);
        for call in &calls {
            record.answer(call);
            record.state_words();
            count += 1;
        }
        if count >= 20_000 {
            break;
        }
    }
    println!("{count} calls in {:?}", begin.elapsed());
    assert!(begin.elapsed() < Duration::from_secs(60));
}

/// Cases of every size, the slowest named.
#[test]
#[ignore]
fn cases_of_every_size() {
    let begin = Instant::now();
    let (mut slowest, mut slow_seed) = (Duration::ZERO, 0);
    for seed in 0..2_000 {
        let case_begin = Instant::now();
        let case = generate::case(seed, 99_999);
        let mut record = opened(&case.text);
        for call in case.calls() {
            record.answer(call);
            record.state_words();
        }
        if case_begin.elapsed() > slowest {
            (slowest, slow_seed) = (case_begin.elapsed(), seed);
        }
    }
    println!("2000 cases in {:?}, slowest {slow_seed}: {slowest:?}", begin.elapsed());
    assert!(slowest < Duration::from_secs(20));
}
