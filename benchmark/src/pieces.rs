//! Where the time of a call goes, at 64 members on the preset.

use crate::by_hand;
use crate::floor;
use crate::markdown::{self, whole, Goal};
use crate::measure::{in_turn, timed, Batch};
use crate::workload::{named, Workload};
use cuckooormolu::{raw, SCRATCH_WORDS};
use std::hint::black_box;
use std::time::Duration;

const CALLS: usize = 32;
const SHARE: usize = 0;
const LOAD: usize = 2;

/// Repeats a piece.
fn batch<'a, T>(mut piece: impl FnMut() -> T + 'a) -> Batch<'a> {
    let mut repeated = move || {
        for _ in 0..CALLS {
            black_box(piece());
        }
    };
    (CALLS, Box::new(move || timed(&mut repeated)))
}

/// Prints the pieces, timed in turn.
pub fn print() -> Vec<Goal> {
    let workload = Workload::preset(64);
    let mut monitor = workload.monitor();
    // Member 1 owns 0 and shares with 7; 8 has no share.
    let shared = monitor.request(named([SHARE, 1, 7])).is_ok_and(|answer| answer.is_grant());
    let [granted, denied] = [[LOAD, 7, 0], [LOAD, 8, 0]].map(|ask| monitor.look(named(ask)));
    assert!(shared && granted.is_ok_and(|answer| answer.is_grant()));
    assert!(denied.is_ok_and(|answer| !answer.is_grant()));
    let (terms, state) = (monitor.terms().words(), monitor.state().words());
    let look = |event: usize, from: usize, to: usize| {
        let request = raw::Request { event, from, to };
        batch(move || raw::look(terms, state, &[0; SCRATCH_WORDS], request))
    };
    let request = |event: usize, from: usize, to: usize| {
        let (mut state, mut scratch) = (state.to_vec(), vec![0; SCRATCH_WORDS]);
        let request = raw::Request { event, from, to };
        batch(move || raw::request(terms, &mut state, &mut scratch, request))
    };
    let by_hand = |asked| {
        let (mut state, mut scratch) = (state.to_vec(), vec![0; SCRATCH_WORDS]);
        batch(move || {
            by_hand::request(black_box(terms), &mut state, &mut scratch, black_box(asked))
        })
    };
    let mut scratch = vec![1u64; SCRATCH_WORDS];
    let names_and_batches: [(&str, Batch); 12] = [
        ("the floor", batch(|| floor::refusal(black_box(terms), black_box(state)))),
        ("check", batch(|| raw::check(terms, state))),
        ("look refused with 9", look(9, 0, 0)),
        ("look at a share, policy top", look(SHARE, 1, 7)),
        ("look at a load", look(LOAD, 7, 0)),
        ("request of a load, denied", request(LOAD, 8, 0)),
        ("request of a share, granted", request(SHARE, 1, 7)),
        ("request of a load, granted", request(LOAD, 7, 0)),
        ("by hand, a load, denied", by_hand([LOAD, 8, 0])),
        ("by hand, a share, granted", by_hand([SHARE, 1, 7])),
        ("by hand, a load, granted", by_hand([LOAD, 7, 0])),
        ("clearing 64 words alone", batch(move || black_box(&mut scratch).fill(0))),
    ];
    let (names, batches): (Vec<_>, Vec<_>) = names_and_batches.into_iter().unzip();
    let times = in_turn(Duration::from_millis(1_500), 20, batches);
    let about = "At 64 members on the preset, least ns, and the ratio to the floor:";
    markdown::table("Where the time goes", about, &["piece", "ns", "of the floor"]);
    for (name, time) in names.iter().zip(&times) {
        let ratio = time.least / times[0].least;
        markdown::row(&[name.to_string(), whole(time.least), format!("{ratio:.2}")]);
    }
    Vec::new()
}
