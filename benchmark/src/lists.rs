//! Set lists beside single requests, at 64 members on the preset. Every
//! record is granted.

use crate::markdown::{self, whole, Goal};
use crate::measure::{in_turn, timed, Batch};
use crate::workload::{named, Request, Workload};
use cuckooormolu::{raw, SCRATCH_WORDS};
use std::hint::black_box;
use std::time::Duration;

/// Requests of a batch, and the records of each list in turn.
pub const REQUESTS: usize = 64;
const LENGTHS: [usize; 3] = [1, 8, REQUESTS];
/// The goal: a record of the longest list, in single requests.
const MOST: f64 = 0.6;

/// Prints what a record costs in lists of each length, and gives the goal.
pub fn print() -> Vec<Goal> {
    let workload = Workload::preset(64);
    let monitor = workload.monitor();
    let (terms, state) = (monitor.terms().words(), monitor.state().words());
    let requests = granted(&workload);
    let mut batches = vec![single(terms, state, &requests)];
    batches.extend(LENGTHS.map(|length| listed(terms, state, &requests, length)));
    let times = in_turn(Duration::from_millis(2_500), 20, batches);
    markdown::table(
        "Set lists",
        "At 64 members on the preset, every record granted, least ns:",
        &["", "ns", "of a single request"],
    );
    markdown::row(&["a single request".into(), whole(times[0].least), "".into()]);
    let mut ratio = 0.0;
    for (length, time) in LENGTHS.iter().zip(&times[1..]) {
        ratio = time.least / times[0].least;
        let name = format!("a record in lists of {length}");
        markdown::row(&[name, whole(time.least), format!("{ratio:.2}")]);
    }
    let text = format!("a record in lists of {REQUESTS} at most {MOST} of a single request");
    vec![Goal::at_most(text, ratio, MOST)]
}

/// Requests that are granted one after another. A denied one makes no moment,
/// so it can be left out.
pub fn granted(workload: &Workload) -> Vec<Request> {
    let mut monitor = workload.monitor();
    let mut requests = workload.requests(11, 2 * REQUESTS);
    requests.retain(|&request| monitor.request(named(request)).is_ok_and(|a| a.is_grant()));
    requests.truncate(REQUESTS);
    assert_eq!(requests.len(), REQUESTS);
    requests
}

/// The records of requests.
pub fn recorded(requests: &[Request]) -> Vec<raw::Record> {
    let record = |request: &Request| {
        let [event, from, to] = request.map(|number| number as u32);
        raw::Record { event, from, to, answer: 0 }
    };
    requests.iter().map(record).collect()
}

fn single<'a>(terms: &'a [u16], start: &'a [u64], requests: &[Request]) -> Batch<'a> {
    let requests: Vec<raw::Request> =
        requests.iter().map(|&[event, from, to]| raw::Request { event, from, to }).collect();
    let (mut state, mut scratch) = (start.to_vec(), vec![0; SCRATCH_WORDS]);
    let work = move || {
        state.copy_from_slice(start);
        timed(|| {
            for &request in &requests {
                black_box(raw::request(terms, &mut state, &mut scratch, request).is_ok());
            }
        })
    };
    (REQUESTS, Box::new(work))
}

fn listed<'a>(
    terms: &'a [u16],
    start: &'a [u64],
    requests: &[Request],
    length: usize,
) -> Batch<'a> {
    let mut records = recorded(requests);
    let (mut state, mut scratch) = (start.to_vec(), vec![0; SCRATCH_WORDS]);
    let work = move || {
        state.copy_from_slice(start);
        let time = timed(|| {
            for list in records.chunks_mut(length) {
                black_box(raw::set_list(terms, &mut state, &mut scratch, list).is_ok());
            }
        });
        assert!(records.iter().all(|record| record.answer == 1));
        time
    };
    (REQUESTS, Box::new(work))
}
