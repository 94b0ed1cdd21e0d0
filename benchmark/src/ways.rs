//! The ways to an answer that the table has, each over a record of some length, and their batches of calls.

use crate::floor;
use crate::log::Log;
use crate::matrices::Matrices;
use crate::measure::{timed, Batch};
use crate::workload::{named, Request, Workload};
use cuckooormolu::{raw, Monitor, State, SCRATCH_WORDS};
use keeper::record::{Answer, Call, Record};
use keeper::terms::Terms;
use std::hint::black_box;

/// Calls of a batch of the keeper, which reads the whole record at each.
const KEEPER_CALLS: usize = 8;

/// A record of some length, as each way to an answer keeps it.
pub struct Kept {
    pub moments: usize,
    pub state: Vec<u64>,
    matrices: Matrices,
    log: Option<Log>,
}

/// Records of each length, one begun with the other.
pub fn records(workload: &Workload) -> Vec<Kept> {
    let mut monitor = workload.monitor();
    let mut list = history(workload);
    let mut moments = 0;
    let mut logged = Vec::new();
    let mut all = Vec::new();
    for &wanted in workload.moments {
        while moments < wanted {
            let request = list.next().expect("the list has no end");
            if monitor.request(named(request)).is_ok_and(|answer| answer.is_grant()) {
                moments += 1;
                logged.push(request);
            }
        }
        all.push(Kept {
            moments,
            state: monitor.state().words().to_vec(),
            matrices: Matrices::resume(&workload.terms, monitor.state().words()),
            log: logged_in(workload, &logged),
        });
    }
    all
}

/// The log of a record, on the preset.
fn logged_in(workload: &Workload, granted: &[Request]) -> Option<Log> {
    let mut log = if workload.is_preset() { Log::new(&workload.terms)? } else { return None };
    assert!(granted.iter().all(|&request| log.request(request)));
    Some(log)
}

/// The requests that make a record, without end.
fn history(workload: &Workload) -> impl Iterator<Item = Request> + '_ {
    (1_000..).flat_map(|seed| workload.requests(seed, 400))
}

/// The number of grants. All ways have to give the same answers.
pub fn agreed(workload: &Workload, kept: &mut Kept, calls: &[Request]) -> usize {
    let terms = workload.monitor().terms().clone();
    let state = State::from_words(&terms, &kept.state).expect("the state keeps the layout");
    let mut monitor = Monitor::resume(terms, state).expect("the state is one of the terms");
    assert_eq!(floor::refusal(monitor.terms().words(), monitor.state().words()), None);
    let mut matrices = kept.matrices.clone();
    let mut grants = 0;
    for &[event, from, to] in calls {
        let request = named([event, from, to]);
        let answer = monitor.request(request).expect("decided").is_grant();
        assert_eq!(matrices.request(event, from, to), answer, "001's algorithm disagrees");
        grants += usize::from(answer);
        if let Some(log) = &mut kept.log {
            assert_eq!(log.request([event, from, to]), answer, "the log disagrees");
        }
    }
    if let Some(log) = &mut kept.log {
        log.cut(kept.moments);
    }
    grants
}

/// The monitor's requests, looks and checks, and the floor.
pub fn monitor_batches<'a>(
    terms: &'a [u16],
    start: &'a [u64],
    calls: &'a [Request],
) -> [Batch<'a>; 4] {
    let mut state = start.to_vec();
    let mut scratch = vec![0; SCRATCH_WORDS];
    let requests = move || {
        state.copy_from_slice(start);
        timed(|| {
            for &[event, from, to] in calls {
                let request = raw::Request { event, from, to };
                black_box(raw::request(terms, &mut state, &mut scratch, request).is_ok());
            }
        })
    };
    let scratch = vec![0; SCRATCH_WORDS];
    let looks = move || {
        timed(|| {
            for &[event, from, to] in calls {
                let request = raw::Request { event, from, to };
                black_box(raw::look(terms, start, &scratch, request).is_ok());
            }
        })
    };
    let checks = move || {
        timed(|| {
            for _ in calls {
                black_box(raw::check(terms, start).is_ok());
            }
        })
    };
    let floor = move || {
        timed(|| {
            for _ in calls {
                black_box(floor::refusal(black_box(terms), black_box(start)));
            }
        })
    };
    let calls = calls.len();
    [
        (calls, Box::new(requests)),
        (calls, Box::new(looks)),
        (calls, Box::new(checks)),
        (calls, Box::new(floor)),
    ]
}

/// Requests of 001's algorithm and, on the preset, of the log.
pub fn other_batches<'a>(kept: &'a mut Kept, calls: &'a [Request]) -> Vec<Batch<'a>> {
    let start = &kept.matrices;
    let requests = move || {
        let mut matrices = start.clone();
        timed(|| {
            for &[event, from, to] in calls {
                black_box(matrices.request(event, from, to));
            }
        })
    };
    let mut all: Vec<Batch> = vec![(calls.len(), Box::new(requests))];
    if let Some(log) = &mut kept.log {
        let moments = log.moments();
        let requests = move || {
            log.cut(moments);
            timed(|| {
                for &request in calls {
                    black_box(log.request(request));
                }
            })
        };
        all.push((calls.len(), Box::new(requests)));
    }
    all
}

/// Requests of the keeper over the whole record, which is made anew each time.
pub fn keeper_batch<'a>(workload: &'a Workload, moments: usize, calls: &'a [Request]) -> Batch<'a> {
    let ask = |record: &mut Record, &[event, from, to]: &Request| {
        record.answer(&Call::request(event, from, to)) == Answer::Grant
    };
    let requests = move || {
        let mut record = Record::new(Terms::clone(&workload.terms));
        for request in history(workload) {
            if record.graphs().len() > moments {
                break;
            }
            ask(&mut record, &request);
        }
        timed(|| {
            for request in &calls[..KEEPER_CALLS] {
                black_box(ask(&mut record, request));
            }
        })
    };
    (KEEPER_CALLS, Box::new(requests))
}
