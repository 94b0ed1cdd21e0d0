//! Two banks beside a monitor, at 64 members on the preset. The left bank is
//! called, and has the monitor's record, so that both give the same answers.

use crate::lists::{granted, recorded, REQUESTS};
use crate::markdown::{self, whole, Goal};
use crate::measure::{in_turn, timed, Batch};
use crate::workload::{named, Request, Workload};
use cuckooormolu::{raw, BankStates, Banks, Monitor, Terms};
use cuckooormolu::{OWN_WORDS, RELATION_WORDS, SCRATCH_WORDS, STATE_WORDS};
use std::hint::black_box;
use std::time::Duration;

/// Calls of a batch, and moments of the record before it.
const CALLS: usize = 48;
const MOMENTS: usize = 100;
/// Openings and revisions of a batch.
const FEW: usize = 4;
/// The goals: a request and a look of a bank, in single ones.
const MOST: [f64; 2] = [3.0, 2.5];

/// The memory that two banks lend.
#[derive(Clone)]
struct Lent {
    relations: Vec<u64>,
    own: Vec<u64>,
    other: Vec<u64>,
    scratch: Vec<u64>,
    spare: Vec<u64>,
}

impl Lent {
    fn of(banks: &Banks) -> Lent {
        let BankStates { left, right } = banks.states();
        let (relations, own) = left.words().split_at(RELATION_WORDS);
        let scratch = vec![0; SCRATCH_WORDS];
        Lent {
            relations: relations.into(),
            own: own.into(),
            other: right.words()[RELATION_WORDS..].into(),
            spare: scratch.clone(),
            scratch,
        }
    }

    fn begin(&mut self, start: &Lent) {
        self.relations.copy_from_slice(&start.relations);
        self.own.copy_from_slice(&start.own);
        self.other.copy_from_slice(&start.other);
    }

    fn request(&mut self, terms: &Terms, request: raw::Request) -> bool {
        let Lent { relations, own, other, scratch, spare } = self;
        let answer =
            raw::banks_request(terms.words(), relations, own, other, scratch, spare, request);
        answer.is_ok()
    }

    fn look(&self, terms: &Terms, request: raw::Request) -> bool {
        let Lent { relations, own, other, scratch, spare } = self;
        raw::banks_look(terms.words(), relations, own, other, scratch, spare, request).is_ok()
    }

    fn set_list(&mut self, terms: &Terms, records: &mut [raw::Record]) -> bool {
        let Lent { relations, own, other, scratch, spare } = self;
        raw::banks_set_list(terms.words(), relations, own, other, scratch, spare, records).is_ok()
    }
}

/// A monitor and banks after the same requests, those of the banks in the left.
struct Start {
    monitor: Monitor,
    banks: Lent,
}

impl Start {
    fn new(workload: &Workload, moments: usize) -> Start {
        let mut monitor = workload.monitor();
        let mut banks = Banks::read(&workload.text).expect("the terms are accepted");
        let mut made = 0;
        for request in (1_000..).flat_map(|seed| workload.requests(seed, 400)) {
            if made == moments {
                break;
            }
            let answer = monitor.request(named(request)).expect("decided");
            assert_eq!(banks.left().request(named(request)), Ok(answer));
            made += usize::from(answer.is_grant());
        }
        assert_eq!(banks.left().state(), *monitor.state());
        Start { monitor, banks: Lent::of(&banks) }
    }

    fn requests(&self, calls: &[raw::Request]) -> [Batch<'_>; 2] {
        let (terms, start) = (self.monitor.terms(), self.monitor.state().words());
        let (mut state, mut scratch) = (start.to_vec(), vec![0; SCRATCH_WORDS]);
        let (single, bank) = (calls.to_vec(), calls.to_vec());
        let single = move || {
            state.copy_from_slice(start);
            timed(|| {
                for &request in &single {
                    let answer = raw::request(terms.words(), &mut state, &mut scratch, request);
                    black_box(answer.is_ok());
                }
            })
        };
        let mut banks = self.banks.clone();
        let bank = move || {
            banks.begin(&self.banks);
            timed(|| bank.iter().for_each(|&request| _ = black_box(banks.request(terms, request))))
        };
        [(calls.len(), Box::new(single)), (calls.len(), Box::new(bank))]
    }

    fn looks(&self, calls: &[raw::Request]) -> [Batch<'_>; 2] {
        let (terms, state) = (self.monitor.terms(), self.monitor.state().words());
        let scratch = vec![0; SCRATCH_WORDS];
        let (single, bank) = (calls.to_vec(), calls.to_vec());
        let single = move || {
            timed(|| {
                for &request in &single {
                    black_box(raw::look(terms.words(), state, &scratch, request).is_ok());
                }
            })
        };
        let bank = move || {
            let look = |&request| _ = black_box(self.banks.look(terms, request));
            timed(|| bank.iter().for_each(look))
        };
        [(calls.len(), Box::new(single)), (calls.len(), Box::new(bank))]
    }

    fn openings(&self) -> [Batch<'_>; 2] {
        let terms = self.monitor.terms().words();
        let (mut state, mut banks) = (self.monitor.state().words().to_vec(), self.banks.clone());
        let single = move || assert!(raw::open(terms, black_box(&mut state)).is_ok());
        let both = move || {
            let Lent { relations, own, other, .. } = black_box(&mut banks);
            assert!(raw::banks_open(terms, relations, own, other).is_ok());
        };
        [few(single), few(both)]
    }

    /// To the same terms.
    fn revisions(&self) -> [Batch<'_>; 2] {
        let (terms, state) = (self.monitor.terms().words(), self.monitor.state().words());
        let Lent { relations, own, other, .. } = &self.banks;
        let mut second = vec![0; STATE_WORDS];
        let single = move || assert!(raw::revise(terms, state, terms, &mut second).is_ok());
        let mut edges = vec![0; RELATION_WORDS];
        let (mut third, mut fourth) = (vec![0; OWN_WORDS], vec![0; OWN_WORDS]);
        let both = move || {
            let second = (&mut edges, &mut third, &mut fourth);
            let revised = raw::banks_revise(
                terms, relations, own, other, terms, second.0, second.1, second.2,
            );
            assert!(revised.is_ok());
        };
        [few(single), few(both)]
    }

    fn lists(&self, requests: &[Request]) -> [Batch<'_>; 2] {
        let (terms, start) = (self.monitor.terms(), self.monitor.state().words());
        let (mut state, mut scratch) = (start.to_vec(), vec![0; SCRATCH_WORDS]);
        let (mut list, mut records) = (recorded(requests), recorded(requests));
        let single = move || {
            state.copy_from_slice(start);
            timed(|| {
                let listed = raw::set_list(terms.words(), &mut state, &mut scratch, &mut list);
                black_box(listed.is_ok());
            })
        };
        let mut banks = self.banks.clone();
        let bank = move || {
            banks.begin(&self.banks);
            let time = timed(|| _ = black_box(banks.set_list(terms, &mut records)));
            assert!(records.iter().all(|record| record.answer == 1));
            time
        };
        [(REQUESTS, Box::new(single)), (REQUESTS, Box::new(bank))]
    }
}

fn few<'a>(mut call: impl FnMut() + 'a) -> Batch<'a> {
    (FEW, Box::new(move || timed(|| (0..FEW).for_each(|_| call()))))
}

/// Prints each call of banks beside the single one, and gives the goals.
pub fn print() -> Vec<Goal> {
    let workload = Workload::preset(64);
    let (start, fresh) = (Start::new(&workload, MOMENTS), Start::new(&workload, 0));
    let calls: Vec<raw::Request> = workload
        .requests(11, CALLS)
        .iter()
        .map(|&[event, from, to]| raw::Request { event, from, to })
        .collect();
    let names_and_batches = [
        ("a request", start.requests(&calls)),
        ("a look", start.looks(&calls)),
        ("an opening of both", start.openings()),
        ("a revision of both to the same terms", start.revisions()),
        ("a record in set lists of 64", fresh.lists(&granted(&workload))),
    ];
    let (names, batches): (Vec<_>, Vec<_>) = names_and_batches.into_iter().unzip();
    let times = in_turn(Duration::from_millis(4_000), 20, batches.into_iter().flatten().collect());
    markdown::table(
        "Two banks",
        "At 64 members on the preset, least ns:",
        &["", "single", "bank", "ratio"],
    );
    let ratios = names.iter().zip(times.chunks(2)).map(|(name, times)| {
        let (single, banks) = (times[0].least, times[1].least);
        let ratio = format!("{:.2}", banks / single);
        markdown::row(&[name.to_string(), whole(single), whole(banks), ratio]);
        banks / single
    });
    let ratios: Vec<f64> = ratios.collect();
    let goal = |((name, ratio), most): ((&&str, &f64), f64)| {
        Goal::at_most(format!("{name} of a bank at most {most} of a single one"), *ratio, most)
    };
    names.iter().zip(&ratios).zip(MOST).map(goal).collect()
}
