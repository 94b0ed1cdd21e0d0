//! Seeded cases: sound texts with calls, damaged texts, damaged memory.

pub mod banks;
pub mod damage;
pub mod formulas;
pub mod kept;
pub mod lines;
mod paired;
mod patterns;
pub mod plans;
pub mod renumbered;
pub mod revised;
pub mod size;
pub mod stored;
pub mod strangers;
pub mod two_runs;
mod wakeful;
pub mod words;

use crate::record::{Call, Record};
use crate::set_list::Item;
use crate::step::Step;
use crate::terms::memory::{self, SCRATCH_WORDS};
use crate::terms::{self, Terms};
use size::Size;
use std::fmt;

/// A small source of random numbers; equal seeds give equal numbers.
#[derive(Clone, Debug)]
pub struct Rng(u64);

impl Rng {
    pub fn new(seed: u64) -> Rng {
        Rng(seed)
    }

    pub fn draw(&mut self) -> u64 {
        self.0 = self.0.wrapping_add(0x9e37_79b9_7f4a_7c15);
        let mut mixed = self.0;
        mixed = (mixed ^ mixed >> 30).wrapping_mul(0xbf58_476d_1ce4_e5b9);
        mixed = (mixed ^ mixed >> 27).wrapping_mul(0x94d0_49bb_1331_11eb);
        mixed ^ mixed >> 31
    }

    /// A number below the bound; 0 for the bound 0.
    pub fn below(&mut self, bound: usize) -> usize {
        (self.draw() % bound.max(1) as u64) as usize
    }

    /// A number from low to high, both included.
    pub fn between(&mut self, low: usize, high: usize) -> usize {
        low + self.below(high - low + 1)
    }

    /// True in about so many of a hundred.
    pub fn percent(&mut self, share: usize) -> bool {
        self.below(100) < share
    }

    pub fn pick<T: Copy>(&mut self, choices: &[T]) -> T {
        choices[self.below(choices.len())]
    }
}

/// A text and what is done after reading it.
#[derive(Clone, Debug, PartialEq, Eq)]
pub struct Case<S = Step> {
    pub seed: u64,
    pub text: Vec<u8>,
    pub steps: Vec<S>,
}

impl Case {
    /// Its calls, without the new terms and other numbers among them.
    pub fn calls(&self) -> impl Iterator<Item = &Call> {
        self.steps.iter().filter_map(|step| match step {
            Step::Call(call) => Some(call),
            Step::Revision(_) | Step::Renumbering(_) => None,
        })
    }
}

impl<S: fmt::Display> fmt::Display for Case<S> {
    fn fmt(&self, out: &mut fmt::Formatter<'_>) -> fmt::Result {
        writeln!(out, "seed {}", self.seed)?;
        for line in self.text.split_inclusive(|&byte| byte == b'\n') {
            writeln!(out, "  {}", line.escape_ascii())?;
        }
        self.steps.iter().try_for_each(|step| write!(out, "{step}"))
    }
}

/// An accepted text with calls, and new terms and other numbers for the members
/// among them, now and then of the stored form or with padded numbers. No number of
/// a call is above `largest`.
pub fn case(seed: u64, largest: usize) -> Case {
    let mut rng = Rng::new(seed);
    let size = Size::random(&mut rng);
    let terms = formulas::terms(&mut rng, &size);
    let count = rng.below(size.calls + 1);
    let calls = calls(&mut rng, &terms, count, largest);
    let padded = rng.below(6) == 0;
    let mut text = if rng.below(5) == 0 {
        stored::file(&mut rng, &terms).text()
    } else {
        terms::write(&terms, &terms.edges)
    };
    if padded {
        lines::pad(&mut rng, &mut text);
    }
    let steps = revised::steps(&mut rng, &terms, calls);
    let steps = renumbered::among(&mut rng, terms.members, steps);
    Case { seed, text, steps }
}

/// A text that was damaged; it may by chance still be accepted.
pub fn damaged_text(seed: u64) -> Vec<u8> {
    damage::text(&mut Rng::new(seed))
}

/// Words of terms and state after some calls, damaged in one of them, in both
/// or in none.
pub fn damaged_memory(seed: u64) -> (Vec<u16>, Vec<u64>) {
    let mut rng = Rng::new(seed);
    let size = if rng.percent(8) { Size::paired(&mut rng) } else { Size::small(&mut rng) };
    let terms = formulas::terms(&mut rng, &size);
    let mut terms_words = memory::terms_words(&terms);
    let calls = calls(&mut rng, &terms, 6, 99_999);
    let mut record = Record::new(terms);
    for call in &calls {
        record.answer(call);
    }
    let mut state_words = record.state_words();
    let which = rng.below(8);
    if which < 4 {
        words::damage_terms(&mut rng, &mut terms_words);
    }
    if (3..7).contains(&which) {
        words::damage_state(&mut rng, record.terms(), &mut state_words);
    }
    (terms_words, state_words)
}

/// Words of sound terms and of a state whose tables are drawn, mostly true of no
/// record.
pub fn drawn_memory(seed: u64) -> (Vec<u16>, Vec<u64>) {
    let mut rng = Rng::new(seed);
    let size = if rng.percent(8) { Size::paired(&mut rng) } else { Size::small(&mut rng) };
    let mut terms = formulas::terms(&mut rng, &size);
    if rng.percent(70) {
        revised::repeat(&mut rng, &mut terms);
    }
    let record = Record::loaded(terms.clone(), stored::drawn(&mut rng, &terms));
    (memory::terms_words(&terms), record.state_words())
}

/// Requests and looks, now and then with numbers out of range or short scratch.
pub fn calls(rng: &mut Rng, terms: &Terms, count: usize, largest: usize) -> Vec<Call> {
    let mut calls: Vec<Call> = Vec::new();
    for _ in 0..count {
        let mut call = Call {
            look: rng.percent(25),
            event: rng.below(terms.events),
            from: rng.below(terms.members),
            to: rng.below(terms.members),
            scratch_words: SCRATCH_WORDS,
        };
        if let (Some(earlier), true) = (calls.last(), rng.percent(40)) {
            // Stay with the same members, perhaps the other way round.
            (call.from, call.to) = (earlier.from, earlier.to);
            if rng.percent(30) {
                (call.from, call.to) = (call.to, call.from);
            }
        }
        if rng.percent(6) {
            call.event = outside(rng, terms.events, largest);
        }
        if rng.percent(4) {
            call.from = outside(rng, terms.members, largest);
        }
        if rng.percent(4) {
            call.to = outside(rng, terms.members, largest);
        }
        if rng.percent(8) {
            call.scratch_words = rng.pick(&[0, 1, 32, 63, 63, 64, 65, 2_048]);
        }
        calls.push(call);
    }
    calls
}

/// How long a set list is: some tens at most, now and then none.
pub fn list_length(rng: &mut Rng) -> usize {
    let most = rng.pick(&[1, 4, 12, 40]);
    rng.below(most + 1)
}

/// A call as an item of a set list, with anything for an answer. A number that
/// is too large becomes the largest.
pub fn item(rng: &mut Rng, call: &Call) -> Item {
    let [event, from, to] =
        [call.event, call.from, call.to].map(|number| number.try_into().unwrap_or(u32::MAX));
    let answer = if rng.percent(50) { rng.pick(&[0, 1, 9]) } else { rng.draw() as u32 };
    Item { event, from, to, answer }
}

/// A number at or above a bound and not above the largest.
fn outside(rng: &mut Rng, bound: usize, largest: usize) -> usize {
    let far = [bound + 1, bound + 16, 16, 63, 64, 65, 255, 256, 4_096, 65_535, largest];
    let choice = if rng.percent(40) { bound } else { rng.pick(&far) };
    choice.max(bound).min(largest)
}
