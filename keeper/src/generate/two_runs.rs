//! Two runs of two banks that differ in what the second bank does.

use super::wakeful::wake;
use super::{calls, formulas, item, revised, Rng, Size};
use crate::banks::step::Deed;
use crate::banks::Banks;
use crate::record::Call;
use crate::terms::memory::SCRATCH_WORDS;
use crate::terms::Terms;

/// What it rests on that the first bank's answers agree.
#[derive(Clone, Copy, Debug, PartialEq, Eq)]
pub enum Premise {
    /// The second bank makes a moment in both runs or in neither.
    Moments,
    /// The relations after it are equal.
    Relations,
}

/// Terms that both runs begin with, and the deed of each run at each place: the
/// same call or set list of bank 0, the same new terms, or calls of bank 1.
#[derive(Clone, Debug)]
pub struct Runs {
    pub terms: Terms,
    pub places: Vec<[Deed; 2]>,
}

impl Runs {
    /// Whether both runs have the same deed at a place: one of the first bank, or
    /// new terms.
    pub fn is_first(&self, place: usize) -> bool {
        !matches!(self.places[place], [Deed::Call(1, _), _])
    }
}

/// Two runs that meet every premise but the one that is dropped, if any.
pub fn runs(seed: u64, dropped: Option<Premise>) -> Runs {
    let mut rng = Rng::new(seed);
    let mut size = if rng.percent(80) { Size::small(&mut rng) } else { Size::middle(&mut rng) };
    size.members = rng.between(2, 6);
    size.relations = size.relations.max(1);
    size.events = size.events.max(3);
    let terms = terms_of(&mut rng, &size);
    let mut present = terms.clone();
    let mut banks = [Banks::new(terms.clone()), Banks::new(terms.clone())];
    let mut places = Vec::new();
    for _ in 0..rng.between(4, 24) {
        let pair = match rng.below(20) {
            0 => {
                present = revised::edited(&mut rng, &present);
                [(); 2].map(|()| Deed::revision(&present))
            }
            1..=9 => second(&mut rng, &present, &banks, dropped),
            _ => first(&mut rng, &present),
        };
        for (banks, deed) in banks.iter_mut().zip(&pair) {
            banks.take(deed);
        }
        places.push(pair);
    }
    Runs { terms, places }
}

/// Terms with policies that ask for the past, and with events that have the same
/// effects or none.
fn terms_of(rng: &mut Rng, size: &Size) -> Terms {
    let mut terms = formulas::terms(rng, size);
    wake(rng, &mut terms);
    for event in 0..terms.events {
        terms.effects[event] = match rng.below(10) {
            0..=4 => Vec::new(),
            5..=7 => terms.effects[rng.below(event + 1)].clone(),
            _ => continue,
        };
    }
    terms
}

/// The same call or set list of the first bank in both runs.
fn first(rng: &mut Rng, terms: &Terms) -> [Deed; 2] {
    let deed = if rng.percent(15) {
        let count = rng.below(5);
        let calls = calls(rng, terms, count, 99_999);
        Deed::List(0, calls.iter().map(|call| item(rng, call)).collect())
    } else {
        Deed::Call(0, call(rng, terms))
    };
    [deed.clone(), deed]
}

/// Two calls of the second bank; looks, which make no moment, where no two others
/// fit.
fn second(rng: &mut Rng, terms: &Terms, banks: &[Banks; 2], dropped: Option<Premise>) -> [Deed; 2] {
    for _ in 0..30 {
        let pair = [(); 2].map(|()| call(rng, terms));
        let after = [0, 1].map(|run| {
            let mut after = banks[run].clone();
            after.call(1, &pair[run], SCRATCH_WORDS);
            after
        });
        let made = [0, 1].map(|run| after[run].moments() > banks[run].moments());
        let edges = [0, 1].map(|run| &after[run].record(0).last().edges);
        let fits = match (dropped, made[0] == made[1], edges[0] == edges[1]) {
            (_, true, true) => dropped.is_none() || rng.percent(30),
            (Some(Premise::Moments), false, true) => true,
            (Some(Premise::Relations), true, false) => true,
            _ => false,
        };
        if fits {
            return pair.map(|call| Deed::Call(1, call));
        }
    }
    [(); 2].map(|()| Deed::Call(1, Call { look: true, ..call(rng, terms) }))
}

/// A request or a look, seldom of an event that doesn't exist.
fn call(rng: &mut Rng, terms: &Terms) -> Call {
    let event = if rng.percent(5) { terms.events } else { rng.below(terms.events) };
    let (from, to) = (rng.below(terms.members), rng.below(terms.members));
    Call { look: rng.percent(20), event, from, to, scratch_words: SCRATCH_WORDS }
}
