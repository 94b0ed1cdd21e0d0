//! Steps of two banks, over accepted texts and over states that are drawn.

use super::wakeful::wake;
use super::{calls, formulas, item, lines, list_length, revised, stored, words, Case, Rng, Size};
use crate::banks::lent::{Loan, Part};
use crate::banks::step::{Deed, Harm, Step};
use crate::banks::Banks;
use crate::record::Call;
use crate::terms::memory::{State, SCRATCH_WORDS};
use crate::terms::{self, Terms};

/// An accepted text with steps, now and then with padded numbers; seldom of the
/// stored form, which two banks refuse. No number of a call is above `largest`.
pub fn case(seed: u64, largest: usize) -> Case<Step> {
    let mut rng = Rng::new(seed);
    let size = size(&mut rng);
    let terms = terms_of(&mut rng, &size);
    let steps = steps(&mut rng, &terms, &size, largest, 12);
    let mut text = match rng.below(40) {
        0 => stored::file(&mut rng, &terms).text(),
        _ => terms::write(&terms, &terms.edges),
    };
    if rng.below(6) == 0 {
        lines::pad(&mut rng, &mut text);
    }
    Case { seed, text, steps }
}

/// Large less often than for one bank, since the state of each is worked out.
fn size(rng: &mut Rng) -> Size {
    match rng.below(40) {
        0..=9 => Size::random(rng),
        10..=18 => Size::middle(rng),
        19 => Size::paired(rng),
        _ => related(rng),
    }
}

/// Small, and mostly with a relation.
fn related(rng: &mut Rng) -> Size {
    let size = Size::small(rng);
    let least = usize::from(rng.percent(80));
    Size { relations: size.relations.max(least), ..size }
}

/// Terms, mostly with entries that tell the banks' moments apart.
fn terms_of(rng: &mut Rng, size: &Size) -> Terms {
    let mut terms = formulas::terms(rng, size);
    if size.members <= 8 && rng.percent(70) {
        wake(rng, &mut terms);
    }
    terms
}

/// The memory of two banks whose tables and events are drawn, mostly true of no
/// record, with steps, half of which find it harmed.
pub fn drawn(seed: u64, largest: usize) -> (Banks, Vec<Step>) {
    let mut rng = Rng::new(seed);
    let size = Size { calls: 8, ..related(&mut rng) };
    let mut terms = terms_of(&mut rng, &size);
    if rng.percent(50) {
        revised::repeat(&mut rng, &mut terms);
    }
    let states = [(); 2].map(|()| {
        let past = stored::drawn(&mut rng, &terms);
        State { edges: terms.edges.clone(), past }
    });
    let steps = steps(&mut rng, &terms, &size, largest, 50);
    (Banks::going_on(&terms, &states), steps)
}

/// Calls of either bank, some as set lists, with new terms among them; so many of
/// a hundred find the memory harmed.
fn steps(rng: &mut Rng, terms: &Terms, size: &Size, largest: usize, harmed: usize) -> Vec<Step> {
    let share = rng.pick(&[0, 4, 12, 30]);
    let mut terms = terms.clone();
    let count = rng.below(size.calls + 1);
    let mut calls = calls(rng, &terms, count, largest).into_iter();
    let mut deeds = Vec::new();
    while let Some(call) = calls.next() {
        let bank = rng.below(2);
        let call = Call { scratch_words: SCRATCH_WORDS, ..call };
        deeds.push(if rng.percent(15) {
            let most = list_length(rng);
            let listed = std::iter::once(call).chain(calls.by_ref()).take(most);
            Deed::List(bank, listed.map(|call| item(rng, &call)).collect())
        } else {
            Deed::Call(bank, call)
        });
        if rng.percent(share) {
            let new = revised::new_terms(rng, &terms);
            deeds.push(Deed::revision(&new));
            if new.is_same_size(&terms) {
                terms = new;
            }
        }
    }
    let step = |deed| Step { harms: harms(rng, &deed, harmed), deed };
    deeds.into_iter().map(step).collect()
}

/// So many of a hundred are harmed: mostly once.
fn harms(rng: &mut Rng, deed: &Deed, share: usize) -> Vec<Harm> {
    if !rng.percent(share) {
        return Vec::new();
    }
    let count = if rng.percent(75) { 1 } else { rng.between(2, 3) };
    (0..count).map(|_| harm(rng, deed)).collect()
}

fn harm(rng: &mut Rng, deed: &Deed) -> Harm {
    let (part, terms) = match deed {
        Deed::Revision(_) => {
            (rng.pick(&Part::OF_REVISIONS), rng.pick(&[Part::Terms, Part::NewTerms]))
        }
        _ => (rng.pick(&Part::OF_CALLS), Part::Terms),
    };
    match rng.below(10) {
        0..=3 if rng.percent(60) => Harm::Short(part, part.words() - 1),
        0..=3 => Harm::Short(part, rng.below(part.words())),
        4 | 5 => Harm::Terms(terms, rng.draw()),
        _ => Harm::State(rng.below(2), rng.draw()),
    }
}

/// Harms a loan of memory under these terms; what is cut off is cut last.
pub fn harm_loan(loan: &mut Loan, harms: &[Harm], terms: &Terms) {
    for harm in harms {
        match *harm {
            Harm::Short(_, _) => {}
            Harm::Word(part, place, word) => loan.set(part, place, word),
            Harm::Terms(Part::NewTerms, seed) => {
                words::damage_terms(&mut Rng::new(seed), &mut loan.second.terms);
            }
            Harm::Terms(_, seed) => {
                words::damage_terms(&mut Rng::new(seed), &mut loan.lent.terms);
            }
            Harm::State(bank, seed) => {
                let mut state = loan.lent.state(bank);
                words::damage_state(&mut Rng::new(seed), terms, &mut state);
                loan.lent.put_state(bank, &state);
            }
        }
    }
    for harm in harms {
        if let Harm::Short(part, words) = *harm {
            loan.cut(part, words);
        }
    }
}
