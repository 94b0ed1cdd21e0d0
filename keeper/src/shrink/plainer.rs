//! Plainer steps, of one bank and of two.

use super::smaller::{candidates, Less};
use crate::banks::step::{said, Deed, Step as BankStep};
use crate::record::Call;
use crate::renumber::Renumbering;
use crate::step::{Revision, Step};
use crate::terms::memory::SCRATCH_WORDS;
use crate::terms::{File, Terms};

/// A step that can be made plainer.
pub trait Shrinks: Clone + PartialEq {
    /// The step with less in it, in several ways.
    fn plainer(&self) -> Vec<Self>;

    /// The step with one less in its terms, where that leaves them sound.
    fn with_less(&self, less: Less) -> Self;
}

impl Shrinks for Step {
    fn plainer(&self) -> Vec<Step> {
        match self {
            Step::Call(call) => plainer_calls(call).map(Step::Call).to_vec(),
            Step::Revision(revision) => {
                smaller_revisions(revision).into_iter().map(Step::Revision).collect()
            }
            Step::Renumbering(renumbering) => {
                plainer_renumberings(renumbering).into_iter().map(Step::Renumbering).collect()
            }
        }
    }

    fn with_less(&self, less: Less) -> Step {
        if let (Step::Renumbering(renumbering), Less::Member) = (self, less) {
            return Step::Renumbering(without_last(renumbering));
        }
        let Step::Revision(revision) = self else { return self.clone() };
        match revision.said().and_then(|terms| less.sound(&terms)) {
            Some(terms) => Step::Revision(revision.with_terms(&terms)),
            None => self.clone(),
        }
    }
}

impl Shrinks for BankStep {
    fn plainer(&self) -> Vec<BankStep> {
        let mut all = vec![BankStep::of(self.deed.clone())];
        for place in 0..self.harms.len() {
            let mut harms = self.harms.clone();
            harms.remove(place);
            all.push(BankStep { harms, deed: self.deed.clone() });
        }
        let deeds = plainer_deeds(&self.deed).into_iter();
        all.extend(deeds.map(|deed| BankStep { harms: self.harms.clone(), deed }));
        all
    }

    fn with_less(&self, less: Less) -> BankStep {
        let Deed::Revision(words) = &self.deed else { return self.clone() };
        match said(words).and_then(|terms| less.sound(&terms)) {
            Some(terms) => BankStep { harms: self.harms.clone(), deed: Deed::revision(&terms) },
            None => self.clone(),
        }
    }
}

fn plainer_deeds(deed: &Deed) -> Vec<Deed> {
    match deed {
        Deed::Call(bank, call) => plainer_calls(call).map(|call| Deed::Call(*bank, call)).to_vec(),
        Deed::List(bank, items) => {
            let without = |place| [&items[..place], &items[place + 1..]].concat();
            (0..items.len()).map(|place| Deed::List(*bank, without(place))).collect()
        }
        Deed::Revision(words) => {
            let terms = said(words).map(smaller_terms).unwrap_or_default();
            terms.iter().map(Deed::revision).collect()
        }
    }
}

fn plainer_calls(call: &Call) -> [Call; 5] {
    [
        Call { event: 0, ..*call },
        Call { from: 0, ..*call },
        Call { to: 0, ..*call },
        Call { look: false, ..*call },
        Call { scratch_words: SCRATCH_WORDS, ..*call },
    ]
}

/// Renumberings that lend just what is named, and those with one number more as it
/// was.
fn plainer_renumberings(renumbering: &Renumbering) -> Vec<Renumbering> {
    let numbers = &renumbering.numbers;
    let mut all = vec![Renumbering::by(numbers)];
    for member in (0..numbers.len()).filter(|&member| usize::from(numbers[member]) != member) {
        let mut other = renumbering.clone();
        if let Some(had) = numbers.iter().position(|&number| usize::from(number) == member) {
            other.numbers.swap(member, had);
            all.push(other);
        }
    }
    all
}

/// The renumbering without the last member; who had its number gets the one that
/// it had.
fn without_last(renumbering: &Renumbering) -> Renumbering {
    let mut other = renumbering.clone();
    if let Some(gone) = other.numbers.pop() {
        let last = other.numbers.len();
        let had = other.numbers.iter_mut().find(|number| usize::from(**number) == last);
        had.into_iter().for_each(|number| *number = gone);
    }
    other
}

/// Revisions that lend just what is named, and those of smaller terms.
fn smaller_revisions(revision: &Revision) -> Vec<Revision> {
    let Some(terms) = revision.said() else { return Vec::new() };
    let lengths = Revision { terms: revision.terms.clone(), ..Revision::to(&terms) };
    let mut all = vec![lengths, revision.with_terms(&terms)];
    all.extend(smaller_terms(terms).iter().map(|terms| revision.with_terms(terms)));
    all
}

/// Sound terms of the same size with less in them.
fn smaller_terms(terms: Terms) -> Vec<Terms> {
    let smaller = candidates(&File { terms, past: None }).into_iter().map(|file| file.terms);
    smaller.filter(Terms::is_sound).collect()
}
