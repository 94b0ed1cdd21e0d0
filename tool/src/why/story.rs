//! Stories: what a reason comes down to.
//!
//! * `facts`: facts in the order of telling
//! * `near`: what never held, and the moments at which a part of it did; `missed`: which part
//! * `neighbours`: stories about neighbours

mod facts;
mod missed;
mod near;
mod neighbours;

pub use facts::Story;

use super::begin::Begin;
use super::fact::Fact;
use super::reason::{Claim, Place, Reason, Reasons};
use crate::names::Names;
use facts::{beside_each_other, distinct, telling};
use keeper::terms::Entry;
use std::cmp::Reverse;

/// So many steps are followed for one request; what is beyond is told by entry
/// numbers.
const LONGEST: usize = 4_000;

/// The stories of a claim, of a request that is granted or denied. The claim's own
/// entry is told even if it is a definition. All stories are needed. Of a denial, those that
/// deny it alone stand first, then those that came nearest to a grant, last those that only say
/// who is whom or repeat another. Of a grant, what happened stands before what never did.
pub fn stories(reasons: &mut Reasons, names: &Names, claim: Claim, granted: bool) -> Vec<Story> {
    let mut teller = Teller { reasons, names, granted, left: LONGEST, is_near: false };
    let stories = distinct(teller.inside(claim));
    in_order(stories, granted)
}

/// What is told under the fact that a definition never held; for a request that is denied.
pub fn under(reasons: &mut Reasons, names: &Names, never: &Fact) -> Vec<Story> {
    let mut teller = Teller { reasons, names, granted: false, left: LONGEST, is_near: false };
    in_order(distinct(teller.under(never)), false)
}

fn in_order(mut stories: Vec<Story>, granted: bool) -> Vec<Story> {
    match granted {
        true => stories.sort_by_key(Story::is_never),
        false => {
            stories.sort_by_key(|story| (story.beside, Reverse(story.weight()), story.counts()))
        }
    }
    stories.sort_by_key(Story::is_slight);
    let tells = |story: &Story| story.facts != [Fact::Always];
    if stories.iter().any(tells) {
        stories.retain(tells);
    }
    stories
}

struct Teller<'t, 'r> {
    reasons: &'t mut Reasons<'r>,
    /// Definitions are told by name.
    names: &'t Names,
    /// Whether the request is granted: then a neighbour's part does not turn the story.
    granted: bool,
    left: usize,
    /// Whether a near miss is being told: then none is told inside it.
    is_near: bool,
}

impl Teller<'_, '_> {
    fn tell(&mut self, claim: Claim) -> Vec<Story> {
        match self.is_named(claim.place) {
            true => vec![Story::of(Fact::Defined(claim))],
            false => self.inside(claim),
        }
    }

    /// Whether an entry is told by the name of a definition.
    fn is_named(&self, Place { entry, .. }: Place) -> bool {
        let passed = self.names.passes_on(entry, self.reasons.terms());
        self.names.defined(entry).is_some() && !passed
    }

    fn inside(&mut self, claim: Claim) -> Vec<Story> {
        if self.left == 0 {
            return vec![Story::of(Fact::Claim(claim))];
        }
        self.left -= 1;
        let place = claim.place;
        let entry = self.reasons.terms().entries[place.entry];
        match self.reasons.reason(claim) {
            Reason::Always => vec![Story::of(Fact::Always)],
            Reason::StandsFor(other) => vec![Story::of(match entry {
                Entry::Var(variable) if claim.holds => Fact::Same { member: other, variable },
                _ => Fact::Differ { member: place.member, other },
            })],
            Reason::Side(inner) if !self.granted => self.sides(place, inner),
            Reason::Opposite(inner) | Reason::Side(inner) => self.tell(inner),
            Reason::Before(inner) | Reason::Follow(inner) => self.tell(inner),
            Reason::Neither(first, second) => {
                let mut stories = self.tell(first);
                stories.extend(self.tell(second));
                beside_each_other(stories)
            }
            Reason::Neighbour(inner) => {
                let edge = Story::of(self.edge(place, inner.place.member));
                let mut stories = distinct(self.tell(inner));
                stories.retain(|story| !story.is_plain());
                vec![edge.then(stories)]
            }
            Reason::NoNeighbour(failing) => self.no_neighbour(place, failing),
            Reason::Enough(claims) => vec![self.enough(place, claims)],
            Reason::TooFew(claims) => self.too_few(place, claims),
            Reason::Reached { step, there } => {
                let story = Story::default().then(telling(self.tell(step)));
                let mut stories = distinct(self.tell(there));
                stories.retain(|story| !story.is_plain());
                vec![story.then(stories)]
            }
            Reason::NobodyReached(failing) => self.nobody_reached(place, failing),
            Reason::NoMomentBefore => vec![Story::of(match self.reasons.begin(place.entry) {
                Begin::Revised(moment) => Fact::NotBefore(moment),
                _ => Fact::NoMomentBefore,
            })],
            Reason::Stored => vec![Story::of(Fact::Stored(claim))],
            Reason::Began { began, after } => vec![self.began(began, after)],
            Reason::Broken { began, broke, .. } => {
                let story = Story::default().then(telling(self.tell(began)));
                vec![story.but(telling(self.tell(broke)))]
            }
            Reason::Never(failing) => self.never(place, failing),
        }
    }

    /// Where a request is denied, an `or` that holds is a condition that fails: all
    /// of its sides that hold are told.
    fn sides(&mut self, place: Place, first: Claim) -> Vec<Story> {
        let mut stories = self.tell(first);
        if let Entry::Or(f, g) = self.reasons.terms().entries[place.entry] {
            let other = if first.place.entry == f { g } else { f };
            let other = self.reasons.claim(Place { entry: other, ..place });
            if other.holds {
                stories.extend(self.tell(other));
            }
        }
        stories
    }

    fn began(&mut self, began: Claim, after: Vec<Claim>) -> Story {
        let story = Story::default().then(telling(self.tell(began)));
        let (Some(first), Some(last)) = (after.first(), after.last()) else { return story };
        if self.reasons.terms().entries[last.place.entry] == Entry::Top {
            return story;
        }
        let since = Fact::Since { place: last.place, first: first.place.moment };
        story.then(vec![self.counting(Story::of(since), last.place.entry, None)])
    }

    /// A story that tells of an entry in one sentence, with from where on that
    /// counts, if the terms were revised and it was not told yet.
    fn counting(&self, story: Story, entry: usize, told: Option<usize>) -> Story {
        match self.reasons.revised_inside(entry) {
            Some(moment) if told != Some(moment) => {
                story.then(vec![Story::of(Fact::Counting(moment))])
            }
            _ => story,
        }
    }
}
