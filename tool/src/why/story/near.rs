//! What never held, and the moments at which a part of it did.

use super::facts::{telling, Story};
use super::missed::{Missed, Part};
use super::{Teller, LONGEST};
use crate::why::begin::Begin;
use crate::why::fact::Fact;
use crate::why::reason::{Claim, Place};
use keeper::terms::Entry;
use std::cmp::Reverse;

impl Teller<'_, '_> {
    /// That it never was so; for a denial also the moments that came near. Where parts of
    /// a condition never held, it is these that are told.
    pub(super) fn never(&mut self, since: Place, failing: Vec<Claim>) -> Vec<Story> {
        let stored = failing.first().copied();
        let stored = stored.filter(|first| first.place.entry == since.entry);
        let failing = &failing[usize::from(stored.is_some())..];
        let Some(last) = failing.last() else { return Vec::new() };
        let (mut stories, mut never) = (Vec::new(), Vec::new());
        // Why a definition never held is told under it.
        if self.definition(last.place).is_none() {
            stories = self.near(failing);
            never = self.never_held(failing);
        }
        stories.extend(self.at_odds(last.place));
        // Where moments that came near are told, it says no more; but from where on it counts.
        let is_first = self.reasons.begin(since.entry) == Begin::First;
        if is_first && !stories.is_empty() {
            return stories;
        }
        if never.is_empty() {
            never.push(last.place);
        }
        stories.extend(never.into_iter().map(|place| self.never_at(since, place, stored)));
        stories
    }

    /// What is told under the fact that a definition never held: the moments that came
    /// near, and which parts never held.
    pub(super) fn under(&mut self, fact: &Fact) -> Vec<Story> {
        let (place, first) = match *fact {
            Fact::Never { place, after } => (place, usize::from(after)),
            Fact::NeverSince { place, first } => (place, first),
            _ => return Vec::new(),
        };
        let Some(place) = self.definition(place) else { return Vec::new() };
        let failing: Vec<Claim> =
            (first..=place.moment).map(|moment| self.reasons.claim(place.moment(moment))).collect();
        let mut stories = self.near(&failing);
        stories.extend(self.at_odds(place));
        if first == 0 && !stories.is_empty() {
            return stories;
        }
        let never = self.never_held(&failing).into_iter().map(|place| match *fact {
            Fact::NeverSince { first, .. } => Fact::NeverSince { place, first },
            _ => Fact::Never { place, after: first > 0 },
        });
        stories.extend(never.map(Story::of));
        stories
    }

    /// The definition by whose name an entry is told.
    pub(super) fn definition(&self, place: Place) -> Option<Place> {
        match self.is_named(place) {
            true => Some(place),
            false => self.definition(self.reasons.followed(place)?),
        }
    }

    /// That the second operand of a since, or a part of it, held at no moment up to a
    /// place's, from where the since begins; or that the since was not so as stored, and
    /// that it has not held from then on.
    fn never_at(&self, since: Place, place: Place, stored: Option<Claim>) -> Story {
        let (never, first) = match self.reasons.begin(since.entry) {
            Begin::Revised(first) => (Fact::NeverSince { place, first }, Some(first)),
            _ => (Fact::Never { place, after: stored.is_some() }, None),
        };
        let never = self.counting(Story::of(never), place.entry, first);
        match stored {
            None => never,
            Some(claim) => Story::of(Fact::Stored(claim)).then(vec![never]),
        }
    }

    /// Of a conjunction that failed at some moments, the parts that held at none of them.
    /// For a grant one is enough.
    fn never_held(&mut self, failing: &[Claim]) -> Vec<Place> {
        let Some(last) = failing.last() else { return Vec::new() };
        let parts = self.parts(last.place);
        if parts.len() < 2 {
            return Vec::new();
        }
        let mut never = Vec::new();
        for part in parts {
            let terms = self.reasons.terms();
            // Who is whom does not change.
            if !part.due || matches!(terms.entries[part.place.entry], Entry::Var(_) | Entry::Top) {
                continue;
            }
            let held = |failed: &Claim| self.holds(part.place.moment(failed.place.moment));
            if !failing.iter().any(held) {
                never.push(part.place);
            }
        }
        never.truncate(if self.granted { 1 } else { never.len() });
        never
    }

    /// For a denial, how a condition was missed at the moments at which it failed: where
    /// an event was there, else where most parts held.
    fn near(&mut self, failing: &[Claim]) -> Vec<Story> {
        if !self.may_tell_near() {
            return Vec::new();
        }
        let mut missed = self.missed(failing);
        if missed.is_empty() {
            return self.near_each(failing);
        }
        if missed.iter().any(|missed| missed.has_event) {
            missed.retain(|missed| missed.has_event);
        } else if !self.never_held(failing).is_empty() {
            return Vec::new();
        } else {
            let most = missed.iter().map(Missed::count).max();
            missed.retain(|missed| Some(missed.count()) == most);
        }
        missed.sort_by_key(|missed| Reverse(missed.count()));
        self.is_near = true;
        let stories = missed.iter().map(|missed| self.near_miss(missed)).collect();
        self.is_near = false;
        stories
    }

    /// For a denial, of the failing claims the stories that have an event, the last first.
    pub(super) fn near_each(&mut self, failing: &[Claim]) -> Vec<Story> {
        let mut stories = Vec::new();
        for claim in failing.iter().rev() {
            if !self.may_tell_near() {
                break;
            }
            let relations = self.reasons.terms().relations;
            let near = self.tell(*claim).into_iter();
            stories.extend(near.filter(|story| story.has_event(relations)));
        }
        stories
    }

    /// For a denial, that a conjunction asks for two events at one moment, if it does.
    fn at_odds(&self, place: Place) -> Option<Story> {
        let terms = self.reasons.terms();
        let event = |part: &Part| match terms.entries[part.place.entry] {
            Entry::Out(label, _) | Entry::In(label, _) if part.due => Some(label),
            _ => None,
        };
        let mut events: Vec<usize> = self.parts(place).iter().filter_map(event).collect();
        events.retain(|label| *label >= terms.relations);
        events.sort_unstable();
        events.dedup();
        (!self.granted && events.len() > 1).then(|| Story::of(Fact::OneEvent))
    }

    fn may_tell_near(&self) -> bool {
        !self.granted && !self.is_near && self.left >= LONGEST / 2
    }

    /// What held at the last moment of a near miss, what was lacking, and when it was so
    /// too.
    fn near_miss(&mut self, missed: &Missed) -> Story {
        let [last, ref others @ ..] = missed.moments[..] else { return Story::default() };
        let [held, lacking] = [missed.told(), missed.lacking()].map(|places| {
            let claims = places.into_iter().map(|place| self.reasons.claim(place.moment(last)));
            let claims: Vec<Claim> = claims.collect();
            let stories = claims.iter().flat_map(|claim| self.tell(*claim)).collect();
            (claims, telling(stories))
        });
        let edges = missed
            .edges()
            .map(|[label, from, to]| Story::of(Fact::Edge { label, from, to, moment: last }));
        let story = Story::default().then(edges.collect()).then(held.1).but(lacking.1);
        match lacking.0.first() {
            Some(claim) if !others.is_empty() => {
                let nor = story.facts.last().is_some_and(Fact::is_negative);
                let also = Fact::Also { claim: *claim, moments: others.to_vec(), nor };
                story.then(vec![Story::of(also)])
            }
            _ => story,
        }
    }
}
