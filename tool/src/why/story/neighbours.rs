//! Stories about neighbours: those of edges, of steps and of counted ones.

use super::facts::{beside_each_other, distinct, telling, Story};
use super::Teller;
use crate::why::fact::Fact;
use crate::why::reason::{neighbours, Claim, Place};
use keeper::record::meaning::Assigned;
use keeper::terms::Entry;

impl Teller<'_, '_> {
    /// Everybody to whom the step leads, with the step and why they don't fit;
    /// or that it leads to nobody.
    pub(super) fn nobody_reached(&mut self, place: Place, failing: Vec<Claim>) -> Vec<Story> {
        let Entry::Reach(x, f, g) = self.reasons.terms().entries[place.entry] else {
            return Vec::new();
        };
        let (mut stories, mut reached) = (Vec::new(), 0);
        for claim in failing.iter().copied().filter(|claim| claim.place.entry == g) {
            let assigned = Assigned::default().with(x, claim.place.member);
            let step = self.reasons.claim(Place { entry: f, assigned, ..place });
            if !step.holds {
                continue;
            }
            reached += 1;
            let step = Story::default().then(telling(self.tell(step)));
            for story in distinct(self.tell(claim)) {
                let step = step.clone();
                let both =
                    if self.granted { step.then(vec![story]) } else { step.but(vec![story]) };
                stories.push(both);
            }
        }
        if stories.is_empty() {
            stories = self.near_each(&failing);
            stories.push(self.counting(Story::of(Fact::NoStep(place)), f, None));
        }
        if reached > 1 {
            beside_each_other(stories)
        } else {
            stories
        }
    }

    /// Those who are enough, each with a story of their own if there is one to tell.
    pub(super) fn enough(&mut self, place: Place, claims: Vec<Claim>) -> Story {
        let mut story = Story::of(self.count(place, &claims));
        for claim in claims {
            // Their edges were told with their number.
            let mut stories = distinct(self.tell(claim));
            stories.retain(|story| !story.is_plain());
            story = story.then(stories);
        }
        story
    }

    /// How many fit, and of those who don't each one's story.
    pub(super) fn too_few(&mut self, place: Place, claims: Vec<Claim>) -> Vec<Story> {
        let mut stories = vec![Story::of(self.count(place, &claims))];
        for claim in claims.into_iter().filter(|claim| !claim.holds) {
            let edge = Story::of(self.edge(place, claim.place.member));
            for mut story in distinct(self.tell(claim)) {
                let edge = edge.clone();
                story.repeats |= self.is_counted(claim.place, &story);
                stories.push(match self.granted {
                    true => edge.then(vec![story]),
                    false => edge.but(vec![story]),
                });
            }
        }
        stories
    }

    /// Whether a story of somebody who doesn't fit says no more than that: what is asked for
    /// is one thing, and it was not so.
    fn is_counted(&self, place: Place, story: &Story) -> bool {
        let is_not = |fact: &Fact| match *fact {
            Fact::Never { place, .. } | Fact::NeverSince { place, .. } => {
                self.definition(place).is_none()
            }
            Fact::NoEdge { .. } | Fact::Counting(_) => true,
            _ => false,
        };
        self.parts(place).len() == 1 && story.facts.iter().all(is_not)
    }

    /// How many of these neighbours of a `many` fit.
    fn count(&self, place: Place, claims: &[Claim]) -> Fact {
        let (_, [_, _, least]) = self.reasons.terms().entries[place.entry].parts();
        let fitting = claims.iter().filter(|claim| claim.holds);
        let others = fitting.fold(0, |others, claim| others | 1 << claim.place.member);
        Fact::Count { place, others, least }
    }

    /// Every neighbour with its own story. Told together are those who are only
    /// not the one that is asked for, and those who are all somebody else already.
    pub(super) fn no_neighbour(&mut self, place: Place, failing: Vec<Claim>) -> Vec<Story> {
        let (label, f, out) = match self.reasons.terms().entries[place.entry] {
            Entry::Out(label, f) => (label, f, true),
            Entry::In(label, f) => (label, f, false),
            _ => return Vec::new(),
        };
        let no_edge = |other: Option<usize>| {
            let (here, moment) = (Some(place.member), place.moment);
            let (from, to) = if out { (here, other) } else { (other, here) };
            Story::of(Fact::NoEdge { label, from, to, moment })
        };
        if let Entry::Var(x) = self.reasons.terms().entries[f] {
            return vec![no_edge(Some(place.assigned.member(x)))];
        }
        if failing.is_empty() {
            return vec![no_edge(None)];
        }
        let told: Vec<(usize, Vec<Story>)> = failing
            .into_iter()
            .map(|claim| (claim.place.member, distinct(self.tell(claim))))
            .collect();
        let named = |story: &Story| matches!(story.facts[..], [Fact::Same { .. }]);
        if told.iter().all(|(_, stories)| stories.iter().all(named)) {
            let others = told.iter().fold(0, |others, (member, _)| others | 1 << member);
            let Place { member, moment, .. } = place;
            return vec![Story::of(Fact::Only { label, member, out, others, moment })];
        }
        let near = neighbours(self.reasons.terms(), self.reasons.graphs(), place);
        let (mut stories, several) = (Vec::new(), told.len() > 1);
        for (neighbour, parts) in told {
            let edge = Story::of(self.edge(place, neighbour));
            for story in parts {
                stories.push(match story.facts[..] {
                    [Fact::Differ { member, other }]
                        if member == neighbour && !near.contains(&other) =>
                    {
                        no_edge(Some(other))
                    }
                    _ if self.granted => edge.clone().then(vec![story]),
                    _ => edge.clone().but(vec![story]),
                });
            }
        }
        if several {
            beside_each_other(stories)
        } else {
            stories
        }
    }

    /// The edge by which an `out` or `in` entry leads to a neighbour.
    pub(super) fn edge(&self, place: Place, other: usize) -> Fact {
        let moment = place.moment;
        match self.reasons.terms().entries[place.entry] {
            Entry::In(label, _) => Fact::Edge { label, from: other, to: place.member, moment },
            entry => {
                Fact::Edge { label: entry.parts().1[0], from: place.member, to: other, moment }
            }
        }
    }
}
