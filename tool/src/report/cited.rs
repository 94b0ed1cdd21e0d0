//! What requests add to a picture: those that were denied, and the past events that the
//! reasons of their answers tell of.

use crate::both::Verdict;
use crate::folder::Request;
use crate::names::Names;
use crate::replay::Step;
use crate::why::fact::Fact;
use crate::why::reason::{Claim, Place, Reasons};
use crate::why::story::stories;
use std::collections::BTreeSet;

/// So many stories of a reason are told, and definitions inside definitions so deep.
const MOST_STORIES: usize = 4;
const DEEPEST: usize = 3;

#[derive(Default)]
pub struct Cited {
    /// The moments whose events reasons tell of.
    pub past: BTreeSet<usize>,
    /// The requests that were denied: event, from, to.
    pub denied: BTreeSet<(usize, usize, usize)>,
}

impl Cited {
    pub fn of(reasons: &mut Reasons, names: &Names, steps: &[Step]) -> Cited {
        let mut cited = Cited::default();
        for step in steps {
            let Request::Ask { event, from, to } = step.request else { continue };
            match step.verdict {
                Verdict::Refused(_) => continue,
                Verdict::Grant => {}
                Verdict::Deny => {
                    cited.denied.insert((event, from, to));
                }
            }
            let claim = reasons.claim(Place::policy(reasons.terms(), event, from, to, step.moment));
            cited.follow(reasons, names, claim, claim.holds, 0);
        }
        cited
    }

    fn follow(
        &mut self,
        reasons: &mut Reasons,
        names: &Names,
        claim: Claim,
        granted: bool,
        depth: usize,
    ) {
        let relations = reasons.terms().relations;
        let told = stories(reasons, names, claim, granted);
        for fact in told.iter().take(MOST_STORIES).flat_map(|story| &story.facts) {
            match *fact {
                Fact::Edge { label, moment, .. } if label >= relations => {
                    self.past.insert(moment);
                }
                Fact::Defined(inner) if depth < DEEPEST => {
                    self.follow(reasons, names, inner, granted, depth + 1);
                }
                _ => {}
            }
        }
    }
}
