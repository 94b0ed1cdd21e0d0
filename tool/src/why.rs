//! Why a request is granted or denied.
//!
//! * `reason`: one step of a justification, read off the keeper's record; `claim`: what it
//!   is a reason for; `begin`: from where on it counts
//! * `story`: what the steps come down to, as facts
//! * `fact`: facts about the record, and sentences for them
//! * `unseen`: the events of the other bank that would count

pub mod begin;
mod claim;
pub mod fact;
pub mod reason;
pub mod story;
pub mod unseen;

use crate::aloud::told::Telling;
use crate::both::Verdict;
use crate::folder::Request;
use crate::replay::Step;
use crate::stop::Stop;
use crate::words::Words;
use fact::{Fact, Seen};
use reason::{Claim, Place, Reasons};
use story::Story;

/// So many lines, so many facts in a line and so many moments of the other bank are told
/// unless all are asked for.
const MOST_LINES: usize = 3;
const MOST_FACTS: usize = 6;
const MOST_UNSEEN: usize = 3;

/// The reason of one answer, in lines.
#[derive(Clone, Debug, Default, PartialEq, Eq)]
pub struct Because {
    pub granted: bool,
    pub lines: Vec<String>,
    /// How many lines were left out.
    pub more: usize,
    /// Of a bank, the moments made in the other bank whose events would count, the last
    /// ones, and how many were left out.
    pub unseen: Vec<String>,
    pub more_unseen: usize,
}

impl Because {
    /// All lines to print, and how to ask for what was left out.
    pub fn told(&self, how: &str) -> Vec<String> {
        let rest = self.rest().map(|rest| format!("{rest} ({how})"));
        let more = match self.more_unseen {
            0 => None,
            1 => Some("1 moment more was".to_string()),
            more => Some(format!("{more} moments more were")),
        };
        let more = more.map(|more| format!("{more} made in the other bank, before these ({how})"));
        let unseen = self.unseen.iter().cloned().chain(more);
        self.lines.iter().cloned().chain(rest).chain(unseen).collect()
    }

    /// What to say of the lines left out.
    pub fn rest(&self) -> Option<String> {
        let what = if self.granted { "condition" } else { "possibility" };
        let what = match (self.more, self.granted) {
            (0, _) => return None,
            (1, _) => what.to_string(),
            (_, true) => "conditions".to_string(),
            (_, false) => "possibilities".to_string(),
        };
        let verb = match (self.granted, self.more) {
            (true, _) => "met",
            (false, 1) => "fails",
            (false, _) => "fail",
        };
        Some(format!("{} more {what} {verb}", self.more))
    }

    /// All in one line.
    pub fn sentence(&self) -> String {
        let mut parts = self.lines.clone();
        parts.extend(self.rest());
        parts.join("; ")
    }
}

impl Reasons<'_> {
    /// Why a step was answered so; nothing for a refusal, which says why itself.
    /// That the reason is one for another answer is an error.
    pub fn of(&mut self, words: &Words, step: &Step, all: bool) -> Result<Option<Because>, Stop> {
        let Request::Ask { event, from, to } = step.request else { return Ok(None) };
        if matches!(step.verdict, Verdict::Refused(_)) {
            return Ok(None);
        }
        let because = because(self, words, (event, from, to), step.moment, all);
        if because.granted == (step.verdict == Verdict::Grant) {
            return Ok(Some(because));
        }
        let asked = words.request(step.request);
        Err(Stop::Differ(format!("{asked}: {}, with a reason for the opposite", step.verdict)))
    }

    /// Why a claim about the last moment is right.
    pub fn lines(&mut self, words: &Words, claim: Claim) -> Vec<String> {
        let (now, granted) = (claim.place.moment, claim.holds);
        let telling = Telling::new(words.terms, words.names);
        Lines { reasons: self, words, telling, now, all: false, granted }.of(claim, DEEPEST).0
    }
}

/// Why an event is granted or denied at a moment.
fn because(
    reasons: &mut Reasons,
    words: &Words,
    (event, from, to): (usize, usize, usize),
    moment: usize,
    all: bool,
) -> Because {
    let claim = reasons.claim(Place::policy(words.terms, event, from, to, moment));
    let telling = Telling::new(words.terms, words.names);
    let moments = reasons.unseen(claim);
    let more_unseen = if all { 0 } else { moments.len().saturating_sub(MOST_UNSEEN) };
    let last = moments.iter().skip(more_unseen);
    let unseen = last.filter_map(|moment| reasons.made_beside(&telling, words, *moment)).collect();
    let mut teller = Lines { reasons, words, telling, now: moment, all, granted: claim.holds };
    let (lines, more) = teller.of(claim, 0);
    Because { granted: claim.holds, lines, more, unseen, more_unseen }
}

/// Definitions are told inside definitions down to this depth.
const DEEPEST: usize = 3;

/// Tells the lines of a reason, with why definitions hold or fail under them.
struct Lines<'t, 'r> {
    reasons: &'t mut Reasons<'r>,
    words: &'t Words<'t>,
    telling: Telling<'t>,
    now: usize,
    all: bool,
    granted: bool,
}

impl Lines<'_, '_> {
    /// The lines of a claim, and how many stories are left out.
    fn of(&mut self, claim: Claim, depth: usize) -> (Vec<String>, usize) {
        let stories = story::stories(self.reasons, self.words.names, claim, self.granted);
        self.lines(&stories, claim.holds, depth)
    }

    /// The lines of stories, why something holds or doesn't, and how many are left out.
    fn lines(&mut self, stories: &[Story], holds: bool, depth: usize) -> (Vec<String>, usize) {
        let telling = stories.iter().filter(|story| !story.is_slight()).count();
        let count = if self.all || telling == 0 { stories.len() } else { telling };
        // To say that one is left out takes as much room as to tell it.
        let shown = if self.all || count == MOST_LINES + 1 { count } else { count.min(MOST_LINES) };
        let always = if holds { "it is always allowed" } else { "it is never allowed" };
        let mut lines = Vec::new();
        for story in &stories[..shown] {
            lines.push(match story.facts[..] {
                [Fact::Always] => always.to_string(),
                _ => self.line(story),
            });
            if depth < DEEPEST {
                let under = self.under_all(&story.facts, depth + 1);
                lines.extend(under.into_iter().map(|line| format!("  {line}")));
            }
        }
        (lines, count - shown)
    }

    /// What is told under facts; where they are about several moments, each with its own.
    fn under_all(&mut self, facts: &[Fact], depth: usize) -> Vec<String> {
        let told: Vec<(Option<usize>, Vec<String>)> =
            facts.iter().map(|fact| (fact.moment(), self.under(fact, depth))).collect();
        let mut moments: Vec<Option<usize>> =
            told.iter().filter(|(_, lines)| !lines.is_empty()).map(|(moment, _)| *moment).collect();
        moments.dedup();
        let when = |moment: Option<usize>| match moment {
            Some(moment) if moments.len() > 1 && moment != self.now => {
                format!("at moment {moment}: ")
            }
            Some(_) if moments.len() > 1 => "now: ".to_string(),
            _ => String::new(),
        };
        let marked = |(moment, lines): (Option<usize>, Vec<String>)| {
            let mark = move |line: String| match line.starts_with(' ') {
                true => line,
                false => format!("{}{line}", when(moment)),
            };
            lines.into_iter().map(mark)
        };
        told.into_iter().flat_map(marked).collect()
    }

    /// Why a definition holds, or doesn't, or never did.
    fn under(&mut self, fact: &Fact, depth: usize) -> Vec<String> {
        match fact {
            Fact::Defined(inner) => self.of(*inner, depth).0,
            Fact::Never { .. } | Fact::NeverSince { .. } if !self.granted => {
                let stories = story::under(self.reasons, self.words.names, fact);
                self.lines(&stories, false, depth).0
            }
            _ => Vec::new(),
        }
    }

    /// A story in one line. Of a long one the beginning and the end are told.
    fn line(&self, story: &Story) -> String {
        let count = story.facts.len();
        let left_out = match self.all || count <= MOST_FACTS {
            true => 0..0,
            false => MOST_FACTS - 2..count - 2,
        };
        let (mut text, mut last) = (String::new(), None);
        for (index, fact) in story.facts.iter().enumerate() {
            if left_out.contains(&index) {
                if index == left_out.start {
                    text.push_str(&format!(", and {} facts more", left_out.len()));
                }
                last = None;
                continue;
            }
            text.push_str(match index {
                0 => "",
                _ if story.turn == Some(index) => ", but ",
                _ if matches!(fact, Fact::Also { nor: true, .. }) => ", ",
                _ => ", and ",
            });
            let seen = Seen { now: self.now, last, all: self.all };
            text.push_str(&fact.told(&self.telling, self.words, self.reasons.graphs(), seen));
            // Of the present no moment is named.
            last = fact.moment().filter(|moment| *moment != self.now);
        }
        text
    }
}
