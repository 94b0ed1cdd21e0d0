//! Facts in the order of telling.

use crate::why::fact::Fact;
use std::collections::HashSet;

/// Facts that belong together.
#[derive(Clone, Debug, Default, PartialEq, Eq)]
pub struct Story {
    pub facts: Vec<Fact>,
    /// The fact that turns the story: `but` stands before it.
    pub turn: Option<usize>,
    /// Whether other possibilities stand beside it, so that it alone denies nothing.
    pub beside: bool,
    /// Whether it only says of one member what was told of all together.
    pub repeats: bool,
}

impl Story {
    pub fn of(fact: Fact) -> Story {
        Story { facts: vec![fact], ..Story::default() }
    }

    /// This story, and then others.
    pub fn then(mut self, others: Vec<Story>) -> Story {
        if let [only] = &others[..] {
            (self.beside, self.repeats) = (only.beside, only.repeats);
        }
        for story in others {
            let from = self.facts.len();
            self.turn = story.turn.map(|turn| from + turn).or(self.turn);
            self.facts.extend(story.facts);
        }
        self
    }

    /// This story, and then others that go against it.
    pub fn but(self, others: Vec<Story>) -> Story {
        let here = self.facts.len();
        let mut story = self.then(others);
        if here > 0 && story.turn.is_none_or(|turn| turn < here) {
            story.turn = Some(here);
        }
        story
    }

    /// How near it came to a grant.
    pub fn weight(&self) -> usize {
        self.facts.iter().map(|fact| fact.weight()).sum()
    }

    /// Whether it says only who is whom.
    pub fn is_plain(&self) -> bool {
        self.facts.iter().all(|fact| fact.is_plain())
    }

    /// Whether it comes down to who is whom, or repeats another.
    pub fn is_slight(&self) -> bool {
        self.repeats || self.facts.last().is_none_or(|fact| fact.is_plain())
    }

    /// Whether it tells how many there are.
    pub fn counts(&self) -> bool {
        self.facts.iter().any(|fact| matches!(fact, Fact::Count { .. }))
    }

    /// Whether it says only what never was.
    pub fn is_never(&self) -> bool {
        let never = |fact: &Fact| {
            matches!(fact, Fact::Never { .. } | Fact::NeverSince { .. } | Fact::Counting(_))
        };
        self.facts.iter().all(never)
    }

    /// Whether an event of its own moment is in it.
    pub fn has_event(&self, relations: usize) -> bool {
        let event = |fact: &Fact| matches!(fact, Fact::Edge { label, .. } if *label >= relations);
        self.facts.iter().any(event)
    }
}

/// The stories without those that have the facts of an earlier one.
pub fn distinct(mut stories: Vec<Story>) -> Vec<Story> {
    let mut known = HashSet::new();
    stories.retain(|story| {
        let mut facts: Vec<String> = story.facts.iter().map(|fact| format!("{fact:?}")).collect();
        facts.sort();
        facts.dedup();
        known.insert(facts)
    });
    stories
}

/// The stories of several possibilities, all of which fail.
pub fn beside_each_other(mut stories: Vec<Story>) -> Vec<Story> {
    stories.iter_mut().for_each(|story| story.beside = true);
    stories
}

/// The stories without those that say only who is whom, if any other is left.
pub fn telling(mut stories: Vec<Story>) -> Vec<Story> {
    if stories.iter().any(|story| !story.is_plain()) {
        stories.retain(|story| !story.is_plain());
    }
    distinct(stories)
}
