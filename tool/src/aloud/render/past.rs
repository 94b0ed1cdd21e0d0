//! What has happened: events so far, and what has been so since.

use super::Speaker;
use crate::aloud::clause::{Clause, Link, Who};
use crate::aloud::form::Quantity;
use crate::aloud::grammar::{have, Time};
use crate::aloud::labels::{Manner, Voice};
use crate::aloud::words::{full, name, Shape, Words};

/// The words between `has` and what has happened.
const AT_SOME_TIME: &str = "at some time ";

impl Speaker<'_> {
    pub(super) fn before(&mut self, holds: bool, then: &Clause, time: Time) -> Words {
        if let (true, Some(words)) = (holds, self.happened_before(then, time)) {
            return words;
        }
        let before = match (holds, time) {
            (true, Time::Now) => "at the moment before this one",
            (true, Time::Then) => "at the moment before that one",
            (false, Time::Now) => "there was no moment just before this one at which",
            (false, Time::Then) => "there was no moment just before that one at which",
        };
        self.say(then, Time::Then, None).after(before)
    }

    /// That something had happened at the moment before, at the latest: "had shared with
    /// you before that".
    fn happened_before(&self, then: &Clause, time: Time) -> Option<Words> {
        let Clause::Once { holds: true, then } = then else { return None };
        let words = self.happening(then, time, Manner::AtSomeTime, None)?;
        let Words::Line { subject, text, shape } = words else { return None };
        let (have, done) = text.split_once(AT_SOME_TIME)?;
        let before = match time {
            Time::Now => "before this moment",
            Time::Then => "before that",
        };
        Some(Words::Line { subject, text: format!("{have}{done} {before}"), shape })
    }

    pub(super) fn once(
        &mut self,
        holds: bool,
        then: &Clause,
        time: Time,
        focus: Option<Who>,
    ) -> Words {
        let manner = if holds { Manner::AtSomeTime } else { Manner::Never };
        self.happening(then, time, manner, focus).unwrap_or_else(|| {
            let before = match (holds, time) {
                (true, Time::Now) => "at some moment so far".to_string(),
                (true, Time::Then) => "at some moment up to then".to_string(),
                (false, time) => format!("{} at which", there_was(false, time)),
            };
            self.say(then, Time::Then, None).after(&before)
        })
    }

    pub(super) fn throughout(&mut self, then: &Clause, time: Time) -> Words {
        let before = match time {
            Time::Now => "at every moment so far",
            Time::Then => "at every moment up to then",
        };
        self.say(then, Time::Then, None).after(before)
    }

    /// An event's edge, or an event with anybody, said of all moments so far:
    /// "has at some time shared with you", "has never joined any member".
    fn happening(
        &self,
        clause: &Clause,
        time: Time,
        manner: Manner,
        focus: Option<Who>,
    ) -> Option<Words> {
        match clause {
            Clause::Edge { label, from, to, holds: true } if self.labels.is_event(*label) => {
                Some(self.edge(*label, *from, *to, time, manner, focus))
            }
            Clause::Linked(link) if link.quantity == Quantity::Some => {
                self.with_anybody(link, time, manner, focus)
            }
            _ => None,
        }
    }

    fn with_anybody(
        &self,
        link: &Link,
        time: Time,
        manner: Manner,
        focus: Option<Who>,
    ) -> Option<Words> {
        let Link { label, near, out, .. } = *link;
        if !link.is_bare() || !self.labels.is_event(label) {
            return None;
        }
        let voice = if out { Voice::Active } else { Voice::Passive };
        if out || focus == Some(near) {
            if let Some(linked) = self.link(label, voice, near, time, manner) {
                let whom = if manner == Manner::AtSomeTime { "some member" } else { "any member" };
                return Some(Words::of(near, linked.with(whom)));
            }
        }
        let (have, done) = (have(false, time), self.labels.done(label, Voice::Active)?);
        let said = match manner {
            Manner::AtSomeTime => format!("some member {have} at some time {done}"),
            Manner::Never => format!("no member {have} ever {done}"),
            _ => format!("no member {have} {done}"),
        };
        Some(Words::whole(format!("{said} {}", name(near)), Shape::Simple))
    }

    pub(super) fn since(
        &mut self,
        holds: bool,
        start: &Clause,
        hold: &Clause,
        time: Time,
        focus: Option<Who>,
    ) -> Words {
        if let Some(words) = self.not_since(start, hold, time, focus) {
            let not = match time {
                Time::Now => "it is not the case that",
                Time::Then => "it was not the case that",
            };
            return if holds { words } else { words.after(not) };
        }
        let (there_was, until) = (there_was(holds, time), until(time));
        let (start, hold) = (self.say(start, Time::Then, None), self.say(hold, Time::Then, None));
        if let (Some(start), Some(hold)) = (start.line(Shape::Simple), hold.line(Shape::Open)) {
            let text =
                format!("{there_was} at which {start} and at every one after it {until} {hold}");
            return Words::whole(text, Shape::Compound);
        }
        let hold = hold.after(&format!("at every moment after it {until}"));
        let head = format!("{there_was} of which both of these are true");
        Words::Outline { head, parts: vec![start.after("at that moment"), hold] }
    }

    /// "has shared with you and has not withdrawn from you since".
    fn not_since(
        &self,
        start: &Clause,
        hold: &Clause,
        time: Time,
        focus: Option<Who>,
    ) -> Option<Words> {
        let start = self.happening(start, time, Manner::AtSomeTime, focus)?;
        let ended: Vec<&Clause> = match hold {
            Clause::All(parts) => parts.iter().collect(),
            single => vec![single],
        };
        let ended = ended.into_iter().map(|part| self.ended(part, time, focus));
        let ended: Vec<Words> = ended.collect::<Option<_>>()?;
        let Words::Line { subject, text, .. } = start else { return None };
        let own =
            |part: &Words| matches!(part, Words::Line { subject: own, .. } if *own == subject);
        let shared = subject.is_some() && ended.iter().all(own);
        let said = |part: Words| match part {
            Words::Line { text, .. } if shared => Some(text),
            part => part.line(Shape::Simple),
        };
        let ended: Vec<String> = ended.into_iter().filter_map(said).collect();
        let tail = match &ended[..] {
            [single] => format!("{single} since"),
            several => format!("since then {}", several.join(" and ")),
        };
        Some(if shared {
            Words::Line { subject, text: format!("{text} and {tail}"), shape: Shape::Compound }
        } else {
            Words::whole(format!("{} and {tail}", full(subject, &text)), Shape::Compound)
        })
    }

    /// An event that does not happen: "has not withdrawn from you".
    pub(in crate::aloud) fn ended(
        &self,
        clause: &Clause,
        time: Time,
        focus: Option<Who>,
    ) -> Option<Words> {
        match clause {
            Clause::Edge { label, from, to, holds: false } if self.labels.is_event(*label) => {
                Some(self.edge(*label, *from, *to, time, Manner::NotSince, focus))
            }
            Clause::Linked(link) if link.quantity == Quantity::No => {
                self.with_anybody(link, time, Manner::NotSince, focus)
            }
            _ => None,
        }
    }
}

fn until(time: Time) -> &'static str {
    match time {
        Time::Now => "until now",
        Time::Then => "until then",
    }
}

fn there_was(holds: bool, time: Time) -> &'static str {
    match (holds, time) {
        (true, Time::Now) => "there was a moment so far",
        (false, Time::Now) => "there was no moment so far",
        (true, Time::Then) => "there was a moment up to then",
        (false, Time::Then) => "there was no moment up to then",
    }
}
