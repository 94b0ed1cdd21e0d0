//! Those of whom a `many` asks for some: `friends of quin that have credited kick`.

use super::{At, Telling};
use crate::aloud::clause::{Clause, Who};
use crate::aloud::grammar::Time;
use crate::aloud::labels::{Manner, Voice};
use crate::aloud::render::Speaker;
use crate::aloud::resolve;
use crate::aloud::words::{full, name, Shape, Words};

impl Telling<'_> {
    /// The members that the entry at a place counts, in the plural.
    pub fn sought(&self, at: At, then: bool) -> String {
        let time = if then { Time::Then } else { Time::Now };
        // What is said of several has the verbs of what is said of you.
        let Some((label, that)) = resolve::counted(&self.forms, at, Who::You) else {
            return String::new();
        };
        let near = name(Who::Member(at.1));
        let mut speaker = self.speaker();
        let said = match that {
            Clause::Constant(true) => self.ends(label, &near, "", time),
            that => match speaker.say(&that, time, Some(Who::You)).predicate(Who::You) {
                Some(predicate) => {
                    let ends = self.ends(label, &near, "", time);
                    let and = if ends.contains(" that ") { " and" } else { "" };
                    let predicate = predicate.replacen("at some time ", "", 1);
                    format!("{ends}{and} that {predicate}")
                }
                None => self.sought_by_letter(label, at, &near, time),
            },
        };
        self.finish(Words::whole(said, Shape::Simple))
    }

    /// The same where the clause has another subject: `friends A of quin such that dora has
    /// shared with A`.
    fn sought_by_letter(&self, label: usize, at: At, near: &str, time: Time) -> String {
        let guest = Who::Guest(0);
        let that = resolve::counted(&self.forms, at, guest).map(|(_, that)| that);
        match that.map(|that| self.speaker().say(&that, time, None)) {
            Some(Words::Line { subject, text, .. }) => {
                let ends = self.ends(label, near, &format!(" {}", name(guest)), time);
                format!("{ends} such that {}", full(subject, &text))
            }
            _ => format!("{} of whom the rest holds", self.ends(label, near, "", time)),
        }
    }

    /// `friends of quin`, `friends A of quin`, `members that quin owns`.
    fn ends(&self, label: usize, near: &str, letter: &str, time: Time) -> String {
        if let Some(noun) = self.labels.noun(label).filter(|_| self.labels.is_reversed(label)) {
            return format!("{}{letter} of {near}", plural(noun));
        }
        let link = self.labels.link(label, Voice::Active, false, time, Manner::Plain);
        let link = link.map_or_else(String::new, |link| link.before + &link.after);
        format!("members{letter} that {near} {link}")
    }

    pub(super) fn speaker(&self) -> Speaker<'_> {
        Speaker { labels: &self.labels, names: self.names, apart: Vec::new(), numbered: false }
    }
}

fn plural(noun: &str) -> String {
    match noun.strip_suffix('y').filter(|stem| !stem.ends_with(['a', 'e', 'o', 'u'])) {
        Some(stem) => format!("{stem}ies"),
        None => format!("{noun}s"),
    }
}
