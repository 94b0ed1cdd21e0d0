//! Members at the far end of an edge: some, none or every one of them.

use super::Speaker;
use crate::aloud::clause::{Clause, Link, Who};
use crate::aloud::form::Quantity;
use crate::aloud::grammar::{be, Linking, Time};
use crate::aloud::labels::{Manner, Voice};
use crate::aloud::words::{join, listed, name, Shape, Words};

impl Speaker<'_> {
    /// Some, no or every member linked with another, and what holds of them.
    pub(super) fn linked(&mut self, link: &Link, time: Time, focus: Option<Who>) -> Words {
        let (near, guest, quantity) = (link.near, Who::Guest(link.guest), link.quantity);
        let determiner = determiner(quantity);
        if link.is_bare() {
            let some = format!("{determiner} member");
            return match self.near_first(link, time, focus) {
                Some(linking) => Words::of(near, linking.with(&some)),
                None => {
                    let linking = self.active(link.label, guest, time, Manner::Plain);
                    Words::whole(format!("{some} {}", linking.with(&name(near))), Shape::Simple)
                }
            };
        }
        let near_first = self.near_first(link, time, focus);
        let near_first =
            near_first.filter(|linking| linking.takes_phrases() && quantity != Quantity::Every);
        let focused = self.say(&link.that, time, Some(guest));
        if let (Some(predicate), Some(shape)) = (focused.predicate(guest), focused.shape()) {
            return match near_first {
                Some(linking) => {
                    let text = linking.with(&format!("{determiner} member that {predicate}"));
                    Words::Line { subject: Some(near), text, shape: shape.max(Shape::Open) }
                }
                None => {
                    let one = self.one(link, determiner, None, time);
                    Words::whole(format!("{one} {predicate}"), shape)
                }
            };
        }
        if let Some(words) = self.friend_of_friend(link, &focused, time) {
            return words;
        }
        if let Some(path) = self.path(link, time) {
            return path;
        }
        let called = name(guest);
        let before = match near_first {
            Some(linking) => {
                format!(
                    "{} {} such that",
                    name(near),
                    linking.with(&format!("{determiner} {called}"))
                )
            }
            None => {
                let one = self.one(link, determiner, Some(&called), time);
                format!("{one} {} such that", be(false, time))
            }
        };
        self.say(&link.that, time, None).after(&before)
    }

    /// "some friend of some friend of the target": where a member is only
    /// mentioned as the one whose friend somebody is.
    fn friend_of_friend(&self, link: &Link, that: &Words, time: Time) -> Option<Words> {
        let Words::Line { subject: None, text, shape } = that else { return None };
        let Clause::Linked(next) = &*link.that else { return None };
        let both_some = link.quantity == Quantity::Some && next.quantity == Quantity::Some;
        let guest = name(Who::Guest(link.guest));
        let first = format!("some {} of {guest} ", self.noun(next, time)?);
        self.noun(link, time).filter(|_| both_some)?;
        let rest = text.strip_prefix(&first).filter(|rest| !rest.contains(&guest))?;
        let one = self.one(link, "some", None, time);
        Some(Words::whole(format!("{} {rest}", first.trim_end().replace(&guest, &one)), *shape))
    }

    /// The noun by which a link's far member is called, if there is one.
    fn noun(&self, link: &Link, time: Time) -> Option<&str> {
        let noun = self.labels.noun(link.label)?;
        (!self.is_near_first(link) && time == Time::Now).then_some(noun)
    }

    /// Whether the near member is the one of whom the link is said.
    fn is_near_first(&self, link: &Link) -> bool {
        link.out != self.labels.is_reversed(link.label)
    }

    /// The link with the near member for its subject, if it can be said so.
    fn near_first(&self, link: &Link, time: Time, focus: Option<Who>) -> Option<Linking> {
        let voice = match self.is_near_first(link) {
            true => Voice::Active,
            false if focus == Some(link.near) => Voice::Passive,
            false => return None,
        };
        self.link(link.label, voice, link.near, time, Manner::Plain)
    }

    /// "some member that owns the target", "every member that you have just
    /// shared with", "some friend of the target", "some A that owns you".
    fn one(&self, link: &Link, determiner: &str, called: Option<&str>, time: Time) -> String {
        let (near, near_first) = (name(link.near), self.is_near_first(link));
        if let (Some(noun), None) = (self.noun(link, time), called) {
            let near = if link.near == Who::You { "yours" } else { &near };
            return format!("{determiner} {noun} of {near}");
        }
        let called = called.unwrap_or("member");
        let subject = if near_first { link.near } else { Who::Guest(link.guest) };
        let linking = self.active(link.label, subject, time, Manner::Plain);
        match near_first {
            true => format!("{determiner} {called} that {near} {}", linking.before),
            false => format!("{determiner} {called} that {}", linking.with(&near)),
        }
    }

    /// Several members that have to be named, each linked with one before:
    /// "there are A and B such that".
    fn path(&mut self, link: &Link, time: Time) -> Option<Words> {
        let mut links = vec![link];
        while let Some(next) = self.goes_on(links[links.len() - 1], time) {
            links.push(next);
        }
        if links.len() < 2 || link.quantity == Quantity::Every {
            return None;
        }
        let mut parts = Vec::new();
        for (index, link) in links.iter().enumerate() {
            let (near, far) = (link.near, Who::Guest(link.guest));
            let (from, to) = if link.out { (near, far) } else { (far, near) };
            parts.push(self.edge(link.label, from, to, time, Manner::Plain, None));
            let asked = asked(link);
            let own = asked.len() - usize::from(index + 1 < links.len());
            parts.extend(asked[..own].iter().map(|part| self.say(part, time, None)));
        }
        let guests: Vec<String> = links.iter().map(|link| name(Who::Guest(link.guest))).collect();
        let no = if link.quantity == Quantity::No { " no" } else { "" };
        let are = if time == Time::Now { "are" } else { "were" };
        let before = format!("there {are}{no} {} such that", listed(&guests));
        Some(join(parts, false, time == Time::Then).after(&before))
    }

    /// The link that a path goes on with: the last thing asked, of a member
    /// that has to be named.
    fn goes_on<'c>(&mut self, link: &'c Link, time: Time) -> Option<&'c Link> {
        let Clause::Linked(next) = asked(link).last()? else { return None };
        let guest = Who::Guest(next.guest);
        let named = next.quantity == Quantity::Some
            && !next.is_bare()
            && self.say(&next.that, time, Some(guest)).predicate(guest).is_none();
        named.then_some(next)
    }
}

/// What is asked of a link's far member.
fn asked(link: &Link) -> &[Clause] {
    match &*link.that {
        Clause::All(asked) => asked,
        other => std::slice::from_ref(other),
    }
}

pub(super) fn determiner(quantity: Quantity) -> &'static str {
    match quantity {
        Quantity::Some => "some",
        Quantity::No => "no",
        Quantity::Every => "every",
    }
}
