//! The words between the two ends of an edge.

use super::{is_adjective, Labels};
use crate::aloud::grammar::{article, be, do_, have, with, Linking, Time};
use crate::aloud::wording::Wording;

/// How a link is asserted. Only events have the last three.
#[derive(Clone, Copy, Debug, PartialEq, Eq)]
pub enum Manner {
    Plain,
    Negated,
    AtSomeTime,
    Never,
    NotSince,
}

/// Which end of the edge is the subject.
#[derive(Clone, Copy, Debug, PartialEq, Eq)]
pub enum Voice {
    /// The one the edge leaves.
    Active,
    /// The one the edge enters.
    Passive,
}

impl Labels {
    /// The words between subject and object, if there are any in this voice.
    pub fn link(
        &self,
        label: usize,
        voice: Voice,
        you: bool,
        time: Time,
        manner: Manner,
    ) -> Option<Linking> {
        if self.is_event(label) {
            self.event(label, voice, you, time, manner).map(Linking::from)
        } else {
            self.relation(label, voice, you, time, manner == Manner::Plain)
        }
    }

    /// What is said of somebody with an edge to itself: `is a bank`, `was not
    /// suspended`. Only of relations that are called by a name of one word.
    pub fn attribute(&self, label: usize, you: bool, time: Time, holds: bool) -> Option<String> {
        let Wording::Name(name) = self.wording(label) else { return None };
        if self.is_event(label) || name.contains(' ') {
            return None;
        }
        let not = if holds { "" } else { " not" };
        let article = if is_adjective(name) { "" } else { article(name) };
        Some(format!("{}{not} {}", be(you, time), with(article, name).trim_start()))
    }

    /// An event in the past: `shared with`, `did not share with`, `was denied
    /// permission to load`.
    pub fn did(&self, label: usize, holds: bool) -> String {
        let may = self.may(label);
        match (self.is_denied(label), holds, self.wording(label)) {
            (true, true, _) => format!("was denied permission to {may}"),
            (true, false, _) => format!("was not denied permission to {may}"),
            (false, false, _) => format!("did not {may}"),
            (false, true, Wording::Verb(verb)) => with(&verb.past, verb.preposition),
            (false, true, Wording::Of(name) | Wording::Role(name) | Wording::Name(name)) => {
                format!("did {name} to")
            }
        }
    }

    fn relation(
        &self,
        label: usize,
        voice: Voice,
        you: bool,
        time: Time,
        holds: bool,
    ) -> Option<Linking> {
        let not = if holds { "" } else { " not" };
        let said = match (self.wording(label), voice) {
            (Wording::Verb(verb), Voice::Active) => {
                let said = match (time, holds, you) {
                    (Time::Now, true, true) => verb.base.clone(),
                    (Time::Now, true, false) => verb.third.clone(),
                    (Time::Then, true, _) => verb.past.clone(),
                    (time, false, you) => format!("{} not {}", do_(you, time), verb.base),
                };
                with(&said, verb.preposition)
            }
            (Wording::Verb(verb), Voice::Passive) if verb.preposition.is_empty() => {
                format!("{}{not} {} by", be(you, time), verb.participle)
            }
            (Wording::Verb(_), Voice::Passive) => return None,
            (Wording::Of(name) | Wording::Role(name), Voice::Active) => {
                format!("{}{not} {} {name} of", be(you, time), article(name))
            }
            (Wording::Of(name) | Wording::Role(name), Voice::Passive) => {
                let after = format!(" as {} {name}", article(name));
                let before = match holds {
                    true => have(you, time).to_string(),
                    false => format!("{} not have", do_(you, time)),
                };
                return Some(Linking { before, after });
            }
            (Wording::Name(name), voice) => {
                let edge = if holds { article(name) } else { "no" };
                let way = if voice == Voice::Active { "to" } else { "from" };
                format!("{} {edge} {name} edge {way}", have(you, time))
            }
        };
        Some(said.into())
    }

    fn event(
        &self,
        label: usize,
        voice: Voice,
        you: bool,
        time: Time,
        manner: Manner,
    ) -> Option<String> {
        let adverb = match manner {
            Manner::Plain => "just",
            Manner::Negated => "not just",
            Manner::AtSomeTime => "at some time",
            Manner::Never => "never",
            Manner::NotSince => "not",
        };
        let done = self.done(label, voice)?;
        Some(format!("{} {adverb} {done}", have(you, time)))
    }

    /// What follows "has": `shared with`, `been joined by`, `been denied permission to load`.
    pub fn done(&self, label: usize, voice: Voice) -> Option<String> {
        if self.is_denied(label) {
            let tried = || format!("been denied permission to {}", self.may(label));
            return (voice == Voice::Active).then(tried);
        }
        Some(match (self.wording(label), voice) {
            (Wording::Verb(verb), Voice::Active) => with(&verb.participle, verb.preposition),
            (Wording::Verb(verb), Voice::Passive) if verb.preposition.is_empty() => {
                format!("been {} by", verb.participle)
            }
            (Wording::Verb(_), Voice::Passive) => return None,
            (Wording::Of(name) | Wording::Role(name) | Wording::Name(name), voice) => match voice {
                Voice::Active => format!("done {name} to"),
                Voice::Passive => format!("had {name} done by"),
            },
        })
    }
}
