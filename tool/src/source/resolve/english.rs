//! Words that English has for people and for what was done, and what to write for them.

use super::super::ast::{MemberKind, Name, Person, Who as Written};
use super::super::mistake::Mistake;
use super::Resolver;
use crate::aloud::verbs::verb;
use crate::source::kinds::{forms, singular};

impl Resolver<'_> {
    /// What to write for a word that English has for people and things.
    pub(super) fn pronoun(&self, text: &str) -> Option<String> {
        let relation = self.source.relations.first().map_or("owns", |relation| &relation.text);
        Some(match text.to_lowercase().as_str() {
            "something" | "anything" | "somebody" | "anybody" | "anyone" => {
                "write `someone`: it stands for any member, people and things alike".to_string()
            }
            "nothing" | "none" | "noone" | "no-one" => {
                "write `nobody`: it stands for people and things alike".to_string()
            }
            "everything" | "everyone" | "everybody" | "all" => {
                let kind = self.source.kinds.last();
                let kind = kind.map_or("preset".to_string(), |kind| singular(&kind.name.text));
                format!("say all of whom: `every x such that x is {kind}: me {relation} x`")
            }
            "it" | "this" | "that" => "if the target is meant, write `target`".to_string(),
            "they" | "them" | "he" | "him" | "she" | "her" => format!(
                "if the target is meant, write `target`; somebody else is named where they are sought: \
                 `some x {relation} target: ...`, and then called `x`"
            ),
            "mine" => format!("write `me {relation} target`"),
            "his" | "hers" | "theirs" | "ours" | "yours" => {
                format!("say whose: `me {relation} target`, or `some x {relation} target: ...`")
            }
            "allowed" | "permitted" | "authorized" => {
                "say what has to hold for it: who may do it is what this condition says".to_string()
            }
            word => {
                let called = |kind: &&MemberKind| forms(&kind.name.text).iter().any(|form| form == word);
                let kind = singular(&self.source.kinds.iter().find(called)?.name.text);
                format!(
                    "`{kind}` is a kind: write `some x: x is {kind}` in its place; if the target is meant, `target`"
                )
            }
        })
    }

    /// The event of which a word is the participle: `share`, for `shared`.
    pub(super) fn event_done(&self, word: &str) -> Option<&str> {
        let names = self.source.events.iter().map(|event| event.name.text.as_str());
        let is_done =
            |name: &&str| *name != word && verb(name).is_some_and(|verb| verb.participle == word);
        names.into_iter().find(is_done)
    }

    /// `target is shared`, where an event is meant.
    pub(super) fn done_to(&self, one: &Person, name: &Name, event: &str) -> Mistake {
        let whom = match &one.who {
            Written::Me => "me",
            Written::Named(text) if text != "it" => text,
            _ => "target",
        };
        let message = format!("no attribute and no definition is called `{}`", name.text);
        let advice = format!(
            "`{event}` is an event: for \"at some time\" write `once someone {event} {whom}`"
        );
        Mistake::unknown(name, message).advise(advice)
    }
}
