//! What a name is taken for.

use super::verbs::{verb, Verb};
use crate::names::Kind;

/// How a label is said.
#[derive(Clone, Debug, PartialEq, Eq)]
pub enum Wording {
    Verb(Verb),
    /// `member_of`: from is a member of to.
    Of(String),
    /// `friend`: to is a friend of from.
    Role(String),
    /// A name that is no verb.
    Name(String),
}

/// Nouns that say of the end of an edge what it is to the beginning.
const ROLES: &str =
    "acquaintance ally associate buddy collaborator colleague companion coworker cousin friend \
    neighbor neighbour pal partner peer relative rival sibling twin";

impl Wording {
    /// What the name of a relation or an event is taken for.
    pub fn of(kind: Kind, name: &str) -> Wording {
        if let Some(verb) = verb(name) {
            return Wording::Verb(verb);
        }
        let of = ["_of", "-of", " of"].into_iter().find_map(|end| name.strip_suffix(end));
        let single = name.strip_suffix('s').unwrap_or(name);
        match of {
            _ if kind == Kind::Event => Wording::Name(name.to_string()),
            Some(noun) if !noun.is_empty() => Wording::Of(noun.to_string()),
            _ if is_role(single) => Wording::Role(single.to_string()),
            _ => Wording::Name(name.to_string()),
        }
    }
}

/// Whether a noun says what one of two is to the other: `friend`, `bandmate`.
fn is_role(noun: &str) -> bool {
    ROLES.split(' ').any(|role| role == noun) || noun.len() > 4 && noun.ends_with("mate")
}
