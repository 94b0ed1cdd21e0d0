//! How events are said, where a source or names.tsv tells, and definitions.

use crate::aloud::verbs::{done_by, guessed};
use keeper::terms::Variables;

/// How an event is said: what follows `may`, and what follows `has`.
#[derive(Clone, Debug, PartialEq, Eq)]
pub struct Spoken {
    pub may: String,
    pub has: String,
}

impl Spoken {
    /// From the words of a source: `peeked at` of an event peek, or both forms with
    /// a slash between them.
    pub fn of(name: &str, words: &str) -> Spoken {
        match words.split_once('/') {
            Some((may, has)) => Spoken { may: may.trim().into(), has: has.trim().into() },
            None => {
                let rest = words.split_once(' ').map_or("", |(_, rest)| rest);
                let named = || format!("{name} {rest}").trim_end().to_string();
                Spoken { may: base(name, words).unwrap_or_else(named), has: words.to_string() }
            }
        }
    }

    /// Whether what follows `may` cannot be told from the words that follow `has`.
    pub fn is_guessed(name: &str, words: &str) -> bool {
        !words.contains('/') && base(name, words).is_none()
    }
}

/// What follows `may`, if it follows `has` in the form of these words: of the name's verb, or
/// of one that is known. `checked out` gives `check out`, for an event check-out too.
fn base(name: &str, words: &str) -> Option<String> {
    let (done, rest) = match words.split_once(' ') {
        Some((done, rest)) => (done, format!(" {rest}")),
        None => (words, String::new()),
    };
    let first = name.split(['-', '_']).next().unwrap_or(name);
    let own = [name, first].into_iter().find(|verb| is_form(done, verb));
    own.map(str::to_string).or_else(|| done_by(done)).map(|verb| format!("{verb}{rest}"))
}

/// Whether a word is a form of a name, as far as can be seen: its participle, or
/// whatever begins with all of the name but a last e or y.
fn is_form(done: &str, verb: &str) -> bool {
    let stem = verb.trim_end_matches(['e', 'y']);
    done == verb || guessed(verb) == done || (stem.len() > 1 && done.starts_with(stem))
}

/// A definition said of one or more people.
#[derive(Clone, Debug, PartialEq, Eq)]
pub struct Called {
    pub name: String,
    /// For each of its people the variable; none for the member at which it is said.
    pub people: Vec<Option<usize>>,
    /// Further variables that stand for the member at which it is said, a bit for each.
    pub here: Variables,
}

impl Called {
    pub fn new(name: String, people: Vec<Option<usize>>) -> Called {
        Called { name, people, here: 0 }
    }

    /// The person that is said first, unless it is the target: a member M.
    pub fn first(&self) -> Option<usize> {
        let is_target = |person: &Option<usize>| *person == Some(0);
        let first = self.people.iter().position(Option::is_none);
        first.or_else(|| self.people.iter().position(|person| !is_target(person)))
    }
}

#[cfg(test)]
mod tests {
    use super::*;

    #[test]
    fn what_follows_may() {
        let may = |name: &str, words: &str| Spoken::of(name, words).may;
        for (name, words, wanted) in [
            ("peek", "peeked at", "peek at"),
            ("tune", "tuned", "tune"),
            ("try-out", "tried out", "try out"),
            ("demo", "played a demo for", "play a demo for"),
            ("profile", "seen the profile of", "see the profile of"),
            ("audition", "written to", "write to"),
            ("jam", "jammed with", "jam with"),
            ("take-back", "taken back from", "take back from"),
            ("profile", "see the profile of / seen the profile of", "see the profile of"),
        ] {
            assert_eq!(may(name, words), wanted);
            assert!(!Spoken::is_guessed(name, words), "{name}");
        }
        assert_eq!(may("nod", "wobbled at"), "nod at");
        assert!(Spoken::is_guessed("nod", "wobbled at"));
    }
}
