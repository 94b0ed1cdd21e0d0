//! What is said of conditions that are begun or joined with words that have no meaning
//! here: `unless`, `after`, `only while`, and an `or` that leaves out who.

use super::*;
use crate::names::nearest;

impl Parser {
    /// `when if me owns target`, `when everyone`, `when after owner share me`.
    pub(super) fn beginning(&self) -> Option<Mistake> {
        let word = self.english()?;
        let advice = match word {
            "if" => "leave it out: a condition begins after `when`",
            "either" => "leave it out: `or` says it already",
            "unless" => "write `not` before the sentence: `not me owns target`",
            "anyone" | "everyone" | "anybody" | "everybody" | "each" => {
                if let Some(mistake) = self.may_of_times(word, 1) {
                    return Some(mistake);
                }
                if word == "each" {
                    return None;
                }
                "that everybody may is written `by anyone`, in the place of `when`; in a sentence write `someone`"
            }
            // One may be called so.
            _ if self
                .word_ahead(1)
                .is_some_and(|next| next == "is" || self.declared.contains(next)) =>
            {
                return None;
            }
            "after" => "what has happened is written with `once`: `once owner share me`",
            "before" => "what has not happened yet is written with `never`: `never owner share me`",
            "while" | "only" => "leave it out: a condition begins after `when`",
            _ => return None,
        };
        Some(Mistake::new(self.span(), format!("`{word}` has no meaning here")).advise(advice))
    }

    /// Words that join two sentences in English and not here.
    pub(super) fn joining(&self) -> Option<Mistake> {
        let word = self.english()?;
        let advice = match word {
            "until" => "`a until b` is written `not b since a`".to_string(),
            "unless" => self.unless(),
            "before" => "`a before b` is written `b and once a`".to_string(),
            "after" => {
                "`a after b` is written `a and once b`; if c ends it, `a and (not c since b)`"
                    .to_string()
            }
            "while" | "only" => "join conditions with `and`".to_string(),
            _ => return None,
        };
        let message = format!("`{word}` has no meaning here");
        Some(Mistake::new(self.span(), message).advise(advice))
    }

    /// What to write for `a unless b`, between the two: an event is not forgotten.
    fn unless(&self) -> String {
        let sentence = |words: [Option<&str>; 3]| match words {
            [Some(who), Some(event), Some(whom)] if self.events.contains(event) => {
                Some(format!("{who} {event} {whom}"))
            }
            _ => None,
        };
        let a = sentence([3, 2, 1].map(|places| self.word_before(places)));
        let b = sentence([1, 2, 3].map(|places| self.word_ahead(places)));
        match (a, b) {
            (Some(a), Some(b)) => {
                format!("`a unless b` of two events is written `not {b} since {a}`")
            }
            (None, Some(b)) => format!("write `and never {b}`"),
            (_, None) => "write `and not` in place of `unless`".to_string(),
        }
    }

    /// `me is player or designer`: the second part says not of whom.
    pub(super) fn who_again(&self, f: &Formula, word: &str, g: &Formula) -> Option<Mistake> {
        let Kind::Defined(name, people) = &g.kind else { return None };
        let near = nearest(&name.text, self.defined.iter().map(String::as_str)).is_some();
        if !people.is_empty() || near {
            return None;
        }
        let told = |person: &Person| match &person.who {
            Who::Me => "me".to_string(),
            Who::Target => "target".to_string(),
            Who::Here => "here".to_string(),
            Who::Named(name) => name.clone(),
        };
        let text = &name.text;
        let whom = self.word_ahead(0).filter(|word| *word == "me" || *word == "target");
        let said = match (last_part(f), whom) {
            (Kind::Is(one, other), None) => {
                let (one, other) = (told(one), told(other));
                format!("{one} is {other} {word} {one} is {text}")
            }
            // `not a or b` is neither of the two.
            (Kind::Not(not), None) => match &not.kind {
                Kind::Is(one, other) => {
                    let (one, other) = (told(one), told(other));
                    format!("{one} is not {other} and {one} is not {text}")
                }
                _ => return None,
            },
            (Kind::Edge(Some(one), label, Some(other)), Some(whom)) => {
                let (one, other) = (told(one), told(other));
                format!("{one} {} {other} {word} {one} {text} {whom}", label.text)
            }
            _ => return None,
        };
        let message = format!("`{text}` is said of nobody here");
        Some(Mistake::new(name.span, message).advise(format!("repeat who: `{said}`")))
    }
}

/// What stands last in `a and b and c`.
fn last_part(formula: &Formula) -> &Kind {
    match &formula.kind {
        Kind::And(_, g) | Kind::Or(_, g) => last_part(g),
        kind => kind,
    }
}
