//! What is said of words and forms that other languages have, and English: kinds of statements,
//! adverbs, amounts, the passive.

use super::*;
use crate::aloud::verbs::verb;

/// Words that begin a statement elsewhere, and how it is said here.
const STATEMENTS_ELSEWHERE: [(&[&str], &str); 7] = [
    (
        &["role", "roles", "attribute", "attributes", "group", "groups", "tag", "tags"],
        "an attribute is a relation of somebody to itself: `relation admin`, `first dora is admin`, and `me is admin`",
    ),
    (
        &["user", "users", "person", "people", "actor", "actors", "object", "objects", "resource", "type", "kind"],
        "all people and things are members: `members dora, pete`; with kinds, `members players: dora, pete; presets: saw`",
    ),
    (&["action", "actions", "verb", "verbs", "command"], "what can be done is an event: `event load when me owns target`"),
    (
        &["rule", "rules", "policy", "policies", "permit", "allow", "grant", "can", "may"],
        "who may do something is said where it is declared: `event load when me owns target`",
    ),
    (
        &["deny", "forbid", "disallow", "prohibit"],
        "what no `when` allows is denied; put the exception there: `event load when me owns target and not ...`",
    ),
    (&["import", "include", "require"], "a folder has one source: copy what you need into it"),
    (&["let", "def", "function", "where", "macro"], "a name for a sentence is given so: `define p is trusted: someone share p`"),
];

/// Words between who and what that have no meaning here.
const ADVERBS: [&str; 8] =
    ["ever", "already", "still", "also", "just", "now", "currently", "recently"];

/// Words for time by a clock.
const CLOCK: [&str; 8] =
    ["within", "during", "today", "yesterday", "later", "ago", "daily", "hourly"];

impl Parser {
    /// How a statement of another language is made here, if its first word comes next.
    pub(super) fn statement_elsewhere(&self) -> Option<&'static str> {
        let word = self.word_ahead(0)?;
        let known = STATEMENTS_ELSEWHERE.iter().find(|(words, _)| words.contains(&word));
        known.map(|(_, advice)| *advice)
    }

    /// What is said of a token that begins no statement.
    pub(super) fn begins_nothing(&self) -> Mistake {
        let what = "a statement: members, relation, event, keep, define or first";
        let mistake = self.expected(what, &STATEMENTS);
        if let Some(name) = self.last_word().filter(|_| self.is_sign('(')) {
            return mistake.advise(format!(
                "a relation is its name only, between any two members: `relation {name}`"
            ));
        }
        if self.is_sign(';') {
            return mistake.advise("delete the `;`: nothing ends a statement");
        }
        if let Some(advice) = self.request() {
            return mistake.advise(advice);
        }
        match (self.statement_elsewhere(), &mistake.advice) {
            (Some(advice), _) => mistake.advise(advice),
            (None, Some(_)) => mistake,
            (None, None) => mistake.advise(
                "every statement begins with one of these; `cuckooormolu new DIR` writes a source to start from",
            ),
        }
    }

    /// `me already owns target`, `owner ever share me`: after the sentence that it is read as.
    pub(super) fn adverb_before(&self) -> Option<Mistake> {
        let [who, adverb, verb] = [3, 2, 1].map(|places| self.word_before(places));
        let (who, adverb, verb) = (who?, adverb.filter(|word| ADVERBS.contains(word))?, verb?);
        let whom = self.word_ahead(0).filter(|_| self.declared.contains(verb))?;
        let sentence = format!("{who} {verb} {whom}");
        let advice = match adverb {
            "ever" | "recently" if self.events.contains(verb) => format!("write `once {sentence}`"),
            _ => format!("leave it out: `{sentence}`"),
        };
        let span = self.tokens[self.next - 2].1;
        Some(Mistake::new(span, format!("`{adverb}` has no meaning here")).advise(advice))
    }

    /// `owner once share me`, at the word about the past.
    pub(super) fn past_inside(&self) -> Option<Mistake> {
        let word = self.word_ahead(0)?;
        let subject = self.last_word()?;
        if !["once", "never", "always", "previously"].contains(&word) {
            return None;
        }
        let advice = match (self.word_ahead(1), self.word_ahead(2)) {
            (Some(verb), Some(whom)) => format!("write `{word} {subject} {verb} {whom}`"),
            _ => format!("write `{word} me share target`"),
        };
        let message = format!("`{word}` goes before a sentence");
        Some(Mistake::new(self.span(), message).advise(advice))
    }

    /// `owner share with me` or `owner shared with me`, after the `with`.
    pub(super) fn preposition_before(&self) -> Option<Mistake> {
        let [who, done, word] = [3, 2, 1].map(|places| self.word_before(places));
        let word = word.filter(|word| ["with", "to", "from", "for", "on"].contains(word))?;
        let whom = self.word_ahead(0).filter(|_| !self.begins[self.next])?;
        let (who, done) = (who?, done?);
        let is_done = |name: &&String| {
            *name == done
                || verb(name).is_some_and(|verb| verb.participle == done || verb.third == done)
        };
        let label = self.declared.iter().filter(is_done).min()?;
        let mistake = Mistake::new(self.last(), format!("`{word}` has no meaning here"));
        let past = self.label_of(done).is_some_and(|(_, past)| past) && !self.in_past();
        let advice = match (past, self.word_before(4)) {
            (true, Some("not")) => format!("write `never {who} {label} {whom}`"),
            (true, before) if before.is_none_or(|word| word != "once" && word != "never") => {
                format!("write `once {who} {label} {whom}`")
            }
            _ => format!("leave it out: `{who} {label} {whom}`"),
        };
        Some(mistake.advise(advice))
    }

    /// `target is owned by me`, at the `by`.
    pub(super) fn passive(&self) -> Option<String> {
        let [whom, is, done] = [3, 2, 1].map(|places| self.word_before(places));
        let (whom, done) = (whom.filter(|_| is == Some("is"))?, done?);
        let who = self.word_ahead(1).filter(|_| self.is_word("by"))?;
        let is_done = |name: &&String| verb(name).is_some_and(|verb| verb.participle == done);
        let label = self.declared.iter().filter(is_done).min()?;
        let sought = self.phrase(1, "some");
        let (seek, who) = match &sought {
            Some(sought) => (sought.seek.as_str(), sought.who.as_str()),
            None => ("", who),
        };
        Some(format!("say who does it first: `{seek}{who} {label} {whom}`"))
    }

    /// What to say of a word after a formula that English has there.
    pub(super) fn habit(&self) -> Option<&'static str> {
        let word = self.word_ahead(0)?;
        let anyone = self.word_before(1) == Some("anyone") && self.word_before(2) == Some("by");
        Some(match word {
            "when" if anyone => "`by anyone` always allows it: leave out `by anyone`",
            "except" | "but" | "without" if anyone => {
                "say who may do it with `when`: `when me is not banned`, where `banned` is a relation"
            }
            "but" => "write `and` in the place of `but`",
            "except" | "without" => "write `and not` and the sentence that is the exception",
            word if CLOCK.contains(&word) => {
                "there is no clock here: the past is told in moments, with `once`, `since` and `previously`"
            }
            _ => return None,
        })
    }

    /// `at most 3 friend of me`, `exactly 3`, `more than 3`, `fewer than 3`.
    pub(super) fn amount(&self) -> Option<Mistake> {
        let number = |places: usize| match *self.ahead(places) {
            Token::Number(number) => Some(number),
            _ => None,
        };
        let (places, advice) = match (self.word_ahead(0)?, self.word_ahead(1)) {
            ("at", Some("most")) => {
                (2, format!("write `not` before `at least {} ...`", number(2)? + 1))
            }
            ("more", Some("than")) => (2, format!("write `at least {} ...`", number(2)? + 1)),
            ("fewer" | "less", Some("than")) => {
                (2, format!("write `not` before `at least {} ...`", number(2)?))
            }
            ("exactly", None) => {
                let count = number(1)?;
                (1, format!("write `at least {count} ... and not at least {} ...`", count + 1))
            }
            _ => return None,
        };
        let words: Vec<&str> = (0..places).filter_map(|place| self.word_ahead(place)).collect();
        let span = self.span().to(self.span_ahead(places - 1));
        let message = format!("`{}` has no meaning here", words.join(" "));
        Some(Mistake::new(span, message).advise(advice))
    }

    /// `me and target are friends`, at the `and`.
    pub(super) fn both_are(&self) -> Option<Mistake> {
        let one = self.last_word().filter(|_| self.is_word("and"))?;
        let other = self.word_ahead(1).filter(|_| self.word_ahead(2) == Some("are"))?;
        let message = format!("a sentence is about one: `{one} and {other}` are two");
        let advice = format!("say who, what and whom: `{one} friend {other}`; or one after the other, joined with `and`");
        Some(Mistake::new(self.span(), message).advise(advice))
    }
}
