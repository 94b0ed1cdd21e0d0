//! What is said of a relation or an event that stands alone for a sentence, `not suspended`, of a
//! participle, `not me loaded target`, and of `I` and `you` in one sentence.

use super::*;
use crate::aloud::verbs::verb;
use crate::source::kinds::singulars;

/// Words for those who ask that English has besides `me`.
const ASKS: [&str; 5] = ["I", "i", "me", "you", "we"];

impl Parser {
    /// `not suspended`, `bandmates`, `load`: the name of a relation or an event, and no more.
    pub(super) fn lone(&self) -> Option<Mistake> {
        let word = self.no_name(0).filter(|_| self.ends_at(1))?;
        // `me is player or designer` says who before.
        let joined = matches!(self.last_word(), Some("and" | "or"));
        if joined && [3, 4].iter().any(|places| self.word_before(*places) == Some("is")) {
            return None;
        }
        let not = self.last_word() == Some("not");
        let before = if not { "not " } else { "" };
        let advice = match (self.relation_called(word), self.label_of(word)) {
            (Some(relation), _) => self.said_of(&relation, before),
            (None, Some((event, done))) if self.events.contains(&event) => {
                let once = match (self.in_past(), not) {
                    (true, _) => before,
                    (false, true) => "never ",
                    (false, false) => "once ",
                };
                let own = format!("`{once}me {event} target`");
                match (done, self.own_event() == Some(&event)) {
                    (true, false) => {
                        format!("say who and whom, such as `{once}someone {event} me`")
                    }
                    (true, true) => format!("say who: {own}, or `{once}someone {event} target`"),
                    _ => format!("say who and whom: {own}, or `{once}someone {event} me`"),
                }
            }
            _ => return None,
        };
        let span = if not { self.last().to(self.span()) } else { self.span() };
        Some(Mistake::new(span, format!("`{word}` alone is no formula")).advise(advice))
    }

    /// How a relation is said of `me`, after `not` or nothing.
    fn said_of(&self, relation: &str, not: &str) -> String {
        let one = format!("`me is {not}{relation}`");
        if self.is_attribute(relation) {
            return format!("say who: {one}, or `target is {not}{relation}`");
        }
        if verb(relation).is_some() {
            return format!("say who and whom: `{not}me {relation} target`");
        }
        if !self.relates_two(relation) {
            return format!("say who: {one}; or who and whom: `{not}me {relation} target`");
        }
        let direct = format!("say who and whom: `{not}me is {relation} of target`");
        let owner = self.parted(format!("some owner owns target: me is {relation} of owner"), 1);
        match self.declared.contains("owns") {
            true => format!("{direct}; if the target's owner is meant, `{not}{owner}`"),
            false => direct,
        }
    }

    /// The relation of which a word is a form.
    pub(super) fn relation_called(&self, word: &str) -> Option<String> {
        let plural = |name: &&String| singulars(name).iter().any(|form| form == word);
        let relations = self.declared.iter().filter(|name| !self.events.contains(*name));
        self.role(word).or_else(|| relations.filter(plural).min().cloned())
    }

    /// Whether a relation stands between two members somewhere, or before `of`.
    pub(super) fn relates_two(&self, relation: &str) -> bool {
        let word = |place: usize| match self.tokens.get(place) {
            Some((Token::Word(word), _)) => word.as_str(),
            _ => "",
        };
        let member = |place: usize| self.members.contains(word(place));
        let named = (1..self.tokens.len()).filter(|place| word(*place) == relation);
        named.into_iter().any(|place| {
            member(place - 1) && member(place + 1)
                || word(place - 1) == "is" && word(place + 1) == "of"
        })
    }

    /// Whether this is inside something about the past, where an event is said of its moment.
    pub(super) fn in_past(&self) -> bool {
        let word = |place: usize| match &self.tokens[place].0 {
            Token::Word(word) => word.as_str(),
            _ => "",
        };
        let begins = |place: &usize| self.begins[*place] && STATEMENTS.contains(&word(*place));
        let start = (0..self.next).rev().find(begins).unwrap_or(0);
        let end = (self.next..self.tokens.len()).find(begins).unwrap_or(self.tokens.len());
        let mut closed = 0;
        let mut opened = (start..self.next).rev().filter(|place| match self.tokens[*place].0 {
            Token::Sign(')') => {
                closed += 1;
                false
            }
            Token::Sign('(') if closed > 0 => {
                closed -= 1;
                false
            }
            Token::Sign('(') => true,
            _ => false,
        });
        let past = ["once", "never", "always", "previously"];
        opened.any(|place| place > 0 && past.contains(&word(place - 1)))
            || (start..end).any(|place| word(place) == "since")
    }

    /// A word that nobody and no definition is called by.
    fn no_name(&self, place: usize) -> Option<&str> {
        let taken = |word: &str| self.defined.contains(word) || self.in_sight(word);
        self.word_ahead(place).filter(|word| !taken(word) && self.name_ahead(place))
    }

    /// `not me loaded target`, `owner shared with me`: after the participle.
    pub(super) fn participle(&self, who: &str, label: &Name) -> Option<Mistake> {
        let known = |word: &str| self.declared.contains(word) || self.defined.contains(word);
        let (event, _) =
            self.label_of(&label.text).filter(|(_, done)| *done && !known(&label.text))?;
        let with = matches!(self.word_ahead(0), Some("with" | "to" | "from" | "for" | "on" | "by"));
        if self.word_ahead(0) == Some("by") {
            return None;
        }
        let whom = self.word_ahead(usize::from(with))?;
        let person =
            |word: &str| ["me", "target", "here", "someone"].contains(&word) || self.in_sight(word);
        let sought = who != "nobody" && !person(who);
        if sought || !person(whom) {
            return None;
        }
        let before = self.word_before(3);
        let (said, from) = match (before, who) {
            _ if self.in_past() => (format!("{who} {event} {whom}"), 2),
            (_, "nobody") => (format!("never someone {event} {whom}"), 2),
            (Some("not"), _) => (format!("never {who} {event} {whom}"), 3),
            (Some(past @ ("once" | "never" | "always" | "previously")), _) => {
                (format!("{past} {who} {event} {whom}"), 3)
            }
            _ => (format!("once {who} {event} {whom}"), 2),
        };
        let span = self.tokens[self.next - from].1.to(self.span_ahead(usize::from(with)));
        let message = format!("the event is called `{event}`, not `{}`", label.text);
        Some(Mistake::new(span, message).advise(format!("write `{said}`")))
    }

    /// `I shared with you`, after the verb: only one of the two asks.
    pub(super) fn both_ask(&self, who: &str, label: &Name) -> Option<Mistake> {
        let with = matches!(self.word_ahead(0), Some("with" | "to" | "from" | "for" | "on"));
        let whom = self.word_ahead(usize::from(with))?;
        let asks = |word: &str| ASKS.contains(&word) && !self.in_sight(word);
        let plain = who == "me" && whom == "me";
        let (event, done) =
            self.label_of(&label.text).filter(|(label, _)| self.events.contains(label))?;
        if !asks(who) || !asks(whom) || plain && !done && !with {
            return None;
        }
        let asked = "`me` is the one who asks";
        let owner = self.declared.contains("owns").then_some("some owner owns target: ");
        let advice = match (who, owner) {
            ("I" | "i" | "we" | "me", Some(seek)) if whom == "you" || plain => format!(
                "{asked}. If the owner did it, write `{seek}once owner {event} me`; if it was done to the target, \
                 `once me {event} target`"
            ),
            (_, Some(seek)) => format!(
                "{asked}. If the owner did it, write `{seek}once owner {event} me`; if the target did, \
                 `once target {event} me`"
            ),
            (_, None) => format!("{asked}, and `target` the other: `once target {event} me`, or `once me {event} target`"),
        };
        let span = self.tokens[self.next - 2].1.to(self.span_ahead(usize::from(with)));
        Some(
            Mistake::new(span, format!("`{who}` and `{whom}` would be the same member here"))
                .advise(advice),
        )
    }

    /// `me owns not target`, at the `not`.
    pub(super) fn not_before_whom(&self, who: &str, label: &str) -> Option<Mistake> {
        let whom = self.word_ahead(1).filter(|_| self.is_word("not") && self.ends_at(2))?;
        let span = self.tokens[self.next - 2].1.to(self.span_ahead(1));
        let (label, past) = self.label_of(label)?;
        let sentence = format!("{who} {label} {whom}");
        let advice = self.denying(&sentence, &label, past);
        let message = "`not` goes before a sentence, or after `is`";
        Some(Mistake::new(span, message).advise(advice))
    }

    /// What to write for the contrary of a sentence; an event is forgotten at the next moment.
    fn denying(&self, sentence: &str, label: &str, past: bool) -> String {
        match self.events.contains(label) && !self.in_past() {
            true if past => format!("write `never {sentence}`"),
            true => {
                format!("write `never {sentence}`; `not {sentence}` is about the last moment only")
            }
            false => format!("write `not {sentence}`"),
        }
    }

    /// What to write for `me not loaded target before`, at the `not`.
    pub(super) fn not_done(&self, subject: &str) -> Option<String> {
        let (label, past) = self.label_of(self.word_ahead(1)?)?;
        let with = matches!(self.word_ahead(2), Some("with" | "to" | "from" | "for" | "on"));
        let whom = self.word_ahead(2 + usize::from(with))?;
        let before = matches!(
            self.word_ahead(3 + usize::from(with)),
            Some("before" | "yet" | "already" | "ever")
        );
        let subject = if ["I", "i"].contains(&subject) { "me" } else { subject };
        Some(self.denying(&format!("{subject} {label} {whom}"), &label, past || before))
    }
}
