//! What is said of `twice` and `three times`, and of sentences that do not say who or whom.

use super::english::NUMBERS;
use super::*;
use crate::source::kinds::singular;

impl Parser {
    /// How often, and how many words say it: `twice`, `three times`, `2 times`.
    pub(super) fn times(&self, place: usize) -> Option<usize> {
        let times = self.word_ahead(place + 1) == Some("times");
        match self.ahead(place) {
            Token::Word(word) if word == "twice" => Some(2),
            Token::Word(word) if word == "thrice" => Some(3),
            Token::Number(count) if times => Some(*count),
            Token::Word(word) if times => {
                NUMBERS.iter().position(|known| known == word).map(|at| at + 1)
            }
            _ => None,
        }
    }

    /// `me denied load twice`, which does not say whom.
    pub(super) fn how_often(&self, who: &str, label: &str) -> Option<Mistake> {
        let count =
            self.times(0).filter(|_| self.word_ahead(0).is_none_or(|word| !self.in_sight(word)))?;
        let whom = if who == "target" { "me" } else { "target" };
        let word = self.word_ahead(0).unwrap_or("times");
        let message = format!("expected whom before `{word}`");
        let places = 2 + usize::from(label.starts_with("denied "));
        if let Some(advice) =
            self.not_so_often(self.word_before(places + 1), [who, label, whom], count)
        {
            return Some(self.from_not(places, advice));
        }
        let sentence = again(&format!("{who} {label} {whom}"), count)?;
        let advice = format!(
            "say that it was so, and once before: `{sentence}`; with `someone` for `{whom}`, whoever it was"
        );
        Some(Mistake::new(self.span(), message).advise(advice))
    }

    /// The sentence with an event before `twice`: who, what, whom, and how many words it has.
    fn before_times(&self) -> Option<(&str, String, &str, usize)> {
        let [denied, who, done, whom] = [3, 4, 2, 1].map(|places| self.word_before(places));
        let (label, _) = self.label_of(done?).filter(|(label, _)| self.events.contains(label))?;
        match denied {
            Some("denied") => Some((who?, format!("denied {label}"), whom?, 4)),
            who => Some((who?, label, whom?, 3)),
        }
    }

    /// What to write for `me load target twice`, at the `twice`.
    pub(super) fn repeated(&self) -> Option<String> {
        let count = self.times(0)?;
        let (who, label, whom, _) = self.before_times()?;
        let sentence = again(&format!("{who} {label} {whom}"), count)?;
        Some(format!("say that it was so, and once before: `{sentence}`"))
    }

    /// `not me load target twice`, at the `twice`.
    pub(super) fn not_repeated(&self) -> Option<Mistake> {
        let count = self.times(0)?;
        let (who, label, whom, places) = self.before_times()?;
        let before = self.word_before(places + 1);
        let advice = self.not_so_often(before, [who, &label, whom], count)?;
        Some(self.from_not(places, advice))
    }

    /// The mistake at a sentence of so many words, with the `not` before it and how often after it.
    fn from_not(&self, places: usize, advice: String) -> Mistake {
        let not = matches!(self.word_before(places + 1), Some("not" | "never"));
        let first = self.tokens[self.next - places - usize::from(not)].1;
        let last = usize::from(self.word_ahead(1) == Some("times"));
        let message = "how often it was so cannot be said like this";
        Mistake::new(first.to(self.span_ahead(last)), message).advise(advice)
    }

    /// `share me target`, `denied load twice`, `friend target` and `is friend target`: what comes
    /// first in a sentence is who.
    pub(super) fn label_first(&self) -> Option<Mistake> {
        if self.is_word("is") || self.is_word("are") {
            return self.nobody_is();
        }
        if let Some(mistake) = self.goes_on() {
            return Some(mistake);
        }
        let denied = usize::from(self.is_word("denied"));
        let name = self.word_ahead(denied).filter(|name| self.declared.contains(*name))?;
        let label = if denied == 1 { format!("denied {name}") } else { name.to_string() };
        let person = |place: usize| {
            let word = self.word_ahead(denied + place)?;
            let known = ["me", "target", "here"].contains(&word) || self.in_sight(word);
            known.then_some(word)
        };
        let span = self.span().to(self.span_ahead(denied));
        let mistake = Mistake::new(span, format!("a sentence begins with who, not with `{label}`"));
        if let Some(count) = self.times(denied + 1) {
            let sentence = again(&format!("me {label} target"), count)?;
            return Some(mistake.advise(format!(
                "say who and whom, and that it was so once before: `{sentence}`; with `someone` for `target`, \
                 whoever it was"
            )));
        }
        match (person(1), person(2)) {
            (Some(who), Some(whom)) => {
                Some(mistake.advise(format!("write `{who} {label} {whom}`")))
            }
            (Some(_), None) if matches!(self.last_word(), Some("and" | "or")) => None,
            (Some(whom), None) if self.ends_at(denied + 2) => {
                let who = if whom == "me" { "target" } else { "me" };
                Some(mistake.advise(format!("say who: `{who} {label} {whom}`")))
            }
            (None, None) if denied == 1 && self.ends_at(2) => {
                Some(mistake.advise(format!("say who and whom: `once me {label} target`")))
            }
            _ => None,
        }
    }

    /// `someone owns target and shares me`: the second part does not say who.
    fn goes_on(&self) -> Option<Mistake> {
        let [who, label, whom, joined] = [4, 3, 2, 1].map(|places| self.word_before(places));
        let (who, label, whom) =
            (who?, label.filter(|label| self.declared.contains(*label))?, whom?);
        let joined = joined.filter(|word| ["and", "or"].contains(word))?;
        let (second, done) = self.label_of(self.word_ahead(0)?)?;
        let person = self.word_ahead(1).filter(|word| ["me", "target"].contains(word))?;
        let once = if done { "once " } else { "" };
        let said = match who {
            "someone" => format!("some x {label} {whom}: {once}x {second} {person}"),
            who => format!("{who} {label} {whom} {joined} {once}{who} {second} {person}"),
        };
        let plain = self.declared.contains(self.word_ahead(0)?) && who != "someone";
        if plain || !self.ends_at(2) || who == "someone" && joined == "or" {
            return None;
        }
        let message = format!("`{}` does not say who", self.word_ahead(0)?);
        Some(Mistake::new(self.span(), message).advise(format!("repeat who: `{said}`")))
    }

    /// `is not friend target`, without who.
    fn nobody_is(&self) -> Option<Mistake> {
        let who = match (1..5).find_map(|place| self.word_ahead(place).filter(|word| *word == "me"))
        {
            Some(_) => "target",
            None => "me",
        };
        let said = self.predicate(who, 0).filter(|(_, end)| self.ends_at(*end));
        let words: Vec<&str> = (1..3).filter_map(|place| self.word_ahead(place)).collect();
        let said = said.map_or_else(|| format!("{who} is {}", words.join(" ")), |(said, _)| said);
        let message = "a sentence begins with who, not with `is`";
        Some(Mistake::new(self.span(), message).advise(format!("say who: `{said}`")))
    }

    /// `me in owners` and `me is one of owners`, where nothing is known of such a group.
    pub(super) fn in_group(&self, who: &str) -> Option<Mistake> {
        let place = usize::from(self.is_word("is"));
        let place = place + usize::from(self.word_ahead(place) == Some("not"));
        let noun = match (self.word_ahead(place)?, self.word_ahead(place + 1)) {
            ("in" | "among", _) => place + 1,
            ("one" | "part", Some("of")) => place + 2,
            _ => return None,
        };
        let noun = self.word_ahead(self.past_article(noun)).filter(|noun| !WORDS.contains(noun))?;
        let (one, span) = (singular(noun), self.span().to(self.span_ahead(place)));
        let message = format!("nothing is known of a group `{noun}`");
        Some(Mistake::new(span, message).advise(format!(
            "declare a kind, `members {noun}: ...`, and write `{who} is {one}`; or a relation, `relation {one}`, \
             and write `{who} is {one} of target`"
        )))
    }
}

/// A sentence that was so as many times: now, and once before.
pub(super) fn again(sentence: &str, count: usize) -> Option<String> {
    let one = (2..count)
        .fold(sentence.to_string(), |again, _| format!("({sentence} and previously once {again})"));
    (2..=4).contains(&count).then(|| format!("once ({sentence} and previously once {one})"))
}
