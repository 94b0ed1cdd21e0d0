//! What is said of `only once`, `at most twice` and `nobody twice`: how often an event may happen
//! is told by its past.

use super::repeated::again;
use super::*;

impl Parser {
    /// The event whose policy is read here; none where several share it.
    pub(super) fn own_event(&self) -> Option<&str> {
        let word = |place: usize| match &self.tokens.get(place)?.0 {
            Token::Word(word) => Some(word.as_str()),
            _ => None,
        };
        let begins = |place: &usize| {
            self.begins[*place] && word(*place).is_some_and(|word| STATEMENTS.contains(&word))
        };
        let start = (0..self.next).rev().find(begins)?;
        let said = matches!(self.tokens.get(start + 3)?.0, Token::Quoted(_));
        let after = &self.tokens.get(start + 2 + 2 * usize::from(said))?.0;
        let alone = matches!(word(start), Some("event" | "events")) && *after != Token::Sign(',');
        word(start + 1).filter(|_| alone)
    }

    /// The most that `at most twice`, `only once`, `less than 3 times` or `one time only` allow,
    /// and the place after these words. `once` alone has another meaning.
    fn at_most(&self, place: usize) -> Option<(usize, usize)> {
        let words = [0, 1, 2].map(|after| self.word_ahead(place + after));
        let (less, start) = match words {
            [Some("at"), Some("most"), _] => (0, 2),
            [Some("no" | "not"), Some("more"), Some("than")] => (0, 3),
            [Some("more"), Some("than"), _] if self.last_word() == Some("not") => (0, 2),
            [Some("less" | "fewer"), Some("than"), _] => (1, 2),
            [Some("only" | "just" | "exactly"), ..] => (0, 1),
            _ => (0, 0),
        };
        let (count, end) = self.count_of_times(place + start)?;
        let only = self.word_ahead(end) == Some("only");
        let told = start > 0 || only || self.word_ahead(place) != Some("once");
        let count = (count - less.min(count)).max(1);
        told.then_some((count, end + usize::from(only)))
    }

    /// `once`, `twice`, `one time`, `3 times`, and the place after it.
    fn count_of_times(&self, place: usize) -> Option<(usize, usize)> {
        let word = self.word_ahead(place);
        match (self.ahead(place), self.word_ahead(place + 1)) {
            _ if word == Some("once") => Some((1, place + 1)),
            (Token::Number(1), Some("time")) => Some((1, place + 2)),
            (Token::Word(one), Some("time")) if one == "one" || one == "single" => {
                Some((1, place + 2))
            }
            _ => {
                let end = place + if matches!(word, Some("twice" | "thrice")) { 1 } else { 2 };
                Some((self.times(place)?, end))
            }
        }
    }

    /// What to write for the event that is declared here, between some words.
    fn allowed(&self, [before, after]: [&str; 2], count: usize) -> String {
        let once = match (0..6).any(|place| self.word_ahead(place) == Some("once")) {
            true => "`once` means \"at some time\" here; ",
            false => "",
        };
        let own = self.own_event().map(|event| format!("me {event} target"));
        let Some(said) = own.as_ref().and_then(|sentence| allowing(sentence, count)) else {
            return format!(
                "{once}how often an event may happen is told where it is declared alone"
            );
        };
        let all = own.map(|sentence| sentence.replace(" target", " someone"));
        match (count, all) {
            (1, Some(all)) => format!(
                "{once}to allow it one time only, write `{before}{said}`{after}; one time for all targets together, \
                 `{before}never {all}`"
            ),
            _ => format!("{once}to allow it {count} times only, write `{before}{said}`{after}"),
        }
    }

    /// `event load only once`, `event load once by anyone`, after the name.
    pub(super) fn policy_of_times(&self) -> Option<String> {
        let bare = self.is_word("once") && (self.ends_at(1) || self.word_ahead(1) == Some("by"));
        let (count, end) = if bare { (1, 1) } else { self.at_most(0)? };
        let ends = self.ends_at(end) || matches!(self.word_ahead(end), Some("by" | "when"));
        ends.then(|| self.allowed(["when ", ""], count))
    }

    /// `when only once`, `when at most twice`, `when not twice`, where a sentence begins.
    pub(super) fn sentence_of_times(&self) -> Option<Mistake> {
        let (count, end) = self.at_most(0).filter(|(_, end)| self.ends_at(*end))?;
        // `not twice` allows one time less.
        let twice = self.times(0).is_some() && matches!(self.last_word(), Some("not" | "never"));
        let count = if twice { count.saturating_sub(1).max(1) } else { count };
        let not = matches!(self.last_word(), Some("not" | "never"));
        Some(self.of_times(end, usize::from(not), self.allowed(["", ""], count)))
    }

    /// `me load target only once`, at the `only`.
    pub(super) fn times_after(&self) -> Option<Mistake> {
        let bare = self.is_word("once") && self.ends_at(1);
        let (count, end) = if bare { (1, 1) } else { self.at_most(0)? };
        if self.times(0).is_some() || !self.ends_at(end) {
            return None;
        }
        let [who, done, whom] = [3, 2, 1].map(|places| self.word_before(places));
        let label = done
            .and_then(|done| self.label_of(done))
            .filter(|(label, _)| self.events.contains(label));
        let advice = match (label, who, whom) {
            (Some((label, _)), Some(who), Some(whom)) => {
                let (sentence, own) =
                    (format!("{who} {label} {whom}"), self.own_event() == Some(&label));
                let said = if own {
                    allowing(&sentence, count)?
                } else {
                    format!("not {}", again(&sentence, count + 1)?)
                };
                let once = if bare {
                    format!("for \"at some time\" write `once {sentence}`; ")
                } else {
                    String::new()
                };
                let times = if count == 1 { "one time" } else { "so many times" };
                format!("{once}for {times} at the most, write `{said}`")
            }
            _ if bare => return None,
            (None, _, Some("anyone")) => {
                self.allowed(["when ", " in the place of `by anyone`"], count)
            }
            _ => self.allowed(["and ", ""], count),
        };
        Some(self.of_times(end, 0, advice))
    }

    /// `nobody may load twice`, `me may load target only once`: who, and the place of the `may`.
    pub(super) fn may_of_times(&self, who: &str, place: usize) -> Option<Mistake> {
        let may = ["may", "can", "must", "should"].contains(&self.word_ahead(place)?);
        let word = self.word_ahead(place + 1).filter(|_| may)?;
        let not = ["not", "never"].contains(&word);
        let verb = place + 1 + usize::from(not || word == "only");
        let (label, _) = self.label_of(self.word_ahead(verb)?)?;
        let whom = matches!(self.word_ahead(verb + 1), Some("me" | "target" | "it" | "someone"));
        let often = verb + 1 + usize::from(whom);
        let (count, end) = self.at_most(often).or_else(|| self.count_of_times(often))?;
        let contrary = self.times(often).is_some() && (not || who == "nobody");
        let count = if contrary { count.saturating_sub(1).max(1) } else { count };
        let own = self.own_event() == Some(&label) && self.ends_at(end);
        own.then(|| self.of_times(end, 1 - place.min(1), self.allowed(["", ""], count)))
    }

    /// What to write for `not me load target twice` or `nobody load target twice`: who stands
    /// where the sentence begins.
    pub(super) fn not_so_often(
        &self,
        before: Option<&str>,
        sentence: [&str; 3],
        count: usize,
    ) -> Option<String> {
        let [who, label, whom] = sentence;
        if !matches!(before, Some("not" | "never")) && who != "nobody" {
            return None;
        }
        if self.own_event() == Some(label) {
            return Some(self.allowed(["", ""], count.saturating_sub(1).max(1)));
        }
        if who == "nobody" {
            return Some("say it of somebody who is named, such as `me`".to_string());
        }
        let said = again(&format!("{who} {label} {whom}"), count)?;
        Some(format!("say that it was not so, and once before: `not {said}`"))
    }

    /// The mistake at the words up to a place, and so many before.
    fn of_times(&self, end: usize, before: usize, advice: String) -> Mistake {
        let first = self.tokens[self.next - before].1;
        let who = (1..=before).rev().filter_map(|places| self.word_before(places));
        let words = who.map(str::to_string).chain((0..end).map(|place| self.shown(place)));
        let words: Vec<String> = words.collect();
        let message = format!("`{}` has no meaning here", words.join(" "));
        Mistake::new(first.to(self.span_ahead(end - 1)), message).advise(advice)
    }
}

/// How to allow an event so many times: the sentence is about what has happened so far.
fn allowing(sentence: &str, count: usize) -> Option<String> {
    match count {
        1 => Some(format!("never {sentence}")),
        count => Some(format!("not {}", again(sentence, count)?)),
    }
}
