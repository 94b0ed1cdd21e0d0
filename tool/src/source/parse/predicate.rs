//! What English says of somebody, `is a friend of the owner` or `has shared with me`, and how it
//! is written here.

use super::phrase::Phrase;
use super::*;

impl Parser {
    /// What is said of somebody some places ahead, as it is written here.
    pub(super) fn predicate(&self, who: &str, place: usize) -> Option<(String, usize)> {
        let mut place = place;
        let past = matches!(self.word_ahead(place), Some("has" | "have" | "had" | "did"));
        place += usize::from(past || matches!(self.word_ahead(place), Some("does" | "do")));
        let negative = matches!(self.word_ahead(place), Some("not" | "never"));
        let past = past || self.word_ahead(place) == Some("never");
        place += usize::from(negative);
        if matches!(self.word_ahead(place), Some("is" | "are" | "am")) && !negative && !past {
            return self.state(who, place + 1);
        }
        if matches!(self.word_ahead(place), Some("in" | "among")) && !past {
            return self.state(who, place);
        }
        let (label, done) = self.label_of(self.word_ahead(place)?)?;
        let with = matches!(self.word_ahead(place + 1), Some("with" | "to" | "from"));
        let place = place + 1 + usize::from(with);
        let whom = match self.word_ahead(place) {
            Some(word @ ("someone" | "nobody")) if !self.is_who(place + 1) => {
                Phrase { seek: String::new(), who: word.to_string(), end: place + 1 }
            }
            _ => self.phrase(place, "some")?,
        };
        let before = match (negative, past || done) {
            (false, false) => "",
            (false, true) => "once ",
            (true, false) => "not ",
            (true, true) => "never ",
        };
        Some((format!("{}{before}{who} {label} {}", whom.seek, whom.who), whom.end))
    }

    /// `me is a friend of the owner`, `me is one of the players`, `me in owners`, after who.
    pub(super) fn state_in_english(&self, who: &str) -> Option<Mistake> {
        let (told, end) = self.predicate(who, 0)?;
        let plain = |place: &usize| self.past_article(*place) == *place;
        let words = (0..end).filter(plain).filter_map(|place| self.word_ahead(place));
        let written = format!("{who} {}", words.collect::<Vec<_>>().join(" "));
        if !self.ends_at(end) || written == told {
            return None;
        }
        let also = match self.is_word("is") && end == 2 {
            true => format!(", or `{}` if any will do", told.replace("target", "someone")),
            false => self.other_way(who, end).unwrap_or_default(),
        };
        let span = self.span().to(self.span_ahead(end - 1));
        let words: Vec<&str> = (0..end).filter_map(|place| self.word_ahead(place)).collect();
        let message = format!("`{}` has no meaning here", words.join(" "));
        Some(
            Mistake::new(span, message).advise(format!("write `{}`{also}", self.parted(told, end))),
        )
    }

    /// The other way to read `me is friend target`, after who.
    fn other_way(&self, who: &str, end: usize) -> Option<String> {
        let not = if self.word_ahead(1) == Some("not") { "not " } else { "" };
        let relation = self.role(self.word_ahead(end.checked_sub(2)?)?)?;
        let whom = self.word_ahead(end - 1).filter(|_| end == 3 + not.len() / 4)?;
        Some(format!("; the other way round, `{not}{who} {relation} {whom}`"))
    }

    /// `me friend the owner`, `me share my friend`: after who and what.
    pub(super) fn object_in_english(&self, who: &str, label: &str) -> Option<Mistake> {
        let first = self.word_ahead(0).filter(|_| self.declared.contains(label))?;
        if let Some(kind) = self
            .kind(self.word_ahead(1).unwrap_or(""))
            .filter(|_| self.past_article(0) == 1 || first == "any")
        {
            let advice = format!(
                "write `{who} {label} some x: x is {kind}`; if the target is meant, `{who} {label} target`"
            );
            let mistake = Mistake::new(self.span(), format!("`{first}` has no meaning here"));
            return Some(mistake.advise(advice));
        }
        let Phrase { seek, who: whom, end } = self.phrase(0, "some")?;
        let english = self.past_article(0) == 1 || ["my", "its", "someone"].contains(&first);
        if seek.is_empty() || !english || !self.ends_at(end) {
            return None;
        }
        let told = self.parted(format!("{seek}{who} {label} {whom}"), end);
        let mistake = Mistake::new(self.span(), format!("`{first}` has no meaning here"));
        Some(mistake.advise(format!("write `{told}`")))
    }

    /// `target belongs to me`, after who.
    pub(super) fn belonging(&self, what: &str) -> Option<Mistake> {
        let belongs = self.is_word("belongs") && self.word_ahead(1) == Some("to");
        let Phrase { seek, who, end } = self.phrase(2, "some").filter(|_| belongs)?;
        let (one, more) = match self.declared.contains("owns") {
            true => ("write", ""),
            false => ("declare", " `relation owns`, and write"),
        };
        let told = self.parted(format!("{seek}{who} owns {what}"), end);
        let mistake =
            Mistake::new(self.span().to(self.span_ahead(1)), "`belongs to` has no meaning here");
        Some(mistake.advise(format!("{one}{more} `{told}`")))
    }

    /// What somebody is, after `is`: `a friend of the owner`, `one of the players`, `the owner`.
    fn state(&self, who: &str, place: usize) -> Option<(String, usize)> {
        let negative = self.word_ahead(place) == Some("not");
        let place = place + usize::from(negative);
        let not = if negative { "not " } else { "" };
        let among = match (self.word_ahead(place), self.word_ahead(place + 1)) {
            (Some("one" | "any" | "part" | "some"), Some("of")) => 2,
            (Some("in" | "among"), _) => 1,
            _ => 0,
        };
        let place = self.past_article(place + among);
        let own = matches!(self.word_ahead(place), Some("my" | "its"));
        let noun = self.word_ahead(place + usize::from(own))?;
        let whose = match self.word_ahead(place) {
            Some("my") => Phrase { seek: String::new(), who: "me".to_string(), end: place + 2 },
            Some("its") => {
                Phrase { seek: String::new(), who: "target".to_string(), end: place + 2 }
            }
            _ if matches!(self.word_ahead(place + 1), Some("of" | "with")) => {
                self.phrase(place + 2, "some")?
            }
            _ if self.role(noun).is_some()
                && matches!(self.word_ahead(place + 1), Some("me" | "target")) =>
            {
                self.phrase(place + 1, "some")?
            }
            _ => {
                let end = place + 1;
                if let Some(kind) = self.kind(noun).filter(|_| among > 0) {
                    return Some((format!("{who} is {not}{kind}"), end));
                }
                if self.in_sight(noun)
                    || self.declared.contains(noun)
                    || self.defined.contains(noun)
                {
                    return Some((format!("{who} is {not}{noun}"), end)).filter(|_| among == 0);
                }
                let whose = if who == "target" { "me" } else { "target" };
                Phrase { seek: String::new(), who: whose.to_string(), end }
            }
        };
        let said = match (self.role(noun), self.agent(noun)) {
            (Some(relation), _) => format!("{who} is {not}{relation} of {}", whose.who),
            (None, Some(relation)) => format!("{not}{who} {relation} {}", whose.who),
            (None, None) => return None,
        };
        Some((format!("{}{said}", whose.seek), whose.end))
    }

    fn is_who(&self, place: usize) -> bool {
        matches!(self.word_ahead(place), Some("who" | "that"))
    }
}
