//! What is said of English words that have no meaning here: articles, quantifiers, auxiliaries,
//! and `not` where English has it.

use super::*;
use crate::source::kinds::singulars;

/// Words that one may try for `some` and `every`, and what is written here.
const QUANTIFIERS: [(&str, &str); 5] =
    [("any", "some"), ("exists", "some"), ("all", "every"), ("each", "every"), ("forall", "every")];

/// Numbers in words, from 1.
pub(super) const NUMBERS: [&str; 10] =
    ["one", "two", "three", "four", "five", "six", "seven", "eight", "nine", "ten"];

/// Words that are put before an event in English, and not here.
const AUXILIARIES: [&str; 12] =
    ["has", "have", "had", "was", "were", "did", "does", "do", "can", "may", "must", "will"];

/// Words that are put before a noun in English, and not here.
const ARTICLES: [&str; 3] = ["the", "a", "an"];

/// Contractions, written without their apostrophe.
const CONTRACTIONS: [&str; 8] =
    ["isnt", "arent", "wasnt", "hasnt", "havent", "doesnt", "didnt", "dont"];

impl Parser {
    /// `me owns the preset`, `me is a friend of target` or `me owns the target`, after the
    /// article.
    pub(super) fn article_before(&self) -> Option<Mistake> {
        let word = self.word_before(1).filter(|word| ARTICLES.contains(word))?;
        if let Some(whom @ ("me" | "target" | "here")) = self.word_ahead(0) {
            let mistake = Mistake::new(self.last(), format!("`{word}` has no meaning here"));
            return Some(mistake.advise(format!("leave out `{word}`: `{whom}` stands alone")));
        }
        let noun = self.word_ahead(0).filter(|_| self.name_ahead(0))?;
        if self.in_sight(noun) {
            let mistake = Mistake::new(self.last(), format!("`{word}` has no meaning here"));
            return Some(mistake.advise(format!("leave out `{word}`: `{noun}` stands alone")));
        }
        let being = match (self.word_before(4), self.word_before(3), self.word_before(2)) {
            (_, Some(who), Some("is")) => Some(format!("{who} is")),
            (Some(who), Some("is"), Some("not")) => Some(format!("{who} is not")),
            _ => None,
        };
        let whose = self.word_ahead(2).filter(|_| self.word_ahead(1) == Some("of"));
        let advice = match (being, whose.filter(|whose| !ARTICLES.contains(whose))) {
            (Some(being), Some(whose)) => format!("`{being} {noun} of {whose}`"),
            (Some(being), None) => format!("`{being} {noun}`"),
            (None, _) => "the one who asks is `me`, the other is `target`".to_string(),
        };
        let message = format!("`{word}` has no meaning here");
        Some(Mistake::new(self.last(), message).advise(format!("leave out `{word}`: {advice}")))
    }

    /// `the player owns target`, where nobody can be called `the player`.
    pub(super) fn article(&self) -> Option<Mistake> {
        let noun = self.word_ahead(1).filter(|_| self.is_word("the") && self.name_ahead(1))?;
        let verb = self.word_ahead(2)?;
        let declared = |word: &str| self.declared.contains(word);
        let told = ["is", "of", "denied"].contains(&verb) || declared(verb) && !declared(noun);
        told.then(|| {
            let advice = match (verb, self.word_ahead(3)) {
                ("of", Some(whose)) if !ENGLISH.contains(&whose) => {
                    format!("look for them: `some {noun} owns {whose}: ...`")
                }
                _ => "leave out `the`: the one who asks is `me`, the other is `target`".to_string(),
            };
            Mistake::new(self.span(), "`the` has no meaning here").advise(advice)
        })
    }

    /// The next word, if it is no name of a relation, an event or a definition.
    pub(super) fn english(&self) -> Option<&str> {
        let known = |word: &&str| self.declared.contains(*word) || self.defined.contains(*word);
        self.word_ahead(0).filter(|word| !known(word))
    }

    /// `any owner owns target`, where `some` or `every` is meant; `no friend of me`, `two
    /// friends of me`.
    pub(super) fn other_quantifier(&self) -> Option<Mistake> {
        let word = self.english()?;
        if !self.name_ahead(1) || !(self.name_ahead(2) || self.word_ahead(2) == Some("of")) {
            return None;
        }
        let counted = || self.counted(1).unwrap_or_else(|| "...".to_string());
        let number = NUMBERS.iter().position(|known| *known == word);
        let advice = match (QUANTIFIERS.iter().find(|(tried, _)| *tried == word), number) {
            (Some((_, meant)), _) => {
                format!("write `{meant}`; `some` asks for one, `every` for all of them")
            }
            (None, Some(place)) => format!("write `at least {} {}`", place + 1, counted()),
            (None, None) if word == "no" && self.word_ahead(1) == Some("one") => {
                "write `nobody`".to_string()
            }
            (None, None) if word == "no" => format!("write `not some {}`", counted()),
            _ => return None,
        };
        let message = format!("`{word}` has no meaning here");
        Some(Mistake::new(self.span(), message).advise(advice))
    }

    /// `friends of me` some places ahead, with the relation as it is declared.
    pub(super) fn counted(&self, places: usize) -> Option<String> {
        let noun = self.word_ahead(places).filter(|_| self.name_ahead(places))?;
        let (then, whom) = (self.word_ahead(places + 1)?, self.word_ahead(places + 2)?);
        let told = then == "of" || self.declared.contains(then);
        let called = match (self.word_ahead(places + 3), self.word_ahead(places + 4)) {
            (Some("as"), Some(name)) => format!(" as {name}"),
            _ => String::new(),
        };
        told.then(|| format!("{} {then} {whom}{called}", self.declared_one(noun)))
    }

    /// A noun in the form in which it is declared.
    fn declared_one(&self, noun: &str) -> String {
        let forms = std::iter::once(noun.to_string()).chain(singulars(noun));
        let declared = forms.into_iter().find(|form| self.declared.contains(form));
        declared.unwrap_or_else(|| noun.to_string())
    }

    /// `owner of target share me`, where somebody has to be looked for.
    pub(super) fn owner_of(&self) -> Option<Mistake> {
        let (noun, whose) = (self.word_ahead(0)?, self.word_ahead(2)?);
        if self.word_ahead(1) != Some("of") {
            return None;
        }
        let advice = match self.declared.contains(noun) {
            true => format!("look for them: `some {noun} of {whose} as x: ...`"),
            false => format!("look for them: `some {noun} owns {whose}: ...`"),
        };
        let span = self.span().to(self.span_ahead(2));
        Some(Mistake::new(span, format!("`{noun} of {whose}` names nobody")).advise(advice))
    }

    /// Where a relation or an event is due after somebody: an auxiliary, or `not`.
    pub(super) fn english_verb(&self) -> Option<Mistake> {
        let english = self.auxiliary().or_else(|| self.misplaced_not());
        english
            .or_else(|| self.contraction())
            .or_else(|| self.both_are())
            .or_else(|| self.belonging(self.last_word().unwrap_or("target")))
            .or_else(|| self.past_inside())
    }

    /// `owner has shared with me`, where the event's own name is meant.
    fn auxiliary(&self) -> Option<Mistake> {
        let word = self.english()?;
        if let Some(mistake) = self.may_of_times(self.last_word()?, 0) {
            return Some(mistake);
        }
        if let Some(advice) = self.having() {
            let message = format!("`{word}` has no meaning here");
            return Some(Mistake::new(self.span(), message).advise(advice));
        }
        if let Some(told) = self.denial().or_else(|| self.done()) {
            let message = format!("`{word}` has no meaning here");
            return Some(Mistake::new(self.span(), message).advise(format!("write `{told}`")));
        }
        let named = self.name_ahead(1) || self.word_ahead(1) == Some("not");
        (AUXILIARIES.contains(&word) && named).then(|| {
            let message = format!("`{word}` has no meaning here");
            let advice =
                "name the event as it is declared, `owner share me`; put `once` before it for \
                          \"at some time\", `not` for the contrary";
            Mistake::new(self.span(), message).advise(advice)
        })
    }

    /// `me was denied load`, in the order of this language.
    fn denial(&self) -> Option<String> {
        let subject = self.last_word().filter(|_| self.word_ahead(1) == Some("denied"))?;
        let event = self.word_ahead(2).filter(|event| self.events.contains(*event))?;
        let whom = self.word_ahead(3).filter(|_| !self.ends_at(3)).unwrap_or("target");
        let known = ["me", "target", "here", "someone"].contains(&whom) || self.in_sight(whom);
        let asked = AUXILIARIES.contains(&self.word_ahead(0)?) && known;
        asked.then(|| format!("once {subject} denied {event} {whom}"))
    }

    /// `owner has shared with me`, in words of this language.
    fn done(&self) -> Option<String> {
        let subject =
            self.last_word().filter(|who| ["me", "target"].contains(who) || self.in_sight(who))?;
        let has = matches!(self.word_ahead(0), Some("has" | "have" | "had" | "did" | "does"));
        let (told, end) = self.predicate(subject, 0).filter(|_| has)?;
        self.ends_at(end).then_some(told)
    }

    /// `me has at least 2 friends`, where they are counted along a relation.
    fn having(&self) -> Option<String> {
        let subject = self.last_word().filter(|_| self.is_word("has") || self.is_word("have"))?;
        let number = |word: &str| NUMBERS.iter().position(|known| *known == word);
        let (quantity, noun) = match (self.ahead(1), self.ahead(2), self.ahead(3)) {
            (Token::Word(at), Token::Word(least), Token::Number(count))
                if at == "at" && least == "least" =>
            {
                (format!("at least {count}"), 4)
            }
            (Token::Number(count), ..) => (format!("at least {count}"), 2),
            (Token::Word(word), ..) => match word.as_str() {
                "some" | "every" => (word.clone(), 2),
                "no" => ("not some".to_string(), 2),
                word => (format!("at least {}", number(word)? + 1), 2),
            },
            _ => return None,
        };
        let noun = self.declared_one(self.word_ahead(noun).filter(|_| self.name_ahead(noun))?);
        Some(format!("write `{quantity} {noun} of {subject}`"))
    }

    /// `target not is preset`, `me not owns target`.
    fn misplaced_not(&self) -> Option<Mistake> {
        let subject = self.last_word().filter(|_| self.is_word("not"))?;
        let advice = match (self.word_ahead(1), self.word_ahead(2)) {
            (Some("is"), Some(what)) => format!("write `{subject} is not {what}`"),
            (Some(verb), Some(whom)) => self
                .not_done(subject)
                .unwrap_or_else(|| format!("write `not {subject} {verb} {whom}`")),
            _ => "write `not me owns target`, or `target is not preset`".to_string(),
        };
        let message = "`not` goes before a sentence, or after `is`";
        let before = matches!(self.word_ahead(3), Some("before" | "yet" | "already" | "ever"));
        let last = self.span_ahead(if before { 3 } else { 0 });
        let first = if before { self.last() } else { self.span() };
        Some(Mistake::new(first.to(last), message).advise(advice))
    }

    /// `target isnt preset`.
    fn contraction(&self) -> Option<Mistake> {
        let word = self.english()?;
        let subject = self.last_word().filter(|_| CONTRACTIONS.contains(&word))?;
        let advice = match (word, self.word_ahead(1)) {
            ("isnt" | "arent", Some(what)) => format!("write `{subject} is not {what}`"),
            _ => "put `not` before the sentence: `not me owns target`".to_string(),
        };
        Some(Mistake::new(self.span(), format!("`{word}` has no meaning here")).advise(advice))
    }

    /// `target is no preset`, after `is`.
    pub(super) fn no_such(&self, subject: &str) -> Option<Mistake> {
        let what = self.word_ahead(1).filter(|_| self.is_word("no") && self.name_ahead(1))?;
        let advice = format!("write `{subject} is not {what}`");
        Some(Mistake::new(self.span(), "`no` has no meaning here").advise(advice))
    }
}
