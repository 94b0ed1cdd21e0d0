//! Sentences as English has them, `one of my friends owns target`, and how they are written here.

use super::english::NUMBERS;
use super::phrase::Phrase;
use super::*;
use crate::source::kinds::singular;

/// Words that say how many of some people, and how that is written.
const QUANTITIES: [(&str, &str); 8] = [
    ("any", "some"),
    ("some", "some"),
    ("one", "some"),
    ("all", "every"),
    ("each", "every"),
    ("every", "every"),
    ("none", "not some"),
    ("no", "not some"),
];

impl Parser {
    /// A sentence about people that English names and this language seeks: `my friend owns
    /// target`, `one of the owners share me`, `I am a friend of the owner`.
    pub(super) fn in_english(&self) -> Option<Mistake> {
        let (quantity, after) = self.quantity_ahead().unwrap_or(("some".to_string(), 0));
        if let Some(mistake) = self.several_do(&quantity, after) {
            return Some(mistake);
        }
        let word = self.english_or_own(0);
        let of = after > 0 && self.word_ahead(after) == Some("of");
        let place = after + usize::from(of);
        // `some my owns target` gives somebody the name `my`.
        let naming = after > 0
            && self.word_ahead(place + 1).is_some_and(|word| self.declared.contains(word))
            && (*self.ahead(place + 3) == Token::Sign(':') || self.ends_at(place + 3));
        let mine = matches!(self.english_or_own(place), Some("my" | "its"))
            && self.name_ahead(place + 1)
            && (of || !naming);
        if let Some(mistake) = self.there_is().or_else(|| self.of_whom()) {
            return Some(mistake);
        }
        let am = matches!(word, Some("I" | "i" | "me")) && self.word_ahead(1) == Some("am");
        let who = word == Some("someone") && matches!(self.word_ahead(1), Some("who" | "that"));
        let the = after == 0 && word == Some("the");
        let sought = after > 0 && self.word_ahead(after + 1) == Some("of");
        if !(of || mine || am || who || the || sought) {
            return None;
        }
        let told = self.told_at(place, &quantity);
        let marked = match (am || who, mine, of) {
            (true, ..) => 1,
            (_, true, _) => place,
            (_, false, true) => after,
            (_, false, false) => after.saturating_sub(1),
        };
        let words: Vec<String> = (0..=marked).map(|place| self.shown(place)).collect();
        let message = match word {
            Some("some" | "every" | "at") if !of && !mine => {
                "a name and a `:` are missing before what holds of them".to_string()
            }
            _ => format!("`{}` has no meaning here", words.join(" ")),
        };
        let mistake = Mistake::new(self.span().to(self.span_ahead(marked)), message);
        match (told, self.phrase(place, &quantity)) {
            (Some((told, end)), _) if self.ends_at(end) => {
                Some(mistake.advise(format!("write `{}`", self.parted(told, end))))
            }
            _ if am => {
                let said = (2..20).take_while(|place| !self.ends_at(*place));
                let said = said.filter(|place| self.past_article(*place) == *place);
                let said: Vec<String> = said.map(|place| self.shown(place)).collect();
                Some(mistake.advise(format!("write `me is {}`", said.join(" "))))
            }
            (_, Some(Phrase { seek, .. })) if (of || mine || who) && !seek.is_empty() => {
                Some(mistake.advise(format!("look for them: `{seek}...`")))
            }
            _ if of || mine => Some(mistake.advise(self.unrelated(place, &quantity))),
            _ => None,
        }
    }

    /// A word or number some places ahead.
    pub(super) fn shown(&self, place: usize) -> String {
        match self.ahead(place) {
            Token::Word(word) => word.clone(),
            Token::Number(number) => number.to_string(),
            _ => String::new(),
        }
    }

    /// What to say of `my presets` and `of the loops`, where no relation is called so.
    fn unrelated(&self, place: usize, quantity: &str) -> String {
        let place = self.past_article(place);
        let mine = matches!(self.word_ahead(place), Some("my" | "its"));
        let whose = if self.word_ahead(place) == Some("its") { "target" } else { "me" };
        let noun = self.word_ahead(place + usize::from(mine)).unwrap_or("friends");
        let one = singular(noun);
        match self.kind(noun) {
            Some(kind) if mine => format!(
                "say what relates them: `{whose} owns {quantity} x: x is {kind} and ...`, with a relation `owns`"
            ),
            Some(kind) => format!("write `{quantity} x such that x is {kind}: ...`"),
            None => format!(
                "declare what relates them, `relation {one}`, and write `{quantity} {one} of {whose} as x: ...`"
            ),
        }
    }

    /// `there is a friend of me`.
    fn there_is(&self) -> Option<Mistake> {
        let there = self.is_word("there") && matches!(self.word_ahead(1), Some("is" | "are"));
        let not = self.word_ahead(2).filter(|word| there && ["no", "not"].contains(word));
        let start = if there { 2 + usize::from(not.is_some()) } else { return None };
        let Phrase { seek, end, .. } = self.phrase(start, "some")?;
        let sought = seek.strip_suffix(": ").filter(|_| self.ends_at(end))?;
        let sought = sought.split_once(" as ").map_or(sought, |(sought, _)| sought);
        let not = if not.is_some() { "not " } else { "" };
        let message = "`there is` has no meaning here";
        let span = self.span().to(self.span_ahead(1));
        Some(Mistake::new(span, message).advise(format!("write `{not}{sought}`")))
    }

    /// `their friend owns target`, where it is not clear whose.
    fn of_whom(&self) -> Option<Mistake> {
        let word = self.english_or_own(0).filter(|_| self.name_ahead(1) && !self.ends_at(2))?;
        let noun = self.word_ahead(1)?;
        let does = |word: &str| word == "is" || self.label_of(word).is_some();
        let known = self.role(noun).is_some() && self.word_ahead(2).is_some_and(does);
        match word {
            "their" | "his" | "her" | "your" | "our" | "whose" => {}
            "a" | "an" | "the" if known && !self.in_sight(noun) => {}
            _ => return None,
        }
        let seek = |whose: &str| Some(self.related(noun, whose, "some", 2)?.seek);
        let (mine, its) = (seek("me"), seek("target"));
        let (Some(mine), Some(its)) = (mine, its) else { return None };
        let advice = match self.agent(noun) {
            Some(_) => format!("look for them: `{its}...`"),
            None => format!("say whose: `{mine}...` or `{its}...`"),
        };
        Some(Mistake::new(self.span(), format!("`{word}` has no meaning here")).advise(advice))
    }

    /// The quantity that comes next in English or in this language, and the place after it.
    fn quantity_ahead(&self) -> Option<(String, usize)> {
        let number = |count: usize| format!("at least {count}");
        if (self.word_ahead(0), self.word_ahead(1)) == (Some("at"), Some("least")) {
            let spelled = |word: &str| NUMBERS.iter().position(|known| *known == word);
            return match self.ahead(2) {
                Token::Number(count) => Some((number(*count), 3)),
                Token::Word(word) => spelled(word).map(|at| (number(at + 1), 3)),
                _ => None,
            };
        }
        if let Token::Number(count) = self.token() {
            return Some((number(*count), 1));
        }
        let word = self.english_or_own(0)?;
        let known = QUANTITIES.iter().find(|(tried, _)| *tried == word);
        let known = known.map(|(_, meant)| meant.to_string());
        let counted = || NUMBERS.iter().position(|known| *known == word).map(|at| number(at + 1));
        known.or_else(counted).map(|quantity| (quantity, 1))
    }

    /// A word that no relation, event, definition and nobody in sight is called by.
    fn english_or_own(&self, place: usize) -> Option<&str> {
        let taken = |word: &str| {
            self.declared.contains(word) || self.defined.contains(word) || self.in_sight(word)
        };
        self.word_ahead(place).filter(|word| !taken(word))
    }

    /// A whole sentence some places ahead as it is written here, and the place after it.
    fn told_at(&self, place: usize, quantity: &str) -> Option<(String, usize)> {
        let subject = self.phrase(place, quantity)?;
        let (told, end) = self.predicate(&subject.who, subject.end)?;
        Some((format!("{}{told}", subject.seek), end))
    }

    /// A sentence in parentheses, if more follows and would be read as part of it.
    pub(super) fn parted(&self, told: String, end: usize) -> String {
        let more = matches!(self.word_ahead(end), Some("and" | "or" | "since"));
        if more && told.contains(':') {
            format!("({told})")
        } else {
            told
        }
    }

    /// Whether a sentence can end some places ahead.
    pub(super) fn ends_at(&self, place: usize) -> bool {
        match self.ahead(place) {
            Token::End | Token::Sign(')') => true,
            Token::Word(word) => {
                let next = (self.next + place).min(self.begins.len() - 1);
                ["and", "or", "since", "then"].contains(&word.as_str()) || self.begins[next]
            }
            _ => false,
        }
    }
}
