//! What is said where something stands that can't, and how reading goes on.

use super::english::NUMBERS;
use super::*;
use crate::names::nearest;

impl Parser {
    /// Whether a statement begins here, or the source ends.
    pub(super) fn at_statement(&self) -> bool {
        match self.token() {
            Token::End => true,
            Token::Word(word) if word == "keep" => {
                self.word_ahead(1) == Some("denied") || self.begins[self.next]
            }
            Token::Word(word) => STATEMENTS.contains(&word.as_str()),
            _ => false,
        }
    }

    /// Goes to the next line that begins with a statement, after a token.
    pub(super) fn pass_over(&mut self, first: usize) {
        (self.depth, self.bare) = (0, None);
        self.next = self.next.max(first + 1);
        let begins = |parser: &Parser| {
            *parser.token() == Token::End || parser.begins[parser.next] && parser.at_statement()
        };
        while !begins(self) {
            self.next += 1;
        }
    }

    /// After a list of names no other name may come.
    pub(super) fn list_ends(&self) -> Result<(), Mistake> {
        if self.is_word("and") && self.name_ahead(1) {
            let advice = "put a `,` in the place of `and`";
            return Err(self.expected("`,` or the next statement", &[]).advise(advice));
        }
        if let (Some(kind), true) = (self.word_ahead(0), self.kind_in_line()) {
            let mistake = self.expected("the next statement", &STATEMENTS);
            return Err(mistake.advise(format!(
                "things are members too, of a kind: `members people: ...; {kind}: ...`"
            )));
        }
        match self.name_ahead(0) {
            false => Ok(()),
            true => Err(self.expected("`,` or the next statement", &STATEMENTS).advise(
                "put a `,` between two names; a name of two words is joined by `-`: warm-pad",
            )),
        }
    }

    /// `presets saw, pad` in a line of its own: a list of members after its kind.
    fn kind_in_line(&self) -> bool {
        let plural = self.word_ahead(0).is_some_and(|word| word.ends_with('s'));
        let begins = |places: usize| self.begins.get(self.next + places) == Some(&true);
        let listed = matches!(self.ahead(2), Token::Sign(',') | Token::End) || begins(2);
        plural && self.name_ahead(0) && self.name_ahead(1) && begins(0) && !begins(1) && listed
    }

    /// What is said of a line that begins as no statement does.
    fn no_statement(&self) -> Option<Mistake> {
        let word = self.word_ahead(0).filter(|_| self.begins[self.next] && self.name_ahead(0))?;
        let mistake = self.expected("the next statement", &STATEMENTS);
        let declared = |word: &str| word == "is" || self.declared.contains(word);
        match (self.ahead(1), self.ahead(2)) {
            (Token::Sign(':'), _) => {
                Some(mistake.advise(format!("a kind of members is declared so: `members {word}: ...`")))
            }
            _ if self.request().is_some() => self.request().map(|advice| mistake.advise(advice)),
            (Token::Word(verb), Token::Word(whom)) if declared(verb) => {
                let what = "what is there from the start begins with `first`";
                Some(mistake.advise(format!("{what}: `first {word} {verb} {whom}`")))
            }
            _ if self.statement_elsewhere().is_some() => {
                self.statement_elsewhere().map(|advice| mistake.advise(advice))
            }
            _ if nearest(word, STATEMENTS).is_some() => None,
            _ => Some(mistake.advise(
                "a statement begins with `members`, `relation`, `event`, `keep denied`, `define` or `first`",
            )),
        }
    }

    /// `share dora pete` or `dora share pete` in a line of its own.
    pub(super) fn request(&self) -> Option<String> {
        let [one, two, three] = [0, 1, 2].map(|place| self.word_ahead(place));
        let is_event = |word: &&str| self.events.contains(*word);
        let first = one.filter(is_event).filter(|_| two.is_some() && three.is_some());
        let event = first.or_else(|| two.filter(is_event).filter(|_| three.is_some()))?;
        let people = [one, two, three].into_iter().flatten().filter(|word| *word != event);
        let people: Vec<&str> = people.collect();
        if people.iter().any(|word| ["me", "target"].contains(word)) {
            return Some(format!(
                "who may do it is said where it is declared, `event {event} when ...`; to speak of it, write \
                 `once {}` after a `when`",
                match people[..] {
                    [who, whom] => format!("{who} {event} {whom}"),
                    _ => format!("me {event} target"),
                }
            ));
        }
        let (one, two, three) = (one?, two?, three?);
        Some(format!("a request goes into requests.say, or after `given` in tests.say: `{one} {two} {three}`"))
    }

    /// What is said of a token that can't follow a formula.
    pub(super) fn stray(&self, also: &[&str]) -> Mistake {
        let before = self.article_before().or_else(|| self.adverb_before());
        if let Some(mistake) = before.or_else(|| self.preposition_before()) {
            return mistake;
        }
        let often = self.not_repeated().or_else(|| self.times_after());
        if let Some(mistake) = often.or_else(|| self.joining()) {
            return mistake;
        }
        // A name that stands alone is who the sentence is about.
        let alone = self.word_before(2).is_none_or(|word| WORDS.contains(&word));
        let verb = self.word_ahead(1).is_some_and(|word| self.declared.contains(word));
        if let Some(mistake) = self.past_inside().filter(|_| alone && verb) {
            return mistake;
        }
        let is_sign = matches!(self.token(), Token::Sign(sign) if *sign != ',');
        let joined = matches!(self.word_ahead(1), Some("and" | "or" | "since"));
        if self.bare == Some(self.next) && self.is_sign(',') && !joined {
            let message = "a `,` where a `:` goes";
            return Mistake::new(self.span(), message).advise("write `:` in the place of the `,`");
        }
        if self.bare == Some(self.next) && !is_sign {
            let message = "a `:` is missing here";
            let advice = "`some`, `every` and `at least` say whom they are about, then `:`, then what holds of them";
            return Mistake::new(self.last(), message).advise(advice);
        }
        if let Some(mistake) = self.no_statement() {
            return mistake;
        }
        if self.is_word("when") {
            let (message, advice) = match self.habit() {
                Some(advice) => ("`when` after `by anyone`", advice),
                None => (
                    "a second `when`",
                    "an event has one `when`: join the two conditions with `and` or `or`",
                ),
            };
            return Mistake::new(self.span(), message).advise(advice);
        }
        let words = ["and", "or", "since"].into_iter().chain(also.iter().copied());
        let again = ["once", "never", "always", "previously", "not", "some", "every"];
        let known: Vec<&str> = match self.word_ahead(0).is_some_and(|word| again.contains(&word)) {
            true => Vec::new(),
            false => words.chain(STATEMENTS).collect(),
        };
        let mistake = self.expected("`and`, `or`, `since` or the next statement", &known);
        let english = self.passive().or_else(|| self.habit().map(str::to_string));
        if let Some(advice) = english.or_else(|| self.repeated()) {
            return mistake.advise(advice);
        }
        if let Some(sought) = self.sought().filter(|_| self.is_sign(':')) {
            return mistake.advise(format!("did you mean `{sought}: ...`?"));
        }
        let advice = match (self.token(), self.word_ahead(0)) {
            (Token::Sign(')'), _) => "this `)` closes nothing: delete it, or put a `(` where the part begins",
            (Token::Sign(';'), _) => "delete it: nothing ends a statement, and parts of a list are separated by `,`",
            (Token::Sign(':'), _) => "a `:` follows `some`, `every`, `at least`, `at`, `as` or the head of a \
                definition",
            (_, Some("with" | "to" | "from" | "by")) => {
                "a sentence is of two: who does it, its name as declared, and to whom: `owner share me`. \
                 For three at once see docs/LANGUAGE.md, Three at once"
            }
            (_, Some("twice")) => {
                "say that it was so, and once before: `once (me load target and previously once me load target)`"
            }
            (Token::Sign(','), _) if matches!(self.word_ahead(1), Some("and" | "or" | "since")) => "delete the `,`",
            (Token::Sign(','), _) => "write `and` or `or` in the place of the `,`",
            (_, Some("if")) => "a condition begins with `when`, and its parts are joined with `and` \
                and `or`",
            _ if mistake.advice.is_some() => return mistake,
            _ => "a sentence is of three words, `me owns target`; join two sentences with `and` or `or`",
        };
        mistake.advise(advice)
    }

    /// The word some places before the next token.
    pub(super) fn word_before(&self, places: usize) -> Option<&str> {
        match &self.tokens[self.next.checked_sub(places)?].0 {
            Token::Word(word) => Some(word),
            _ => None,
        }
    }

    /// The sentence just read, with the `some` that a `:` after it asks for.
    fn sought(&self) -> Option<String> {
        let [from, label, to] = [3, 2, 1].map(|places| self.word_before(places));
        let (from, label, to) = (from?, label?, to?);
        let named = |word: &str| !WORDS.contains(&word);
        let somebody = |word: &str| ["me", "target", "here"].contains(&word);
        if !self.declared.contains(label) {
            return None;
        }
        if named(from) && (named(to) || somebody(to)) {
            return Some(format!("some {from} {label} {to}"));
        }
        (somebody(from) && named(to)).then(|| format!("{from} {label} some {to}"))
    }

    /// What is said of a parenthesis that is not closed, where it opened.
    pub(super) fn not_closed(&self, opened: Span) -> Mistake {
        if !self.at_statement() {
            return self.stray(&[]);
        }
        let before = match self.token() {
            Token::Word(word) => format!("`{word}`, the next statement"),
            _ => "the end of the file".to_string(),
        };
        let advice = format!("a `)` is missing, at the latest before {before}");
        Mistake::new(opened, "this `(` is not closed").advise(advice)
    }

    /// What is said where `at least` has no number.
    pub(super) fn no_number(&self) -> Mistake {
        let mistake = self.expected("a number, 1 or more, after `at least`", &[]);
        let word = self.word_ahead(0).unwrap_or("");
        if let Some(place) = NUMBERS.iter().position(|known| *known == word) {
            return mistake.advise(format!("write it in digits: `at least {}`", place + 1));
        }
        mistake.advise(match self.token() {
            Token::Number(0) => "at least 0 would always hold: leave it out".to_string(),
            _ => "like this: `at least 2 friend of me`".to_string(),
        })
    }
}
