//! Reads tests.say. Statements are independent, so that every mistake is told at once.

mod cures;
mod given;

use super::lines::{statements, Word};
use super::people::People;
use super::{Call, Said, Statement, Test};
use crate::bank::Bank;
use crate::both::Both;
use crate::names::{did_you_mean, Kind, Names};
use crate::source::mistake::Mistake;
use keeper::terms::Terms;

/// What can begin a statement.
const BEGINNINGS: [&str; 3] = ["test", "given", "then"];

/// Reads the tests of a text, or gives all its mistakes.
pub fn read(text: &str, both: &Both, names: &Names) -> Result<Vec<Test>, Vec<Mistake>> {
    let known = Known { terms: both.terms(), names, stored: both.is_stored() };
    let mut tests: Vec<Test> = Vec::new();
    let mut mistakes = Vec::new();
    for words in statements(text) {
        let span = words[0].span.to(words[words.len() - 1].span);
        if words[0].is("test") {
            let title = text[words[0].span.end..span.end].trim().trim_matches('"').to_string();
            if title.is_empty() {
                let mistake = Mistake::new(span, "this test has no title");
                mistakes.push(mistake.advise("say what it shows: `test a share can be withdrawn`"));
            }
            tests.push(Test { title, span, statements: Vec::new() });
            continue;
        }
        let Some(test) = tests.last_mut() else {
            let mistake = Mistake::new(span, "this stands in no test");
            let advice =
                "begin with a line that says what is shown: `test what is shared may be loaded`";
            return Err(vec![mistake.advise(advice)]);
        };
        let happened = test.statements.iter().any(|one| !matches!(one.said, Said::First { .. }));
        let reader = Reader { words: &words, next: 0, known: &known, happened };
        match reader.statement() {
            Ok(read) => test.statements.extend(read),
            Err(mistake) => mistakes.push(mistake),
        }
    }
    let empty = tests.iter().filter(|test| test.statements.is_empty() && mistakes.is_empty());
    let empty: Vec<Mistake> = empty
        .map(|test| {
            let mistake = Mistake::new(test.span, "this test asks nothing");
            mistake.advise("say below it who may do what: `pete may load saw`")
        })
        .collect();
    mistakes.extend(empty);
    match mistakes.is_empty() {
        true => Ok(tests),
        false => Err(mistakes),
    }
}

/// The names that a statement may use.
pub(super) struct Known<'a> {
    terms: &'a Terms,
    names: &'a Names,
    stored: bool,
}

/// One statement, read word by word.
pub(super) struct Reader<'a> {
    pub(super) words: &'a [Word<'a>],
    pub(super) next: usize,
    known: &'a Known<'a>,
    /// Whether something has happened or was asked before in this test.
    happened: bool,
}

impl<'a> Reader<'a> {
    fn statement(mut self) -> Result<Vec<Statement>, Mistake> {
        if let Some(mistake) = cures::of_first(self.words) {
            return Err(mistake);
        }
        if self.take("given") || self.take("then") {
            let mut read = vec![self.given()?];
            while self.take(",") {
                read.push(self.given()?);
            }
            self.ends("`,` or the end of the line")?;
            return Ok(read);
        }
        if !self.words.iter().any(|word| word.is("may")) {
            if let Some(mistake) = cures::of_question(self.words) {
                return Err(mistake);
            }
            let word = &self.words[0];
            let hint = did_you_mean(word.text, BEGINNINGS);
            let mistake = Mistake::new(word.span, format!("nothing is asked here{hint}"));
            return Err(mistake.advise(
                "write `pete may load saw` to ask, `given dora share pete` for what happened before",
            ));
        }
        let start = self.span();
        let said = self.asked()?;
        Ok(vec![Statement { span: start.to(self.last()), said }])
    }

    /// `pete may not load saw because suspended`.
    fn asked(&mut self) -> Result<Said, Mistake> {
        let start = self.span();
        let who = self.people()?;
        if !self.take("may") {
            return Err(self.expected("`may`, or `and` and another member"));
        }
        let not = self.take("not");
        let event = self.event()?;
        let whom = self.people()?;
        let named = |people: &People| matches!(people, People::These(_));
        if not && !(named(&who) && named(&whom)) {
            let mistake = Mistake::new(start.to(self.last()), "this can be understood in two ways");
            return Err(mistake.advise("after `may not` name members; else write `nobody may ...`"));
        }
        let mut because = None;
        if self.take("because") {
            let words: Vec<&str> = self.words[self.next..].iter().map(|word| word.text).collect();
            if words.is_empty() {
                return Err(self.expected("the words that `why` has to say"));
            }
            because = Some(words.join(" "));
            self.next = self.words.len();
        }
        if let Some(mistake) = cures::of_reason(&self.words[self.next..]) {
            return Err(mistake);
        }
        self.ends("`because` or the end of the line")?;
        let members = self.known.terms.members;
        let whom = whom.of(members);
        let calls = who.of(members).into_iter().flat_map(|(from, asks)| {
            let call =
                move |(to, is): (usize, bool)| (Call { event, from, to }, asks && is && !not);
            whom.clone().into_iter().map(call)
        });
        Ok(Said::Asked { calls: calls.collect(), because })
    }

    fn people(&mut self) -> Result<People, Mistake> {
        if self.take("anyone") {
            return Ok(People::Anyone);
        }
        if self.take("nobody") {
            if let Some(mistake) = cures::of_exception(&self.words[self.next..]) {
                return Err(mistake);
            }
            return Ok(People::Nobody);
        }
        let only = self.take("only");
        let mut some = self.members()?;
        while self.take("and") {
            some.extend(self.members()?);
        }
        Ok(if only { People::Only(some) } else { People::These(some) })
    }

    /// A member, or all of a kind.
    fn members(&mut self) -> Result<Vec<usize>, Mistake> {
        let word = self.word("a member")?;
        let found = self.known.names.members(word.text, self.known.terms.members);
        found.map_err(|wrong| self.no_member(word, wrong))
    }

    fn member(&mut self) -> Result<usize, Mistake> {
        let word = self.word("a member")?;
        let found = self.known.names.lookup(Kind::Member, word.text, self.known.terms.members);
        found.map_err(|wrong| self.no_member(word, wrong))
    }

    fn event(&mut self) -> Result<usize, Mistake> {
        let word = self.word("an event")?;
        let names = self.known.names;
        let found = names.lookup(Kind::Event, word.text, self.known.terms.events);
        found.map_err(|wrong| match names.find(Kind::Relation, word.text) {
            Some(_) => {
                let mistake = Mistake::new(word.span, format!("`{}` is a relation", word.text));
                mistake
                    .advise("requests are made of events; edges are given: `given dora owns saw`")
            }
            None => Mistake::new(word.span, wrong),
        })
    }

    fn relation(&mut self) -> Result<usize, Mistake> {
        let word = self.word("a relation")?;
        let names = self.known.names;
        if let Some(relation) = names.find(Kind::Relation, word.text) {
            return Ok(relation);
        }
        let Terms { relations, events, .. } = *self.known.terms;
        let labels = (0..relations).map(|relation| names.relation(relation));
        let labels: Vec<String> =
            labels.chain((0..events).map(|event| names.event(event))).collect();
        let hint = did_you_mean(word.text, labels.iter().map(String::as_str));
        let message = format!("no relation or event `{}`{hint}", word.text);
        let mistake = Mistake::new(word.span, message);
        Err(match hint.is_empty() {
            true => mistake.advise(
                "only edges and events can be given; what a definition says follows from them",
            ),
            false => mistake,
        })
    }

    /// What is wrong with a word, the last read, that names no member. It may be a bank.
    fn no_member(&self, word: Word, wrong: String) -> Mistake {
        if let Some(cure) = cures::of_member(&word, &self.words[self.next..]) {
            return Mistake::new(word.span, format!("no member `{}`", word.text)).advise(cure);
        }
        match Bank::named(word.text) {
            Some(_) => Mistake::new(word.span, "a test is about one bank").advise(
                "leave out the bank; `cuckooormolu why` says how requests of two banks are answered",
            ),
            None => Mistake::new(word.span, wrong),
        }
    }
}
