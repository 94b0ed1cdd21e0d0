//! Reads a source text: the statements. Formulas are read in `parse/formula.rs`.

mod cursor;
mod declaring;
mod effect;
mod english;
mod formula;
mod habits;
mod joined;
mod lone;
mod one_time;
mod phrase;
mod plainly;
mod policy;
mod predicate;
mod read;
mod refused;
mod repeated;
mod sentence;
mod several;
mod stray;
mod unfinished;

use super::ast::*;
use super::mistake::Mistake;
use super::tokens::{tokens, Token, ENGLISH, WORDS};
use std::collections::HashSet;

pub(super) use effect::third;
pub use read::{formula, parse, read, Read};

/// The deepest that formulas may stand in one another.
const DEEPEST: usize = 200;

/// The same with parts counted that stand side by side.
const TALLEST: usize = 600;

const STATEMENTS: [&str; 9] =
    ["members", "member", "relation", "relations", "event", "events", "keep", "define", "first"];

#[derive(Default)]
struct Parser {
    tokens: Vec<(Token, Span)>,
    next: usize,
    /// Whether each token is the first of its line.
    begins: Vec<bool>,
    /// The words that are declared as relations and events.
    declared: HashSet<String>,
    /// Those of them that are events.
    events: HashSet<String>,
    /// The names of definitions.
    defined: HashSet<String>,
    /// The kinds of members.
    kinds: Vec<String>,
    /// The names of members.
    members: HashSet<String>,
    /// How many formulas the present one stands in.
    depth: usize,
    /// How many formulas stand in one another in the one read last.
    height: usize,
    /// The token after a walk that says nothing of whom it finds.
    bare: Option<usize>,
    warnings: Vec<Mistake>,
}

impl Parser {
    fn statement(&mut self, source: &mut Source) -> Result<(), Mistake> {
        match self.word_ahead(0).unwrap_or("") {
            "member" | "members" => {
                self.next += 1;
                self.members(source)?;
            }
            "relation" | "relations" => {
                self.next += 1;
                let names = self.names("the name of a relation")?;
                if let Some(mistake) = self.relation_of_members(&names) {
                    return Err(mistake);
                }
                source.relations.extend(names);
                self.list_ends()?;
            }
            "event" | "events" => {
                self.next += 1;
                self.event(&mut source.events)?;
            }
            "keep" => {
                self.next += 1;
                if !self.take("denied") {
                    return Err(self
                        .expected("`denied` after `keep`", &["denied"])
                        .advise("like this: `keep denied load`"));
                }
                source.kept.extend(self.names("the name of an event")?);
                self.list_ends()?;
            }
            "define" => {
                self.next += 1;
                source.definitions.push(self.definition()?);
            }
            "first" => {
                self.next += 1;
                self.fact(&mut source.first)?;
                while self.take_sign(',') {
                    self.fact(&mut source.first)?;
                }
            }
            _ => return Err(self.begins_nothing()),
        }
        Ok(())
    }

    /// `a, b`, or `players: a, b; presets: c`.
    fn members(&mut self, source: &mut Source) -> Result<(), Mistake> {
        loop {
            let kinded = self.name_ahead(0) && *self.ahead(1) == Token::Sign(':');
            let kind = if kinded { Some(self.name("the name of a kind")?) } else { None };
            self.next += usize::from(kinded);
            let members = self.names("the name of a member")?;
            self.next_kind()?;
            self.list_ends()?;
            source.members.extend(members.clone());
            source.kinds.extend(kind.map(|name| MemberKind { name, members, relation: None }));
            if !self.take_sign(';') {
                return Ok(());
            }
            if self.at_statement() {
                let mistake = Mistake::new(self.last(), "nothing follows the last `;`");
                return Err(mistake.advise("delete it"));
            }
        }
    }

    /// `event a, b when ... then ...`: the same for each of the names.
    fn event(&mut self, events: &mut Vec<Event>) -> Result<(), Mistake> {
        let mut names = vec![self.event_name()?];
        while self.take_sign(',') {
            names.push(self.event_name()?);
        }
        let policy = if self.take("when") {
            if self.is_sign(':') {
                let mistake = Mistake::new(self.span(), "no `:` follows `when`");
                return Err(mistake.advise("delete the `:`"));
            }
            self.formula()?
        } else if self.take("by") {
            if !self.take("anyone") {
                let mistake = self.expected("`anyone` after `by`", &["anyone"]);
                return Err(mistake.advise(self.by_whom()));
            }
            if let Some(mistake) = self.anyone_joined().or_else(|| self.anyone_who()) {
                return Err(mistake);
            }
            Formula { kind: Kind::True, span: self.last() }
        } else {
            return Err(self.no_policy());
        };
        let effects = match self.take("then") {
            true => self.effects(&names[0].0.text)?,
            false => self.no_effects()?,
        };
        self.statement_ends(&["then"])?;
        for (name, said) in names {
            events.push(Event { name, said, policy: policy.clone(), effects: effects.clone() });
        }
        Ok(())
    }

    /// The name of an event, and how it is said.
    fn event_name(&mut self) -> Result<(Name, Option<String>), Mistake> {
        let name = self.name("the name of an event")?;
        match self.ahead(1).clone() {
            Token::Quoted(words) if self.is_word("said") => {
                self.next += 2;
                Ok((name, Some(words)))
            }
            _ => Ok((name, None)),
        }
    }

    /// `define name: f`, `define name(a, b): f`, `define a is name: f` or
    /// `define a name b: f`.
    fn definition(&mut self) -> Result<Definition, Mistake> {
        if let Some(mistake) = self.own_words().or_else(|| self.head_in_english()) {
            return Err(mistake);
        }
        let first = self.name("the name of the definition, or of somebody in it")?;
        let (name, parameters) = if self.take("is") {
            (self.name("the name of the definition")?, vec![first])
        } else if self.take_sign('(') {
            let parameters = self.names("the name of somebody in the definition")?;
            self.want_sign(')', "after the names")?;
            (first, parameters)
        } else if self.name_ahead(0) {
            let name = self.name("the name of the definition")?;
            let other = self.name("the name of somebody in the definition")?;
            (name, vec![first, other])
        } else {
            (first, Vec::new())
        };
        if !self.take_sign(':') {
            return Err(self.no_meaning(&name, &parameters));
        }
        let body = self.formula()?;
        self.statement_ends(&[])?;
        Ok(Definition { name, parameters, body })
    }

    /// `a owns b and c both ways`, `a is teacher`, `a is friend of b`.
    fn fact(&mut self, facts: &mut Vec<Fact>) -> Result<(), Mistake> {
        let from = self.name("the name of a member")?;
        if let Some(mistake) = self.fact_in_english(&from) {
            return Err(mistake);
        }
        if self.take("is") {
            let relation = self.name("the name of a relation")?;
            let other =
                if self.take("of") { self.name("the name of a member")? } else { from.clone() };
            facts.push(Fact { from: other, relation, to: from });
            return Ok(());
        }
        if let Some(mistake) = self.fact_goes_on(&from, facts) {
            return Err(mistake);
        }
        if self.is_sign(',') || self.is_word("and") {
            return Err(self.fact_of_several(&from));
        }
        let relation = self.name("the name of a relation")?;
        let mut ends = vec![self.name("the name of a member")?];
        while self.take("and") {
            ends.push(self.name("the name of a member")?);
        }
        if self.name_ahead(0) && !self.begins[self.next] {
            let mistake = self.expected("`,`, `and` or the next statement", &[]);
            return Err(mistake.advise("a name of two words is joined by `-`: warm-pad"));
        }
        let both = self.take("both");
        if both && !self.take("ways") {
            let mistake = self.expected("`ways` after `both`", &["ways"]);
            return Err(mistake.advise("like this: `first dora friend pete both ways`"));
        }
        for to in ends {
            let back = Fact { from: to.clone(), relation: relation.clone(), to: from.clone() };
            facts.push(Fact { from: from.clone(), relation: relation.clone(), to });
            facts.extend(both.then_some(back));
        }
        Ok(())
    }

    /// After a formula nothing but the next statement may come.
    fn statement_ends(&self, also: &[&str]) -> Result<(), Mistake> {
        if self.at_statement() {
            return Ok(());
        }
        Err(self.stray(also))
    }
}
