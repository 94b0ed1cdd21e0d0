//! What is given in a test: edges, and events that happen.

use super::{Known, Reader};
use crate::names::Kind;
use crate::source::ast::Span;
use crate::source::mistake::Mistake;
use crate::testing::{Call, Said, Statement};
use keeper::terms::{Edge, Entry, Terms};

impl Reader<'_> {
    /// What is given: an edge, or an event that happens, granted or denied.
    pub(super) fn given(&mut self) -> Result<Statement, Mistake> {
        let start = self.span();
        let there = !self.take("not");
        let said = match self.event_first()? {
            Some(said) => said,
            None => self.given_of(there)?,
        };
        let span = start.to(self.last());
        match said {
            Said::First { .. } => self.may_be_first(span)?,
            _ if !there => {
                let mistake = Mistake::new(span, "an event that did not happen needs no words");
                return Err(mistake.advise("leave it out, or write `dora denied share pete`"));
            }
            _ => self.happened = true,
        }
        Ok(Statement { span, said })
    }

    /// `share dora pete`, `denied share dora pete`: an event before who asks.
    fn event_first(&mut self) -> Result<Option<Said>, Mistake> {
        let denied = self.words.get(self.next).is_some_and(|word| word.is("denied"));
        let Some(word) = self.words.get(self.next + usize::from(denied)) else { return Ok(None) };
        let Known { names, .. } = *self.known;
        let is_event = names.find(Kind::Event, word.text).is_some();
        if !is_event || names.find(Kind::Member, word.text).is_some() {
            return Ok(None);
        }
        self.next += usize::from(denied);
        let event = self.event()?;
        let call = Call { event, from: self.member()?, to: self.member()? };
        Ok(Some(Said::Made { call, granted: !denied }))
    }

    /// What is given of a member, whose name comes first.
    fn given_of(&mut self, there: bool) -> Result<Said, Mistake> {
        let from = self.member()?;
        Ok(if self.take("is") {
            if let Some(mistake) = self.definition(from) {
                return Err(mistake);
            }
            let relation = self.relation()?;
            let (from, to) = if self.take("of") { (self.member()?, from) } else { (from, from) };
            Said::First { there, edges: vec![(relation, from, to)] }
        } else if self.take("denied") {
            let event = self.event()?;
            Said::Made { call: Call { event, from, to: self.member()? }, granted: false }
        } else {
            let word = self.word("a relation or an event")?;
            if let Some(event) = self.known.names.find(Kind::Event, word.text) {
                Said::Made { call: Call { event, from, to: self.member()? }, granted: true }
            } else {
                self.next -= 1;
                let relation = self.relation()?;
                let edges = self.edges(relation, from)?;
                Said::First { there, edges }
            }
        })
    }

    /// What is said of `pete is suspended` if a definition is named.
    fn definition(&self, member: usize) -> Option<Mistake> {
        let Known { terms, names, .. } = *self.known;
        let word = self.words.get(self.next)?;
        if names.find(Kind::Relation, word.text).is_some() {
            return None;
        }
        let defined =
            |entry: &usize| names.defined(*entry).is_some_and(|called| called.name == word.text);
        let entry = (0..terms.entries.len()).find(defined)?;
        let message = format!("`{}` is a definition", word.text);
        let example = made_by(terms, entry).map(|(label, out)| {
            let other = (0..terms.members).find(|other| *other != member).unwrap_or(member);
            let (from, to) = if out { (member, other) } else { (other, member) };
            let label = names.label(terms, label);
            format!(", as in `given {} {label} {}`", names.member(from), names.member(to))
        });
        let advice = format!("make it true by an event{}", example.unwrap_or_default());
        Some(Mistake::new(word.span, message).advise(advice))
    }

    /// `pete and quin both ways`: edges from a member under a relation.
    fn edges(&mut self, relation: usize, from: usize) -> Result<Vec<Edge>, Mistake> {
        let mut edges = vec![(relation, from, self.member()?)];
        while self.take("and") {
            edges.push((relation, from, self.member()?));
        }
        if self.take("both") {
            if !self.take("ways") {
                return Err(self.expected("`ways` after `both`"));
            }
            edges.extend(edges.clone().iter().map(|&(relation, from, to)| (relation, to, from)));
        }
        Ok(edges)
    }

    /// Edges are given at moment 0 only.
    fn may_be_first(&self, span: Span) -> Result<(), Mistake> {
        if self.known.stored {
            let mistake = Mistake::new(span, "these terms are stored with a past: edges stay");
            return Err(mistake.advise("give events that change the relation instead"));
        }
        if self.happened {
            let message = "edges can be given at the beginning of a test only";
            let mistake = Mistake::new(span, message);
            return Err(mistake.advise("put it first, or give an event that changes the relation"));
        }
        Ok(())
    }
}

/// The event that an entry is about, and whether it leads away from the member of whom
/// the entry is said. Of a since it is the one that begins it.
fn made_by(terms: &Terms, entry: usize) -> Option<(usize, bool)> {
    let mut seen = vec![false; terms.entries.len()];
    let mut left = vec![entry];
    while let Some(entry) = left.pop() {
        if std::mem::replace(&mut seen[entry], true) {
            continue;
        }
        match terms.entries[entry] {
            Entry::Out(label, _) if label >= terms.relations => return Some((label, true)),
            Entry::In(label, _) if label >= terms.relations => return Some((label, false)),
            // The second operand of a since is the next to be looked at.
            other => left.extend(other.operands()),
        }
    }
    None
}
