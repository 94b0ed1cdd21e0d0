//! Files and revisions with one thing less.

use crate::terms::{Bit, Entry, EventEdge, File, Past, Terms};
use std::collections::BTreeSet;

/// Files of the same size with less in them; some are not sound.
pub fn candidates(file: &File) -> Vec<File> {
    let terms = &file.terms;
    let mut all = Vec::new();
    let past = file.past.as_ref();
    if past.is_some() {
        all.push(File { terms: terms.clone(), past: None });
    }
    if let Some(past @ Past { event: Some(edge @ EventEdge { denied: true, .. }), .. }) = past {
        let event = Some(EventEdge { denied: false, ..*edge });
        all.push(File { terms: terms.clone(), past: Some(Past { event, ..past.clone() }) });
    }
    for index in (0..terms.entries.len()).rev() {
        let past = past.map(|past| without_table(terms, past, index));
        let mut without = terms.clone();
        without.take_out(index);
        all.push(File { terms: without, past: past.clone() });
        if let Entry::Many(l, f, k @ 2..) = terms.entries[index] {
            let mut other = terms.clone();
            other.entries[index] = Entry::Many(l, f, k - 1);
            all.push(File { terms: other, past: file.past.clone() });
        }
        if terms.entries[index] != Entry::Top {
            let mut other = terms.clone();
            other.entries[index] = Entry::Top;
            all.push(File { terms: other, past });
        }
    }
    all.iter_mut().for_each(fit);
    all
}

/// Fits the bits of each table to the free variables that its entry has come to
/// have, where the terms are sound.
fn fit(file: &mut File) {
    let File { terms, past: Some(Past { tables, .. }) } = file else { return };
    if !terms.is_sound() {
        return;
    }
    let (free, members) = (terms.free(), terms.members);
    for (table, entry) in tables.iter_mut().zip(terms.past()) {
        let fitted = |bit: &Bit| match (free[entry].count_ones(), bit.parts()) {
            (0, (a, _)) => (0..members).map(|b| Bit::Pair(a, b)).collect(),
            (1, (a, [b, _])) => vec![Bit::Pair(a, b)],
            (_, (a, [b, c])) => vec![Bit::Triple(a, b, c)],
        };
        *table = table.iter().flat_map(fitted).collect();
    }
}

/// What had passed, without the table of an entry, if it has one.
fn without_table(terms: &Terms, past: &Past, entry: usize) -> Past {
    let mut other = past.clone();
    if let Some(t) = terms.past().into_iter().position(|past| past == entry) {
        other.tables.remove(t);
    }
    other
}

/// What a size may have one less of: the last of them goes.
#[derive(Clone, Copy)]
pub enum Less {
    Event,
    Member,
    Relation,
}

impl Less {
    pub const ALL: [Less; 3] = [Less::Event, Less::Member, Less::Relation];

    /// The file with one less; none where there is none.
    pub fn file(self, file: &File) -> Option<File> {
        let File { terms, past } = file;
        let past = past.as_ref().map(|past| match self {
            Less::Event => last_event_less(terms, past),
            Less::Member => last_member_less(terms, past),
            Less::Relation => past.clone(),
        });
        Some(File { terms: self.terms(terms)?, past })
    }

    /// The terms with one less, where that leaves them sound.
    pub fn sound(self, terms: &Terms) -> Option<Terms> {
        self.terms(terms).filter(Terms::is_sound)
    }

    fn terms(self, terms: &Terms) -> Option<Terms> {
        match self {
            Less::Event => (terms.events > 0).then(|| without_last_event(terms)),
            Less::Member => (terms.members > 0).then(|| without_last_member(terms)),
            Less::Relation => (terms.relations > 0).then(|| without_last_relation(terms)),
        }
    }
}

/// What had passed, the last event's number being that of the one before.
fn last_event_less(terms: &Terms, past: &Past) -> Past {
    let last = terms.events.saturating_sub(2);
    let event = past.event.map(|edge| EventEdge { event: edge.event.min(last), ..edge });
    Past { event, ..past.clone() }
}

/// What had passed, the last member's number being that of the one before.
fn last_member_less(terms: &Terms, past: &Past) -> Past {
    let last = terms.members.saturating_sub(2);
    let less =
        |edge: EventEdge| EventEdge { from: edge.from.min(last), to: edge.to.min(last), ..edge };
    let event = past.event.map(less);
    let bits = |table: &BTreeSet<Bit>| {
        table.iter().map(|bit| bit.map(|member| member.min(last))).collect()
    };
    Past { tables: past.tables.iter().map(bits).collect(), event }
}

/// The labels above one move down by one.
fn without_label(entries: &mut [Entry], gone: usize) {
    for entry in entries {
        *entry = match *entry {
            Entry::Out(l, f) if l > gone => Entry::Out(l - 1, f),
            Entry::In(l, f) if l > gone => Entry::In(l - 1, f),
            Entry::Many(l, f, k) if l > gone => Entry::Many(l - 1, f, k),
            same => same,
        };
    }
}

/// The terms without the last event. Who spoke of it speaks of the first denied
/// one, if there is any.
fn without_last_event(terms: &Terms) -> Terms {
    let mut other = terms.clone();
    other.events -= 1;
    other.policies.pop();
    other.effects.pop();
    other.kept.remove(&other.events);
    without_label(&mut other.entries, other.relations + other.events);
    other
}

fn without_last_member(terms: &Terms) -> Terms {
    let mut other = terms.clone();
    other.members -= 1;
    other.edges.retain(|&(_, from, to)| from.max(to) < other.members);
    other
}

/// The terms without the last relation; event labels move down by one.
fn without_last_relation(terms: &Terms) -> Terms {
    let mut other = terms.clone();
    other.relations -= 1;
    let last = other.relations;
    without_label(&mut other.entries, last);
    for effects in &mut other.effects {
        effects.retain(|effect| effect.relation < last);
    }
    other.edges.retain(|&(relation, _, _)| relation < last);
    other
}
