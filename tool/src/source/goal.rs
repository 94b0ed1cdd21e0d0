//! A sentence that stands alone, over the names of a source: further entries of its
//! terms.

use super::ast::Source;
use super::compile::crowded;
use super::entries::Entries;
use super::mistake::Mistake;
use super::parse::formula;
use super::resolve::Resolver;
use super::tree::Placer;
use keeper::terms::{most_free, Terms, MOST_ENTRIES, MOST_PAST, VARIABLES};

/// Terms that have an entry for a sentence, and which that is. The entries that were
/// there before keep their numbers.
pub struct Added {
    pub terms: Terms,
    pub entry: usize,
}

/// Adds a sentence about `me` and `target` to the terms of a source.
pub fn add(text: &str, source: &Source, terms: &Terms) -> Result<Added, Mistake> {
    let events = source.events.iter().map(|event| &event.name);
    let declared = source.relations.iter().chain(events).map(|name| name.text.clone()).collect();
    let whole = super::ast::Span { start: 0, end: text.trim_end().len() };
    let mut resolver = Resolver::new(source);
    let said = resolver.policy(&formula(text, declared)?)?;
    let tree = Placer::new(most_free(terms.members) as usize).policy(&said);
    let tree = tree.map_err(|crowd| crowded(&crowd, &resolver, text, terms.members))?;
    let mut entries = Entries::over(&terms.entries);
    let entry = entries.policy(&tree, &|id| resolver.wish(id)).map_err(|_| {
        Mistake::new(whole, format!("it needs more than {} names at once", VARIABLES - 1))
    })?;
    let most = |what: &str, count: usize, most: usize| {
        let message = format!("with it the terms have {count} {what}; {most} is the most");
        Err(Mistake::new(whole, message))
    };
    match (entries.list.len(), entries.past()) {
        (count, _) if count > MOST_ENTRIES => most("entries", count, MOST_ENTRIES),
        (_, past) if past > MOST_PAST => most("parts about the past", past, MOST_PAST),
        _ => Ok(Added { terms: Terms { entries: entries.list, ..terms.clone() }, entry }),
    }
}
