//! The definitions of a source that is written back: those that the terms came from, and
//! parts that stand in several places.

use super::super::ast::Source;
use super::super::print::print;
use super::words::Words;
use super::{agrees, sizes, Known};
use crate::names::{Called, Names};
use keeper::terms::{variables, Entry, Terms};
use std::cmp::Reverse;

/// Shorter parts are told wherever they stand.
const SHORT: usize = 8;
/// So many of the others are tried.
const PARTS: usize = 6;

/// The source told with definitions, as far as it compiles to the same terms with them.
pub fn with_definitions(
    source: Source,
    terms: &Terms,
    names: &Names,
    words: &Words,
    told: impl Fn(&Known) -> Source,
) -> Source {
    let (mut source, mut known) = (source, Known::new());
    for group in groups(terms, names) {
        let more: Known = known.iter().map(|(k, v)| (*k, v.clone())).chain(group).collect();
        let next = told(&more);
        if agrees(&next, terms) {
            (source, known) = (next, more);
        }
    }
    for (entry, called) in parts(terms, &known, words) {
        let mut more = known.clone();
        more.insert(entry, called);
        let next = told(&more);
        // It has to be shorter by a tenth to be worth a name.
        if print(&next).len() * 10 < print(&source).len() * 9 && agrees(&next, terms) {
            (source, known) = (next, more);
        }
    }
    source
}

/// The entries that are each definition of the names.
fn groups(terms: &Terms, names: &Names) -> Vec<Known> {
    let mut groups: Vec<Known> = Vec::new();
    for entry in 0..terms.entries.len() {
        let Some(called) = names.defined(entry).filter(|_| !names.passes_on(entry, terms)) else {
            continue;
        };
        let same = |group: &&mut Known| group.values().any(|other| other.name == called.name);
        match groups.iter_mut().find(same) {
            Some(group) => drop(group.insert(entry, called.clone())),
            None => groups.push(Known::from([(entry, called.clone())])),
        }
    }
    groups
}

/// The parts that stand in several places, those first that take most words.
fn parts(terms: &Terms, known: &Known, words: &Words) -> Vec<(usize, Called)> {
    let (sizes, free) = (sizes(terms), terms.free());
    let mut uses = vec![0usize; terms.entries.len()];
    for entry in terms.policies.iter().copied() {
        uses[entry] += 1;
    }
    for entry in (0..terms.entries.len()).rev().filter(|entry| !known.contains_key(entry)) {
        for operand in terms.entries[entry].operands() {
            uses[operand] += usize::from(uses[entry] > 0);
        }
    }
    let is_part =
        |entry: usize| uses[entry] > 1 && sizes[entry] >= SHORT && !known.contains_key(&entry);
    // What is the contrary of a part is told so.
    let is_own = |entry: &usize| match terms.entries[*entry] {
        Entry::Not(f) => !is_part(f),
        _ => is_part(*entry),
    };
    let mut found: Vec<usize> =
        (0..uses.len()).filter(|entry| is_part(*entry) && is_own(entry)).collect();
    found.sort_by_key(|entry| Reverse((uses[*entry] - 1).saturating_mul(sizes[*entry])));
    let called = |entry: usize| {
        let mut names = Names::default();
        let name = words.unlike_labels(&format!("part{entry}"));
        names.define(entry, Called::new(name, vec![None]));
        names.settle(terms);
        let mut called = names.defined(entry).cloned()?;
        let told = called.people.iter().flatten().fold(called.here | 1, |told, x| told | 1 << x);
        called.people.extend(variables(free[entry] & !told).map(Some));
        Some((entry, called))
    };
    found.into_iter().take(PARTS).filter_map(called).collect()
}
