//! Writes terms back as a source that compiles to the same formulas.

mod declared;
mod defined;
mod tell;
mod words;

use super::ast::{Effect, Event, Fact, Name, Person, Source, Who};
use super::compile;
use super::print::print;
use crate::names::{Called, Names};
use keeper::terms::Terms;
use std::collections::{BTreeMap, HashSet};
use tell::{Style, Teller};
use words::Words;

/// Formulas with more parts than this are told in pieces.
const LONGEST: usize = 300;

/// The definitions that entries are told by.
type Known = BTreeMap<usize, Called>;

/// The source of accepted terms. Each policy is told with names if that
/// compiles to the same formula, and operator by operator if not.
pub fn decompile(terms: &Terms, names: &Names) -> Source {
    let words = Words::new(terms, names);
    let sizes = sizes(terms);
    let first = |policy: &usize| if sizes[*policy] <= LONGEST { Style::Free } else { Style::Exact };
    let mut styles: Vec<Style> = terms.policies.iter().map(first).collect();
    loop {
        let source = told(terms, &words, &sizes, &styles, &Known::new());
        let wrong: Vec<usize> = match compile(&print(&source)) {
            Ok(compiled) => differing(terms, &compiled.terms),
            Err(_) => (0..terms.events).collect(),
        };
        let mut changed = false;
        for event in wrong {
            changed |= styles[event] != Style::Exact;
            styles[event] = styles[event].stricter();
        }
        if !changed {
            let told = |known: &Known| told(terms, &words, &sizes, &styles, known);
            let source = defined::with_definitions(source, terms, names, &words, told);
            return declared::with_names(source, terms, names);
        }
    }
}

/// Whether a source compiles to these terms, but for the order of entries and
/// for entries that no policy uses.
pub fn agrees(source: &Source, terms: &Terms) -> bool {
    compile(&print(source)).is_ok_and(|compiled| {
        let other = &compiled.terms;
        let counts = |terms: &Terms| (terms.members, terms.relations, terms.events);
        counts(terms) == counts(other)
            && terms.kept == other.kept
            && terms.effects == other.effects
            && terms.edges == other.edges
            && differing(terms, other).is_empty()
    })
}

/// The events whose policies are other formulas in the other terms.
pub fn differing(one: &Terms, other: &Terms) -> Vec<usize> {
    let mut known = HashSet::new();
    let policies = one.policies.iter().zip(&other.policies).enumerate();
    let differ = policies.filter(|(_, (f, g))| !same(one, **f, other, **g, &mut known));
    differ.map(|(event, _)| event).collect()
}

/// Whether two entries are the same formula.
fn same(
    one: &Terms,
    f: usize,
    other: &Terms,
    g: usize,
    known: &mut HashSet<(usize, usize)>,
) -> bool {
    if known.contains(&(f, g)) {
        return true;
    }
    let (first, second) = (one.entries[f], other.entries[g]);
    let alike = first.with_operands(|_| 0) == second.with_operands(|_| 0)
        && first
            .operands()
            .into_iter()
            .zip(second.operands())
            .all(|(f, g)| same(one, f, other, g, known));
    if alike {
        known.insert((f, g));
    }
    alike
}

/// How many parts each entry has when it is spelled out.
fn sizes(terms: &Terms) -> Vec<usize> {
    let mut sizes: Vec<usize> = Vec::new();
    for entry in &terms.entries {
        let parts = entry.operands().into_iter().map(|f| sizes[f]);
        sizes.push(parts.fold(1, usize::saturating_add));
    }
    sizes
}

fn told(terms: &Terms, words: &Words, sizes: &[usize], styles: &[Style], known: &Known) -> Source {
    let name = |text: &String| Name::new(text);
    let mut source = Source {
        members: words.members.iter().map(name).collect(),
        relations: words.labels[..terms.relations].iter().map(name).collect(),
        ..Source::default()
    };
    let shared = shared(terms, sizes, styles);
    let mut teller = Teller::new(terms, words, shared, known);
    for (event, style) in styles.iter().enumerate() {
        let policy = teller.policy(terms.policies[event], *style);
        let effects = terms.effects[event].iter().map(|effect| {
            let (me, target) = (Person::new(Who::Me), Person::new(Who::Target));
            let (from, to) = if effect.back { (target, me) } else { (me, target) };
            Effect {
                add: effect.add,
                from,
                relation: Name::new(&words.labels[effect.relation]),
                to,
            }
        });
        source.events.push(Event {
            said: None,
            name: Name::new(&words.labels[terms.relations + event]),
            policy,
            effects: effects.collect(),
        });
    }
    source.definitions = teller.definitions();
    let event = |event: &usize| name(&words.labels[terms.relations + event]);
    source.kept = terms.kept.iter().map(event).collect();
    for &(relation, from, to) in &terms.edges {
        source.first.push(Fact {
            from: name(&words.members[from]),
            relation: name(&words.labels[relation]),
            to: name(&words.members[to]),
        });
    }
    source
}

/// The entries that are told as definitions, where policies are told operator
/// by operator: those used more than once, if they aren't short, and where
/// operators would stand too deep in one another.
fn shared(terms: &Terms, sizes: &[usize], styles: &[Style]) -> Vec<bool> {
    const SHORT: usize = 6;
    const DEEPEST: usize = 50;
    let mut uses = vec![0usize; terms.entries.len()];
    for (event, style) in styles.iter().enumerate() {
        if *style == Style::Exact {
            uses[terms.policies[event]] += 1;
        }
    }
    for place in (0..terms.entries.len()).rev() {
        if uses[place] > 0 {
            for operand in terms.entries[place].operands() {
                uses[operand] += 1;
            }
        }
    }
    let mut depths: Vec<usize> = Vec::new();
    let mut shared = Vec::new();
    for (place, entry) in terms.entries.iter().enumerate() {
        let depth = entry.operands().into_iter().map(|f| depths[f]).max().unwrap_or(0) + 1;
        let cut = uses[place] > 1 && sizes[place] > SHORT || depth > DEEPEST;
        depths.push(if cut { 0 } else { depth });
        shared.push(cut);
    }
    shared
}
