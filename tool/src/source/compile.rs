//! Compiles a source to terms.

mod declared;
mod notes;

use super::ast::{Event, Name, Source, Span};
use super::disjoint::disjoint;
use super::entries::{Entries, Origin};
use super::kinds;
use super::mistake::Mistake;
use super::one_or_two::one_or_two;
use super::parse::{read, Read};
use super::passing::passing;
use super::resolve::Resolver;
use super::said::Said;
use super::seldom::seldom;
use super::tree::{Crowd, Placer};
use super::twice::twice;
use crate::names::{Called, Kind, Names, Spoken};
use declared::{changes, declared};
use keeper::program::MOST_BYTES;
use keeper::terms::{self, Terms};
use keeper::terms::{most_free, MOST_ENTRIES, MOST_PAIRED, MOST_PAST, VARIABLES};
use notes::Notes;
use std::collections::HashSet;

/// The terms of a source, and the names in it.
#[derive(Clone, Debug)]
pub struct Compiled {
    pub terms: Terms,
    pub names: Names,
    /// Where each entry is written.
    pub origins: Vec<Origin>,
    /// Where each event is declared.
    pub events: Vec<Span>,
    /// What is accepted and seldom meant.
    pub warnings: Vec<Mistake>,
}

impl Compiled {
    /// The text of terms.tsv.
    pub fn text(&self) -> Vec<u8> {
        terms::write(&self.terms, &self.terms.edges)
    }
}

/// Compiles a source text, or tells all that is wrong with it, by place.
pub fn compile(text: &str) -> Result<Compiled, Vec<Mistake>> {
    let Read { mut source, mut mistakes, mut warnings, doubtful, .. } = read(text);
    kinds::unfold(&mut source);
    let mut notes = Notes::default();
    let mut names = declared(&source, text, mistakes.is_empty(), &mut notes);
    let mut terms = Terms {
        members: source.members.len(),
        relations: source.relations.len(),
        events: source.events.len(),
        ..Terms::default()
    };
    changes(&source, &names, &mut terms, &mut notes);
    let resolved = resolved(&source, &mut notes);
    warnings.extend(resolved.warnings);
    warnings.extend(passing(&source, text));
    warnings.extend(twice(&source, text));
    warnings.extend(seldom(&source, text));
    warnings.extend(disjoint(&source, text));
    warnings.extend(one_or_two(&source, text));
    warnings.extend(source.events.iter().filter_map(unlike));
    mistakes.extend(notes.without(&doubtful));
    if !mistakes.is_empty() {
        mistakes.sort_by_key(|mistake| mistake.span.start);
        return Err(mistakes);
    }
    let origins = policies(&source, text, &resolved.policies, &resolved.resolver, &mut terms)?;
    let events = source.events.iter().map(|event| event.name.span).collect();
    warnings.sort_by_key(|warning| warning.span.start);
    name_definitions(&source, &origins, &mut names);
    names.settle(&terms);
    for kind in &source.kinds {
        let numbers = kind.members.iter().filter_map(|name| names.find(Kind::Member, &name.text));
        let numbers = numbers.collect();
        names.group(&kind.name.text, numbers);
    }
    for (number, event) in source.events.iter().enumerate() {
        if let Some(words) = &event.said {
            names.say(number, Spoken::of(&event.name.text, words));
        }
    }
    let compiled = Compiled { terms, names, origins, events, warnings };
    let bytes = compiled.text().len();
    if bytes > MOST_BYTES {
        let span = source.first.last().map_or(Span::default(), |fact| fact.from.span);
        let message = format!("the terms file would have {bytes} bytes; {MOST_BYTES} is the most");
        return Err(vec![Mistake::new(span, message).advise("leave out `first` edges")]);
    }
    Ok(compiled)
}

/// A warning for an event whose words tell what follows `has`, and not what follows `may`.
fn unlike(event: &Event) -> Option<Mistake> {
    let name = &event.name.text;
    let words = event.said.as_ref().filter(|words| Spoken::is_guessed(name, words))?;
    let may = Spoken::of(name, words).may;
    let message =
        format!("\"{words}\" does not tell what follows `may`: it is read as \"may {may}\"");
    let advice =
        format!("give both, the words after `may` first: `{name} said \"{may} / {words}\"`");
    Some(Mistake::new(event.name.span, message).advise(advice))
}

/// Calls the entries by the definitions that they are. One of nobody is no sentence.
fn name_definitions(source: &Source, origins: &[Origin], names: &mut Names) {
    for (entry, origin) in origins.iter().enumerate() {
        if let Some((place, people)) = &origin.called {
            let name = source.definitions[*place].name.text.clone();
            if !people.is_empty() {
                names.define(entry, Called::new(name, people.clone()));
            }
        }
    }
}

/// What the policies say.
struct Resolved<'a> {
    resolver: Resolver<'a>,
    policies: Vec<Said>,
    warnings: Vec<Mistake>,
}

fn resolved<'a>(source: &'a Source, notes: &mut Notes) -> Resolved<'a> {
    let mut resolver = Resolver::new(source);
    for place in 0..source.definitions.len() {
        notes.take(resolver.check_definition(place));
    }
    let policies = source.events.iter();
    let policies =
        policies.filter_map(|event| notes.take(resolver.policy(&event.policy))).collect();
    let warnings = resolver.take_warnings();
    Resolved { resolver, policies, warnings }
}

/// Fills in entries and policies.
fn policies(
    source: &Source,
    text: &str,
    policies: &[Said],
    resolver: &Resolver,
    terms: &mut Terms,
) -> Result<Vec<Origin>, Vec<Mistake>> {
    let mut notes = Notes::default();
    let mut placer = Placer::new(most_free(terms.members) as usize);
    let mut entries = Entries::default();
    for (event, policy) in source.events.iter().zip(policies) {
        let tree = placer.policy(policy);
        let tree = tree.map_err(|crowd| crowded(&crowd, resolver, text, terms.members));
        let Some(tree) = notes.take(tree) else { continue };
        let before = (entries.list.len(), entries.past());
        let wish = |id| resolver.wish(id);
        let placed = entries.policy(&tree, &wish).map_err(|_| {
            let message = format!(
                "the policy of `{}` needs more than {} names at once",
                event.name.text,
                VARIABLES - 1
            );
            Mistake::new(event.name.span, message)
                .advise("split it, or seek fewer people inside others")
        });
        let Some(place) = notes.take(placed) else { continue };
        let after = (entries.list.len(), entries.past());
        if after.0 > MOST_ENTRIES {
            let what = format!("{} entries", after.0);
            let own = after.0 - before.0;
            notes.mistakes.push(too_many(&event.name, &what, MOST_ENTRIES, own));
            break;
        }
        if after.1 > MOST_PAST {
            let what = format!(
                "{} parts about the past (once, always, never, since, previously)",
                after.1
            );
            let own = after.1 - before.1;
            notes.mistakes.push(too_many(&event.name, &what, MOST_PAST, own));
            break;
        }
        terms.policies.push(place);
    }
    let mistakes = notes.without(&HashSet::new());
    if !mistakes.is_empty() {
        return Err(mistakes);
    }
    let origins = entries.origins();
    terms.entries = entries.list;
    Ok(origins)
}

fn too_many(event: &Name, what: &str, most: usize, own: usize) -> Mistake {
    let message = format!("with the policy of `{}` the terms have {what}", event.text);
    let mistake = Mistake::new(event.span, message);
    mistake.advise(format!(
        "{most} is the most; {own} of them are this policy's own. Parts that are written alike count once"
    ))
}

/// A part about the past, or one that leads to somebody, that speaks of too
/// many people.
pub(super) fn crowded(crowd: &Crowd, resolver: &Resolver, text: &str, members: usize) -> Mistake {
    let name = |id: &Option<_>| id.map_or("whom it is said of", |id| resolver.name(id));
    let mut people: Vec<&str> = crowd.people.iter().map(name).collect();
    let last = people.pop().unwrap_or_default();
    let part = crowd.span.words(text);
    let speaks =
        format!("`{part}` speaks of {} people: {} and {last}", people.len() + 1, people.join(", "));
    if let Some(to) = crowd.to {
        let to = resolver.name(to);
        let message = format!("{speaks}; what leads to `{to}` may speak of `{to}` and one other");
        let advice =
            format!("say after the `:` what concerns others than `{to}` and whom it starts from");
        return Mistake::new(crowd.span, message).advise(advice);
    }
    let split = |each: &str, next: &str| {
        format!(
            "split it with `and` or `or` into parts about {each} people each, or seek the {next} \
             inside it with `some`"
        )
    };
    let past = "what is about the past may speak of";
    if members <= MOST_PAIRED {
        let message = format!("{speaks}; {past} 3");
        return Mistake::new(crowd.span, message).advise(split("three", "fourth"));
    }
    let message = format!("{speaks}; with {members} members, {past} 2");
    let mut advice = split("two", "third");
    if crowd.people.len() == 3 {
        advice += &format!("; with at most {MOST_PAIRED} members it may speak of three");
    }
    Mistake::new(crowd.span, message).advise(advice)
}
