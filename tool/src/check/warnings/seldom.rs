//! What entries and names may have that is seldom meant, one function for each.

use super::{About, Subject, Warning};
use crate::aloud::labels::Labels;
use crate::aloud::listed;
use crate::check::entries::labels;
use crate::names::{Kind, Labelled, Names};
use keeper::terms::{Entry, Terms};

/// Entries that no policy and no other entry uses. A source has none.
pub fn unused(subject: &Subject) -> Vec<Warning> {
    let (terms, reached) = (subject.terms, &subject.reached);
    let used = |entry: usize| terms.entries.iter().any(|above| above.operands().contains(&entry));
    let unused = (0..reached.len()).filter(|&entry| !reached[entry] && !used(entry));
    unused
        .map(|entry| Warning {
            kind: "unused",
            about: About::Entry(entry),
            line: 0,
            what: format!("entry {entry} is used by no policy and no other entry"),
            right: "delete it, or name it where it is meant".to_string(),
        })
        .collect()
}

/// The entries of policies that follow a label.
fn followers<'a>(subject: &'a Subject) -> impl Iterator<Item = (usize, usize)> + 'a {
    let reached = (0..subject.reached.len()).filter(|&index| subject.reached[index]);
    reached.filter_map(|index| match subject.terms.entries[index] {
        Entry::Out(label, _) | Entry::In(label, _) | Entry::Many(label, _, _) => {
            Some((index, label))
        }
        _ => None,
    })
}

/// Entries that follow a relation that never has an edge.
pub fn edgeless(subject: &Subject) -> Vec<Warning> {
    let Subject { terms, names, .. } = *subject;
    let effects = || terms.effects.iter().flatten();
    let empty = |relation: usize| {
        !terms.edges.iter().any(|edge| edge.0 == relation)
            && !effects().any(|effect| effect.add && effect.relation == relation)
    };
    let asserted = asserted(terms);
    let mut warnings = Vec::new();
    for relation in (0..terms.relations).filter(|&relation| empty(relation)) {
        let entries = followers(subject).filter(|&(_, label)| label == relation);
        let entries: Vec<usize> = entries.map(|(index, _)| index).collect();
        let Some(&first) = entries.first() else { continue };
        let in_terms = || {
            let shown: Vec<String> = entries.iter().map(usize::to_string).collect();
            let follow = match entries.len() {
                1 => format!("entry {first} follows"),
                _ => format!("entries {} follow", listed(&shown)),
            };
            let name = named("relation", relation, names.given(Kind::Relation, relation));
            let what = format!(
                "{follow} label {relation}, {name}, which never has an edge: no first edge and no effect adds one"
            );
            let all = labels(terms.relations, terms.events, names);
            (what, format!("{all}; adding a relation shifts the label of every event by one"))
        };
        let in_source = || {
            let name = names.relation(relation);
            let denied = entries.iter().all(|&entry| !asserted[entry]);
            let what = match denied {
                true => format!("`{name}` has no edge, so this excludes nobody"),
                false => format!("`{name}` never has an edge, so this is never true"),
            };
            (
                what,
                format!(
                    "no `first` and no `then add` gives `{name}` an edge; add one, or is another \
                relation meant?"
                ),
            )
        };
        warnings.push(subject.warn("edgeless", About::Entry(first), in_terms, in_source));
    }
    warnings
}

/// Whether some policy asks for each entry, and not only for its contrary.
fn asserted(terms: &Terms) -> Vec<bool> {
    let mut seen = vec![[false; 2]; terms.entries.len()];
    let mut open: Vec<(usize, bool)> = terms.policies.iter().map(|&entry| (entry, true)).collect();
    while let Some((entry, wanted)) = open.pop() {
        if std::mem::replace(&mut seen[entry][usize::from(wanted)], true) {
            continue;
        }
        let turned = matches!(terms.entries[entry], Entry::Not(_));
        let operands = terms.entries[entry].operands();
        open.extend(operands.into_iter().map(|f| (f, wanted != turned)));
    }
    seen.into_iter().map(|[_, wanted]| wanted).collect()
}

/// `relation 1`, or `relation 1 (own)`.
fn named(thing: &str, number: usize, name: Option<&str>) -> String {
    match name {
        Some(name) => format!("{thing} {number} ({name})"),
        None => format!("{thing} {number}"),
    }
}

/// `event 2 (load)`, `denied event 2 (load)`; nothing for a relation's label.
fn event_named(terms: &Terms, names: &Names, label: usize) -> Option<String> {
    let thing = match Labelled::of(terms, label) {
        Labelled::Relation(_) => return None,
        Labelled::Event(_) => "event",
        Labelled::Denied(_) => "denied event",
    };
    let (kind, event) = Labelled::of(terms, label).named();
    Some(named(thing, event, names.given(kind, event)))
}

/// Entries that follow a denied event whose denials are not kept.
pub fn unkept(subject: &Subject) -> Vec<Warning> {
    let Subject { terms, names, .. } = *subject;
    let mut warnings = Vec::new();
    for (index, label) in followers(subject) {
        let Labelled::Denied(event) = Labelled::of(terms, label) else { continue };
        if terms.kept.contains(&event) {
            continue;
        }
        let in_terms = || {
            let shown = named("event", event, names.given(Kind::Event, event));
            let what = format!(
                "entry {index} asks for a denied request of {shown}, but none of them makes a moment: the event \
                    is not kept"
            );
            (what, format!("a line `K {event}` after the P lines keeps them"))
        };
        let in_source = || {
            let name = names.event(event);
            let what = format!("denied requests of `{name}` are not kept, so this is never true");
            (what, format!("add a statement `keep denied {name}`"))
        };
        warnings.push(subject.warn("unkept", About::Entry(index), in_terms, in_source));
    }
    warnings
}

/// A since whose first operand is an event's edge.
pub fn swapped(subject: &Subject) -> Vec<Warning> {
    let Subject { terms, names, .. } = *subject;
    let mut warnings = Vec::new();
    for index in (0..subject.reached.len()).filter(|&index| subject.reached[index]) {
        let Entry::Since(f, g) = terms.entries[index] else { continue };
        let (Entry::Out(label, _) | Entry::In(label, _)) = terms.entries[f] else { continue };
        let Some(shown) = event_named(terms, names, label) else { continue };
        let in_terms = || {
            let what = format!(
                "entry {index} asks for an edge of {shown} at every moment after that of entry {g}, but an \
                    event's edge is there for one moment only"
            );
            (what, format!("`since f g` says that g held and that f has held ever since; `since {g} {f}` would \
                be: once {f}, and {g} ever since"))
        };
        let in_source = || {
            let what = format!(
                "`{}` is true for one moment only, so it cannot have held ever since",
                names.label(terms, label)
            );
            (what, "`f since g` says that g held once and that f has held at every moment after it; are the two \
                swapped, or is a `not` missing?".to_string())
        };
        warnings.push(subject.warn("swapped", About::Entry(index), in_terms, in_source));
    }
    warnings
}

/// A many that asks for more than there can be.
pub fn uncountable(subject: &Subject) -> Vec<Warning> {
    let Subject { terms, names, .. } = *subject;
    let mut warnings = Vec::new();
    for index in (0..subject.reached.len()).filter(|&index| subject.reached[index]) {
        let Entry::Many(label, _, count) = terms.entries[index] else { continue };
        let event = event_named(terms, names, label).filter(|_| count > 1);
        let counted = match Labelled::of(terms, label) {
            // What is denied has no effects.
            Labelled::Denied(event) => {
                let step = format!("me denied {} someone", names.event(event));
                format!(
                    "say it step by step: `{step} and previously once {step}`; see docs/LANGUAGE.md, Denied tries"
                )
            }
            _ => "count along a relation that the event's effects add to".to_string(),
        };
        let (why, right) = match event {
            Some(_) if subject.sourced => {
                let name = names.label(terms, label);
                (format!("of `{name}`, and a moment has one event at most"), counted)
            }
            Some(shown) => {
                (format!("edges of {shown}, and a moment has one event edge at most"), counted)
            }
            None if count > terms.members => {
                let why = format!("members, and there are {}", terms.members);
                (why, "it never holds; ask for fewer".to_string())
            }
            None => continue,
        };
        let told = |who: String| (format!("{who} for at least {count} {why}"), right.clone());
        let about = About::Entry(index);
        let in_terms = || told(format!("entry {index} asks"));
        warnings.push(subject.warn("count", about, in_terms, || told("this asks".to_string())));
    }
    warnings
}

/// Events of a source whose names are no verbs that are known.
pub fn unsaid(subject: &Subject) -> Vec<Warning> {
    let Subject { terms, names, sourced, .. } = *subject;
    let labels = Labels::new(terms, names);
    let unsaid = (0..terms.events).filter(|event| labels.is_plain_name(terms.relations + event));
    let warn = |event: usize| {
        let name = names.event(event);
        let what = format!("the verb `{name}` is not known, and is read as \"do {name} to\"");
        let right = format!("say how it reads after \"has\": `event {name} said \"...\"`");
        Warning { kind: "verb", about: About::Policy(event), line: 0, what, right }
    };
    unsaid.filter(|_| sourced).map(warn).collect()
}

/// Names of what there isn't.
pub fn strangers(terms: &Terms, names: &Names) -> Vec<Warning> {
    const FAR: usize = 1_000;
    let counts = [
        (Kind::Member, terms.members),
        (Kind::Relation, terms.relations),
        (Kind::Event, terms.events),
    ];
    let mut warnings = Vec::new();
    for (kind, count) in counts {
        let found = (count..FAR).filter_map(|number| Some((number, names.given(kind, number)?)));
        for (number, name) in found {
            warnings.push(Warning {
                kind: "name",
                about: About::Nothing,
                line: 0,
                what: format!(
                    "names.tsv calls {kind} {number} {name}, but there is no such {kind}"
                ),
                right: format!("the count of {kind}s is {count}"),
            });
        }
    }
    warnings
}

/// Names for the first few only.
pub fn nameless(terms: &Terms, names: &Names) -> Vec<Warning> {
    let warning = |partly: String| Warning {
        kind: "name",
        about: About::Nothing,
        line: 0,
        what: format!("names.tsv names {partly}"),
        right: "is it of other terms? What has no name goes by its number".to_string(),
    };
    names.nameless(terms).into_iter().map(warning).collect()
}
