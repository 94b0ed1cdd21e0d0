//! Whether two terms speak of the same members, relations and events. Numbers
//! carry over, so whoever has another's number has all that the other had.

use crate::aloud::listed;
use crate::folder::Folder;
use crate::names::{Kind, Names};
use crate::source::ast::{Name, Span};
use crate::source::kinds;
use crate::source::mistake::{Mistake, Mistaken};
use crate::source::parse::parse;
use crate::stop::Stop;
use keeper::terms::Terms;

/// What has a name in both and not the same: kind, number and the old name.
pub fn renamed(terms: &Terms, old: &Names, new: &Names) -> Vec<(Kind, usize, String)> {
    let mut found = Vec::new();
    for (kind, number) in all(terms) {
        let names = (old.given(kind, number), new.given(kind, number));
        if let (Some(before), Some(name)) = names {
            if before != name {
                found.push((kind, number, before.to_string()));
            }
        }
    }
    found
}

/// The new names, and where there is none the old one.
pub fn merged(terms: &Terms, old: &Names, new: &Names) -> Names {
    let mut names = new.clone();
    for (kind, number) in all(terms) {
        if let (None, Some(name)) = (new.given(kind, number), old.given(kind, number)) {
            // Where the name is taken, the number stays without one.
            let _ = names.set(kind, number, name);
        }
    }
    if new.kinds().is_empty() {
        old.kinds().iter().for_each(|(kind, members)| names.group(kind, members.clone()));
    }
    names
}

fn all(terms: &Terms) -> impl Iterator<Item = (Kind, usize)> + '_ {
    Kind::ALL.into_iter().flat_map(|kind| (0..count(terms, kind)).map(move |number| (kind, number)))
}

fn count(terms: &Terms, kind: Kind) -> usize {
    match kind {
        Kind::Member => terms.members,
        Kind::Relation => terms.relations,
        Kind::Event => terms.events,
    }
}

/// Why terms with other numbers of members, relations or events are refused.
pub fn other_size(terms: &Terms, next: &Terms, old: &Folder, new: &Folder) -> Stop {
    let mut mistakes = Vec::new();
    for kind in Kind::ALL {
        let (before, after) = (count(terms, kind), count(next, kind));
        if before == after {
            continue;
        }
        let missing = only(&old.names, &new.names, kind, before);
        let added = only(&new.names, &old.names, kind, after);
        let what = format!(
            "refused: {after} {kind}s here and {before} in {}{}",
            old.path.display(),
            who(&missing, &added)
        );
        let cure = format!(
            "revising keeps the {kind}s, as many and in the same order{}; with others start over, \
             by the new terms alone",
            cure(&missing, &added)
        );
        let cure = match (kind, added.is_empty()) {
            (Kind::Member, false) => {
                format!("{cure}. Spare members, declared from the start, get their names later, with `--renamed`")
            }
            _ => cure,
        };
        let at = added
            .first()
            .and_then(|name| new.names.find(kind, name))
            .unwrap_or(after.saturating_sub(1));
        mistakes.push((kind, at, what, cure));
    }
    refused(new, mistakes)
}

/// `: cleo is new, pad is missing`.
fn who(missing: &[String], added: &[String]) -> String {
    let said = |names: &[String], what: &str| match names {
        [] => None,
        [name] => Some(format!("{name} is {what}")),
        names => Some(format!("{} are {what}", listed(names))),
    };
    let parts: Vec<String> =
        [said(added, "new"), said(missing, "missing")].into_iter().flatten().collect();
    if parts.is_empty() {
        String::new()
    } else {
        format!(": {}", parts.join(", "))
    }
}

fn cure(missing: &[String], added: &[String]) -> String {
    let mut parts = Vec::new();
    if !added.is_empty() {
        parts.push(format!("leave out {}", listed(added)));
    }
    if !missing.is_empty() {
        parts.push(format!("put back {}", listed(missing)));
    }
    match parts.is_empty() {
        true => String::new(),
        false => format!(": {}", parts.join(" and ")),
    }
}

/// The names of a kind that are in one and not in the other.
fn only(these: &Names, those: &Names, kind: Kind, count: usize) -> Vec<String> {
    let names = (0..count).filter_map(|number| these.given(kind, number));
    names.filter(|name| those.find(kind, name).is_none()).map(str::to_string).collect()
}

/// Why terms with other names are refused.
pub fn other_names(
    terms: &Terms,
    old: &Folder,
    new: &Folder,
    renamed: &[(Kind, usize, String)],
) -> Stop {
    let mut mistakes = Vec::new();
    for kind in Kind::ALL {
        let Some((_, number, before)) = renamed.iter().find(|(of, _, _)| *of == kind) else {
            continue;
        };
        let (name, shown) = (new.names.name(kind, *number), old.path.display());
        let order: Vec<String> =
            (0..count(terms, kind)).map(|number| old.names.name(kind, number)).collect();
        let what = match new.names.find(kind, before) {
            Some(_) => {
                format!("the {kind}s stand in another order than in {shown}: {name} for {before}")
            }
            None => format!("{kind} {number} is {name} here and {before} in {shown}"),
        };
        let cure = format!(
            "numbers carry over, and {name} would go on as {before}; keep the {kind}s of {shown}, {}, \
             or say --renamed if these are other names of the same",
            order.join(", ")
        );
        mistakes.push((kind, *number, what, cure));
    }
    refused(new, mistakes)
}

/// The refusal, at the places in the source if there is one.
fn refused(new: &Folder, causes: Vec<(Kind, usize, String, String)>) -> Stop {
    let file = new.file.display().to_string();
    let Some(source) = &new.source else {
        let said = causes.iter().map(|(_, _, what, cure)| format!("{file}: {what}\n  {cure}"));
        return Stop::Failed(said.collect::<Vec<_>>().join("\n"));
    };
    let mistake = |(kind, number, what, cure): (Kind, usize, String, String)| {
        Mistake::new(declared(&source.text, kind, number), what).advise(cure)
    };
    let mistakes = causes.into_iter().map(mistake).collect();
    Stop::Mistaken(Mistaken { file, text: source.text.clone(), mistakes })
}

/// Where a source declares what has a number.
fn declared(text: &str, kind: Kind, number: usize) -> Span {
    let Ok(mut source) = parse(text) else { return Span::default() };
    kinds::unfold(&mut source);
    let name = match kind {
        Kind::Member => source.members.get(number),
        Kind::Relation => source.relations.get(number),
        Kind::Event => source.events.get(number).map(|event| &event.name),
    };
    name.map_or_else(Span::default, |name: &Name| name.span)
}
