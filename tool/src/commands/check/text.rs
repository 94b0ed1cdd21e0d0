//! What `check` says to people.

use super::Limits;
use crate::both::Both;
use crate::check::{effort, Fault, Warning};
use crate::folder::Folder;
use crate::names::Names;
use crate::source::mistake::Mistake;
use crate::stop::Stop;
use crate::words::grouped;
use std::collections::BTreeSet;
use std::io::Write;

/// Why a terms file is refused, at its place.
pub fn refused(fault: &Fault, folder: &Folder) -> String {
    let (file, number) = (folder.file.display(), fault.number);
    let mut said = match fault.line {
        0 => format!("{file}: refused with {number}: {}", fault.what),
        line => format!("{file}: refused with {number} at line {line}: {}", fault.what),
    };
    if let Some([shown, marks]) = fault.shown(&folder.terms) {
        let line = fault.line.to_string();
        said.push_str(&format!("\n  {line} | {shown}\n  {} | {marks}", " ".repeat(line.len())));
    }
    if !fault.right.is_empty() {
        said.push_str(&format!("\n{}", fault.right));
    }
    said
}

pub fn accepted(
    out: &mut dyn Write,
    both: &Both,
    folder: &Folder,
    limits: &Limits,
) -> Result<(), Stop> {
    writeln!(out, "accepted: {}", counts(both, &folder.names).join(", "))?;
    if let Some(stored) = stored(both) {
        writeln!(out, "{stored}")?;
        if let count @ 1.. = folder.requests().len() {
            writeln!(
                out,
                "stored, and has requests: `run` makes the {} of {} after this past; if they are in it already, empty \
                 that file",
                counted(count, "request", "requests"),
                folder.asked.display()
            )?;
        }
    }
    let untried = match effort::is_lengthy(both.effort()) {
        true => "; so nothing was worked out here, and no request was tried",
        false => "",
    };
    writeln!(out, "effort: a request works out {}{untried}", effort::told(both.effort()))?;
    if let Some(rows) = limits.effort.filter(|_| limits.exceeded_by(both.effort())) {
        writeln!(out, "effort: that is more than --effort allows, {} rows", grouped(rows))?;
    }
    Ok(())
}

fn counted(count: usize, one: &str, more: &str) -> String {
    match count {
        1 => format!("1 {one}"),
        count => format!("{count} {more}"),
    }
}

fn counts(both: &Both, names: &Names) -> Vec<String> {
    let terms = both.terms();
    // What a source has for its kinds of members nobody wrote as relations.
    let kinds = names.kind_relations(terms);
    let edges = terms.edges.iter().filter(|(relation, ..)| !kinds.contains(relation)).count();
    let effects = terms.effects.iter().map(Vec::len).sum();
    let mut parts = vec![
        counted(terms.members, "member", "members"),
        counted(terms.relations - kinds.len(), "relation", "relations"),
        counted(terms.events, "event", "events"),
        counted(terms.entries.len(), "entry", "entries"),
        counted(terms.past().len(), "of them past-time", "of them past-time"),
        counted(effects, "effect", "effects"),
        match both.is_stored() {
            true => counted(edges, "edge", "edges"),
            false => counted(edges, "first edge", "first edges"),
        },
    ];
    let kinds = names.kinds().len();
    if kinds > 0 {
        parts.insert(1, counted(kinds, "kind", "kinds"));
    }
    if !terms.kept.is_empty() {
        parts.push(counted(terms.kept.len(), "event kept when denied", "events kept when denied"));
    }
    parts
}

/// What a stored file has besides its terms.
fn stored(both: &Both) -> Option<String> {
    let tables = both.record().before().filter(|_| both.is_stored())?;
    let bits = tables.iter().map(BTreeSet::len).sum();
    let event = match both.present().event {
        Some(_) => "the last event",
        None if both.terms().past().is_empty() => "no event",
        None => "no event, as before any request",
    };
    let bits = counted(bits, "line of the past", "lines of the past");
    Some(format!("stored: with {bits} and {event}; `cuckooormolu aloud` reads them"))
}

/// A warning: at its place in the source, or with the line of the terms file.
pub fn warned(out: &mut dyn Write, warning: &Warning, folder: &Folder) -> Result<(), Stop> {
    if let (Some((_, span)), Some(source)) = (folder.place(warning.about), &folder.source) {
        let shown =
            Mistake::new(span, format!("warning: {}", warning.what)).advise(&*warning.right);
        write!(out, "{}", shown.render(&folder.file.display().to_string(), &source.text))?;
        return Ok(());
    }
    match warning.line {
        0 => writeln!(out, "warning: {}", warning.what)?,
        line => writeln!(out, "warning, line {line}: {}", warning.what)?,
    }
    if !warning.right.is_empty() {
        writeln!(out, "  {}", warning.right)?;
    }
    Ok(())
}
