//! What `check` says to programs.

use super::Limits;
use crate::both::Both;
use crate::check::{Fault, Warning};
use crate::folder::Folder;
use crate::json::Json;
use crate::source::mistake::Mistake;

fn file(folder: &Folder) -> Json {
    folder.file.display().to_string().into()
}

pub fn refused(fault: &Fault, folder: &Folder) -> Json {
    Json::Object(vec![
        ("accepted", false.into()),
        ("file", file(folder)),
        ("number", usize::from(fault.number).into()),
        ("line", fault.line.into()),
        ("from", fault.place.start.into()),
        ("to", fault.place.end.into()),
        ("what", fault.what.as_str().into()),
        ("right", fault.right.as_str().into()),
    ])
}

pub fn accepted(both: &Both, folder: &Folder, limits: &Limits) -> Json {
    let (terms, effort) = (both.terms(), both.effort());
    let mut fields = vec![
        ("accepted", true.into()),
        ("file", file(folder)),
        ("members", terms.members.into()),
        ("relations", terms.relations.into()),
        ("kinds", folder.names.kinds().len().into()),
        ("events", terms.events.into()),
        ("entries", terms.entries.len().into()),
        ("past", terms.past().len().into()),
        ("kept", terms.kept.len().into()),
        ("edges", terms.edges.len().into()),
        ("stored", both.is_stored().into()),
        ("effort", effort.into()),
        ("or_more", (effort >= proved::MOST_EFFORT).into()),
        ("requests", folder.requests().len().into()),
    ];
    if limits.effort.is_some() {
        fields.push(("within", (!limits.exceeded_by(effort)).into()));
    }
    Json::Object(fields)
}

/// What compiling warns of.
pub fn compiling(warning: &Mistake, folder: &Folder) -> Json {
    let text = folder.source.as_ref().map_or("", |source| &source.text);
    let (line, column) = warning.place(text);
    let right = warning.advice.clone().into();
    object("source", (line, column.into()), &warning.message, right, folder)
}

/// A warning. Of a terms file it has no column.
pub fn warned(warning: &Warning, folder: &Folder) -> Json {
    let placed = folder.place(warning.about).zip(folder.source.as_ref());
    let column = placed.map(|((_, span), source)| Mistake::new(span, "").place(&source.text).1);
    let place = (warning.line, column.map_or(Json::Null, Json::from));
    object(warning.kind, place, &warning.what, warning.right.as_str().into(), folder)
}

fn object(
    kind: &str,
    (line, column): (usize, Json),
    what: &str,
    right: Json,
    folder: &Folder,
) -> Json {
    Json::Object(vec![
        ("warning", kind.into()),
        ("file", file(folder)),
        ("line", line.into()),
        ("column", column),
        ("what", what.into()),
        ("right", right),
    ])
}
