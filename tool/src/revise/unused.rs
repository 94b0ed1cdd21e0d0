//! First edges that differ in the new terms: a revision does not use them.

use crate::names::Names;
use keeper::terms::Terms;

/// So many of them are told.
const TOLD: usize = 3;

/// What is said of them; none where they are the same.
pub fn told((old, before): (&Terms, &Names), (new, after): (&Terms, &Names)) -> Option<String> {
    let edge = |names: &Names, (relation, from, to): (usize, usize, usize)| {
        let (label, from_name) = (names.relation(relation), names.member(from));
        match from == to {
            true => format!("`{from_name} is {label}`"),
            false => format!("`{from_name} {label} {}`", names.member(to)),
        }
    };
    let gone = old.edges.iter().filter(|known| !new.edges.contains(known));
    let gone = gone.map(|known| format!("{} is gone", edge(before, *known)));
    let come = new.edges.iter().filter(|known| !old.edges.contains(known));
    let come = come.map(|known| format!("{} is new", edge(after, *known)));
    let all: Vec<String> = gone.chain(come).collect();
    let more = match all.len().saturating_sub(TOLD) {
        0 => String::new(),
        more => format!(", and {more} more"),
    };
    let shown = all[..all.len().min(TOLD)].join(", ");
    (!all.is_empty()).then(|| {
        format!(
            "What is there from the start differs ({shown}{more}), but a revision does not use it:\n\
             relations stay as they are, and change by events only.\n"
        )
    })
}
