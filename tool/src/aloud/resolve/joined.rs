//! Clauses joined by `and` and `or`.

use crate::aloud::clause::Clause;

/// All parts hold; runs of `and` are one, and what always holds or is said
/// twice is left out.
pub fn all(parts: Vec<Clause>) -> Clause {
    joined(parts, true, Clause::All, |part| match part {
        Clause::All(parts) => Ok(parts),
        other => Err(other),
    })
}

/// At least one part holds; runs of `or` are one, and what never holds or is
/// said twice is left out.
pub fn any(parts: Vec<Clause>) -> Clause {
    joined(parts, false, Clause::Any, |part| match part {
        Clause::Any(parts) => Ok(parts),
        other => Err(other),
    })
}

fn joined(
    parts: Vec<Clause>,
    neutral: bool,
    join: fn(Vec<Clause>) -> Clause,
    same: fn(Clause) -> Result<Vec<Clause>, Clause>,
) -> Clause {
    let mut flat = Vec::new();
    for part in parts {
        match same(part) {
            Ok(inner) => flat.extend(inner),
            Err(Clause::Constant(value)) if value == neutral => {}
            Err(Clause::Constant(value)) => return Clause::Constant(value),
            Err(other) => flat.push(other),
        }
    }
    let mut apart: Vec<Clause> = Vec::new();
    for part in flat {
        if !apart.contains(&part) {
            apart.push(part);
        }
    }
    match apart.len() {
        0 => Clause::Constant(neutral),
        1 => apart.remove(0),
        _ => join(apart),
    }
}
