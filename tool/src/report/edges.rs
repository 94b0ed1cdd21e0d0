//! The relation edges of moments in words: all of the first, and of a later one what
//! changed.

use super::drawing::{Changes, Drawing};
use super::html::{counted, escaped};
use crate::aloud::told::Telling;
use crate::names::Kind;
use crate::words::Words;
use keeper::terms::Edge;
use std::collections::BTreeMap;

/// What is told under the picture of a moment.
pub fn told(drawing: &Drawing, moment: usize) -> String {
    match (moment, drawing.edges(moment).len()) {
        (0, 0) => "<p>no relation edges</p>\n".to_string(),
        (0, count) => format!(
            "<details><summary>{}</summary>\n<div class=\"edges\" tabindex=\"0\" role=\"region\" \
             aria-label=\"Relation edges at moment {moment}\">\n{}</div></details>\n",
            summed(drawing, moment, count),
            tables(drawing, moment)
        ),
        _ => match changed(drawing, moment) {
            none if none.is_empty() => "<p>relation edges unchanged</p>\n".to_string(),
            some => some,
        },
    }
}

/// How many edges there are, and lines, if some go both ways.
fn summed(drawing: &Drawing, moment: usize, count: usize) -> String {
    let (edges, summed) = (drawing.edges(moment), counted(count, "relation edge"));
    let back = |&&(relation, from, to): &&Edge| from < to && edges.contains(&(relation, to, from));
    match edges.iter().filter(back).count() {
        both if both == 0 || drawing.is_wide() => summed,
        both if 2 * both == count => format!("{summed}: {}, both ways", counted(both, "line")),
        both => format!("{summed}: {}, of which {both} both ways", counted(count - both, "line")),
    }
}

/// A table for each relation that has edges: from whom they lead, and to whom. Where each leads
/// to its own beginning, it says how somebody is.
fn tables(drawing: &Drawing, moment: usize) -> String {
    let words = drawing.words;
    let mut leading: BTreeMap<usize, BTreeMap<usize, Vec<String>>> = BTreeMap::new();
    for &(relation, from, to) in drawing.edges(moment) {
        leading.entry(relation).or_default().entry(from).or_default().push(words.member(to));
    }
    let row = |(from, to): (&usize, &Vec<String>)| {
        format!(
            "<tr><th scope=\"row\">{}</th><td>{}</td></tr>\n",
            escaped(&words.member(*from)),
            escaped(&to.join(", "))
        )
    };
    let table = |(relation, rows): (&usize, &BTreeMap<usize, Vec<String>>)| {
        let attribute = |(from, to): (&usize, &Vec<String>)| {
            let said = attribute(&(*relation, *from, *from), words);
            said.filter(|_| to[..] == [words.member(*from)])
        };
        let said: Option<Vec<String>> = rows.iter().map(attribute).collect();
        let (head, rows) = match said {
            Some(said) => {
                let row = |said: &String| format!("<tr><td>{}</td></tr>\n", escaped(said));
                (String::new(), said.iter().map(row).collect::<String>())
            }
            None => {
                let head =
                    ["from", "to"].map(|end| format!("<th scope=\"col\">{end}</th>")).concat();
                (format!("<thead><tr>{head}</tr></thead>\n"), rows.iter().map(row).collect())
            }
        };
        let name = escaped(&words.names.relation(*relation));
        format!(
            "<table><caption><b>{name}</b> at moment {moment}</caption>\n{head}<tbody>\n{rows}</tbody></table>\n"
        )
    };
    leading.iter().map(table).collect()
}

/// What an event's effects did to the relations; nothing if they did nothing.
pub fn changed(drawing: &Drawing, moment: usize) -> String {
    let Changes { added, deleted } = drawing.changes(moment);
    let item = |sign: &str, edge: &Edge| {
        format!("<li>{sign} {}</li>\n", escaped(&sentence(edge, drawing.words)))
    };
    let added = added.iter().map(|edge| item("+", edge));
    let items: String = added.chain(deleted.iter().map(|edge| item("−", edge))).collect();
    match items.is_empty() {
        true => items,
        false => format!("<ul class=\"changes\">\n{items}</ul>\n"),
    }
}

/// `tom is suspended`, of an edge of a named relation that leads to its own beginning.
pub fn attribute(&(relation, from, to): &Edge, words: &Words) -> Option<String> {
    let name = words.names.given(Kind::Relation, relation).filter(|_| from == to);
    let (telling, member) = (Telling::new(words.terms, words.names), words.member(from));
    name.map(|_| telling.edge(relation, &member, &member, false, true))
}

/// `ben friend cleo`, as sources have it; `tom is suspended`.
fn sentence(edge: &Edge, words: &Words) -> String {
    let &(relation, from, to) = edge;
    match words.names.given(Kind::Relation, relation) {
        Some(_) if from == to => attribute(edge, words).unwrap_or_default(),
        Some(name) => format!("{} {name} {}", words.member(from), words.member(to)),
        None => words.edge(relation, from, to),
    }
}
