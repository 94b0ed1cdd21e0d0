//! What stands for what in pictures: relations, kinds of members, events.

use super::drawing::Drawing;
use super::glyphs;
use super::grid::CROSS;
use super::heads;
use super::html::escaped;
use super::palette;

/// What stands for each relation, and who is of which kind, as the items of a list.
pub fn items(drawing: &Drawing) -> String {
    relations(drawing) + &kinds(drawing)
}

fn relations(drawing: &Drawing) -> String {
    let words = drawing.words;
    let hidden = words.names.kind_relations(words.terms);
    let relations = (0..words.terms.relations).filter(|one| !hidden.contains(one));
    let item = |relation: usize| {
        let sample = match drawing.is_wide() {
            true => glyphs::mark(relation, (7.0, 7.0), 5.5, ""),
            false => format!(
                "<path class=\"{}\" d=\"M1 7H40\" marker-end=\"url(#{})\"/>",
                palette::classes(relation),
                heads::name(relation)
            ),
        };
        entry(drawing, &sample, &escaped(&words.names.relation(relation)))
    };
    relations.map(item).collect()
}

fn kinds(drawing: &Drawing) -> String {
    let words = drawing.words;
    let item = |(kind, members): &(String, Vec<usize>)| {
        let members: Vec<String> = members.iter().map(|one| words.member(*one)).collect();
        format!("<li>{}: {}</li>\n", escaped(kind), escaped(&members.join(", ")))
    };
    words.names.kinds().iter().map(item).collect()
}

/// The legend of a page with so many moments, and how many of them are drawn.
pub fn list(drawing: &Drawing, moments: usize) -> String {
    let what = if drawing.is_wide() { "Marks" } else { "Lines" };
    let mut text = format!("<ul class=\"legend\" aria-label=\"{what} in the pictures\">\n");
    text.push_str(&relations(drawing));
    let event = |class: &str, said: &str| {
        let sample = match drawing.is_wide() {
            true => format!("<rect class=\"{class}\" x=\"1\" y=\"1\" width=\"12\" height=\"12\"/>"),
            false => {
                format!("<path class=\"{class}\" d=\"M1 7H36\" marker-end=\"url(#arrow)\"/>")
            }
        };
        entry(drawing, &sample, said)
    };
    text.push_str(&event("event-edge", "what just happened"));
    if !drawing.words.terms.kept.is_empty() {
        text.push_str(&event("event-edge denied-edge", "what was just tried and denied"));
    }
    text.push_str(&asked(drawing));
    if drawing.moments().any(|moment| !drawing.changes(moment).added.is_empty()) {
        text.push_str(&added(drawing));
    }
    text.push_str(&kinds(drawing));
    text.push_str("</ul>\n");
    if drawing.is_wide() {
        text.push_str("<p class=\"quiet\">A mark is an edge from its row to its column.</p>\n");
    }
    let count = drawing.moments().count();
    if count < moments {
        text.push_str(&format!(
            "<p class=\"quiet\">{count} of {moments} moments are drawn: the first, the last, and those at which \
             relations change.</p>\n",
        ));
    }
    text
}

/// How denied requests and past events are drawn.
fn asked(drawing: &Drawing) -> String {
    let (denied, past) = match drawing.is_wide() {
        true => (
            format!("<path class=\"crossed\" transform=\"translate(7 7)\" d=\"{CROSS}\"/>"),
            "<rect class=\"past-edge\" x=\"1\" y=\"1\" width=\"12\" height=\"12\"/>".to_string(),
        ),
        false => (
            "<path class=\"asked-edge\" d=\"M1 7H36\" marker-end=\"url(#crossed)\"/>".to_string(),
            "<path class=\"past-edge\" d=\"M1 7H40\" marker-end=\"url(#arrow-past)\"/>".to_string(),
        ),
    };
    entry(drawing, &denied, "a denied request")
        + &entry(drawing, &past, "a past event that a reason tells of")
}

/// How an edge is set off that a moment has got.
fn added(drawing: &Drawing) -> String {
    match drawing.is_wide() {
        true => {
            let sample = "<rect class=\"boxed\" x=\"1.5\" y=\"1.5\" width=\"11\" height=\"11\"/>";
            entry(drawing, sample, "added at the moment")
        }
        false => {
            let sample = "<path class=\"edge added plain\" d=\"M1 7H48\"/>";
            entry(drawing, sample, "thicker: added at the moment")
        }
    }
}

fn entry(drawing: &Drawing, sample: &str, said: &str) -> String {
    let wide = if drawing.is_wide() { 14 } else { 52 };
    format!(
        "<li><svg width=\"{wide}\" height=\"14\" viewBox=\"0 0 {wide} 14\" aria-hidden=\"true\">{sample}</svg>\
         {said}</li>\n"
    )
}
