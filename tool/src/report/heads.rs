//! The ends of lines. A relation has a head and a dash of its own, so that it is told
//! apart without its colour, too.

use super::palette;

/// How many shapes there are.
const SHAPES: usize = 4;

/// The heads of relations and of events, for the definitions of a picture. A denied request
/// ends in a cross.
pub fn all(relations: usize, size: f64) -> String {
    let one = |relation: usize| head(&name(relation), &shape(relation), size);
    let events = [
        head("arrow", &triangle("event-arrow"), EVENT),
        head("arrow-past", &triangle("past-arrow"), size),
        head(
            "crossed",
            "<path class=\"crossed\" d=\"M0-3.6L7.2 3.6M0 3.6L7.2-3.6M0 0H4\"/>",
            EVENT,
        ),
    ];
    (0..relations).map(one).chain(events).collect()
}

/// The length of an event's head.
pub const EVENT: f64 = 13.0;

/// What a line with a relation's head refers to.
pub fn name(relation: usize) -> String {
    format!("arrow{relation}")
}

fn head(name: &str, shape: &str, size: f64) -> String {
    format!(
        "<marker id=\"{name}\" viewBox=\"0 -4 8 8\" refX=\"1\" refY=\"0\" markerWidth=\"{size}\" \
         markerHeight=\"{size}\" markerUnits=\"userSpaceOnUse\" orient=\"auto-start-reverse\">{shape}</marker>\n",
    )
}

/// A triangle, an open angle, a hollow triangle or a diamond. Relations of one dash
/// differ in their heads.
fn shape(relation: usize) -> String {
    let colour = palette::colour(relation);
    match (palette::dash(relation) + relation / palette::DASHES) % SHAPES {
        0 => triangle(&format!("a{colour}")),
        1 => format!("<path class=\"c{colour} open\" d=\"M0 0H7M1-3.4L7.2 0L1 3.4\"/>"),
        2 => format!("<path class=\"c{colour} empty\" d=\"M.7-3.2L7.2 0L.7 3.2z\"/>"),
        _ => format!("<path class=\"a{colour}\" d=\"M0 0L4-3.6L8 0L4 3.6z\"/>"),
    }
}

fn triangle(class: &str) -> String {
    format!("<path class=\"{class}\" d=\"M0-3.5L8 0L0 3.5z\"/>")
}
