//! The marks of relations in a matrix: each has a shape of its own, so that it is told
//! apart without its colour, too.

use super::palette;

/// The shapes, from -1 to 1: first ● ◆ ▲ +. A cross and a tick are answers. Those that are
/// drawn by lines alone are hollow.
const SHAPES: [(Form, &str); 16] = [
    (Form::Filled, "M-1 0A1 1 0 1 1 1 0A1 1 0 1 1-1 0z"),
    (Form::Filled, "M0-1.1L1.1 0L0 1.1L-1.1 0z"),
    (Form::Filled, "M0-1L1 .9H-1z"),
    (Form::Hollow, "M0-1V1M-1 0H1"),
    (Form::Filled, "M-.9-.9H.9V.9H-.9z"),
    (Form::Hollow, "M-.75 0A.75.75 0 1 1 .75 0A.75.75 0 1 1-.75 0z"),
    (Form::Filled, "M0 1L1-.9H-1z"),
    (Form::Hollow, "M-.8-.8H.8V.8H-.8z"),
    (Form::Filled, "M-.9-1H.9L-.9 1H.9z"),
    (Form::Hollow, "M-1-.5H1M-1 .5H1"),
    (Form::Hollow, "M0-.7L.75 .7H-.75z"),
    (Form::Filled, "M-1-.4H1V.4H-1z"),
    (Form::Hollow, "M0-.9L.9 0L0 .9L-.9 0z"),
    (Form::Filled, "M-.4-1H.4V1H-.4z"),
    (Form::Hollow, "M-.5-1V1M.5-1V1"),
    (Form::Filled, "M-1-1V1H1z"),
];

#[derive(Clone, Copy)]
enum Form {
    Filled,
    Hollow,
}

/// The mark of a relation around a point, so far to each side; `within` is what it contains.
pub fn mark(relation: usize, (x, y): (f64, f64), half: f64, within: &str) -> String {
    let (form, path) = SHAPES[relation % SHAPES.len()];
    let colour = palette::colour(relation);
    let class = match form {
        Form::Filled => format!("a{colour}"),
        Form::Hollow => format!("c{colour} hollow"),
    };
    format!(
        "<path class=\"mark {class}\" transform=\"translate({x:.1} {y:.1})scale({half:.1})\" \
         d=\"{path}\">{within}</path>\n"
    )
}

#[cfg(test)]
mod tests {
    use super::*;
    use keeper::terms::MOST_RELATIONS;
    use std::collections::BTreeSet;

    #[test]
    fn no_two_relations_have_one_shape() {
        let shapes: BTreeSet<&str> = SHAPES.iter().map(|(_, path)| *path).collect();
        assert_eq!(shapes.len(), MOST_RELATIONS);
    }
}
