//! A graph on a circle: members are dots, and edges bent lines with arrows.

use super::events::EventLine;
use super::heads;
use super::html::escaped;
use super::label::{sampled, Crowd};
use super::layout::{Area, Curve, Layout, Point};
use super::palette;
use crate::words::Words;
use keeper::record::Graph;
use keeper::terms::Edge;
use std::collections::BTreeSet;

/// The name of a denied request, or of a past event, is left out if it would be so far off its
/// line; where the mouse rests on the line, it is told.
const MOST_OFF: f64 = 12.0;

pub struct Circle<'a> {
    words: &'a Words<'a>,
    layout: Layout,
}

impl<'a> Circle<'a> {
    /// `has_loop`: which members have an edge to themselves at some moment.
    pub fn new(words: &'a Words<'a>, has_loop: Vec<bool>) -> Circle<'a> {
        Circle { words, layout: Layout::new(words, has_loop) }
    }

    /// The ends of lines.
    pub fn heads(&self) -> String {
        heads::all(self.words.terms.relations, self.layout.arrow)
    }

    /// The dots and their names.
    pub fn members(&self) -> String {
        let layout = &self.layout;
        let mut text = String::new();
        for (member, &(x, y)) in layout.places.iter().enumerate() {
            let (nx, ny) = layout.name_place(member);
            text.push_str(&format!(
                "<g class=\"node\" data-member=\"{member}\">\
                 <circle class=\"member\" cx=\"{x:.1}\" cy=\"{y:.1}\" r=\"{:.1}\"/>\
                 <text font-size=\"{}\" x=\"{nx:.1}\" y=\"{ny:.1}\" dy=\"{:.2}em\" \
                 text-anchor=\"{}\">{}</text></g>\n",
                layout.dot,
                layout.font,
                0.35 + 0.3 * layout.outward(member).1,
                layout.anchor(member),
                escaped(&layout.names[member]),
            ));
        }
        text
    }

    /// Some edges of a graph.
    pub fn edges<'e>(
        &self,
        some: impl Iterator<Item = &'e Edge>,
        all: &BTreeSet<Edge>,
        more: &str,
    ) -> String {
        lines(some, all).iter().map(|&line| self.relation_line(line, more)).collect()
    }

    /// The line of an edge between two members, with its arrows. It is bent enough to stand
    /// off an event's line between the two, and off those of other relations.
    fn relation_curve(&self, Line { relation, from, to, both }: Line) -> Curve {
        let others = self.words.terms.relations.clamp(2, 8) - 1;
        let apart = (0.26 / others as f64).min(0.08);
        let bend = 0.16 + apart * (relation % 8) as f64;
        let room = self.layout.arrow;
        self.layout.curve(from, to, bend, [if both { room } else { 0.0 }, room])
    }

    fn relation_line(&self, line: Line, more: &str) -> String {
        let Line { relation, from, to, both } = line;
        let mut title = self.words.edge(relation, from, to);
        if both {
            title = format!("{title}, {}", self.words.edge(relation, to, from));
        }
        let (title, classes) = (escaped(&title), palette::classes(relation));
        let path = match from == to {
            true => self.layout.loop_path(from, relation, self.layout.arrow),
            false => self.relation_curve(line).path(),
        };
        let head = heads::name(relation);
        let start = if both { format!(" marker-start=\"url(#{head})\"") } else { String::new() };
        format!(
            "<path class=\"{classes}{more}\" d=\"{path}\"{start} marker-end=\"url(#{head})\">\
             <title>{title}</title></path>\n"
        )
    }

    /// The lines of events with their names, and the picture's edges with these inside.
    pub fn events(&self, graph: &Graph, events: &[EventLine]) -> (String, Area) {
        let curves = |line: &Line| match line.from == line.to {
            true => self.layout.loop_curves(line.from, line.relation).to_vec(),
            false => vec![self.relation_curve(*line)],
        };
        let points = |curves: Vec<Curve>| curves.iter().flat_map(sampled).collect::<Vec<Point>>();
        let relations = lines(graph.edges.iter(), &graph.edges);
        let relations: Vec<Point> = relations.iter().map(curves).flat_map(points).collect();
        let own: Vec<Vec<Point>> =
            events.iter().map(|one| points(self.event_curves(one))).collect();
        let (mut crowd, mut bounds) = (Crowd::new(&self.layout), self.layout.bounds());
        let (mut paths, mut names) = (Vec::new(), String::new());
        for (index, event) in events.iter().enumerate() {
            paths.push(self.event_path(event));
            let mut others = relations.clone();
            let rest = own.iter().enumerate().filter(|(other, _)| *other != index);
            others.extend(rest.flat_map(|(_, points)| points));
            let size = (self.layout.width(&event.name) + 4.0, self.layout.font + 4.0);
            own[index].iter().for_each(|&(x, y)| bounds = around(bounds, (x, y, x, y)));
            let most = if event.look.is_now() { f64::INFINITY } else { MOST_OFF };
            if let Some(area) = crowd.place(&own[index], &others, size, most) {
                names.push_str(&self.event_name(event, area));
                bounds = around(bounds, area);
            }
        }
        // What just happened lies over the past.
        paths.reverse();
        (paths.concat() + &names, bounds)
    }

    /// An event's line. Of several between two members the first is straight, and the others
    /// are bent to either side.
    fn event_curves(&self, event: &EventLine) -> Vec<Curve> {
        if event.from == event.to {
            return self.layout.loop_curves(event.from, event.slot).to_vec();
        }
        let far = 0.2 * event.slot.div_ceil(2) as f64;
        let side = if (event.slot % 2 == 1) == (event.from < event.to) { 1.0 } else { -1.0 };
        vec![self.layout.curve(event.from, event.to, far * side, [0.0, heads::EVENT])]
    }

    fn event_path(&self, event: &EventLine) -> String {
        let mut text = String::new();
        for member in [event.from, event.to].into_iter().filter(|_| event.look.is_now()) {
            let ((x, y), radius) = (self.layout.places[member], self.layout.ring());
            text.push_str(&format!(
                "<circle class=\"taking-part\" cx=\"{x:.1}\" cy=\"{y:.1}\" r=\"{radius:.1}\"/>"
            ));
        }
        let path = match event.from == event.to {
            true => self.layout.loop_path(event.from, event.slot, heads::EVENT),
            false => self.event_curves(event).iter().map(Curve::path).collect(),
        };
        text + &format!(
            "<path class=\"{}\" d=\"{path}\" marker-end=\"url(#{})\"><title>{}</title></path>\n",
            event.look.line(),
            event.look.head(),
            escaped(&event.name),
        )
    }

    fn event_name(&self, event: &EventLine, (left, top, right, bottom): Area) -> String {
        format!(
            "<text class=\"{}\" x=\"{:.1}\" y=\"{:.1}\" dy=\"0.35em\" text-anchor=\"middle\" \
             font-size=\"{}\">{}</text>\n",
            event.look.name(),
            (left + right) / 2.0,
            (top + bottom) / 2.0,
            self.layout.font,
            escaped(&event.name),
        )
    }
}

/// The area that two lie in.
fn around(one: Area, other: Area) -> Area {
    (one.0.min(other.0), one.1.min(other.1), one.2.max(other.2), one.3.max(other.3))
}

/// An edge as it is drawn: where there is one back as well, one line with two arrows
/// stands for both.
#[derive(Clone, Copy, PartialEq, Eq, PartialOrd, Ord)]
struct Line {
    relation: usize,
    from: usize,
    to: usize,
    both: bool,
}

/// The lines for some edges of a graph.
fn lines<'e>(some: impl Iterator<Item = &'e Edge>, all: &BTreeSet<Edge>) -> BTreeSet<Line> {
    let line = |&(relation, from, to): &Edge| {
        let both = from != to && all.contains(&(relation, to, from));
        let (from, to) = if both { (from.min(to), from.max(to)) } else { (from, to) };
        Line { relation, from, to, both }
    };
    some.map(line).collect()
}
