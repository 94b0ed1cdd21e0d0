//! Graphs as SVG: on a circle, or as a matrix where members are many. Members and
//! relation edges are drawn once and used by every moment that has them; the event edge
//! is a moment's own.

use super::circle::Circle;
use super::cited::Cited;
use super::edges::attribute;
use super::events;
use super::grid::Grid;
use super::html::escaped;
use super::layers::Layers;
use super::layout::Area;
use crate::words::Words;
use keeper::record::Graph;
use keeper::terms::Edge;
use std::collections::BTreeSet;

/// So many edges are named in a picture's description.
const NAMED: usize = 40;

/// A graph of more members than these is a matrix.
const MANY: usize = 20;

/// The pictures of a record.
pub struct Drawing<'a> {
    pub words: &'a Words<'a>,
    graphs: &'a [Graph],
    shape: Shape<'a>,
    layers: Layers<'a>,
}

/// How graphs are drawn.
enum Shape<'a> {
    Circle(Circle<'a>),
    Grid(Grid),
}

/// What an event's effects changed.
#[derive(Default)]
pub struct Changes {
    pub added: Vec<Edge>,
    pub deleted: Vec<Edge>,
}

/// The graphs as they are drawn: without the relations that are kinds of members.
pub fn drawn(words: &Words, graphs: &[Graph]) -> Vec<Graph> {
    let kinds = words.names.kind_relations(words.terms);
    let is_drawn = |(relation, ..): &Edge| !kinds.contains(relation);
    let one = |graph: &Graph| Graph {
        edges: graph.edges.iter().copied().filter(is_drawn).collect(),
        event: graph.event,
    };
    graphs.iter().map(one).collect()
}

impl<'a> Drawing<'a> {
    pub fn new(words: &'a Words<'a>, graphs: &'a [Graph]) -> Drawing<'a> {
        let mut looped = vec![false; words.terms.members];
        for graph in graphs {
            let event = graph.event.map(|edge| (edge.from, edge.to));
            let edges = graph.edges.iter().map(|&(_, from, to)| (from, to)).chain(event);
            edges.filter(|(from, to)| from == to).for_each(|(from, _)| looped[from] = true);
        }
        let shape = match words.terms.members > MANY {
            true => Shape::Grid(Grid::new(words)),
            false => Shape::Circle(Circle::new(words, looped)),
        };
        Drawing { words, graphs, shape, layers: Layers::new(graphs) }
    }

    /// The moments that have a picture, as far as the page stays light.
    pub fn moments(&self) -> impl Iterator<Item = usize> + '_ {
        self.layers.moments()
    }

    pub fn has_picture(&self, moment: usize) -> bool {
        self.layers.of(moment).is_some()
    }

    /// Whether a picture needs the width of the page.
    pub fn is_wide(&self) -> bool {
        matches!(self.shape, Shape::Grid(_))
    }

    /// What all pictures share.
    pub fn definitions(&self) -> String {
        let mut text = String::from(
            "<svg width=\"0\" height=\"0\" aria-hidden=\"true\" class=\"shared\"><defs>\n",
        );
        text.push_str(&self.heads());
        text.push_str(&format!("<g id=\"members\">\n{}</g>\n", self.members()));
        for (index, edges) in self.layers.sets.iter().enumerate() {
            text.push_str(&self.layer_edges(edges, &format!(" id=\"edges{index}\"")));
        }
        text.push_str("</defs></svg>\n");
        text
    }

    fn heads(&self) -> String {
        match &self.shape {
            Shape::Grid(_) => String::new(),
            Shape::Circle(circle) => circle.heads(),
        }
    }

    fn members(&self) -> String {
        match &self.shape {
            Shape::Grid(grid) => grid.members(),
            Shape::Circle(circle) => circle.members(),
        }
    }

    /// The lines of events, and the picture's edges.
    fn events(&self, moment: usize, cited: &Cited) -> (String, Area) {
        let (graph, lines) =
            (&self.graphs[moment], events::lines(self.words, self.graphs, moment, cited));
        match &self.shape {
            Shape::Grid(grid) => (grid.events(&lines), grid.bounds()),
            Shape::Circle(circle) => circle.events(graph, &lines),
        }
    }

    /// The relation edges of a graph as one group.
    fn layer_edges(&self, edges: &BTreeSet<Edge>, name: &str) -> String {
        let drawn = match &self.shape {
            Shape::Grid(grid) => grid.marks(edges.iter(), edges, self.words),
            Shape::Circle(circle) => circle.edges(edges.iter(), edges, ""),
        };
        format!("<g{name}>\n{drawn}</g>\n")
    }

    /// What sets edges of a graph off that it has got at its moment.
    fn added_edges(&self, added: &[Edge], all: &BTreeSet<Edge>) -> String {
        match &self.shape {
            Shape::Grid(grid) => grid.boxes(added.iter()),
            Shape::Circle(circle) => circle.edges(added.iter(), all, " added"),
        }
    }

    /// The picture of one moment with what was asked at it; what all share is taken from the
    /// definitions.
    pub fn picture(&self, moment: usize, cited: &Cited) -> String {
        let layer = self.layers.of(moment).unwrap_or_default();
        let edges = format!("<use href=\"#edges{layer}\"/>\n");
        self.scene(moment, cited, ["", &edges, "<use href=\"#members\"/>"])
    }

    /// The picture of one moment for a page that has no definitions, and none but
    /// this. Members have their numbers, to be clicked at.
    pub fn alone(&self, moment: usize, cited: &Cited) -> String {
        let defined = format!("<defs>\n{}</defs>\n", self.heads());
        let edges = self.layer_edges(&self.graphs[moment].edges, "");
        self.scene(moment, cited, [&defined, &edges, &self.members()])
    }

    fn scene(&self, moment: usize, cited: &Cited, [defined, edges, members]: [&str; 3]) -> String {
        let graph = &self.graphs[moment];
        let (events, (left, top, right, bottom)) = self.events(moment, cited);
        let (wide, high) = (right - left, bottom - top);
        let added = self.changes(moment).added;
        format!(
            "<svg class=\"graph\" viewBox=\"{left:.0} {top:.0} {wide:.0} {high:.0}\" width=\"{wide:.0}\" \
             height=\"{high:.0}\" role=\"img\" aria-labelledby=\"title{moment} desc{moment}\">\
             <title id=\"title{moment}\">{}</title><desc id=\"desc{moment}\">{}</desc>\n\
             {defined}{edges}{}{events}{members}</svg>\n",
            escaped(&self.title(moment)),
            escaped(&self.description(moment)),
            self.added_edges(&added, &graph.edges),
        )
    }

    /// The relation edges of a moment.
    pub fn edges(&self, moment: usize) -> &BTreeSet<Edge> {
        &self.graphs[moment].edges
    }

    /// The relation edges that a moment has and the one before has not, and the
    /// other way round.
    pub fn changes(&self, moment: usize) -> Changes {
        let Some(before) = moment.checked_sub(1) else { return Changes::default() };
        let (old, new) = (&self.graphs[before].edges, &self.graphs[moment].edges);
        Changes {
            added: new.difference(old).copied().collect(),
            deleted: old.difference(new).copied().collect(),
        }
    }

    /// `Moment 1: share dora → pete`.
    pub fn title(&self, moment: usize) -> String {
        match self.graphs[moment].event {
            None => format!("Moment {moment}: at the start"),
            Some(edge) => format!("Moment {moment}: {}", self.words.happened(edge)),
        }
    }

    /// The relation edges of a moment in words, and what changed. Of many edges only the
    /// number is told, for each relation.
    fn description(&self, moment: usize) -> String {
        let edges = self.edges(moment);
        let named = |edges: &mut dyn Iterator<Item = &Edge>| {
            let said = |edge: &Edge| match attribute(edge, self.words) {
                Some(said) => said,
                None => self.words.edge(edge.0, edge.1, edge.2),
            };
            edges.map(said).collect::<Vec<_>>().join(", ")
        };
        let mut text = match edges.len() {
            0 => "No relation edges.".to_string(),
            count if count > NAMED => {
                let count_of = |relation: &usize| {
                    let count = edges.iter().filter(|edge| edge.0 == *relation).count();
                    (count > 0).then(|| format!("{count} {}", self.words.names.relation(*relation)))
                };
                let counts: Vec<String> =
                    (0..self.words.terms.relations).filter_map(|one| count_of(&one)).collect();
                format!("{count} relation edges: {}.", counts.join(", "))
            }
            _ => format!("Relation edges: {}.", named(&mut edges.iter())),
        };
        let Changes { added, deleted } = self.changes(moment);
        for (what, changed) in [("Added", added), ("Removed", deleted)] {
            if !changed.is_empty() && changed.len() <= NAMED {
                text.push_str(&format!(" {what}: {}.", named(&mut changed.iter())));
            }
        }
        text
    }
}
