//! Which moments have a picture, and the sets of relation edges that pictures share.

use keeper::record::Graph;
use keeper::terms::Edge;
use std::collections::{BTreeMap, BTreeSet};

/// A story of so many moments has a picture of each.
const SHORT: usize = 60;
/// A longer one has so many at either end, and others where relations change.
const ENDS: usize = 12;

/// So many moments have a picture, with so many edges drawn in all of them.
const MOST_PICTURES: usize = 200;
const MOST_EDGES: usize = 20_000;

#[derive(Default)]
pub struct Layers<'a> {
    /// The different sets of relation edges.
    pub sets: Vec<&'a BTreeSet<Edge>>,
    /// Which one each moment with a picture has.
    of: BTreeMap<usize, usize>,
}

impl<'a> Layers<'a> {
    pub fn new(graphs: &'a [Graph]) -> Layers<'a> {
        let (mut layers, mut left) = (Layers::default(), MOST_EDGES);
        for moment in wanted(graphs).into_iter().take(MOST_PICTURES) {
            let edges = &graphs[moment].edges;
            let known = layers.sets.iter().position(|set| *set == edges);
            if known.is_none() {
                let Some(rest) = left.checked_sub(edges.len()) else { break };
                left = rest;
                layers.sets.push(edges);
            }
            layers.of.insert(moment, known.unwrap_or(layers.sets.len() - 1));
        }
        layers
    }

    /// The set that a moment's picture has, if it has a picture.
    pub fn of(&self, moment: usize) -> Option<usize> {
        self.of.get(&moment).copied()
    }

    /// The moments that have a picture.
    pub fn moments(&self) -> impl Iterator<Item = usize> + '_ {
        self.of.keys().copied()
    }
}

/// The moments that should have a picture, the most telling first.
fn wanted(graphs: &[Graph]) -> Vec<usize> {
    let count = graphs.len();
    if count <= SHORT {
        return (0..count).collect();
    }
    let ends = (0..ENDS).flat_map(|far| [far, count - 1 - far]);
    let changes =
        (ENDS..count - ENDS).filter(|&moment| graphs[moment].edges != graphs[moment - 1].edges);
    ends.chain(changes).collect()
}

#[cfg(test)]
mod tests {
    use super::*;

    fn graph(edges: &[Edge]) -> Graph {
        Graph { edges: edges.iter().copied().collect(), event: None }
    }

    #[test]
    fn a_long_story_has_its_ends_and_its_changes() {
        let graphs: Vec<Graph> =
            (0..100).map(|moment| graph(if moment < 50 { &[] } else { &[(0, 1, 2)] })).collect();
        let layers = Layers::new(&graphs);
        let wanted: Vec<usize> = (0..12).chain([50]).chain(88..100).collect();
        assert_eq!(layers.moments().collect::<Vec<_>>(), wanted);
        assert_eq!((layers.of(49), layers.of(0), layers.of(99)), (None, Some(0), Some(1)));
        assert_eq!(Layers::new(&graphs[..60]).moments().count(), 60);
    }
}
