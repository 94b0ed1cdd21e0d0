//! What a text says, in either form.

use super::memory::State;
use super::*;

/// The terms with the edges of the G lines. The stored form says besides
/// what had passed; the old form is a fresh start.
#[derive(Clone, Debug, Default, PartialEq, Eq)]
pub struct File {
    pub terms: Terms,
    pub past: Option<Past>,
}

/// One set for each past-time entry: the bits that are set, where it holds now.
pub type Tables = Vec<BTreeSet<Bit>>;

/// What is left of the moments before: T lines and V line.
#[derive(Clone, Debug, Default, PartialEq, Eq)]
pub struct Past {
    pub tables: Tables,
    pub event: Option<EventEdge>,
}

impl File {
    /// The file of terms and a state: the stored form.
    pub fn stored(terms: &Terms, state: &State) -> File {
        let terms = Terms { edges: state.edges.clone(), ..terms.clone() };
        File { terms, past: Some(state.past.clone()) }
    }

    /// Its text, no number padded. Nothing is checked.
    pub fn text(&self) -> Vec<u8> {
        let edges = self.terms.edges.clone();
        match &self.past {
            None => write(&self.terms, &edges),
            Some(past) => store(&self.terms, &State { edges, past: past.clone() }),
        }
    }
}
