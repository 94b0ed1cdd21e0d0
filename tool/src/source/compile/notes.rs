//! Mistakes gathered while a source is compiled.

use crate::source::mistake::Mistake;
use std::collections::HashSet;

/// Mistakes that were met, each told once.
#[derive(Default)]
pub struct Notes {
    pub mistakes: Vec<Mistake>,
}

impl Notes {
    /// Notes a mistake; gives what there is without one.
    pub fn take<T>(&mut self, result: Result<T, Mistake>) -> Option<T> {
        result.map_err(|mistake| self.mistakes.push(mistake)).ok()
    }

    /// The mistakes, but those about a name that was told before, or that a
    /// statement may have that could not be read.
    pub fn without(self, doubtful: &HashSet<String>) -> Vec<Mistake> {
        let (mut places, mut unknown) = (HashSet::new(), HashSet::new());
        let mut mistakes = self.mistakes;
        mistakes.sort_by_key(|mistake| mistake.span.start);
        mistakes.retain(|mistake| {
            let fresh = |name: &String| !doubtful.contains(name) && unknown.insert(name.clone());
            places.insert(mistake.span.start) && mistake.unknown.as_ref().is_none_or(fresh)
        });
        mistakes
    }
}
