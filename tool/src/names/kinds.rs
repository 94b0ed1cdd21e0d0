//! The relations that are only kinds of members.

use super::{Kind, Names};
use crate::source::kinds::singular;
use keeper::terms::Terms;

impl Names {
    /// The relations that a source has for its kinds of members: each leads from every
    /// member of the kind to itself and nowhere else, and no effect changes it.
    pub fn kind_relations(&self, terms: &Terms) -> Vec<usize> {
        let is_kind = |relation: &usize| {
            let Some(name) = self.given(Kind::Relation, *relation) else { return false };
            let named = self.kinds.iter().filter(|(kind, _)| singular(kind) == name);
            let mut members: Vec<usize> = named.flat_map(|(_, members)| members).copied().collect();
            members.sort_unstable();
            let edges = terms.edges.iter().copied().filter(|(of, ..)| of == relation);
            let loops = members.iter().map(|&member| (*relation, member, member));
            let mut changes = terms.effects.iter().flatten();
            !members.is_empty()
                && edges.eq(loops)
                && !changes.any(|effect| effect.relation == *relation)
        };
        (0..terms.relations).filter(is_kind).collect()
    }
}
