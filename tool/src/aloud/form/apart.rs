//! Which entries are said apart.

use super::{Forms, Node};
use crate::names::Names;
use keeper::terms::Entry;

/// Shared parts larger than this are said once and numbered.
const SMALL: usize = 16;
/// Parts that are so deep are said apart and numbered. An edge and a look into
/// the past count twice.
const DEEP: usize = 20;

impl Forms<'_> {
    /// Finds the entries that are said apart: definitions, and what is long. What is used in several places is
    /// small or apart, so the sentences of any terms stay short.
    pub(super) fn set_apart(&mut self, names: &Names) {
        let uses = self.uses();
        let (mut size, mut depth) = (Vec::new(), Vec::new());
        for (index, entry) in self.terms.entries.iter().enumerate() {
            let (mut own_size, mut own_depth) = (1usize, 0usize);
            for f in entry.operands() {
                let node = self.node(f, true);
                let inside = !self.is_apart(node);
                own_size += if inside { size[node.entry] } else { 1 };
                let below = if inside { depth[node.entry] } else { 0 };
                own_depth = own_depth.max(below + self.step(*entry, node));
            }
            size.push(own_size);
            depth.push(own_depth);
            let shared = uses[index] > 1 && own_size > SMALL;
            let named = matches!(entry, Entry::Not(_) | Entry::Bind(_, _) | Entry::At(_, _));
            let defined = names.defined(index).is_some() && !names.passes_on(index, self.terms);
            self.apart[index] =
                defined || shared && !matches!(entry, Entry::Not(_)) || own_depth >= DEEP && !named;
        }
    }

    /// How much deeper an entry is than one of its operands.
    fn step(&self, entry: Entry, operand: Node) -> usize {
        match (entry, self.terms.entries[operand.entry]) {
            (Entry::Or(_, _), Entry::Or(_, _)) if operand.holds => 0,
            (Entry::Not(_) | Entry::Bind(_, _) | Entry::At(_, _), _) => 0,
            (Entry::Or(_, _), _) => 1,
            _ => 2,
        }
    }

    /// How often each entry is an operand, `not` left out, within the policies.
    fn uses(&self) -> Vec<usize> {
        let mut uses = vec![0; self.terms.entries.len()];
        let mut reached = vec![false; self.terms.entries.len()];
        for &policy in &self.terms.policies {
            reached[self.node(policy, true).entry] = true;
        }
        for index in (0..self.terms.entries.len()).rev() {
            if reached[index] {
                for f in self.terms.entries[index].operands() {
                    let node = self.node(f, true);
                    uses[node.entry] += 1;
                    reached[node.entry] = true;
                }
            }
        }
        uses
    }
}
