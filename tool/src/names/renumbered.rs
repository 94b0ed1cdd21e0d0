//! The names of members with other numbers.

use super::{Kind, Names};
use keeper::renumber::Numbering;

impl Names {
    /// The same names, each member's under its new number.
    pub fn renumbered(&self, numbering: &Numbering) -> Names {
        let number = |kind: Kind, number: usize| match kind {
            Kind::Member => numbering.member(number),
            Kind::Relation | Kind::Event => number,
        };
        let names = self.names.iter();
        let kinds = self.kinds.iter().map(|(kind, members)| {
            let mut members: Vec<usize> =
                members.iter().map(|&member| numbering.member(member)).collect();
            members.sort_unstable();
            (kind.clone(), members)
        });
        Names {
            names: names
                .map(|(&(kind, of), name)| ((kind, number(kind, of)), name.clone()))
                .collect(),
            kinds: kinds.collect(),
            ..self.clone()
        }
    }
}
