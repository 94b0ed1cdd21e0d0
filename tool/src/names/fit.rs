//! Whether names are those of some terms.

use super::{Kind, Names};
use keeper::terms::Terms;

impl Names {
    /// What shows that names are of other terms, if something does: `member 5, and the terms
    /// have 3 members`, or else `2 of 3 members`.
    pub fn unfit(&self, terms: &Terms) -> Option<String> {
        let beyond = |(kind, count): (Kind, usize)| {
            let most = self.numbers(kind).max().filter(|most| *most >= count)?;
            Some(format!("{kind} {most}, and the terms have {}", counted(kind, count)))
        };
        let beyond = counts(terms).into_iter().find_map(beyond);
        beyond.or_else(|| self.nameless(terms).into_iter().next())
    }

    /// Where the first two or more have names and the others have none, as in smaller terms:
    /// `2 of 3 members`. Names may be given to some only, and what has none goes by number.
    pub fn nameless(&self, terms: &Terms) -> Vec<String> {
        let partly = |(kind, count): (Kind, usize)| {
            let named = self.numbers(kind).count();
            let first = self.numbers(kind).all(|number| number < named);
            (first && 1 < named && named < count)
                .then(|| format!("{named} of {}", counted(kind, count)))
        };
        counts(terms).into_iter().filter_map(partly).collect()
    }

    fn numbers(&self, kind: Kind) -> impl Iterator<Item = usize> + '_ {
        self.names.keys().filter(move |(of, _)| *of == kind).map(|(_, number)| *number)
    }
}

fn counts(terms: &Terms) -> [(Kind, usize); 3] {
    [(Kind::Member, terms.members), (Kind::Relation, terms.relations), (Kind::Event, terms.events)]
}

fn counted(kind: Kind, count: usize) -> String {
    if count == 1 {
        format!("1 {kind}")
    } else {
        format!("{count} {kind}s")
    }
}
