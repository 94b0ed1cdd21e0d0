//! What has been asked so far, and the names that can be used.

use super::Trial;
use crate::names::Kind;
use crate::replay::Step;
use crate::words::answered;

impl Trial {
    pub(super) fn list(&self) -> String {
        let line = |step: &Step| {
            format!("{:3}  {}: {}", step.line, self.asked(step), answered(step.verdict))
        };
        let mut lines: Vec<String> = self.session.steps().iter().map(line).collect();
        for (after, folder) in self.revisions.iter().rev() {
            lines.insert(*after, format!("     the terms of {}", folder.path.display()));
        }
        match lines.is_empty() {
            true => "no requests so far".to_string(),
            false => lines.join("\n"),
        }
    }

    /// A request, with its bank where there are two.
    pub(super) fn asked(&self, step: &Step) -> String {
        let request = self.words().request(step.request);
        step.bank.map_or_else(|| request.clone(), |bank| format!("{bank} {request}"))
    }

    pub(super) fn members(&self) -> String {
        let terms = self.session.terms();
        let kinds = [
            (Kind::Member, terms.members),
            (Kind::Relation, terms.relations),
            (Kind::Event, terms.events),
        ];
        let line = |&(kind, count): &(Kind, usize)| format!("{kind}s: {}", self.all(kind, count));
        kinds.iter().filter(|(_, count)| *count > 0).map(line).collect::<Vec<_>>().join("\n")
    }

    pub(super) fn all(&self, kind: Kind, count: usize) -> String {
        let names = (0..count).map(|number| self.present().names.name(kind, number));
        names.collect::<Vec<_>>().join(", ")
    }
}
