//! What is told of a plan, in words and for programs.

use crate::aloud::listed;
use crate::both::Verdict;
use crate::json::Json;
use crate::plan::{Goal, Outcome, Plan, Played};
use crate::words::{answered, Words};

/// What is told of a plan.
pub struct Told<'a> {
    pub words: Words<'a>,
    pub plan: &'a Plan,
    pub goal: &'a Goal,
    /// Whether the goal says something about the past that the terms do not.
    pub begins: bool,
    /// The events that can happen.
    pub events: &'a [usize],
}

impl Told<'_> {
    pub fn text(&self, outcome: &Outcome) -> String {
        let [planner, rival] =
            [self.plan.planner, self.plan.rival].map(|who| self.words.member(who));
        let goal = |after: Option<&str>| self.goal.said(&self.words, self.plan.pair, after);
        let mut text = match outcome {
            Outcome::Accepted { latest } => {
                let after = match (self.plan.moves.len(), *latest) {
                    (1, _) => "after it".to_string(),
                    (_, 1) => "after the first request already".to_string(),
                    (_, latest) => format!("after request {latest} at the latest"),
                };
                format!("Accepted: whatever {rival} does, {}.\n", goal(Some(&after)))
            }
            Outcome::Rejected { moves, replies } => {
                let head = if replies.iter().all(Option::is_none) {
                    format!("Rejected: {planner} does not get there even if {rival} only passes.\n")
                } else {
                    format!("Rejected: {rival} can keep {planner} from it.\n")
                };
                let lines = self.lines(moves, replies);
                format!("{head}\n{lines}\n{}.\n", goal(None))
            }
        };
        if outcome.is_accepted() && self.events.len() < self.words.terms.events {
            let names: Vec<String> = self.event_names();
            text.push_str(&format!(
                "\nOnly {} can happen in this game: by another event {rival} may still keep {planner} from it.\n",
                listed(&names)
            ));
        }
        if self.begins {
            text.push_str(
                "\nThe terms have no such sentence about the past: it begins now, and nothing earlier \
                 counts for\nit but the last event.\n",
            );
        }
        text
    }

    /// The events that can happen.
    fn event_names(&self) -> Vec<String> {
        self.events.iter().map(|event| self.words.names.event(*event)).collect()
    }

    /// The requests of the planner, numbered, and below each the rival's reply.
    fn lines(&self, moves: &[Played], replies: &[Option<Played>]) -> String {
        let said = |played: &Played| self.words.event(played.event, played.from, played.to);
        let all = moves.iter().chain(replies.iter().flatten());
        let wide = all.map(|played| said(played).chars().count()).max().unwrap_or(0);
        let mut text = String::new();
        for (place, played) in moves.iter().enumerate() {
            let line = |mark: String, played: &Played| {
                format!("{mark}  {:wide$}  {}\n", said(played), answered(played.verdict))
            };
            text.push_str(&line((place + 1).to_string(), played));
            match replies.get(place) {
                Some(Some(reply)) => text.push_str(&line(" ".into(), reply)),
                Some(None) => {
                    text.push_str(&format!("   {} passes\n", self.words.member(self.plan.rival)));
                }
                None => {}
            }
        }
        text
    }

    pub fn json(&self, outcome: &Outcome) -> Vec<Json> {
        let name = |member: usize| self.words.names.member(member);
        let latest = match outcome {
            Outcome::Accepted { latest } => Some(*latest),
            Outcome::Rejected { .. } => None,
        };
        let mut lines = vec![Json::Object(vec![
            ("accepted", outcome.is_accepted().into()),
            ("planner", name(self.plan.planner).into()),
            ("rival", name(self.plan.rival).into()),
            ("goal", self.goal.text().into()),
            ("pair", vec![name(self.plan.pair.0), name(self.plan.pair.1)].into()),
            ("latest", latest.into()),
            ("begins", self.begins.into()),
            ("events", self.event_names().into()),
        ])];
        let Outcome::Rejected { moves, replies } = outcome else { return lines };
        for (place, played) in moves.iter().enumerate() {
            let mut fields = vec![("move", (place + 1).into())];
            fields.extend(self.fields(played));
            lines.push(Json::Object(fields));
            if let Some(reply) = replies.get(place) {
                let mut fields = vec![("reply", (place + 1).into())];
                match reply {
                    Some(played) => fields.extend(self.fields(played)),
                    None => fields.push(("pass", true.into())),
                }
                lines.push(Json::Object(fields));
            }
        }
        lines
    }

    fn fields(&self, played: &Played) -> Vec<(&'static str, Json)> {
        let names = self.words.names;
        let granted = played.verdict == Verdict::Grant;
        vec![
            ("event", names.event(played.event).into()),
            ("from", names.member(played.from).into()),
            ("to", names.member(played.to).into()),
            ("answer", if granted { "grant" } else { "deny" }.into()),
        ]
    }
}
