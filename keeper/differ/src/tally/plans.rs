//! Plans and questions, counted by outcome.

use super::{refused, Seen, Tally, PAIRED};
use keeper::expect;
use keeper::plan::{Plan, MOST_EVENTS, MOST_MEMBERS};
use keeper::terms::{Refusal, Terms};

/// What is wrong with a plan that is refused with 14, where it is one thing alone.
const NO_GAME: &str = "no game";

/// What plans and questions have to give.
pub(super) fn wanted() -> Vec<Seen> {
    let mut wanted = Vec::new();
    for kind in ["plan", "tell"] {
        wanted.extend([6, 7, 8, 9, 14].map(|number| (kind, format!("refuse {number}"))));
    }
    let verdicts = ["accepted at once", "accepted later", "rejected", "rejected by a reply"];
    wanted.extend(verdicts.map(|verdict| ("plan", verdict.into())));
    wanted.extend(["holds", "fails"].map(|told| ("tell", told.into())));
    let reasons = ["members", "events", "length", "one player", "no entry", "free variable"];
    wanted.extend(reasons.map(|reason| (NO_GAME, reason.into())));
    let paired = ["plan accepted at once", "plan rejected", "tell holds", "tell fails"];
    wanted.extend(paired.map(|outcome| (PAIRED, outcome.into())));
    wanted
}

impl Tally {
    /// Plans so far.
    pub fn plans(&self) -> usize {
        self.plans
    }

    /// A plan. Accepted later: not at its first move where the rival passes. Rejected
    /// by a reply: not where the rival passes.
    pub fn plan(&mut self, terms: &[u16], state: &[u64], plan: &Plan, got: &Result<bool, Refusal>) {
        self.plans += 1;
        if self.shrinking {
            return;
        }
        let lent = expect::lent(terms, state);
        let unopposed = || {
            let (terms, state) = lent.as_ref().ok()?;
            expect::going_on(terms, state).unopposed(plan)
        };
        let outcome = match got {
            Ok(true) if unopposed() == Some(0) => "accepted at once".into(),
            Ok(true) => "accepted later".into(),
            Ok(false) if unopposed().is_some() => "rejected by a reply".into(),
            Ok(false) => "rejected".into(),
            Err(refusal) => refused(*refusal),
        };
        if let (Err(Refusal { number: 14, .. }), Ok((terms, _))) = (got, &lent) {
            if let [reason] = reasons(terms, plan)[..] {
                self.count(NO_GAME, reason.into());
            }
        }
        self.count_paired(terms, &format!("plan {outcome}"));
        self.count("plan", outcome);
    }

    /// A question.
    pub fn tell(&mut self, terms: &[u16], got: &Result<bool, Refusal>) {
        let told = |holds| if holds { "holds".into() } else { "fails".into() };
        let outcome = got.map_or_else(refused, told);
        self.count_paired(terms, &format!("tell {outcome}"));
        self.count("tell", outcome);
    }
}

/// All that is wrong with a plan for a game under these terms.
fn reasons(terms: &Terms, plan: &Plan) -> Vec<&'static str> {
    let free = terms.free().get(plan.goal.entry).copied();
    let wrong = [
        ("members", terms.members > MOST_MEMBERS),
        ("events", terms.events > MOST_EVENTS),
        ("length", !matches!(plan.numbers.len(), 2 | 4 | 6)),
        ("one player", plan.planner == plan.rival),
        ("no entry", free.is_none()),
        ("free variable", free.is_some_and(|free| free > 1)),
    ];
    wrong.into_iter().filter(|(_, wrong)| *wrong).map(|(reason, _)| reason).collect()
}
