//! Plans and questions by the static library.

use super::Library;
use crate::plans;
use keeper::compare::plans::Other;
use keeper::plan::{Plan, Question};
use keeper::terms::Refusal;

impl Other for Library<'_> {
    fn plan(
        &mut self,
        plan: &Plan,
        terms: &mut [u16],
        state: &mut [u64],
        scratch: &mut [u64],
        numbers: &mut [usize],
    ) -> Result<bool, Refusal> {
        let got = plans::plan(plan, terms, state, scratch, numbers);
        self.tally.plan(terms, state, plan, &got);
        got
    }

    fn tell(
        &mut self,
        question: &Question,
        terms: &mut [u16],
        state: &mut [u64],
    ) -> Result<bool, Refusal> {
        let got = plans::tell(question, terms, state);
        self.tally.tell(terms, &got);
        got
    }
}
