//! Makes tests, each from the first moment; every answer is the proved library's.

use super::because::{missing, says};
use super::{Call, Said, Test};
use crate::both::{Both, Verdict};
use crate::folder::Request;
use crate::names::Names;
use crate::replay::{Replay, Step};
use crate::source::ast::Span;
use crate::stop::Stop;
use crate::why::reason::Reasons;
use crate::why::Because;
use crate::words::Words;
use keeper::terms;

/// So many reasons of an answer are told.
const MOST_REASONS: usize = 2;

/// What came of a test.
#[derive(Clone, Debug, Default)]
pub struct Outcome {
    /// How many answers were compared.
    pub answers: usize,
    pub failures: Vec<Failure>,
    /// How many statements were left out, after something given did not happen.
    pub skipped: usize,
}

impl Outcome {
    pub fn passed(&self) -> bool {
        self.failures.is_empty()
    }
}

/// An answer that is not the expected one, or not for the expected reason.
#[derive(Clone, Debug)]
pub struct Failure {
    pub span: Span,
    pub expected: String,
    pub found: String,
    /// Why it was answered so, the first reasons, and how many are left out.
    pub reasons: Vec<String>,
    pub more: usize,
    /// Which words of the expected reason were not found.
    pub missing: Option<String>,
}

impl Failure {
    /// What was found, with the reasons, in one line.
    pub fn sentence(&self) -> String {
        let missing = self.missing.iter().map(|missing| format!("; {missing}"));
        let reasons = self.reasons.join("; ");
        format!("{} because {reasons}{}", self.found, missing.collect::<String>())
    }
}

/// Makes one test from the terms as they were read.
pub fn run(test: &Test, both: &Both, text: &[u8], names: &Names) -> Result<Outcome, Stop> {
    let mut replay = Replay { both: begun(test, both, text)?, steps: Vec::new() };
    let mut outcome = Outcome::default();
    for (index, statement) in test.statements.iter().enumerate() {
        match &statement.said {
            Said::First { .. } => {}
            Said::Made { call, granted } => {
                let request = Request::Ask { event: call.event, from: call.from, to: call.to };
                let step = replay.make(request)?;
                outcome.answers += 1;
                if (step.verdict == Verdict::Grant) != *granted {
                    let telling = Telling { replay: &replay, names };
                    let (expected, found) =
                        (telling.made(*call, *granted), telling.made(*call, !granted));
                    let failure = telling.failure(statement.span, expected, found, &step)?;
                    outcome.failures.push(failure);
                    outcome.skipped = test.statements.len() - index - 1;
                    break;
                }
            }
            Said::Asked { calls, because } => {
                outcome.answers += calls.len();
                let telling = Telling { replay: &replay, names };
                for &(call, may) in calls {
                    let failure = telling.differs(statement.span, call, may, because.as_deref())?;
                    outcome.failures.extend(failure);
                }
            }
        }
    }
    Ok(outcome)
}

/// How the requests and questions of a test are answered, whatever is expected: the
/// event of each, and whether it is granted.
pub fn answers(test: &Test, both: &Both, text: &[u8]) -> Result<Vec<(usize, bool)>, Stop> {
    let mut begun = begun(test, both, text)?;
    let mut answers = Vec::new();
    for statement in &test.statements {
        match &statement.said {
            Said::First { .. } => {}
            Said::Made { call: Call { event, from, to }, .. } => {
                answers.push((*event, begun.request(*event, *from, *to)? == Verdict::Grant));
            }
            Said::Asked { calls, .. } => {
                for (Call { event, from, to }, _) in calls {
                    answers.push((*event, begun.look(*event, *from, *to)? == Verdict::Grant));
                }
            }
        }
    }
    Ok(answers)
}

/// Moment 0 of a test: the terms with the edges that it gives.
fn begun(test: &Test, both: &Both, text: &[u8]) -> Result<Both, Stop> {
    let mut edges = both.terms().edges.clone();
    let mut own = false;
    for statement in &test.statements {
        if let Said::First { there, edges: given } = &statement.said {
            own = true;
            for edge in given {
                if *there {
                    edges.insert(*edge);
                } else {
                    edges.remove(edge);
                }
            }
        }
    }
    match own {
        true => Both::accepted(&terms::write(both.terms(), &edges)),
        false => Both::accepted(text),
    }
}

/// A test's present moment, and words for what is asked at it.
struct Telling<'a> {
    replay: &'a Replay,
    names: &'a Names,
}

impl Telling<'_> {
    fn words(&self) -> Words<'_> {
        Words::new(self.replay.both.terms(), self.names)
    }

    /// `dora share pete`, `dora denied share pete`.
    fn made(&self, call: Call, granted: bool) -> String {
        let denied = if granted { "" } else { "denied " };
        let (from, to) = (self.words().member(call.from), self.words().member(call.to));
        format!("{from} {denied}{} {to}", self.names.event(call.event))
    }

    /// `pete may not load saw`.
    fn asked(&self, call: Call, may: bool) -> String {
        let not = if may { "" } else { "not " };
        let (from, to) = (self.words().member(call.from), self.words().member(call.to));
        format!("{from} may {not}{} {to}", self.names.event(call.event))
    }

    /// How the answer to a call differs from what is expected of it, if it does.
    fn differs(
        &self,
        span: Span,
        call: Call,
        may: bool,
        wanted: Option<&str>,
    ) -> Result<Option<Failure>, Stop> {
        let Call { event, from, to } = call;
        let verdict = self.replay.both.look(event, from, to)?;
        let answer = verdict == Verdict::Grant;
        if answer == may && wanted.is_none() {
            return Ok(None);
        }
        let (request, moment) = (Request::Ask { event, from, to }, self.replay.moment());
        let step = Step { line: 0, bank: None, request, verdict, moment, made: false };
        let because = self.why(&step, true)?;
        if answer == may && wanted.is_some_and(|wanted| says(&because, wanted, self.names)) {
            return Ok(None);
        }
        let reason = wanted.map_or(String::new(), |wanted| format!(" because {wanted}"));
        let expected = self.asked(call, may) + &reason;
        let failure = self.failure(span, expected, self.asked(call, answer), &step)?;
        let unsaid = wanted.filter(|_| answer == may);
        let missing = unsaid.map(|wanted| missing(&because, wanted, self.names));
        Ok(Some(Failure { missing, ..failure }))
    }

    /// A failure with the first reasons, without what is told under definitions.
    fn failure(
        &self,
        span: Span,
        expected: String,
        found: String,
        step: &Step,
    ) -> Result<Failure, Stop> {
        let because = self.why(step, false)?;
        let lines = because.lines.iter().filter(|line| !line.starts_with(' '));
        let mut reasons: Vec<String> = lines.cloned().collect();
        let more = because.more + reasons.len().saturating_sub(MOST_REASONS);
        reasons.truncate(MOST_REASONS);
        Ok(Failure { span, expected, found, reasons, more, missing: None })
    }

    /// The reason of an answer, the whole or the first of it.
    fn why(&self, step: &Step, all: bool) -> Result<Because, Stop> {
        let because = Reasons::new(self.replay.both.record()).of(&self.words(), step, all)?;
        because.ok_or_else(|| Stop::Failed(format!("an answer without a reason: {}", step.verdict)))
    }
}
