//! The requests of a folder, made one after the other.

use crate::bank::Bank;
use crate::both::{Both, Verdict};
use crate::folder::{Folder, Request};
use crate::stop::Stop;

/// One line of requests.tsv and its answer.
#[derive(Clone, Copy, Debug, PartialEq, Eq)]
pub struct Step {
    /// Its line, from 1.
    pub line: usize,
    /// Its bank, where there are two.
    pub bank: Option<Bank>,
    pub request: Request,
    pub verdict: Verdict,
    /// The moment at which it was asked.
    pub moment: usize,
    /// Whether it made the next: a grant does, and a denial of a kept event.
    pub made: bool,
}

/// All requests answered, and the record they made.
pub struct Replay {
    pub both: Both,
    pub steps: Vec<Step>,
}

impl Replay {
    /// Reads the terms and makes all requests. Requests of two banks are refused.
    pub fn of(folder: &Folder) -> Result<Replay, Stop> {
        folder.of_one_bank()?;
        let mut replay = Replay::before(folder)?;
        for request in folder.requests() {
            replay.make(request)?;
        }
        Ok(replay)
    }

    /// Reads the terms and makes no request.
    pub fn before(folder: &Folder) -> Result<Replay, Stop> {
        Ok(Replay { both: folder.accepted()?, steps: Vec::new() })
    }

    /// Makes one request more.
    pub fn make(&mut self, request: Request) -> Result<Step, Stop> {
        let moment = self.moment();
        let verdict = match request {
            Request::Ask { event, from, to } => self.both.request(event, from, to)?,
            Request::Malformed => Verdict::Refused(1),
        };
        let made = self.moment() > moment;
        let line = self.steps.len() + 1;
        let step = Step { line, bank: None, request, verdict, moment, made };
        self.steps.push(step);
        Ok(step)
    }

    /// The present moment.
    pub fn moment(&self) -> usize {
        self.both.record().graphs().len() - 1
    }

    /// The requests made at a moment. They stand together.
    pub fn at(&self, moment: usize) -> &[Step] {
        let first = self.steps.partition_point(|step| step.moment < moment);
        let end = self.steps.partition_point(|step| step.moment <= moment);
        &self.steps[first..end]
    }
}
