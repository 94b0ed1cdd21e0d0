//! Requests made to one state, or to two banks that share terms and relations.

use crate::bank::Bank;
use crate::both::{Banks, Both, Verdict};
use crate::folder::{Folder, Request};
use crate::matrix::Matrix;
use crate::replay::{Replay, Step};
use crate::revise::{revise, Revised};
use crate::stop::Stop;
use crate::why::reason::Reasons;
use keeper::terms::Terms;

/// All requests answered, and what answers them.
pub enum Session {
    One(Box<Replay>),
    Two(Box<Banks>, Vec<Step>),
}

impl Session {
    /// Reads the terms of a folder and makes its requests: to two banks if they name
    /// banks.
    pub fn of(folder: &Folder) -> Result<Session, Stop> {
        folder.readable()?;
        if folder.banks.is_empty() {
            return Ok(Session::One(Box::new(Replay::of(folder)?)));
        }
        let mut session = Session::before(folder, true)?;
        for (bank, request) in folder.banks.iter().zip(folder.requests()) {
            session.make(Some(*bank), request)?;
        }
        Ok(session)
    }

    /// Reads the terms and makes no request.
    pub fn before(folder: &Folder, banked: bool) -> Result<Session, Stop> {
        Ok(match banked {
            true => Session::Two(Box::new(Banks::accepted(&folder.terms)?), Vec::new()),
            false => Session::One(Box::new(Replay::before(folder)?)),
        })
    }

    pub fn is_banked(&self) -> bool {
        matches!(self, Session::Two(..))
    }

    /// The one state; none where there are two banks.
    pub fn one(&self) -> Option<&Both> {
        match self {
            Session::One(replay) => Some(&replay.both),
            Session::Two(..) => None,
        }
    }

    pub fn terms(&self) -> &Terms {
        match self {
            Session::One(replay) => replay.both.terms(),
            Session::Two(banks, _) => banks.terms(),
        }
    }

    pub fn steps(&self) -> &[Step] {
        match self {
            Session::One(replay) => &replay.steps,
            Session::Two(_, steps) => steps,
        }
    }

    /// The present moment, the same in both banks.
    pub fn moment(&self) -> usize {
        match self {
            Session::One(replay) => replay.moment(),
            Session::Two(banks, _) => banks.moment(),
        }
    }

    /// Makes one request more, of a bank where there are two.
    pub fn make(&mut self, bank: Option<Bank>, request: Request) -> Result<Step, Stop> {
        let (banks, steps, named) = match (self, bank) {
            (Session::One(replay), None) => return replay.make(request),
            (Session::Two(banks, steps), Some(named)) => (banks, steps, named),
            _ => return Err(at_odds()),
        };
        let moment = banks.moment();
        let verdict = match request {
            Request::Ask { event, from, to } => banks.request(named, event, from, to)?,
            Request::Malformed => Verdict::Refused(1),
        };
        let (line, made) = (steps.len() + 1, banks.moment() > moment);
        let step = Step { line, bank, request, verdict, moment, made };
        steps.push(step);
        Ok(step)
    }

    /// What a request would be answered now, of a bank where there are two; it makes no
    /// moment.
    pub fn look(
        &self,
        bank: Option<Bank>,
        event: usize,
        from: usize,
        to: usize,
    ) -> Result<Verdict, Stop> {
        match (self, bank) {
            (Session::One(replay), None) => replay.both.look(event, from, to),
            (Session::Two(banks, _), Some(bank)) => banks.look(bank, event, from, to),
            _ => Err(at_odds()),
        }
    }

    /// Who may do an event to whom, in a bank where there are two.
    pub fn matrix(&self, bank: Option<Bank>, event: usize) -> Result<Matrix, Stop> {
        let all: Vec<usize> = (0..self.terms().members).collect();
        let look = |from, to| self.look(bank, event, from, to);
        Matrix::looked(event, self.moment(), all.clone(), all, look)
    }

    /// Finds reasons over the record, a bank's own where there are two.
    pub fn reasons(&self, bank: Option<Bank>) -> Result<Reasons<'_>, Stop> {
        match (self, bank) {
            (Session::One(replay), None) => Ok(Reasons::new(replay.both.record())),
            (Session::Two(banks, _), Some(bank)) => {
                let others = banks.record(bank.other()).graphs();
                Ok(Reasons::new(banks.record(bank)).beside(bank, others))
            }
            _ => Err(at_odds()),
        }
    }

    /// Goes on with the terms of a folder, in both banks where there are two.
    pub fn revise(&mut self, old: &Folder, new: &Folder, renamed: bool) -> Result<Revised, Stop> {
        match self {
            Session::One(replay) => revise(&mut replay.both, old, new, renamed),
            Session::Two(banks, _) => revise(&mut **banks, old, new, renamed),
        }
    }

    /// Goes on with terms that were gone on with before, so that they are not refused.
    pub fn revise_again(&mut self, new: &Both) -> Result<(), Stop> {
        let _ = match self {
            Session::One(replay) => replay.both.revise(new)?,
            Session::Two(banks, _) => banks.revise(new)?,
        };
        Ok(())
    }
}

/// A bank is named where there is one, or none where there are two.
fn at_odds() -> Stop {
    Stop::Failed("name a bank, left or right, in every request or in none".into())
}
