//! Requests made, looked at and taken back, one line typed at a time.

mod listing;
mod saving;
pub mod typed;
mod undoing;

use crate::bank::Bank;
use crate::both::Verdict;
use crate::folder::{Folder, Request};
use crate::names::Kind;
use crate::replay::Step;
use crate::session::Session;
use crate::stop::Stop;
use crate::words::{answered, Words};
use typed::{Call, Typed};

/// What a typed line comes to.
#[derive(Clone, Debug, PartialEq, Eq)]
pub enum Reply {
    /// Lines to print.
    Said(String),
    /// The line could not be understood or done.
    Wrong(String),
    Quit,
}

/// The requests so far, and what was asked last.
pub struct Trial {
    folder: Folder,
    session: Session,
    last: Option<Step>,
    /// Whether the requests of the folder were made first.
    after: bool,
    /// The terms that were gone on with, each after so many requests.
    revisions: Vec<(usize, Folder)>,
}

impl Trial {
    /// Begins after the requests of the folder, or before them.
    pub fn new(folder: Folder, first: bool) -> Result<Trial, Stop> {
        let session = match first {
            true => Session::before(&folder, !folder.banks.is_empty())?,
            false => Session::of(&folder)?,
        };
        Ok(Trial {
            last: session.steps().last().copied(),
            folder,
            session,
            after: !first,
            revisions: Vec::new(),
        })
    }

    /// What to say at the beginning.
    pub fn greeting(&self) -> String {
        let events = self.all(Kind::Event, self.session.terms().events);
        let (count, moment) = (self.session.steps().len(), self.session.moment());
        let (banks, bank) = match self.session.is_banked() {
            false => ("", "an event"),
            true => (
                "Banks: left, right; a moment made in one is a moment in the other too, without the event there.\n",
                "a bank, an event",
            ),
        };
        format!(
            "Moment {moment}, after {count} requests. Events: {events}.\n{banks}\
             Type {bank}, who asks and who is asked; or help."
        )
    }

    /// The words that may stand where a typed line ends.
    pub fn next(&self, before: &str) -> Vec<String> {
        typed::next(before, self.session.terms(), &self.present().names)
    }

    /// Does what a line asks for. An error stops the trial.
    pub fn line(&mut self, line: &str) -> Result<Reply, Stop> {
        let typed = match typed::read(line, self.session.terms(), &self.present().names) {
            Ok(typed) => typed,
            Err(wrong) => return Ok(Reply::Wrong(wrong)),
        };
        if let Typed::Request(Call { bank, .. })
        | Typed::Look(Call { bank, .. })
        | Typed::WhyNot(Call { bank, .. })
        | Typed::Who(bank, _) = typed
        {
            if let Some(wrong) = self.at_odds(bank)? {
                return Ok(Reply::Wrong(wrong));
            }
        }
        match typed {
            Typed::Nothing => Ok(Reply::Said(String::new())),
            Typed::Request(call) => self.request(call),
            Typed::Look(call) => {
                let step = self.look(call)?;
                Ok(Reply::Said(of(step.bank, format!("would be {}", answered(step.verdict)))))
            }
            Typed::Why(all) => self.why(all),
            Typed::WhyNot(call) => {
                self.look(call)?;
                self.why(false)
            }
            Typed::Who(bank, event) => {
                let matrix = self.session.matrix(bank, event)?;
                Ok(Reply::Said(of(bank, matrix.table(&self.words()).trim_end().to_string())))
            }
            Typed::List => Ok(Reply::Said(self.list())),
            Typed::Members => Ok(Reply::Said(self.members())),
            Typed::Undo => self.undo(),
            Typed::Revise(folder, renamed) => self.revise(&folder, renamed),
            Typed::Save(file) => Ok(self.save(file.as_deref())),
            Typed::Help => Ok(Reply::Said(typed::HELP.to_string())),
            Typed::Quit => Ok(Reply::Quit),
        }
    }

    /// Why a bank, or none, cannot be named after the requests so far. Where nothing was
    /// asked yet, the first line decides.
    fn at_odds(&mut self, bank: Option<Bank>) -> Result<Option<String>, Stop> {
        if bank.is_some() == self.session.is_banked() {
            return Ok(None);
        }
        if self.session.steps().is_empty() && self.revisions.is_empty() {
            return match Session::before(&self.folder, bank.is_some()) {
                Ok(session) => {
                    (self.session, self.last) = (session, None);
                    Ok(None)
                }
                Err(Stop::Failed(why)) => Ok(Some(why)),
                Err(stop) => Err(stop),
            };
        }
        Ok(Some(match bank {
            None => "there are two banks: name one before the event, left or right".to_string(),
            Some(bank) => format!(
                "the requests so far are of one bank, so that there is no bank {bank}; two banks begin \
                 together at moment 0: `undo` them all, or begin with --first"
            ),
        }))
    }

    fn words(&self) -> Words<'_> {
        Words::new(self.session.terms(), &self.present().names)
    }

    /// The folder whose terms are in use.
    fn present(&self) -> &Folder {
        self.revisions.last().map_or(&self.folder, |(_, folder)| folder)
    }

    fn request(&mut self, Call { bank, event, from, to }: Call) -> Result<Reply, Stop> {
        let step = self.session.make(bank, Request::Ask { event, from, to })?;
        self.last = Some(step);
        let answer = answered(step.verdict);
        let without = bank.map_or(String::new(), |bank| {
            format!(", in the {} bank without the event", bank.other())
        });
        Ok(Reply::Said(of(
            bank,
            match step.made {
                true => format!("{answer}; moment {}{without}", step.moment + 1),
                false => answer.to_string(),
            },
        )))
    }

    fn look(&mut self, Call { bank, event, from, to }: Call) -> Result<Step, Stop> {
        let verdict = self.session.look(bank, event, from, to)?;
        let (request, moment) = (Request::Ask { event, from, to }, self.session.moment());
        let line = self.session.steps().len() + 1;
        let step = Step { line, bank, request, verdict, moment, made: false };
        self.last = Some(step);
        Ok(step)
    }

    fn why(&self, all: bool) -> Result<Reply, Stop> {
        let Some(step) = self.last else {
            let under = if self.revisions.is_empty() { "" } else { " under the terms in use" };
            return Ok(Reply::Wrong(format!("nothing was asked yet{under}")));
        };
        let words = self.words();
        let mut said = format!("{}: {}", self.asked(&step), answered(step.verdict));
        match self.session.reasons(step.bank)?.of(&words, &step, all)? {
            Some(because) => {
                let lines = because.told("why all");
                lines.iter().for_each(|line| said.push_str(&format!("\n  {line}")));
            }
            None => {
                if let Verdict::Refused(number) = step.verdict {
                    said.push_str(&format!("\n  {}", words.refusal(step.request, number)));
                }
            }
        }
        Ok(Reply::Said(said))
    }
}

/// What is said, with the bank that it is said of where there are two.
fn of(bank: Option<Bank>, said: String) -> String {
    bank.map_or_else(|| said.clone(), |bank| format!("{bank}: {said}"))
}
