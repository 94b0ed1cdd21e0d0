//! Plans against a rival: what is said of one, and the replies that defeat it.
//!
//! * `goal`: an event's policy or a sentence, as an entry of the terms
//! * `game`: the game played to its end over the proved library
//! * `narrow`: terms in which only some events can happen

mod game;
mod goal;
mod narrow;

pub use game::{Outcome, Played};
pub use goal::Goal;
pub use narrow::narrowed;

use crate::both::Both;
use crate::names::{Kind, Names};
use crate::stop::Stop;
use crate::trial::typed::split;
use keeper::terms::Terms;

/// The most members and events of a game, and the most requests of a plan.
pub const MOST_MEMBERS: usize = 8;
pub const MOST_EVENTS: usize = 4;
pub const MOST_MOVES: usize = 3;

/// Requests that one member makes, given by event and target, while a rival may do
/// something after each but the last.
#[derive(Clone, Debug, PartialEq, Eq)]
pub struct Plan {
    pub moves: Vec<(usize, usize)>,
    pub planner: usize,
    pub rival: usize,
    /// The entry that is to hold after one of them.
    pub goal: usize,
    /// Where it is to hold: at the first, with the second as target.
    pub pair: (usize, usize),
}

impl Plan {
    /// What is said of it, by the proved library and by playing the game, which have
    /// to agree. It makes no moment.
    pub fn outcome(&self, both: &Both) -> Result<Outcome, Stop> {
        let outcome = game::play(both, self)?;
        let ruled = self.ruled(both.monitor())?;
        if ruled == outcome.is_accepted() {
            return Ok(outcome);
        }
        let word = |accepted: bool| if accepted { "accepted" } else { "rejected" };
        Err(Stop::Differ(format!(
            "a plan is {} by the library, but {} where it is played",
            word(ruled),
            word(outcome.is_accepted())
        )))
    }

    fn ruled(&self, monitor: &proved::Monitor) -> Result<bool, Stop> {
        let numbers = || {
            let step = |&(event, to): &(usize, usize)| {
                Ok(proved::Move { event: event.try_into()?, to: to.try_into()? })
            };
            let moves: Vec<proved::Move> = self.moves.iter().map(step).collect::<Result<_, _>>()?;
            let pair = (self.pair.0.try_into()?, self.pair.1.try_into()?);
            let (planner, rival) = (self.planner.try_into()?, self.rival.try_into()?);
            monitor.plan(proved::Plan { moves: &moves, planner, rival, goal: self.goal, pair })
        };
        let ruled: Result<proved::Ruling, proved::Refusal> = numbers();
        ruled
            .map(proved::Ruling::is_accepted)
            .map_err(|refusal| Stop::Failed(format!("the plan is refused: {refusal}")))
    }
}

/// Stops where there are too many members for a game, or too many events in it.
pub fn fits(terms: &Terms, events: usize) -> Result<(), Stop> {
    let most = |what: &str, count: usize, most: usize, cure: &str| {
        let why = format!("a plan is decided among at most {most} {what}, and here are {count}");
        Err(Stop::Failed(format!("{why}: {cure}")))
    };
    if terms.members > MOST_MEMBERS {
        let cure = "try it in a copy of the folder, without those that do not matter to the plan";
        return most("members", terms.members, MOST_MEMBERS, cure);
    }
    if events > MOST_EVENTS {
        let cure = "name those that matter, besides those of the plan, with --events";
        return most("events", events, MOST_EVENTS, cure);
    }
    Ok(())
}

/// The moves of `share pete; load saw`: an event and its target each.
pub fn moves(text: &str, terms: &Terms, names: &Names) -> Result<Vec<(usize, usize)>, Stop> {
    let mut moves = Vec::new();
    for part in parts(text) {
        let words = split(part);
        let words: Vec<&str> = words.iter().map(String::as_str).collect();
        let [event, to] = words[..] else {
            let one = "a request of a plan is an event and its target";
            return Err(Stop::Usage(format!(
                "{one}: `share pete; load saw`; `{}` is not",
                part.trim()
            )));
        };
        let event = names.lookup(Kind::Event, event, terms.events).map_err(Stop::Usage)?;
        let to = names.lookup(Kind::Member, to, terms.members).map_err(Stop::Usage)?;
        moves.push((event, to));
    }
    match moves.len() {
        1..=MOST_MOVES => Ok(moves),
        count => Err(Stop::Usage(format!(
            "a plan has one to three requests, separated by `;`; this one has {count}"
        ))),
    }
}

/// The parts between semicolons that stand in no quotes; an empty last one is none.
fn parts(text: &str) -> Vec<&str> {
    let mut quoted = false;
    let ends = |letter: char| {
        quoted ^= letter == '"';
        letter == ';' && !quoted
    };
    let mut parts: Vec<&str> = text.split(ends).collect();
    if parts.last().is_some_and(|last| last.trim().is_empty()) {
        parts.pop();
    }
    parts
}

#[cfg(test)]
mod tests {
    use super::*;

    #[test]
    fn moves_are_read() {
        let terms = Terms { members: 2, events: 2, ..Terms::default() };
        let names = "member\t0\tpete\nmember\t1\tthe; saw\nevent\t0\tshare\nevent\t1\tload\n";
        let names = Names::read(names).unwrap();
        let read = |text: &str| moves(text, &terms, &names);
        assert_eq!(read("share pete; load \"the; saw\";").unwrap(), [(0, 0), (1, 1)]);
        assert_eq!(read("1 1").unwrap(), [(1, 1)]);
        let said = |text: &str| read(text).unwrap_err().to_string();
        assert_eq!(said("shar pete"), "no event `shar`; did you mean `share`?");
        assert!(said("share pete;; load pete").contains("an event and its target"));
        assert!(said("").ends_with("this one has 0"));
        assert!(said("load 0; load 0; load 0; load 0").ends_with("this one has 4"));
    }
}
