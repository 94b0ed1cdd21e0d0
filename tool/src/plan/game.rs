//! The game of a plan, played to its end. Every move is a request of the proved
//! library, on a copy.

use super::Plan;
use crate::both::{Both, Verdict};
use crate::stop::Stop;

/// A request that was made, and its answer.
#[derive(Clone, Copy, Debug, PartialEq, Eq)]
pub struct Played {
    pub event: usize,
    pub from: usize,
    pub to: usize,
    pub verdict: Verdict,
}

/// How a plan comes out.
#[derive(Clone, Debug, PartialEq, Eq)]
pub enum Outcome {
    /// Whatever the rival does, the goal holds after one of the first so many
    /// requests.
    Accepted { latest: usize },
    /// So played, it holds after none: each request of the planner, and after it what
    /// the rival does, a pass if none.
    Rejected { moves: Vec<Played>, replies: Vec<Option<Played>> },
}

impl Outcome {
    pub fn is_accepted(&self) -> bool {
        matches!(self, Outcome::Accepted { .. })
    }

    /// The same with other numbers for the events.
    pub fn with_events(mut self, number: impl Fn(usize) -> usize) -> Outcome {
        if let Outcome::Rejected { moves, replies } = &mut self {
            for played in moves.iter_mut().chain(replies.iter_mut().flatten()) {
                played.event = number(played.event);
            }
        }
        self
    }
}

/// Plays a plan against all that the rival can do. What it is kept by is played once
/// more, by the keeper too.
pub fn play(both: &Both, plan: &Plan) -> Result<Outcome, Stop> {
    match turn(both.monitor(), plan, 0)? {
        Turn::Reached(latest) => Ok(Outcome::Accepted { latest }),
        Turn::Kept(replies) => rejected(both.clone(), plan, replies),
    }
}

/// What becomes of the game from a move of the planner on.
enum Turn {
    /// The goal is reached, after so many requests at the latest.
    Reached(usize),
    /// The rival keeps the planner from it, by these replies.
    Kept(Vec<Option<(usize, usize)>>),
}

fn turn(before: &proved::Monitor, plan: &Plan, made: usize) -> Result<Turn, Stop> {
    let mut monitor = before.clone();
    request(&mut monitor, plan.moves[made], plan.planner)?;
    let (first, second) = (member(plan.pair.0)?, member(plan.pair.1)?);
    if monitor.tell(plan.goal, first, second).map_err(refused)?.holds() {
        return Ok(Turn::Reached(made + 1));
    }
    if made + 1 == plan.moves.len() {
        return Ok(Turn::Kept(Vec::new()));
    }
    let mut latest = 0;
    for (reply, after) in replies(&monitor, plan.rival)? {
        match turn(&after, plan, made + 1)? {
            Turn::Reached(there) => latest = latest.max(there),
            Turn::Kept(mut rest) => {
                rest.insert(0, reply);
                return Ok(Turn::Kept(rest));
            }
        }
    }
    Ok(Turn::Reached(latest))
}

/// What the rival can do, and what that leaves: first a pass, then every request that
/// leaves something else, those that are granted first.
#[allow(clippy::type_complexity)]
fn replies(
    monitor: &proved::Monitor,
    rival: usize,
) -> Result<Vec<(Option<(usize, usize)>, proved::Monitor)>, Stop> {
    let (mut granted, mut denied) = (vec![(None, monitor.clone())], Vec::new());
    let terms = monitor.terms();
    for event in terms.events() {
        for to in terms.members() {
            let reply = (event.into(), to.into());
            let mut after = monitor.clone();
            let grant = request(&mut after, reply, rival)?;
            if after.state() != monitor.state() {
                let list = if grant { &mut granted } else { &mut denied };
                list.push((Some(reply), after));
            }
        }
    }
    granted.extend(denied);
    Ok(granted)
}

/// Makes a request; gives whether it is granted.
fn request(
    monitor: &mut proved::Monitor,
    (event, to): (usize, usize),
    from: usize,
) -> Result<bool, Stop> {
    let event = event.try_into().map_err(refused)?;
    let request = proved::Request { event, from: member(from)?, to: member(to)? };
    Ok(monitor.request(request).map_err(refused)?.is_grant())
}

fn member(number: usize) -> Result<proved::Member, Stop> {
    number.try_into().map_err(refused)
}

fn refused(refusal: proved::Refusal) -> Stop {
    Stop::Failed(format!("the plan cannot be played: {refusal}"))
}

/// The game with these replies, once more.
fn rejected(
    mut both: Both,
    plan: &Plan,
    replies: Vec<Option<(usize, usize)>>,
) -> Result<Outcome, Stop> {
    let mut played = |event: usize, from: usize, to: usize| -> Result<Played, Stop> {
        let verdict = both.request(event, from, to)?;
        let goal = from == plan.planner && both.tell(plan.goal, plan.pair.0, plan.pair.1)?;
        match goal {
            true => Err(Stop::Differ("the goal of a rejected plan holds".into())),
            false => Ok(Played { event, from, to, verdict }),
        }
    };
    let (mut moves, mut answers) = (Vec::new(), Vec::new());
    for (place, (event, to)) in plan.moves.iter().enumerate() {
        moves.push(played(*event, plan.planner, *to)?);
        if let Some(reply) = replies.get(place) {
            let reply = reply.map(|(event, to)| played(event, plan.rival, to));
            answers.push(reply.transpose()?);
        }
    }
    Ok(Outcome::Rejected { moves, replies: answers })
}
