//! `cuckooormolu plan`: whether a rival can keep a member from a goal.

mod told;

use crate::arguments::Arguments;
use crate::folder::Folder;
use crate::names::Kind;
use crate::plan::{fits, moves, narrowed, Goal, Plan};
use crate::replay::Replay;
use crate::stop::{Stop, FAILING, WELL};
use crate::trial::typed::split;
use crate::words::Words;
use std::collections::BTreeSet;
use std::io::Write;
use std::path::Path;
use told::Told;

pub const HELP: &str = "\
usage: cuckooormolu plan DIR PLAN --planner WHO --rival WHO --goal GOAL [--pair A B]
                         [--events E,...] [--first] [--json]

Says whether a rival can keep a member, the planner, from a goal. PLAN is what the
planner would ask for, after the requests of DIR: one to three requests, each an event
and its target, as in \"share pete; load saw\". After each but the last the rival makes
a request of its own, or passes. The plan is accepted if, whatever the rival does, the
goal holds after one of the planner's requests. If it is rejected, the replies that
keep the planner from the goal are shown, request by request. Nothing is requested, so
nothing changes.

There are at most 8 members and 4 events. The requests of DIR are of one bank.

  --planner WHO   who makes the requests of PLAN
  --rival WHO     who replies
  --goal GOAL     the name of an event: that it would be granted; or a sentence as in a
                  terms.say: \"me owns target\". What it says about the past, and the
                  terms do not, begins now
  --pair A B      of whom it is to hold, A as `me` and B as `target`; by default the
                  planner and the target of the last request
  --events E,...  only these events can happen, and those of PLAN: for terms that have
                  more than 4
  --first         plan at moment 0, before any request of DIR
  --json          one JSON object per line: the verdict; for a rejected plan then each
                  request and each reply

Exit status: 0 accepted; 1 rejected; 2 if the plan is none; 3 if a file or the goal
cannot be read or compiled, or there are too many members or events.
";

const OPTIONS: [&str; 5] = ["--planner", "--rival", "--goal", "--pair", "--events"];

pub fn main(arguments: &[String], out: &mut dyn Write) -> Result<i32, Stop> {
    let arguments = Arguments::read(&paired(arguments), &["--first", "--json"], &OPTIONS)?;
    let [directory, text] = &arguments.rest[..] else {
        return Err(Stop::Usage("give DIR and PLAN, the plan in quotes".into()));
    };
    let folder = Folder::opening(Path::new(directory))?;
    let mut both = match arguments.has("--first") {
        true => Replay::before(&folder)?.both,
        false => Replay::of(&folder)?.both,
    };
    let (names, members) = (&folder.names, both.terms().members);
    let member = |word: &str| names.lookup(Kind::Member, word, members).map_err(Stop::Usage);
    let who = |option: &str| match arguments.option(option) {
        Some(word) => member(word),
        None => Err(Stop::Usage(format!("give {option}"))),
    };
    let moves = moves(text, both.terms(), names)?;
    let (planner, rival) = (who("--planner")?, who("--rival")?);
    if planner == rival {
        return Err(Stop::Usage("the planner and the rival are two members".into()));
    }
    let pair = match arguments.option("--pair").map(split) {
        None => (planner, moves[moves.len() - 1].1),
        Some(words) => match &words[..] {
            [first, second] => (member(first)?, member(second)?),
            _ => return Err(Stop::Usage("--pair needs two members".into())),
        },
    };
    let Some(goal) = arguments.option("--goal") else {
        return Err(Stop::Usage("give --goal".into()));
    };
    let goal = Goal::read(goal, &folder, both.terms())?;
    let events = events(arguments.option("--events"), &moves, &folder, both.terms().events)?;
    fits(both.terms(), events.len())?;
    let begins = goal.enter(&mut both)?;
    let words = Words::new(both.terms(), names);
    let plan = Plan { moves, planner, rival, goal: goal.entry, pair };
    let outcome = match events.len() == both.terms().events {
        true => plan.outcome(&both)?,
        false => {
            let place = |event: usize| events.binary_search(&event).expect("a chosen event");
            let moves = plan.moves.iter().map(|&(event, to)| (place(event), to)).collect();
            let game = narrowed(&both, &events, plan.goal, &words)?;
            let outcome = Plan { moves, ..plan.clone() }.outcome(&game)?;
            outcome.with_events(|event| events[event])
        }
    };
    let told = Told { words, plan: &plan, goal: &goal, begins, events: &events };
    match arguments.has("--json") {
        true => told.json(&outcome).iter().try_for_each(|line| writeln!(out, "{line}"))?,
        false => write!(out, "{}", told.text(&outcome))?,
    }
    Ok(if outcome.is_accepted() { WELL } else { FAILING })
}

/// The events of the game, rising: all, or those named and those of the plan.
fn events(
    named: Option<&str>,
    moves: &[(usize, usize)],
    folder: &Folder,
    count: usize,
) -> Result<Vec<usize>, Stop> {
    let Some(named) = named else { return Ok((0..count).collect()) };
    let event = |word: &str| folder.names.lookup(Kind::Event, word, count).map_err(Stop::Usage);
    let words = named.split([',', ' ']).filter(|word| !word.is_empty());
    let mut events = words.map(event).collect::<Result<BTreeSet<usize>, Stop>>()?;
    events.extend(moves.iter().map(|(event, _)| event));
    Ok(events.into_iter().collect())
}

/// The two members after `--pair` as one value.
fn paired(arguments: &[String]) -> Vec<String> {
    let Some(place) = arguments.iter().position(|word| word == "--pair") else {
        return arguments.to_vec();
    };
    let mut given = arguments.to_vec();
    if let Some(first) = given.get(place + 1).filter(|first| split(first).len() == 1) {
        if let Some(second) = given.get(place + 2).filter(|word| !word.starts_with("--")) {
            let quoted = |word: &str| format!("\"{}\"", word.trim_matches('"'));
            let both = format!("{} {}", quoted(first), quoted(second));
            given.splice(place + 1..=place + 2, [both]);
        }
    }
    given
}
