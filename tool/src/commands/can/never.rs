//! Why a request is never granted, where that is by what never changes.

use crate::aloud::listed;
use crate::aloud::told::Telling;
use crate::both::{Both, Verdict};
use crate::json::Json;
use crate::names::Names;
use crate::reach::fixed::{Fixed, Lack};
use crate::stop::Stop;
use crate::why::fact::NOBODY;
use crate::why::reason::{Claim, Place, Reasons};
use crate::words::Words;
use keeper::terms::Entry;
use proved::raw::Request;

/// Why a request is never granted, in lines, and why that stays so.
pub struct Never {
    lines: Vec<String>,
    stays: &'static str,
}

/// Why a request is never granted, if what never changes tells. The library denies it now, too.
pub fn never(both: &Both, asked: Request, words: &Words) -> Result<Option<Never>, Stop> {
    let Request { event, from, to } = asked;
    let Some(lacks) = Fixed::new(both.record()).fails(event, from, to) else {
        return Ok(None);
    };
    if both.look(event, from, to)? == Verdict::Grant {
        return Err(Stop::Differ("a request that cannot be granted is granted".into()));
    }
    let is_past = |lack: &Lack| both.terms().entries[lack.at.0].is_past() && lack.holds;
    let stays = match lacks.iter().filter(|lack| is_past(lack)).count() {
        0 => "no event changes that",
        past if past == lacks.len() => "that is remembered for good",
        _ => "nothing changes that",
    };
    let telling = Telling::new(both.terms(), words.names);
    let lines = lacks.iter().map(|lack| told(both, lack, &telling, words)).collect();
    Ok(Some(Never { lines, stays }))
}

impl Never {
    pub fn text(&self, request: &str) -> String {
        let Never { lines, stays } = self;
        match &lines[..] {
            [why] => format!("{request} is never granted: {why}, and {stays}.\n"),
            lines => {
                let lines: String = lines.iter().map(|line| format!("  {line}\n")).collect();
                format!("{request} is never granted, and {stays}:\n\n{lines}")
            }
        }
    }

    pub fn json(&self, asked: Request, names: &Names) -> Json {
        Json::Object(vec![
            ("event", names.event(asked.event).into()),
            ("from", names.member(asked.from).into()),
            ("to", names.member(asked.to).into()),
            ("granted", false.into()),
            ("why", "never".into()),
            ("because", self.lines.join("; ").into()),
        ])
    }
}

/// A part in a line, after the edges that lead to it.
fn told(both: &Both, lack: &Lack, telling: &Telling, words: &Words) -> String {
    let edge = |[label, from, to]: &[usize; 3]| {
        telling.edge(*label, &words.member(*from), &words.member(*to), false, true)
    };
    let edges: Vec<String> = lack.edges.iter().map(edge).collect();
    let but = if edges.is_empty() { "" } else { ", but " };
    format!("{}{but}{}", edges.join(", and "), part(both, lack, telling, words))
}

fn part(both: &Both, lack: &Lack, telling: &Telling, words: &Words) -> String {
    let Lack { at, holds, possible, .. } = *lack;
    let (entry, member, assigned) = at;
    match both.terms().entries[entry] {
        Entry::Out(label, _) if lack.no_edge => {
            telling.edge(label, &words.member(member), NOBODY, false, true)
        }
        Entry::In(label, _) if lack.no_edge => {
            telling.edge(label, NOBODY, &words.member(member), false, true)
        }
        Entry::Var(_) if holds => format!("both are {}", words.member(member)),
        Entry::Many(_, _, least) if !holds => {
            let there = (0..both.terms().members).filter(|member| possible >> member & 1 == 1);
            let there: Vec<String> = there.map(|member| words.member(member)).collect();
            let there = match there.len() {
                0 => "there can be none".to_string(),
                count => format!("there can be only {count}: {}", listed(&there)),
            };
            let sought = telling.sought(at, false);
            match least {
                1 => format!("at least 1 of the {sought} is needed, and {there}"),
                _ => format!("at least {least} {sought} are needed, and {there}"),
            }
        }
        Entry::Since(..) if holds => {
            let moment = both.record().graphs().len() - 1;
            let place = Place { entry, moment, member, assigned };
            let lines = Reasons::new(both.record()).lines(words, Claim { place, holds });
            match &lines[..] {
                [line] => line.clone(),
                _ => telling.holds(at, holds, false),
            }
        }
        _ => telling.holds(at, holds, false),
    }
}
