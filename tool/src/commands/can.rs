//! `cuckooormolu can`: the shortest way to a request that is granted.

mod never;

use crate::arguments::Arguments;
use crate::both::{Both, Verdict};
use crate::folder::{Folder, Request};
use crate::json::Json;
use crate::names::Names;
use crate::reach::{search, search_telling, Found, Limits};
use crate::replay::Replay;
use crate::stop::{Stop, FAILING, WELL};
use crate::trial::typed::split;
use crate::words::Words;
use keeper::terms::Terms;
use never::never;
use proved::raw;
use std::io::{IsTerminal, Write};
use std::path::Path;
use std::time::{Duration, Instant};

pub const HELP: &str = "\
usage: cuckooormolu can DIR REQUEST [--within N] [--first] [--json]

Says whether a request can come to be granted after the requests of a folder, and shows
the shortest list of further requests, of anybody, after which it is. REQUEST is who
asks, the event and who is asked, as in \"pete load saw\"; the event may come first.

If it fails by a kind or a relation that no event changes, or by what is remembered for
good, it is never granted, and that is said at once. Otherwise every state that can be
reached is tried, those of fewer requests first; each step is made by the proved library.
If no list is found, all states were seen, and there is none; or none within N requests;
or the search takes too long or too much memory, and says so. On a terminal it shows how
far it is. Nothing is requested, so nothing changes.

  --within N   seek lists of at most N requests
  --first      begin at moment 0, before any request of DIR
  --json       one JSON object: `granted`, and `requests` or why there are none

Exit status: 0 if there is such a list; 1 if none was found; 3 if a file cannot be read
or compiled.
";

pub fn main(arguments: &[String], out: &mut dyn Write) -> Result<i32, Stop> {
    let arguments = Arguments::read(arguments, &["--first", "--json"], &["--within"])?;
    let [directory, words @ ..] = &arguments.rest[..] else {
        return Err(Stop::Usage("give DIR and REQUEST".into()));
    };
    let folder = Folder::opening(Path::new(directory))?;
    let both = match arguments.has("--first") {
        true => Replay::before(&folder)?.both,
        false => Replay::of(&folder)?.both,
    };
    let request = asked(words, both.terms(), &folder.names)?;
    let within = match arguments.option("--within") {
        None => usize::MAX,
        Some(word) => word
            .parse()
            .map_err(|_| Stop::Usage(format!("--within needs a number; `{word}` is none")))?,
    };
    let words = Words::new(both.terms(), &folder.names);
    if let Some(never) = never(&both, request, &words)? {
        let asked = words.event(request.event, request.from, request.to);
        match arguments.has("--json") {
            true => writeln!(out, "{}", never.json(request, &folder.names))?,
            false => write!(out, "{}", never.text(&asked))?,
        }
        return Ok(FAILING);
    }
    let limits = Limits { within, ..Limits::USUAL };
    let found = match std::io::stderr().is_terminal() {
        true => shown(|tell| search_telling(both.monitor(), request, limits, tell)),
        false => search(both.monitor(), request, limits),
    };
    let steps = match &found {
        Found::After(list) => confirmed(both.clone(), list, request)?,
        _ => Vec::new(),
    };
    match arguments.has("--json") {
        true => writeln!(out, "{}", json(&found, &steps, request, within, &folder.names))?,
        false => write!(out, "{}", text(&found, &steps, request, within, &words))?,
    }
    Ok(if matches!(found, Found::After(_)) { WELL } else { FAILING })
}

/// The request that is asked about: who asks, the event, who is asked; or the event
/// first.
fn asked(words: &[String], terms: &Terms, names: &Names) -> Result<raw::Request, Stop> {
    let words = match words {
        [one] => split(one),
        words => words.to_vec(),
    };
    let [first, second, to] = &words[..] else {
        let form = "a request is who asks, the event and who is asked: \"pete load saw\"";
        return Err(Stop::Usage(form.into()));
    };
    let [event, from, to] = names.asked([first, second, to], terms).map_err(Stop::Usage)?;
    Ok(raw::Request { event, from, to })
}

/// A search that shows on the terminal how far it is.
fn shown(search: impl FnOnce(&mut dyn FnMut(usize, usize)) -> Found) -> Found {
    let (mut last, mut told) = (Instant::now(), false);
    let found = search(&mut |states, depth| {
        if last.elapsed() >= Duration::from_millis(500) {
            eprint!("\r{states} states seen, up to {}  ", counted(depth, "request"));
            (last, told) = (Instant::now(), true);
        }
    });
    if told {
        eprint!("\r\x1b[K");
    }
    found
}

/// The requests with their answers, made once more, by the keeper too.
fn confirmed(
    both: Both,
    list: &[raw::Request],
    asked: raw::Request,
) -> Result<Vec<crate::replay::Step>, Stop> {
    let mut replay = Replay { both, steps: Vec::new() };
    for raw::Request { event, from, to } in list.iter().chain([&asked]) {
        let (event, from, to) = (*event, *from, *to);
        replay.make(Request::Ask { event, from, to })?;
    }
    match replay.steps.last().map(|step| step.verdict) {
        Some(Verdict::Grant) => Ok(replay.steps),
        _ => Err(Stop::Differ("a request that was found to be granted is denied".into())),
    }
}

fn text(
    found: &Found,
    steps: &[crate::replay::Step],
    asked: raw::Request,
    within: usize,
    words: &Words,
) -> String {
    let request = words.event(asked.event, asked.from, asked.to);
    match found {
        Found::After(list) if list.is_empty() => format!("{request} is granted now.\n"),
        Found::After(list) => {
            let widths = super::run::Widths::of(steps, words);
            let lines = steps.iter().map(|step| widths.line(step, words) + "\n");
            let lines: String = lines.collect();
            let head = format!("{request} can be granted after {}", counted(list.len(), "request"));
            format!("{head}; no shorter list does:\n\n{lines}")
        }
        Found::Never { states } => format!(
            "{request} is never granted: all {} that can be reached were seen.\n",
            counted(*states, "state")
        ),
        Found::NotWithin { states } => format!(
            "{request} is not granted within {}: of the {} that can be reached so, none grants \
             it.\nMore requests reach further states.\n",
            counted(within, "request"),
            counted(*states, "state")
        ),
        Found::GivenUp { states, within } => format!(
            "Given up after {}: there are more than can be tried here.\n{request} is not granted \
             within {}; whether it can be after more is not known.\n",
            counted(*states, "state"),
            counted(*within, "request")
        ),
    }
}

/// `1 request`, `2 requests`.
fn counted(count: usize, what: &str) -> String {
    format!("{count} {what}{}", if count == 1 { "" } else { "s" })
}

fn json(
    found: &Found,
    steps: &[crate::replay::Step],
    asked: raw::Request,
    within: usize,
    names: &Names,
) -> Json {
    let mut fields = vec![
        ("event", names.event(asked.event).into()),
        ("from", names.member(asked.from).into()),
        ("to", names.member(asked.to).into()),
        ("granted", matches!(found, Found::After(_)).into()),
    ];
    match found {
        Found::After(list) => {
            let made = steps.iter().zip(list).map(|(step, request)| {
                let granted = step.verdict == Verdict::Grant;
                Json::Object(vec![
                    ("event", names.event(request.event).into()),
                    ("from", names.member(request.from).into()),
                    ("to", names.member(request.to).into()),
                    ("answer", if granted { "grant" } else { "deny" }.into()),
                ])
            });
            fields.push(("requests", Json::List(made.collect())));
        }
        Found::Never { states } => {
            fields.push(("why", "never".into()));
            fields.push(("states", (*states).into()));
        }
        Found::NotWithin { states } => {
            fields.push(("why", "not within".into()));
            fields.push(("within", within.into()));
            fields.push(("states", (*states).into()));
        }
        Found::GivenUp { states, within } => {
            fields.push(("why", "given up".into()));
            fields.push(("within", (*within).into()));
            fields.push(("states", (*states).into()));
        }
    }
    Json::Object(fields)
}
