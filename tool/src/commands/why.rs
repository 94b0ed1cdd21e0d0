//! `cuckooormolu why`: the reason of each answer, with the moments that decide it.

use super::run;
use crate::arguments::Arguments;
use crate::bank::Bank;
use crate::both::Verdict;
use crate::folder::{Folder, Request};
use crate::json::Json;
use crate::replay::Step;
use crate::session::Session;
use crate::stop::{Stop, WELL};
use crate::trial::typed::split;
use crate::why::reason::Reasons;
use crate::why::Because;
use crate::words::Words;
use std::io::Write;

pub const HELP: &str = "\
usage: cuckooormolu why DIR [LINE | REQUEST] [- | --requests FILE] [--all] [--json]

Says why each request of a folder, or the one on LINE of its file, is granted or
denied, with the moments that decide it. Moment 0 is the first edges, or what was
stored; each grant makes a moment, and so does each denial of a kept event: such a
line ends with the moment it makes, `granted; moment 2`, another one with the moment
at which it was asked, `denied at moment 2`. For a denial, lists what alone was enough
to deny it, then each possibility that failed, nearest miss first. Where a condition
held at no moment, it tells at which ones a part of it did, and what was lacking then.

A REQUEST, such as load pete saw, is not made: it says why it would be granted or denied
after the requests of the folder. With `-` these are read from standard input.

If the requests name their banks, left or right, each answer is explained by what its
own bank has seen. Where an event of the other bank would have counted, it says so.

  --requests FILE
           explain the requests of FILE, by name or by number, not the folder's
  --all    every line and every fact, not only the first few
  --json   one JSON object per line; `unseen` has the moments of the other bank

Exit status: 0; 3 if a file cannot be read or compiled.
";

pub fn main(arguments: &[String], out: &mut dyn Write) -> Result<i32, Stop> {
    let arguments = Arguments::read(arguments, &["--all", "--json"], &["--requests"])?;
    let [directory, rest @ ..] = &arguments.rest[..] else {
        return Err(Stop::Usage("give DIR, and LINE or REQUEST if you like".into()));
    };
    let (rest, input) = match rest {
        [rest @ .., dash] if dash == "-" => (rest, true),
        rest => (rest, false),
    };
    let folder = run::asked(directory, input, arguments.option("--requests"))?;
    let session = Session::of(&folder)?;
    let looked;
    let chosen = match rest {
        [] => {
            run::hint(session.steps(), directory);
            session.steps()
        }
        [line] if !line.contains(' ') => one(session.steps(), line)?,
        words => {
            looked = [look(words, &session, &folder)?];
            &looked[..]
        }
    };
    let words = Words::new(session.terms(), &folder.names);
    let widths = run::Widths::of(chosen, &words);
    // What has been found out is remembered for each record.
    let mut known: Vec<(Option<Bank>, Reasons)> = Vec::new();
    for step in chosen {
        let reasons = match known.iter().position(|(bank, _)| *bank == step.bank) {
            Some(place) => &mut known[place].1,
            None => {
                known.push((step.bank, session.reasons(step.bank)?));
                &mut known.last_mut().expect("it was put in").1
            }
        };
        let because = reasons.of(&words, step, arguments.has("--all"))?;
        if arguments.has("--json") {
            writeln!(out, "{}", Json::Object(fields(step, &words, because)))?;
            continue;
        }
        writeln!(out, "{}{}", widths.line(step, &words), when(step))?;
        for line in because.iter().flat_map(|because| because.told("--all")) {
            writeln!(out, "{}{line}", widths.indent())?;
        }
    }
    Ok(WELL)
}

/// A request that is looked at, of a bank where there are two.
fn look(words: &[String], session: &Session, folder: &Folder) -> Result<Step, Stop> {
    let words = match words {
        [one] => split(one),
        words => words.to_vec(),
    };
    let words: Vec<&str> = words.iter().map(String::as_str).collect();
    let (bank, words) = Bank::before(&words, 3);
    let [first, second, to] = words[..] else {
        return Err(Stop::Usage("a REQUEST is an event, who asks and who is asked".into()));
    };
    let asked = folder.names.asked([first, second, to], session.terms());
    let [event, from, to] = asked.map_err(Stop::Usage)?;
    let verdict = session.look(bank, event, from, to)?;
    let (line, moment) = (session.steps().len() + 1, session.moment());
    let request = Request::Ask { event, from, to };
    Ok(Step { line, bank, request, verdict, moment, made: false })
}

/// The moment that a step made, or else the one at which it was asked.
fn when(step: &Step) -> String {
    match (step.made, step.verdict) {
        (_, Verdict::Refused(_)) => String::new(),
        (true, _) => format!("; moment {}", step.moment + 1),
        (false, _) => format!(" at moment {}", step.moment),
    }
}

/// A step's fields as `--json` prints them, with the reason.
fn fields(step: &Step, words: &Words, because: Option<Because>) -> Vec<(&'static str, Json)> {
    let mut fields = run::fields(step, words);
    fields.push(("moment", step.moment.into()));
    if let Some(because) = because {
        fields.push(("because", because.lines.into()));
        fields.push(("more", because.more.into()));
        if step.bank.is_some() {
            fields.push(("unseen", because.unseen.into()));
            fields.push(("more unseen", because.more_unseen.into()));
        }
    }
    fields
}

/// The step at a line.
fn one<'a>(steps: &'a [Step], line: &str) -> Result<&'a [Step], Stop> {
    let count = steps.len();
    let number: usize =
        line.parse().map_err(|_| Stop::Usage(format!("LINE is a number; `{line}` is none")))?;
    match number.checked_sub(1) {
        Some(index) if index < count => Ok(&steps[index..=index]),
        _ if count == 0 => Err(Stop::Usage("there are no requests yet".into())),
        _ => Err(Stop::Usage(format!("there is no request {number}: there are {count}"))),
    }
}
