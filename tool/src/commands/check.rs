//! `cuckooormolu check`: says whether terms files are accepted, and what is
//! wrong if not.

mod json;
mod text;

use crate::arguments::Arguments;
use crate::check::{check, About, Checked, Warning};
use crate::folder::{Folder, SOURCE, SPOKEN, TERMS};
use crate::stop::{Stop, FAILING, WELL};
use crate::watch::watch;
use std::io::Write;
use std::path::Path;

pub const HELP: &str = "\
usage: cuckooormolu check DIR|FILE... [--strict] [--effort ROWS] [--json] [--watch]

Says whether terms are accepted: those of the source, terms.say, or else those of
a terms file. If they are not, shows each line with the mistake marked, what is
wrong, and what would be right; for a terms file, the refusal's number too, with
tabs shown as → and carriage returns as ↵. If they are, warns of what may be a
mistake all the same. That nobody is ever granted an event is said after trying the
folder's requests and tests, many others, and a short search. The effort is a bound by
the terms alone, with the time that it takes on a computer of today; a row is one entry
at one member. Where that is seconds or more, nothing is worked out and no request is
tried. The requests of requests.say are checked, too. Mistakes go to standard error,
the rest to standard output. Of several folders each is checked, whatever the others
have.

  --strict       exit with 1 if there is a warning
  --effort ROWS  exit with 1 if a request may work out more rows than this
  --watch        check again whenever a file of the folders changes, until stopped
  --json         on standard output, one line for each mistake of a source: error, file,
                 line, column, advice; for a terms file one: accepted, file, number,
                 line, from, to, what, right. If the terms are accepted, one with the
                 file, the counts and the effort (with or_more, it is that or more), and
                 one for each warning: warning, file, line, column, what, right

Exit status: 0 if the terms are accepted, with or without warnings; 1 if --strict finds a
warning, or --effort more rows; 3 if terms are not accepted, or requests.say has a
mistake.
";

/// What is asked to hold of accepted terms.
struct Limits {
    strict: bool,
    effort: Option<usize>,
}

impl Limits {
    fn of(arguments: &Arguments) -> Result<Limits, Stop> {
        let rows = |given: &str| {
            given.parse().map_err(|_| {
                let such = "--effort takes a number of rows, such as 1000000";
                Stop::Usage(format!("{such}; `{given}` is none"))
            })
        };
        let effort = arguments.option("--effort").map(rows).transpose()?;
        Ok(Limits { strict: arguments.has("--strict"), effort })
    }

    /// Whether so many rows are too many. The most that is counted stands for more, too.
    fn exceeded_by(&self, rows: usize) -> bool {
        self.effort.is_some_and(|most| rows > most || rows >= proved::MOST_EFFORT)
    }
}

pub fn main(arguments: &[String], out: &mut dyn Write) -> Result<i32, Stop> {
    let arguments = Arguments::read(arguments, &["--json", "--strict", "--watch"], &["--effort"])?;
    if arguments.rest.is_empty() {
        return Err(Stop::Usage("give a folder or a terms file, one or more".into()));
    }
    let (json, limits) = (arguments.has("--json"), Limits::of(&arguments)?);
    let paths: Vec<&Path> = arguments.rest.iter().map(Path::new).collect();
    if let ([path], false) = (&paths[..], arguments.has("--watch")) {
        return checked(path, &limits, json, out);
    }
    if !arguments.has("--watch") {
        return each(&paths, &limits, json, false, out);
    }
    watch(&paths, || {
        each(&paths, &limits, json, true, out)?;
        if !json {
            writeln!(out, "-- {} is watched; Ctrl-C ends", arguments.rest.join(", "))?;
        }
        Ok(out.flush()?)
    })
}

/// Checks all, and gives the highest status. While they are watched, mistakes go where the
/// rest does.
fn each(
    paths: &[&Path],
    limits: &Limits,
    json: bool,
    watched: bool,
    out: &mut dyn Write,
) -> Result<i32, Stop> {
    let mut worst = WELL;
    for path in paths {
        if paths.len() > 1 && !json {
            writeln!(out, "{}:", path.display())?;
        }
        let status = match checked(path, limits, json, out) {
            Ok(status) => status,
            Err(stop @ (Stop::Closed | Stop::Usage(_))) => return Err(stop),
            Err(stop) => {
                match (json, watched) {
                    (true, _) => stop.json().iter().try_for_each(|line| writeln!(out, "{line}"))?,
                    (false, true) => writeln!(out, "{stop}")?,
                    (false, false) => {
                        out.flush()?;
                        eprintln!("{stop}");
                    }
                }
                stop.status()
            }
        };
        worst = worst.max(status);
    }
    Ok(worst)
}

/// Checks once.
fn checked(path: &Path, limits: &Limits, json: bool, out: &mut dyn Write) -> Result<i32, Stop> {
    let folder = Folder::load(path)?;
    // What people write by name is checked as a source is; a file that is too long is warned of.
    if folder.asked.ends_with(SPOKEN) {
        folder.readable()?;
    }
    let (both, mut warnings) = match check(&folder)? {
        Checked::Refused(fault) => {
            let shown = text::refused(&fault, &folder);
            return Err(Stop::Told(shown, vec![json::refused(&fault, &folder)]));
        }
        Checked::Accepted(both, warnings) => (both, warnings),
    };
    warnings.extend(outdated(&folder));
    let compiling = folder.source.iter().flat_map(|source| &source.compiled.warnings);
    let warned = !warnings.is_empty() || compiling.clone().count() > 0;
    if json {
        writeln!(out, "{}", json::accepted(&both, &folder, limits))?;
        for warning in compiling {
            writeln!(out, "{}", json::compiling(warning, &folder))?;
        }
        for warning in &warnings {
            writeln!(out, "{}", json::warned(warning, &folder))?;
        }
    } else {
        text::accepted(out, &both, &folder, limits)?;
        write!(out, "{}", folder.warnings())?;
        for warning in &warnings {
            text::warned(out, warning, &folder)?;
        }
    }
    let fails = limits.strict && warned || limits.exceeded_by(both.effort());
    Ok(if fails { FAILING } else { WELL })
}

/// A terms.tsv beside a source that says something else: hosts open the former.
fn outdated(folder: &Folder) -> Option<Warning> {
    let compiled = &folder.source.as_ref()?.compiled;
    let warn = |kind, what, right| Warning { kind, about: About::Nothing, line: 0, what, right };
    if let Some((what, right)) = folder.idle() {
        return Some(warn("idle", what, right));
    }
    let terms = std::fs::read(folder.path.join(TERMS)).ok()?;
    let what = format!("{TERMS} is not what {SOURCE} compiles to; a host opens {TERMS}");
    let right = format!("`cuckooormolu compile {}` writes it anew", folder.path.display());
    (terms != compiled.text()).then(|| warn("outdated", what, right))
}
