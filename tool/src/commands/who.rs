//! `cuckooormolu who`: who may do what to whom.

use crate::arguments::Arguments;
use crate::folder::Folder;
use crate::json::Json;
use crate::matrix::Matrix;
use crate::names::Kind;
use crate::replay::Replay;
use crate::stop::{Stop, WELL};
use crate::words::Words;
use std::io::Write;
use std::path::Path;

pub const HELP: &str = "\
usage: cuckooormolu who DIR EVENT [--from WHO] [--to WHO] [--first] [--json]

Shows who may do EVENT to whom after the requests of a folder: a row for each
initiator, a column for each target. EVENT is a name or a number. Nothing is
requested, so nothing changes. If the requests name two banks, use `who left EVENT` at
the prompt of `try` instead.

  --from WHO   only these initiators: a kind of members, or one member
  --to WHO     only these targets
  --first      at moment 0, before any request
  --json       one JSON object per line: an initiator and its targets

Exit status: 0; 3 if a file cannot be read or compiled.
";

pub fn main(arguments: &[String], out: &mut dyn Write) -> Result<i32, Stop> {
    let arguments = Arguments::read(arguments, &["--first", "--json"], &["--from", "--to"])?;
    let (directory, event) = match &arguments.rest[..] {
        [directory, event] => (directory, event),
        [directory] => {
            let folder = Folder::load(Path::new(directory))?;
            let both = folder.accepted_terms()?;
            let events = folder.names.events(both.terms()).join(", ");
            return Err(Stop::Usage(format!("give DIR and EVENT; events: {events}")));
        }
        _ => return Err(Stop::Usage("give DIR and EVENT".into())),
    };
    let folder = Folder::opening(Path::new(directory))?;
    let replay = match arguments.has("--first") {
        true => Replay::before(&folder)?,
        false => Replay::of(&folder)?,
    };
    let terms = replay.both.terms();
    let event = folder.names.lookup(Kind::Event, event, terms.events).map_err(Stop::Usage)?;
    let words = Words::new(terms, &folder.names);
    let members = |option: &str| match arguments.option(option) {
        Some(word) => folder.names.members(word, terms.members).map_err(Stop::Usage),
        None => Ok((0..terms.members).collect()),
    };
    let matrix = Matrix::between(&replay.both, event, members("--from")?, members("--to")?)?;
    if !arguments.has("--json") {
        write!(out, "{}", matrix.table(&words))?;
        return Ok(WELL);
    }
    for (from, row) in matrix.from.iter().zip(&matrix.rows) {
        let allowed = matrix.to.iter().zip(row).filter(|(_, may)| **may);
        let targets: Vec<String> = allowed.map(|(to, _)| folder.names.member(*to)).collect();
        let fields = vec![
            ("event", folder.names.event(event).into()),
            ("moment", matrix.moment.into()),
            ("from", folder.names.member(*from).into()),
            ("to", targets.into()),
        ];
        writeln!(out, "{}", Json::Object(fields))?;
    }
    Ok(WELL)
}
