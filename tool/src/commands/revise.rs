//! `cuckooormolu revise`: a monitor goes on with new terms.

use crate::arguments::Arguments;
use crate::both::Both;
use crate::folder::Folder;
use crate::json::Json;
use crate::replay::Replay;
use crate::revise::{revise, Revised};
use crate::stop::{Stop, WELL};
use crate::storing::{place, store, told};
use std::io::Write;
use std::path::Path;

pub const HELP: &str = "\
usage: cuckooormolu revise DIR NEW [--renamed] [--store FILE] [--json]

Carries a monitor over to new terms: the monitor of DIR, after its requests, to the
terms of the folder NEW. Nobody starts over: relations stay as they are, and the
first edges and requests of NEW are not used. It says

- which sentences about the past continue, which begin now, and which are dropped; a
  sentence continues if the old terms contain exactly the same one
- who could do what and no longer can, and who now can

Members, relations and events must be the same, in number and order, since numbers
carry over. Policies, effects and kept events may differ. If the requests of DIR name
two banks, use `revise NEW` at the prompt of `try` instead, which revises both.

  --renamed      the names in NEW are new names for the same members, relations
                 and events
  --store FILE   store the monitor under the new terms in FILE, creating its folder
                 if need be; if FILE is called terms.tsv, the names are stored
                 beside it and its folder can be run. FILE may be that folder
  --json         one JSON object per line: moment; sentences; changes of answers

Exit status: 0; 3 if the new terms are refused, or a file cannot be read, written or
compiled.
";

pub fn main(arguments: &[String], out: &mut dyn Write) -> Result<i32, Stop> {
    let arguments = Arguments::read(arguments, &["--renamed", "--json"], &["--store"])?;
    let [old, new] = &arguments.rest[..] else {
        return Err(Stop::Usage("give DIR and NEW, the folder of the new terms".into()));
    };
    let (old, new) = (Folder::opening(Path::new(old))?, Folder::opening(Path::new(new))?);
    let mut both = Replay::of(&old)?.both;
    let revised = revise(&mut both, &old, &new, arguments.has("--renamed"))?;
    let json = arguments.has("--json");
    let file = arguments.option("--store").map(|file| place(Path::new(file)));
    if let Some(file) = &file {
        let from = Folder { names: revised.names.clone(), ..new };
        store(file, &both.store()?, &from)?;
    }
    let file = file.map(|file| file.display().to_string());
    let file = file.as_deref();
    told(file, print(&revised, &both, file, json, out))?;
    Ok(WELL)
}

/// Prints what is revised, and then which file is stored.
fn print(
    revised: &Revised,
    both: &Both,
    file: Option<&str>,
    json: bool,
    out: &mut dyn Write,
) -> Result<(), Stop> {
    match json {
        true => revised.json().iter().try_for_each(|line| writeln!(out, "{line}"))?,
        false => write!(out, "{}", revised.text(both.terms()))?,
    }
    match (file, json) {
        (Some(file), true) => writeln!(out, "{}", Json::Object(vec![("stored", file.into())]))?,
        (Some(file), false) => writeln!(out, "\n{file} written")?,
        (None, _) => {}
    }
    Ok(out.flush()?)
}
