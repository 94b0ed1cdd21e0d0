//! `cuckooormolu compile`: a readable source to terms.tsv and names.tsv.

use crate::arguments::Arguments;
use crate::both::Both;
use crate::folder::{self, stored, Folder, NAMES, SOURCE, TERMS};
use crate::json::Json;
use crate::source::Compiled;
use crate::stop::{Stop, WELL};
use keeper::terms::{MOST_ENTRIES, MOST_PAST};
use std::io::Write;
use std::path::{Path, PathBuf};

pub const HELP: &str = "\
usage: cuckooormolu compile FILE|DIR [-o DIR] [--print] [--json]

Compiles a source (docs/LANGUAGE.md), in a folder its terms.say, to terms.tsv and
to names.tsv, which lists the names of members, with their kinds, relations and
events. Both files are written next to the source. A terms.tsv that is stored, with a
past, is never written over.

  -o DIR    write them to DIR instead
  --print   print terms.tsv and write nothing
  --json    print one line of JSON: what was written, or what is wrong and where

Exit status: 0; 3 if the source cannot be read or has a mistake, or a file cannot be
written or is stored.
";

pub fn main(arguments: &[String], out: &mut dyn Write) -> Result<i32, Stop> {
    let arguments = Arguments::read(arguments, &["--print", "--json"], &["-o"])?;
    let given = Path::new(arguments.one("the source FILE")?);
    let file = if given.is_dir() { given.join(SOURCE) } else { given.to_path_buf() };
    if !file.is_file() {
        return Err(Stop::Failed(format!("there is no {}", file.display())));
    }
    let read = Folder::from_source(&file)?;
    let compiled = &read.source.as_ref().expect("it has a source").compiled;
    let terms = accepted(compiled)?;
    if !arguments.has("--json") {
        eprint!("{}", read.warnings());
    }
    if arguments.has("--print") {
        out.write_all(&terms)?;
        return Ok(WELL);
    }
    let folder = arguments.option("-o").map_or_else(|| read.path.clone(), PathBuf::from);
    stored::not_over(
        &folder.join(TERMS),
        "compile to another folder with -o NEW, and `cuckooormolu revise` continues under the terms of NEW",
    )?;
    folder::make(&folder)?;
    folder::write(&folder.join(TERMS), &terms)?;
    folder::write(&folder.join(NAMES), compiled.names.write().as_bytes())?;
    let (entries, past) = (compiled.terms.entries.len(), compiled.terms.past().len());
    if arguments.has("--json") {
        let written = Json::Object(vec![
            ("terms", folder.join(TERMS).display().to_string().into()),
            ("names", folder.join(NAMES).display().to_string().into()),
            ("entries", entries.into()),
            ("past", past.into()),
        ]);
        writeln!(out, "{written}")?;
    } else {
        writeln!(out, "{} and {NAMES} written", folder.join(TERMS).display())?;
        writeln!(out, "{entries} of {MOST_ENTRIES} entries, {past} of {MOST_PAST} about the past")?;
    }
    Ok(WELL)
}

/// The terms text, once both readers have accepted it as what was compiled.
fn accepted(compiled: &Compiled) -> Result<Vec<u8>, Stop> {
    let text = compiled.text();
    let wrong = |why: &str| Stop::Failed(format!("internal error, please report it: {why}"));
    match Both::read_terms(&text)? {
        Ok(both) if *both.terms() == compiled.terms => Ok(text),
        Ok(_) => Err(wrong("the compiled terms read as other terms")),
        Err(refusal) => {
            Err(wrong(&format!("the compiled terms are refused with {}", refusal.number)))
        }
    }
}
