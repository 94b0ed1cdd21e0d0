//! `cuckooormolu aloud`: reads every policy and effect aloud.

use crate::aloud::quote::{block, difference};
use crate::aloud::{Aloud, Sentence};
use crate::arguments::Arguments;
use crate::folder::{self, Folder};
use crate::json::Json;
use crate::names::Kind;
use crate::stop::{Stop, FAILING, WELL};
use std::fs;
use std::io::Write;
use std::path::Path;

pub const HELP: &str = "\
usage: cuckooormolu aloud DIR|FILE [--json] [--verify DOCUMENT | --quote DOCUMENT]

Reads every policy and every effect aloud, as sentences about past events. \"You\"
are the one who asks; \"the target\" is whom or what you ask about. For a stored file
it also says what was remembered when the file was stored.

Names come from the source, or from names.tsv beside the terms. Known verbs are
inflected: own, owns. An edge of member-of from A to B means that A is a member of
B; an edge of friend and the like, that B is a friend of A. Edges of any other
relation are called by its name.

  --json             one line for each event: event, name, policy, effects, kept;
                     for a stored file one more: stored; then one for each numbered
                     clause: clause, text
  --verify DOCUMENT  check that the block fenced as ```aloud in DOCUMENT is what is
                     read aloud
  --quote DOCUMENT   write what is read aloud into that block

Exit status: 0; 1 if --verify finds another text; 3 if a file cannot be read, written
or compiled.
";

pub fn main(arguments: &[String], out: &mut dyn Write) -> Result<i32, Stop> {
    let arguments = Arguments::read(arguments, &["--json"], &["--verify", "--quote"])?;
    let folder = Folder::load(Path::new(arguments.one("a folder or a terms file")?))?;
    let both = folder.accepted_terms()?;
    let aloud = match both.is_stored() {
        true => Aloud::of_record(both.record(), &folder.names),
        false => Aloud::of(both.terms(), &folder.names),
    };
    if let Some(document) = arguments.option("--verify") {
        return verify(&aloud, Path::new(document), out);
    }
    if let Some(document) = arguments.option("--quote") {
        return quote(&aloud, Path::new(document));
    }
    if !arguments.has("--json") {
        write!(out, "{}", aloud.text())?;
        return Ok(WELL);
    }
    for spoken in &aloud.events {
        let line = Json::Object(vec![
            ("event", spoken.event.into()),
            ("name", folder.names.given(Kind::Event, spoken.event).map(str::to_string).into()),
            ("policy", spoken.policy.text().into()),
            ("effects", spoken.effects.as_ref().map(Sentence::text).into()),
            ("kept", spoken.kept.is_some().into()),
        ]);
        writeln!(out, "{line}")?;
    }
    if let Some(stored) = &aloud.stored {
        writeln!(out, "{}", Json::Object(vec![("stored", stored.text().into())]))?;
    }
    for (number, clause) in aloud.numbers.iter().zip(&aloud.clauses) {
        let line = Json::Object(vec![("clause", (*number).into()), ("text", clause.text().into())]);
        writeln!(out, "{line}")?;
    }
    Ok(WELL)
}

fn read(document: &Path) -> Result<(String, std::ops::Range<usize>), Stop> {
    let failed = |why: String| Stop::Failed(format!("{}: {why}", document.display()));
    let text = fs::read_to_string(document).map_err(|error| failed(error.to_string()))?;
    let block = block(&text).ok_or_else(|| failed("no block fenced as ```aloud".into()))?;
    Ok((text, block))
}

fn verify(aloud: &Aloud, document: &Path, out: &mut dyn Write) -> Result<i32, Stop> {
    let (text, block) = read(document)?;
    let first = text[..block.start].lines().count();
    match difference(&text[block], &aloud.text()) {
        None => Ok(WELL),
        Some((line, quoted, spoken)) => {
            writeln!(out, "{} line {}: not what is read aloud", document.display(), first + line)?;
            writeln!(out, "  quoted: {quoted}\n  aloud:  {spoken}")?;
            Ok(FAILING)
        }
    }
}

fn quote(aloud: &Aloud, document: &Path) -> Result<i32, Stop> {
    let (mut text, block) = read(document)?;
    text.replace_range(block, &aloud.text());
    folder::write(document, text.as_bytes())?;
    Ok(WELL)
}
