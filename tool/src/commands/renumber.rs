//! `cuckooormolu renumber`: members get new numbers.

use crate::arguments::Arguments;
use crate::folder::Folder;
use crate::json::Json;
use crate::renumber::{order, renumber};
use crate::stop::{Stop, WELL};
use std::io::Write;
use std::path::Path;

pub const HELP: &str = "\
usage: cuckooormolu renumber DIR --order NAMES [-o NEW] [--json]

Gives the members of a folder new numbers, for instance because two address lists
become one. Everybody keeps what they have and have done, so all answers stay. It
says the new number of each, and looks that the requests of DIR get the same answers.

The files of DIR stay as they are. With -o, the folder NEW gets them with the new
numbers: a terms.tsv, stored or not, in its own form; a terms.say with its members
declared in the new order, which is what numbers them, and nothing else changed; names,
requests by number, and what goes by name as it is. Then use NEW in the place of DIR.
To undo it, renumber NEW by the old order.

  --order NAMES  all members in their new order, separated by commas; or a file that
                 has them so, or one per line
  -o NEW         write the folder NEW, creating it if need be; nothing is written over
  --json         one JSON object per line: each member; the list for hosts

A state that a host keeps is renumbered by the library, with the list for hosts. If
the requests of DIR name two banks, which share relations, it is refused.

Exit status: 0; 3 if the order lacks a member or has one twice, or a file cannot be
read, written or compiled.
";

pub fn main(arguments: &[String], out: &mut dyn Write) -> Result<i32, Stop> {
    let arguments = Arguments::read(arguments, &["--json"], &["--order", "-o"])?;
    let folder = Path::new(arguments.one("DIR")?);
    let given = arguments.option("--order").ok_or_else(|| {
        Stop::Usage("give --order NAMES, all members in their new order".to_string())
    })?;
    let folder = Folder::opening(folder)?;
    let terms = folder.accepted_terms()?;
    let numbering = order::read(given, terms.terms(), &folder.names)?;
    let renumbered = renumber(&folder, numbering)?;
    let place = arguments.option("-o");
    if let Some(place) = place {
        renumbered.write(Path::new(place))?;
    }
    let json = arguments.has("--json");
    match json {
        true => renumbered.json().iter().try_for_each(|line| writeln!(out, "{line}"))?,
        false => write!(out, "{}", renumbered.text())?,
    }
    if let Some(place) = place {
        let written = renumbered.written();
        match json {
            true => {
                let files = vec![("folder", place.into()), ("written", written.into())];
                writeln!(out, "{}", Json::Object(files))?;
            }
            false => writeln!(out, "\n{place} written: {}", written.join(", "))?,
        }
    }
    Ok(WELL)
}
