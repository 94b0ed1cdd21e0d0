//! `cuckooormolu source`: terms.tsv back to a readable source.

use crate::arguments::Arguments;
use crate::folder::{self, folder_of, stored, Folder, SOURCE, TERMS};
use crate::source::decompile::{agrees, decompile};
use crate::source::print::print;
use crate::stop::{Stop, WELL};
use std::io::Write;
use std::path::Path;

pub const HELP: &str = "\
usage: cuckooormolu source DIR|FILE [-o FILE]

Writes terms.tsv as a source (docs/LANGUAGE.md), with the names of names.tsv if there is
one, the kinds of members and how events are said. Compiling the source gives terms with
the same formulas, effects and first edges. A source cannot say what a stored file
remembers.

  -o FILE   write it to FILE instead of printing it, creating its folder if need be; not
            over stored terms, and not as the terms.say beside them, which would run
            in their place

Exit status: 0; 3 if the terms are refused, or a file cannot be read or written.
";

pub fn main(arguments: &[String], out: &mut dyn Write) -> Result<i32, Stop> {
    let arguments = Arguments::read(arguments, &[], &["-o"])?;
    let folder = Folder::load(Path::new(arguments.one("a folder or a terms file")?))?;
    let both = folder.accepted_terms()?;
    let source = decompile(both.terms(), &folder.names);
    if !agrees(&source, both.terms()) {
        let message = "internal error, please report it: the source compiles to other terms";
        return Err(Stop::Failed(message.into()));
    }
    let mut text = print(&source);
    if both.is_stored() {
        text = format!("# stored with a past, which a source does not say\n\n{text}");
    }
    match arguments.option("-o") {
        Some(file) => {
            let file = Path::new(file);
            in_no_ones_way(file)?;
            folder::make(&folder_of(file))?;
            folder::write(file, text.as_bytes())?;
        }
        None => out.write_all(text.as_bytes())?,
    }
    Ok(WELL)
}

/// Stops where the source would take the place of stored terms, or run instead of them.
fn in_no_ones_way(file: &Path) -> Result<(), Stop> {
    stored::not_over(file, "write the source to another file")?;
    let beside = folder_of(file).join(TERMS);
    let runs = file.file_name().is_some_and(|name| name == SOURCE);
    let instead =
        format!("a {SOURCE} beside it would run in its place: write it to another folder");
    if runs {
        stored::not_over(&beside, &instead)
    } else {
        Ok(())
    }
}
