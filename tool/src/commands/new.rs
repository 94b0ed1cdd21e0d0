//! `cuckooormolu new`: a folder with a source to start from.

use crate::arguments::Arguments;
use crate::folder::{self, NAMES, REQUESTS, SOURCE, TERMS};
use crate::stop::{Stop, WELL};
use std::io::Write;
use std::path::Path;

pub const HELP: &str = "\
usage: cuckooormolu new DIR

Creates the folder DIR with a commented terms.say to start from: who may load a
preset, the terms that docs/LANGUAGE.md begins with. Overwrites nothing.

Exit status: 0; 3 if DIR has terms already or cannot be written.
";

/// The source to start from.
pub const START: &str = include_str!("new/terms.say");

pub fn main(arguments: &[String], out: &mut dyn Write) -> Result<i32, Stop> {
    let arguments = Arguments::read(arguments, &[], &[])?;
    let directory = Path::new(arguments.one("the DIR to make")?);
    let there = [SOURCE, TERMS, NAMES, REQUESTS].into_iter();
    if let Some(file) = there.map(|name| directory.join(name)).find(|file| file.exists()) {
        let shown = file.display();
        return Err(Stop::Failed(format!("{shown} is there already; name another folder")));
    }
    folder::make(directory)?;
    folder::write(&directory.join(SOURCE), START.as_bytes())?;
    let shown = directory.display();
    writeln!(out, "{} written. Edit it; then:", directory.join(SOURCE).display())?;
    writeln!(out, "  cuckooormolu aloud {shown}   reads it back")?;
    writeln!(out, "  cuckooormolu try {shown}     answers requests, and says why")?;
    Ok(WELL)
}
