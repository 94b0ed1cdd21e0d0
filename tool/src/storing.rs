//! The files that a folder's story is stored in, and how long files may be.

use crate::folder::{self, definitions, folder_of, Folder, DEFINITIONS, NAMES, SOURCE, TERMS};
use crate::stop::Stop;
use keeper::program::MOST_BYTES;
use std::fs;
use std::path::{Path, PathBuf};

/// The one rule about length: what the program can't open is neither read nor
/// written here.
pub fn fits(file: &Path, bytes: usize) -> Result<(), Stop> {
    if bytes <= MOST_BYTES {
        return Ok(());
    }
    Err(Stop::Failed(format!(
        "{} has {bytes} bytes, and the program opens at most {MOST_BYTES}; fewer members, edges or parts about the \
         past make terms shorter, and requests can be made in several runs. A host that links the library has no \
         such limit",
        file.display()
    )))
}

/// What was printed once a file was stored: if that could not be, the file is told all the
/// same, since whoever makes the requests again makes them twice.
pub fn told(file: Option<&str>, printed: Result<(), Stop>) -> Result<(), Stop> {
    match (file, printed) {
        (Some(file), Err(Stop::Failed(why))) => Err(Stop::Failed(format!(
            "{why}; but {file} is stored, with everything that was made: do not make it again"
        ))),
        (_, printed) => printed,
    }
}

/// The file to store in: a path without an ending is a folder, and its terms.tsv is meant.
pub fn place(path: &Path) -> PathBuf {
    match path.extension().is_none() || path.is_dir() {
        true => path.join(TERMS),
        false => path.to_path_buf(),
    }
}

/// Stores a text of terms with the names and definitions of the folder that it comes from
/// beside it, in a folder that is made if need be.
pub fn store(file: &Path, text: &[u8], from: &Folder) -> Result<(), Stop> {
    fits(file, text.len())?;
    let place = folder_of(file);
    let own = file.file_name().is_some_and(|name| name == TERMS);
    if own && place.join(SOURCE).exists() {
        let shown = place.display();
        return Err(Stop::Failed(format!(
            "{shown} has a {SOURCE}, which is what runs there; store in another folder"
        )));
    }
    let names = from.names.write();
    let beside = place.join(NAMES);
    let there = fs::read_to_string(&beside).ok();
    // Names that lack only the kinds of members get them.
    let known = |there: &String| *there == names || *there == from.names.ungrouped().write();
    if own && there.as_ref().is_some_and(|there| !known(there)) {
        let shown = beside.display();
        return Err(Stop::Failed(format!("{shown} has other names; store in another folder")));
    }
    folder::make(&place)?;
    if own && there.is_none_or(|there| there != names) {
        folder::write(&beside, names.as_bytes())?;
    }
    let terms = keeper::terms::read(text).ok().filter(|_| own);
    if let Some(told) = terms.and_then(|read| definitions::write(&read.terms, &from.names)) {
        folder::write(&place.join(DEFINITIONS), told.as_bytes())?;
    }
    folder::write(file, text)
}
