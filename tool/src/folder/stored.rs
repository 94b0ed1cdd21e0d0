//! A terms.tsv that was stored with a past: nothing is to take its place, or to run
//! instead of it, in silence.

use super::{Folder, TERMS};
use crate::stop::Stop;
use std::fs::File;
use std::io::Read;
use std::path::Path;

/// Whether a file begins as the stored form does. What follows may be damaged.
pub fn is_stored(file: &Path) -> bool {
    let mut first = [0];
    file.is_file()
        && File::open(file).and_then(|mut file| file.read_exact(&mut first)).is_ok()
        && first == *b"S"
}

/// Stops what would write another thing over a past.
pub fn not_over(file: &Path, instead: &str) -> Result<(), Stop> {
    match is_stored(file) {
        false => Ok(()),
        true => Err(Stop::Failed(format!("{} is stored, with a past; {instead}", file.display()))),
    }
}

impl Folder {
    /// That a stored terms.tsv stands beside the source, which is what runs, and what to
    /// do about it.
    pub fn idle(&self) -> Option<(String, String)> {
        self.source.as_ref()?;
        let idle = Some(self.path.join(TERMS)).filter(|file| is_stored(file))?;
        let (idle, file, folder) = (idle.display(), self.file.display(), self.path.display());
        Some((
            format!(
                "{idle} is stored, with a past, and is not used: {file} is what runs, from moment 0"
            ),
            format!(
                "move {file} to another folder, NEW, and {folder} continues from its past; `cuckooormolu revise \
                 {folder} NEW` continues under the terms of NEW"
            ),
        ))
    }
}
