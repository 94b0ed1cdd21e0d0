//! Files written so that a crash leaves the old or the new one whole.

use super::folder_of;
use crate::stop::Stop;
use std::fs::{self, File};
use std::io::{self, Write};
use std::path::{Path, PathBuf};

/// So many symbolic links are followed, one after another.
const MOST_LINKS: usize = 40;

/// Makes a folder, and those it stands in, if need be.
pub fn make(folder: &Path) -> Result<(), Stop> {
    fs::create_dir_all(folder)
        .map_err(|error| Stop::Failed(format!("cannot make {}: {error}", folder.display())))
}

/// Writes a file, or says why it can't be written.
pub fn write(path: &Path, bytes: &[u8]) -> Result<(), Stop> {
    let leads = fs::read_link(path).map(|to| format!(", which leads to {}", to.display()));
    replace(path, bytes).map_err(|error| {
        let leads = leads.unwrap_or_default();
        Stop::Failed(format!("cannot write {}{leads}: {error}", path.display()))
    })
}

/// What a path leads to through symbolic links, whether it is there or not.
fn linked(path: &Path) -> io::Result<PathBuf> {
    let mut path = path.to_path_buf();
    for _ in 0..MOST_LINKS {
        match fs::read_link(&path) {
            Ok(next) => path = folder_of(&path).join(next),
            Err(_) => return Ok(path),
        }
    }
    Err(io::Error::other("its symbolic links lead round in a circle"))
}

/// Puts a new file in the place of an old one, so that a crash leaves one of the
/// two whole. What is no plain file, such as a pipe, is written to.
fn replace(path: &Path, bytes: &[u8]) -> io::Result<()> {
    let path = linked(path)?;
    let old = fs::metadata(&path).ok();
    if old.as_ref().is_some_and(|old| !old.is_file()) {
        return fs::write(path, bytes);
    }
    let mut name = path.file_name().unwrap_or_default().to_os_string();
    name.push(format!(".{}.new", std::process::id()));
    let new = path.with_file_name(name);
    let written = (|| {
        let mut file = File::create(&new)?;
        file.write_all(bytes)?;
        if let Some(old) = old {
            file.set_permissions(old.permissions())?;
        }
        file.sync_all()?;
        fs::rename(&new, &path)?;
        File::open(folder_of(&path))?.sync_all()
    })();
    if written.is_err() {
        let _ = fs::remove_file(&new);
    }
    written
}
