//! Doing something again whenever a file of a folder changes.

use crate::folder::{folder_of, is_there};
use crate::stop::Stop;
use std::fs;
use std::path::{Path, PathBuf};
use std::thread::sleep;
use std::time::{Duration, SystemTime};

/// How often files are looked at.
const PAUSE: Duration = Duration::from_millis(200);

/// Does something now, and again after every change of a file of the tool's beside
/// some paths, until it fails. What is not there is not waited for.
pub fn watch(paths: &[&Path], mut again: impl FnMut() -> Result<(), Stop>) -> Result<i32, Stop> {
    paths.iter().try_for_each(|path| is_there(path))?;
    let stamps = || paths.iter().flat_map(|path| stamps(path)).collect::<Vec<_>>();
    loop {
        let before = stamps();
        again()?;
        while stamps() == before {
            sleep(PAUSE);
        }
    }
}

/// The files of a folder with when they were changed, and their lengths.
fn stamps(path: &Path) -> Vec<(PathBuf, Option<SystemTime>, u64)> {
    let files = fs::read_dir(folder_of(path)).into_iter().flatten().flatten();
    let mut stamps: Vec<_> = files
        .filter(|file| {
            file.path().extension().is_some_and(|ending| ending == "say" || ending == "tsv")
        })
        .filter_map(|file| {
            let about = file.metadata().ok()?;
            Some((file.path(), about.modified().ok(), about.len()))
        })
        .collect();
    stamps.sort();
    stamps
}
