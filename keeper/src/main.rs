//! `keeper DIR` prints the answers for DIR/terms.tsv and DIR/requests.tsv;
//! `keeper store DIR` prints what is stored after them, `keeper revise DIR NEW`
//! what is stored after them and a revision to the terms of NEW/terms.tsv,
//! `keeper renumber DIR 2,0,1` what is stored after them and a renumbering, each
//! member's new number in its place; `keeper cases FILE` prints the lines for the
//! cases of FILE.

use keeper::{cases, program};
use std::ffi::OsStr;
use std::io::{self, Write};
use std::path::Path;
use std::process::ExitCode;

const USAGE: &str = "give one folder, or store and a folder, or revise and two folders, \
    or renumber, a folder and numbers separated by commas, or cases and a file";

fn main() -> ExitCode {
    let mut arguments = std::env::args_os().skip(1);
    let first = arguments.next().unwrap_or_else(|| ".".into());
    let refused = |refusal| format!("the terms or the numbers are refused: {refusal:?}");
    let printed = match (arguments.next(), arguments.next()) {
        (Some(folder), Some(new)) if first == "revise" => {
            program::revised(Path::new(&folder), Path::new(&new)).map_err(refused)
        }
        (Some(folder), Some(list)) if first == "renumber" => match numbers(&list) {
            Some(numbers) => program::renumbered(Path::new(&folder), &numbers).map_err(refused),
            None => Err(USAGE.into()),
        },
        (Some(file), None) if first == "cases" => match std::fs::read(file) {
            Ok(bytes) => cases::printed(&bytes).map(String::into_bytes),
            Err(error) => Err(error.to_string()),
        },
        (Some(folder), None) if first == "store" => {
            program::stored(Path::new(&folder)).map_err(refused)
        }
        (Some(_), _) => Err(USAGE.into()),
        (None, _) => Ok(program::run(Path::new(&first)).into_bytes()),
    };
    let said = match printed {
        Ok(text) => io::stdout().write_all(&text).map_err(|error| error.to_string()),
        Err(said) => Err(said),
    };
    match said {
        Ok(()) => ExitCode::SUCCESS,
        Err(said) => {
            eprintln!("keeper: {said}");
            ExitCode::FAILURE
        }
    }
}

/// Numbers separated by commas.
fn numbers(list: &OsStr) -> Option<Vec<u8>> {
    list.to_str()?.split(',').map(|number| number.parse().ok()).collect()
}
