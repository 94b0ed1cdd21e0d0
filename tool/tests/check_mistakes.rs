//! The mistakes that people make: each folder has a terms file or requests with one,
//! and what is said of it.

use cuckooormolu_tool::commands::check;
use cuckooormolu_tool::stop::{UNUSABLE, WELL};
use std::fs;
use std::path::PathBuf;

/// Mistakes that are accepted: only a warning can help.
const ACCEPTED: [&str; 5] = ["17", "19", "20", "38", "39"];

fn folders() -> Vec<PathBuf> {
    let mistakes = concat!(env!("CARGO_MANIFEST_DIR"), "/tests/mistakes");
    let mut folders: Vec<PathBuf> =
        fs::read_dir(mistakes).unwrap().map(|entry| entry.unwrap().path()).collect();
    folders.sort();
    folders
}

/// What `check` prints for a folder, and its exit status.
fn said(folder: &str, json: bool) -> (String, i32) {
    let mut arguments = vec![folder.to_string()];
    if json {
        arguments.push("--json".to_string());
    }
    let mut out = Vec::new();
    let (text, status) = match check::main(&arguments, &mut out) {
        Ok(status) => (String::from_utf8(out).unwrap(), status),
        Err(stop) if json => {
            (stop.json().iter().map(|line| format!("{line}\n")).collect(), stop.status())
        }
        Err(stop) => (format!("{stop}\n"), stop.status()),
    };
    (text.replace(folder, "FOLDER"), status)
}

#[test]
fn each_mistake_is_named() {
    let folders = folders();
    assert_eq!(folders.len(), 53);
    for folder in folders {
        let name = folder.file_name().unwrap().to_string_lossy().into_owned();
        let (text, status) = said(folder.to_str().unwrap(), false);
        let expected = fs::read_to_string(folder.join("said.txt")).unwrap();
        assert_eq!(text, expected, "{name}");
        let accepted = ACCEPTED.iter().any(|number| name.starts_with(number));
        assert_eq!(status, if accepted { WELL } else { UNUSABLE }, "{name}");
        assert_eq!(text.contains("warning"), accepted, "{name}");
    }
}

#[test]
fn for_programs() {
    let mistake =
        |name: &str| said(&format!("{}/tests/mistakes/{name}", env!("CARGO_MANIFEST_DIR")), true).0;
    assert_eq!(
        mistake("10-label-range"),
        "{\"accepted\":false,\"file\":\"FOLDER/terms.tsv\",\"number\":2,\"line\":4,\"from\":8,\"to\":9,\
         \"what\":\"no label 7\",\"right\":\"labels are 0 to 6: 0 for the relation, 1 to 3 for the events, \
         4 to 6 for the events denied\"}\n"
    );
    let lines = mistake("20-since-swapped");
    let file = "\"file\":\"FOLDER/terms.tsv\"";
    assert!(lines.starts_with(&format!("{{\"accepted\":true,{file},\"members\":3,")), "{lines}");
    let warning = format!("{{\"warning\":\"swapped\",{file},\"line\":7,\"column\":null,");
    assert!(lines.lines().nth(1).unwrap().starts_with(&warning), "{lines}");
}

#[test]
fn the_examples_are_accepted() {
    let examples = concat!(env!("CARGO_MANIFEST_DIR"), "/../examples");
    for entry in fs::read_dir(examples).unwrap() {
        let folder = entry.unwrap().path();
        if folder.is_dir() {
            let (text, status) = said(folder.to_str().unwrap(), true);
            assert_eq!(status, WELL, "{}: {text}", folder.display());
            // Whether requests are all denied is the example's own affair.
            let warnings = text.lines().skip(1);
            let others = warnings.filter(|line| !line.starts_with("{\"warning\":\"denied\""));
            assert_eq!(others.count(), 0, "{}: {text}", folder.display());
        }
    }
}
