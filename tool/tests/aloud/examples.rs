//! The examples' documents quote what is read aloud.

use cuckooormolu_tool::commands::aloud;
use cuckooormolu_tool::stop::{FAILING, UNUSABLE, WELL};
use std::fs;
use std::path::PathBuf;

#[test]
fn examples_quote_what_is_read_aloud() {
    let examples = concat!(env!("CARGO_MANIFEST_DIR"), "/../examples");
    let folders = fs::read_dir(examples).unwrap().map(|entry| entry.unwrap().path());
    let mut quoted = 0;
    let all = |folder: PathBuf| {
        [folder.join("later"), folder.join("new"), folder.join("renumbered"), folder]
    };
    for folder in folders.flat_map(all) {
        let document = folder.join("README.md");
        if !document.is_file() {
            continue;
        }
        let document = document.to_string_lossy().into_owned();
        let arguments = [folder.to_string_lossy().into_owned(), "--verify".to_string(), document];
        let mut out = Vec::new();
        let status = aloud::main(&arguments, &mut out);
        let said = String::from_utf8(out).unwrap();
        match status {
            Ok(status) => assert_eq!(status, WELL, "{said}"),
            Err(stop) => panic!("{}: {stop}", folder.display()),
        }
        quoted += 1;
    }
    assert!(quoted >= 9, "{quoted}");
}

/// What `aloud` prints, and its exit status.
fn said(arguments: &[&str]) -> (String, i32) {
    let arguments: Vec<String> = arguments.iter().map(|word| word.to_string()).collect();
    let mut out = Vec::new();
    let status = aloud::main(&arguments, &mut out).unwrap_or_else(|stop| {
        out.extend(format!("{stop}\n").bytes());
        stop.status()
    });
    (String::from_utf8(out).unwrap(), status)
}

const PRESET: &str = concat!(env!("CARGO_MANIFEST_DIR"), "/../examples/preset");
const INVITATIONS: &str = concat!(env!("CARGO_MANIFEST_DIR"), "/../examples/invitations");

#[test]
fn for_programs() {
    let (text, status) = said(&[INVITATIONS, "--json"]);
    assert_eq!(status, WELL);
    assert_eq!(
        text.lines().next().unwrap(),
        "{\"event\":0,\"name\":\"invite\",\"policy\":\"You may invite the target if you are not the \
         target and the target is not a friend of yours.\",\"effects\":\"From then on you have an \
         invited edge to the target.\",\"kept\":false}"
    );
    assert_eq!(text.lines().count(), 4);
}

#[test]
fn a_file_or_its_folder() {
    assert_eq!(said(&[PRESET]), said(&[&format!("{PRESET}/terms.tsv")]));
}

#[test]
fn another_document_is_told_apart() {
    let document = format!("{INVITATIONS}/README.md");
    let (text, status) = said(&[PRESET, "--verify", &document]);
    assert_eq!(status, FAILING);
    assert!(text.contains("not what is read aloud"), "{text}");
    assert!(text.ends_with("  aloud:  You may always share with the target.\n"), "{text}");
    let (text, status) = said(&[PRESET, "--verify", &format!("{PRESET}/terms.tsv")]);
    assert_eq!(status, UNUSABLE);
    assert!(text.ends_with("no block fenced as ```aloud\n"), "{text}");
}

#[test]
fn refused_terms_are_not_read() {
    let mistake = concat!(env!("CARGO_MANIFEST_DIR"), "/tests/mistakes/04-and");
    let (text, status) = said(&[mistake]);
    assert_eq!(status, UNUSABLE);
    assert!(text.contains("refused with 1 at line 10"), "{text}");
}
