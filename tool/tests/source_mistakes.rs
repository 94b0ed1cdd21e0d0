//! Sources with the mistakes that people make, and what is said of each: the
//! place, the cause and the cure. `NAME.say` is the source, `NAME.txt` what
//! `check` says of it, `NAME.cured` the source with the cures followed, and `NAME.tests`
//! what these terms have to answer.

mod run_support;

use run_support::{run, Folder};
use std::fs;
use std::path::{Path, PathBuf};

/// Sources that look odd and are right.
const RIGHT: [&str; 10] = [
    "16-tabs",
    "17-carriage-returns",
    "42-umlaut",
    "54-byte-order-mark",
    "71-first-before-members",
    "72-fact-twice",
    "82-kind-plural",
    "107-kind-by-its-name",
    "144-names-in-english",
    "152-counted-friends",
];

fn sources() -> Vec<PathBuf> {
    let all = Path::new(env!("CARGO_MANIFEST_DIR")).join("tests/source_mistakes");
    let files = fs::read_dir(all).unwrap().map(|entry| entry.unwrap().path());
    let mut sources: Vec<PathBuf> =
        files.filter(|file| file.extension().is_some_and(|ending| ending == "say")).collect();
    sources.sort();
    sources
}

/// What `check` says of a source, and its exit status.
fn said(source: &Path) -> (String, i32) {
    let folder = Folder::new();
    fs::copy(source, folder.file("terms.say")).unwrap();
    let said = run(&["check", folder.path()]);
    let text = format!("{}{}", said.out, said.err);
    (text.replace(&format!("{}/", folder.path()), ""), said.status)
}

#[test]
fn each_has_place_cause_and_cure() {
    let sources = sources();
    assert_eq!(sources.len(), 154);
    for source in sources {
        let name = source.file_stem().unwrap().to_string_lossy().into_owned();
        let (text, status) = said(&source);
        let expected = fs::read_to_string(source.with_extension("txt")).unwrap();
        assert_eq!(text, expected, "{name}");
        if RIGHT.contains(&name.as_str()) {
            assert_eq!((status, text.lines().count()), (0, 2), "{name}:\n{text}");
            continue;
        }
        let placed = text.lines().any(|line| line.starts_with("terms.say:"));
        let cured = text.lines().any(|line| line.trim_start().starts_with("= "));
        let encoding = name == "56-latin-1";
        assert!(placed && cured || encoding, "{name}:\n{text}");
        assert!(text.lines().all(|line| line.chars().count() < 250), "{name}:\n{text}");
    }
}

/// The parts of a text that stand in backquotes, up to `...`.
fn quoted(text: &str) -> Vec<String> {
    let parts = text.split('`').skip(1).step_by(2);
    parts.map(|part| part.split("...").next().unwrap_or("").trim().to_string()).collect()
}

#[test]
fn cures_that_are_followed_compile() {
    let cured = sources().into_iter().map(|source| (source.with_extension("cured"), source));
    let cured: Vec<(PathBuf, PathBuf)> = cured.filter(|(cured, _)| cured.exists()).collect();
    assert_eq!(cured.len(), 21);
    for (cured, source) in cured {
        let (text, status) = said(&cured);
        assert_eq!(status, 0, "{}:\n{text}", cured.display());
        assert!(!text.contains("never true"), "{}:\n{text}", cured.display());
        // Every line that differs has a cure that was told, or leaves words out. What is only
        // warned of may be meant in more ways than are told.
        let message = fs::read_to_string(source.with_extension("txt")).unwrap();
        let (told, warned) = (quoted(&message), message.starts_with("accepted"));
        let [before, after] = [&source, &cured].map(|file| fs::read_to_string(file).unwrap());
        for (before, after) in before.lines().zip(after.lines()) {
            let is_told = |part: &String| after.contains(part) && !before.contains(part);
            let mut words = before.split(' ');
            let shorter = after.split(' ').all(|word| words.any(|other| other == word));
            let same = warned || shorter || after.starts_with('#');
            assert!(same || told.iter().any(is_told), "{}: {after}", cured.display());
        }
    }
}

/// A cure that is followed gives the answers that the sentence meant.
#[test]
fn cures_that_are_followed_mean_the_same() {
    let tested = sources().into_iter().filter(|source| source.with_extension("tests").exists());
    let tested: Vec<PathBuf> = tested.collect();
    assert_eq!(tested.len(), 7);
    for source in tested {
        let folder = Folder::new();
        fs::copy(source.with_extension("cured"), folder.file("terms.say")).unwrap();
        fs::copy(source.with_extension("tests"), folder.file("tests.say")).unwrap();
        let said = run(&["test", folder.path()]);
        assert_eq!(said.status, 0, "{}:\n{}{}", source.display(), said.out, said.err);
    }
}

const THREE: &str = "\
members dora, pete saw
relation owns
event share by anyone
event load whn some owner owns target: owner share me
event keep when me ownes target and me load target
first dora owns swa, pete ownes dora
";

#[test]
fn several_are_told_at_once() {
    let folder = Folder::new();
    folder.write("terms.say", THREE);
    let said = run(&["compile", folder.path()]).err;
    let places: Vec<&str> = said
        .lines()
        .filter_map(|line| line.strip_prefix(&format!("{}/terms.say:", folder.path())))
        .collect();
    assert_eq!(places.len(), 3, "{said}");
    assert!(places[0].starts_with("1:20: expected `,` or the next statement, found `saw`"));
    assert!(places[1].starts_with("4:12: expected `when`"), "{said}");
    // `ownes` is told once, `load` and the members not at all: their statements have a mistake.
    assert!(places[2].starts_with("5:20: no relation or event `ownes`"), "{said}");
    let json = run(&["compile", folder.path(), "--json"]).out;
    assert_eq!(json.lines().count(), 3, "{json}");
}
