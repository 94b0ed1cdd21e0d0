//! The source is what runs: a folder with a terms.say answers by it, whatever
//! its terms.tsv has.

mod run_support;

use run_support::{run, run_with, Folder};
use std::fs;

const SOURCE: &str = "members dora, pete\nrelation owns\nevent share when me owns target\n\
                      first dora owns pete\n";

/// A folder whose terms.tsv was compiled before the source was edited.
fn edited() -> Folder {
    let folder = Folder::new();
    folder.write("terms.say", SOURCE);
    folder.write("requests.tsv", "R\t0\t0\t1\nR\t0\t1\t0\n");
    assert_eq!(run(&["compile", folder.path()]).status, 0);
    folder.write("terms.say", &SOURCE.replace("me owns target", "not me owns target"));
    folder
}

#[test]
fn every_command_answers_by_the_source() {
    let folder = edited();
    let stale = folder.read("terms.tsv");
    let path = folder.path();
    let source = folder.file("terms.say").display().to_string();
    for given in [path, source.as_str()] {
        let said = run(&["run", given]).out;
        assert_eq!(said, "1  share dora → pete  denied\n2  share pete → dora  granted\n");
        assert!(run(&["aloud", given]).out.contains("you do not own the target"));
        assert!(run(&["why", given]).out.starts_with("1  share dora → pete  denied at moment 0\n"));
        assert!(run(&["who", given, "share"]).out.contains("3 of 4 pairs"));
        assert!(run(&["check", given]).out.starts_with("accepted: "));
        assert!(run(&["report", given, "-o", "-"]).out.contains("you do not own the target"));
        assert!(run(&["source", given]).out.contains("not me owns target"));
        let typed = run_with(&["try", given, "--first"], "look share dora pete\n").out;
        assert_eq!(typed, "would be denied\n");
    }
    assert_eq!(folder.read("terms.tsv"), stale);
}

#[test]
fn no_terms_file_is_needed() {
    let folder = edited();
    fs::remove_file(folder.file("terms.tsv")).unwrap();
    fs::remove_file(folder.file("names.tsv")).unwrap();
    assert!(run(&["run", folder.path()]).out.starts_with("1  share dora → pete  denied\n"));
    assert!(!folder.file("terms.tsv").exists());
}

#[test]
fn a_stale_terms_file_that_is_named_is_not_answered_from() {
    let folder = edited();
    let file = folder.file("terms.tsv").display().to_string();
    let said = run(&["run", &file]);
    assert_eq!((said.status, said.out.as_str()), (3, ""));
    assert!(said.err.contains("is not what"), "{}", said.err);
    assert!(said.err.contains("run `cuckooormolu compile "), "{}", said.err);
    assert_eq!(run(&["compile", folder.path()]).status, 0);
    assert_eq!(run(&["run", &file]).status, 0);
}

#[test]
fn a_source_with_a_mistake_stops_every_command() {
    let folder = edited();
    folder.write("terms.say", &SOURCE.replace("owns target", "own target"));
    let path = folder.path();
    let commands = [
        vec!["run", path],
        vec!["aloud", path],
        vec!["check", path],
        vec!["why", path],
        vec!["who", path, "share"],
        vec!["report", path, "-o", "-"],
        vec!["try", path],
        vec!["source", path],
    ];
    for command in commands {
        let said = run(&command);
        assert_eq!((said.status, said.out.as_str()), (3, ""), "{command:?}");
        let place = format!("{path}/terms.say:3:21: no relation or event `own`");
        assert!(said.err.starts_with(&place), "{command:?}: {}", said.err);
    }
}

#[test]
fn errors_are_json_where_json_is_asked_for() {
    let folder = edited();
    let said = run(&["run", folder.path(), "--json", "--jsn"]);
    assert_eq!((said.status, said.err.as_str()), (2, ""));
    assert_eq!(said.out, "{\"error\":\"no option --jsn here; did you mean `--json`?\"}\n");
    let said = run(&["run", "no-such-folder", "--json"]);
    assert_eq!((said.status, said.err.as_str()), (3, ""));
    assert_eq!(said.out, "{\"error\":\"there is no file or folder no-such-folder\"}\n");
    folder.write("terms.say", &SOURCE.replace("owns target", "own target"));
    for command in ["run", "aloud", "check", "why", "compile"] {
        let said = run(&[command, folder.path(), "--json"]);
        assert_eq!((said.status, said.err.as_str()), (3, ""), "{command}");
        assert!(said.out.contains("\"line\":3,\"column\":21,"), "{}", said.out);
    }
}

#[test]
fn files_that_cannot_be_used_are_named() {
    let folder = Folder::new();
    let said = run(&["run", folder.path()]);
    assert_eq!(said.status, 3);
    assert!(said.err.contains("there is no terms.say and no terms.tsv in"), "{}", said.err);
    fs::write(folder.file("terms.say"), b"members a\nevent caf\xe9 by anyone\n").unwrap();
    let said = run(&["run", folder.path()]);
    assert_eq!(said.status, 3);
    assert!(said.err.contains("terms.say: line 2 is not UTF-8"), "{}", said.err);
}
