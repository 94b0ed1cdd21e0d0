//! A past that is stored: nothing takes its place or runs instead of it in silence.

mod run_support;

use run_support::{preset, run, run_with, Folder};
use std::fs::File;
use std::process::{Command, Stdio};

const SOURCE: &str = "members dora, pete, saw\nrelation own\nevent share, withdraw by anyone\n\
                      event load when some owner own target: not owner withdraw me since owner share me\n\
                      first dora own saw\n";

/// The preset, stored after share dora → pete, without requests.
fn live() -> Folder {
    let (folder, live) = (preset(), Folder::new());
    let file = live.file("terms.tsv").display().to_string();
    let said = run_with(&["run", folder.path(), "-", "--store", &file], "share dora pete\n");
    let told = format!("1  share dora → pete  granted\n\n{file} written\n");
    assert_eq!((said.status, said.out, said.err.as_str()), (0, told, ""));
    live
}

#[test]
fn compiling_keeps_off() {
    let (live, other) = (live(), Folder::new());
    let before = live.read("terms.tsv");
    other.write("terms.say", SOURCE);
    let said = run(&["compile", other.path(), "-o", live.path()]);
    assert_eq!((said.status, said.out.as_str()), (3, ""));
    let why =
        format!("{}/terms.tsv is stored, with a past; compile to another folder", live.path());
    assert!(said.err.contains(&why), "{}", said.err);
    live.write("terms.say", SOURCE);
    assert_eq!(run(&["compile", live.path()]).status, 3);
    assert_eq!(live.read("terms.tsv"), before);
    // What begins as a stored file and is damaged may be a past, too.
    live.write("terms.tsv", "S");
    assert_eq!(run(&["compile", live.path()]).status, 3);
    live.write("terms.tsv", "M");
    assert_eq!(run(&["compile", live.path()]).status, 0);
}

#[test]
fn a_source_keeps_off() {
    let live = live();
    let before = live.read("terms.tsv");
    let source = live.file("terms.say").display().to_string();
    let said = run(&["source", live.path(), "-o", &source]);
    assert_eq!(said.status, 3);
    assert!(said.err.contains("terms.say beside it would run in its place"), "{}", said.err);
    assert!(!live.file("terms.say").exists());
    let terms = live.file("terms.tsv").display().to_string();
    let said = run(&["source", live.path(), "-o", &terms]);
    assert_eq!(said.status, 3);
    assert!(said.err.contains("write the source to another file"), "{}", said.err);
    let fresh = preset();
    fresh.write("requests.tsv", "");
    let said = run(&["run", fresh.path(), "--write", &terms]);
    assert_eq!(said.status, 3);
    assert!(
        said.err.contains("terms.tsv is stored, with a past; write to another"),
        "{}",
        said.err
    );
    assert_eq!(live.read("terms.tsv"), before);
    let beside = live.file("other.say").display().to_string();
    assert_eq!(run(&["source", live.path(), "-o", &beside]).status, 0);
}

#[test]
fn a_source_beside_it_is_told() {
    let live = live();
    live.write("terms.say", SOURCE);
    let path = live.path();
    let what = format!(
        "{path}/terms.tsv is stored, with a past, and is not used: {path}/terms.say is what runs, from moment 0"
    );
    let right = format!("`cuckooormolu revise {path} NEW` continues under the terms of NEW");
    let said = run(&["check", path]);
    assert_eq!(said.status, 0);
    assert!(said.out.contains(&format!("warning: {what}\n")), "{}", said.out);
    assert!(said.out.contains(&right) && !said.out.contains("writes it anew"), "{}", said.out);
    for arguments in [
        &["run", path, "-"][..],
        &["why", path],
        &["who", path, "load"],
        &["can", path, "load pete saw"],
        &["try", path],
        &["report", path, "-o", "-"],
    ] {
        let said = run(arguments);
        assert_eq!(said.status, 0, "{arguments:?}: {}", said.err);
        assert!(said.err.contains(&what) && said.err.contains(&right), "{}", said.err);
    }
    // Who names the stored file is not answered from the source.
    let said = run(&["who", &format!("{path}/terms.tsv"), "load"]);
    assert_eq!(said.status, 3);
    assert!(said.err.contains(&what), "{}", said.err);
}

#[test]
fn what_is_stored_is_told_where_the_answers_cannot_be() {
    let live = live();
    let file = live.file("terms.tsv").display().to_string();
    live.write("requests.say", "load pete saw\n");
    let newer = Folder::new();
    newer.write("terms.say", SOURCE);
    let before = live.read("terms.tsv");
    for arguments in [
        &["run", live.path(), "--store", &file][..],
        &["run", live.path(), "--store", &file, "--json"],
        &["revise", live.path(), newer.path(), "--store", &file],
    ] {
        live.write("terms.tsv", &before);
        let full = File::options().write(true).open("/dev/full").unwrap();
        let said = Command::new(env!("CARGO_BIN_EXE_cuckooormolu"))
            .args(arguments)
            .stdin(Stdio::null())
            .stdout(full)
            .output()
            .unwrap();
        let err = String::from_utf8(said.stderr).unwrap();
        assert_eq!(said.status.code(), Some(3));
        assert!(err.contains("cannot write to standard output: No space left"), "{err}");
        assert!(err.contains(&format!("but {file} is stored, with everything")), "{err}");
        assert_ne!(live.read("terms.tsv"), before);
    }
}

#[test]
fn requests_beside_it_are_told() {
    let live = live();
    assert!(!run(&["check", live.path()]).out.contains("has requests"));
    live.write("requests.say", "load pete saw\nload pete saw\n");
    let said = run(&["check", live.path()]).out;
    let told = format!(
        "stored, and has requests: `run` makes the 2 requests of {}/requests.say after this past",
        live.path()
    );
    assert!(said.contains(&told), "{said}");
    assert!(said.contains(", 1 edge\n"), "{said}");
    let json = run(&["check", live.path(), "--json"]).out;
    assert!(json.contains("\"stored\":true,") && json.contains("\"requests\":2"), "{json}");
}

#[test]
fn tests_begin_with_it() {
    let live = live();
    live.write(
        "tests.say",
        "test what is stored counts\n  pete may load saw\n\
         test and it can be ended\n  then dora withdraw pete\n  pete may not load saw\n",
    );
    let said = run(&["test", live.path()]);
    assert_eq!(said.out, "2 tests with 3 answers: 2 passed, 0 failed\n", "{}", said.err);
}
