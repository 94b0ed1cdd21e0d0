//! A sound designer's library of samples: what it is asked, in either order of words, what
//! never changes in it, and what is told once it was stored.

mod run_support;

use run_support::{run, run_with, Folder};

const LIBRARY: &str = "\
members designers: dora, dan; players: pete, quin; samples: kick, pad
relations owns
event share when me is designer and target is player and me is not suspended
event suspend when me is designer and me is not target
event load when me is not suspended and me gets target
event claim when nobody owns target and me is designer
  then add me owns target
define p is suspended: once someone suspend p
define p gets s: some o owns s: once o share p
first dora owns kick
";

fn library(requests: &str) -> Folder {
    let folder = Folder::new();
    folder.write("terms.say", LIBRARY);
    folder.write("requests.say", requests);
    folder
}

#[test]
fn never_by_what_no_event_changes() {
    let folder = library("");
    let said = run(&["can", folder.path(), "pete suspend dora"]);
    let never = "suspend pete → dora is never granted: pete is not a designer, and no event changes that.\n";
    assert_eq!((said.status, said.out.as_str(), said.err.as_str()), (1, never, ""));
    let said = run(&["can", folder.path(), "suspend", "dan", "dan"]).out;
    assert!(said.starts_with("suspend dan → dan is never granted: both are dan, and"), "{said}");
    let said = run(&["can", folder.path(), "suspend pete dora", "--json"]).out;
    assert!(
        said.ends_with("\"why\":\"never\",\"because\":\"pete is not a designer\"}\n"),
        "{said}"
    );
    // What an effect or an event changes is sought.
    let said = run(&["can", folder.path(), "pete load pad"]).out;
    assert!(said.starts_with("load pete → pad can be granted after 2 requests"), "{said}");
}

#[test]
fn never_by_what_is_remembered_for_good() {
    let folder = library("share dora pete\nsuspend dan pete\n");
    let said = run(&["can", folder.path(), "pete load kick"]);
    let never = "load pete → kick is never granted: dan suspended pete at moment 2, and that is \
                 remembered for good.\n";
    assert_eq!((said.status, said.out.as_str()), (1, never));
    // What can be taken back is sought.
    let lifted = "not someone share p since someone suspend p";
    folder.write("terms.say", &LIBRARY.replace("once someone suspend p", lifted));
    let said = run(&["can", folder.path(), "pete load kick"]).out;
    assert!(said.starts_with("load pete → kick can be granted after 1 request"), "{said}");
}

#[test]
fn never_in_lines() {
    let folder = Folder::new();
    folder.write(
        "terms.say",
        "members dora, pete, quin, saw\nrelations owns, friend\nevent vouch said \"vouched for\" by anyone\n\
         event load when (at least 2 friend of me as f: once f vouch me) or (some o owns target: o is me)\n\
         first dora owns saw, pete friend dora\n",
    );
    let said = run(&["can", folder.path(), "pete load saw"]).out;
    let never = "load pete → saw is never granted, and no event changes that:\n\n  \
                 at least 2 friends of pete that have vouched for pete are needed, and there can be only 1: dora\n  \
                 pete does not own saw\n";
    assert_eq!(said, never);
}

#[test]
fn a_request_is_explained_in_either_order() {
    let folder = library("share dora pete\n");
    let asked =
        [vec!["load", "pete", "kick"], vec!["pete", "load", "kick"], vec!["pete load kick"]];
    for words in asked {
        let said = run(&[&["why", folder.path()], &words[..]].concat()).out;
        assert!(said.starts_with("2  load pete → kick  granted at moment 1\n"), "{said}");
        assert!(said.contains("dora owns kick, and dora shared with pete at moment 1"), "{said}");
    }
    let said = run(&["why", folder.path(), "pete", "laod", "kick"]);
    assert!(said.err.contains("no event `laod`; did you mean `load`?"), "{}", said.err);
    for dash in [vec!["-"], vec!["--requests", "-"]] {
        let said = run_with(&[&["why", folder.path()], &dash[..]].concat(), "quin load kick\n").out;
        assert!(said.starts_with("1  load quin → kick  denied at moment 0\n"), "{said}");
    }
    let said = run_with(&["try", folder.path()], "why quin load kick\ndora share quin\nquit\n").out;
    assert!(
        said.contains("quin does not get kick") && said.contains("granted; moment 2"),
        "{said}"
    );
}

#[test]
fn definitions_are_told_of_stored_terms() {
    let (folder, later) = (library("share dora pete\nsuspend dan pete\n"), Folder::new());
    let stored = later.file("terms.tsv");
    let said = run(&["run", folder.path(), "--store", stored.to_str().unwrap()]);
    assert_eq!(said.status, 0, "{}", said.err);
    let why = |request: &str| run(&["why", later.path(), request]).out;
    assert!(
        why("load pete kick").contains("\n     pete is suspended\n"),
        "{}",
        why("load pete kick")
    );
    assert!(why("load quin kick").contains("quin does not get kick"), "{}", why("load quin kick"));
    // A file that is about other formulas is left out.
    let told = later.read("definitions.tsv");
    later.write("definitions.tsv", &told.replacen("formulas\t", "formulas\t0", 1));
    let said = why("load quin kick");
    assert!(!said.contains("get kick") && said.contains("quin"), "{said}");
}

#[test]
fn kinds_are_counted_and_drawn_apart() {
    let folder = library("");
    let said = run(&["check", folder.path()]).out;
    let begin = "accepted: 6 members, 3 kinds, 1 relation, 4 events, ";
    assert!(said.starts_with(begin) && said.contains(", 1 first edge\n"), "{said}");
    let page = folder.file("page.html");
    assert_eq!(run(&["report", folder.path(), "-o", page.to_str().unwrap()]).status, 0);
    let page = folder.read("page.html").replace('\u{a0}', " ");
    for wanted in [
        "6 members of 3 kinds, 1 relation, 4 events.",
        "Relation edges: owns dora → kick.",
        "<li>designers: dora, dan</li>",
    ] {
        assert!(page.contains(wanted), "{wanted}");
    }
}

#[test]
fn a_source_is_written_with_and() {
    let (folder, bare) = (library(""), Folder::new());
    assert_eq!(run(&["compile", folder.path(), "-o", bare.path()]).status, 0);
    let said = run(&["source", bare.path()]).out;
    assert!(said.contains("when me is designer and target is player"), "{said}");
    assert!(!said.contains("not (not"), "{said}");
}
