//! `revise`: what it says, what it stores and what it refuses.

mod run_support;

use run_support::{example, run, run_with, Folder, Said};
use std::fs;

/// Runs `revise` from one folder to another, with further arguments.
fn revise(old: &Folder, new: &Folder, more: &[&str]) -> Said {
    run(&[&["revise", old.path(), new.path()], more].concat())
}

/// A folder with a source, and with requests by name.
fn folder(source: &str, requests: &str) -> Folder {
    let folder = Folder::new();
    folder.write("terms.say", source);
    folder.write("requests.say", requests);
    folder
}

const OLD: &str = "members dora, pete, saw\nrelation owns\nevent share, withdraw by anyone\n\
    event load when some x owns target: once x share me\nfirst dora owns saw\n";

fn example_revised(more: &[&str]) -> Said {
    let path = |name: &str| example(name).display().to_string();
    run(&[&["revise", &path("revised"), &path("revised/new")], more].concat())
}

#[test]
fn the_example_quotes_what_is_said() {
    let readme = fs::read_to_string(example("revised").join("README.md")).unwrap();
    let (_, block) = readme.split_once("```revise\n").expect("a block fenced as ```revise");
    let (block, _) = block.split_once("```\n").unwrap();
    let said = example_revised(&[]);
    assert_eq!((said.status, said.err.as_str()), (0, ""));
    assert_eq!(block, said.out);
}

#[test]
fn the_example_stores_what_stands_under_later() {
    let folder = Folder::new();
    let file = folder.file("later/terms.tsv");
    let said = example_revised(&["--store", file.to_str().unwrap()]);
    assert_eq!((said.status, said.err.as_str()), (0, ""));
    assert!(said.out.ends_with(&format!("\n{} written\n", file.display())), "{}", said.out);
    for name in ["terms.tsv", "names.tsv"] {
        let later = fs::read_to_string(example("revised/later").join(name)).unwrap();
        assert_eq!(folder.read(&format!("later/{name}")), later);
    }
    folder.write("later/requests.tsv", "R\t2\t2\t3\nR\t2\t1\t3\n");
    let later = folder.file("later").display().to_string();
    assert_eq!(
        run(&["run", &later]).out,
        "1  load quin → pad  granted\n2  load pete → pad  denied\n"
    );
}

#[test]
fn for_programs() {
    let lines: Vec<String> = example_revised(&["--json"]).out.lines().map(str::to_string).collect();
    assert_eq!(lines[0], r#"{"moment":6,"renamed":[]}"#);
    assert_eq!(
        lines[1],
        "{\"sentence\":\"you have at some time thanked A.\",\"start\":\"now\",\"entry\":3,\"was\":null,\
         \"events\":[\"load\"],\"definition\":null}"
    );
    assert!(lines[2].contains(r#""start":"carried","entry":8,"was":5,"#), "{}", lines[2]);
    assert!(lines[3].contains(r#""start":"dropped","entry":null,"was":10,"#), "{}", lines[3]);
    assert_eq!(lines[4], r#"{"event":"load","from":"pete","no longer":["pad"],"now":[]}"#);
    assert_eq!(lines.len(), 6);
}

/// A stored folder is carried over as it stands: what it remembers goes on.
#[test]
fn a_stored_monitor_goes_on() {
    let old = folder(OLD, "share dora pete\n");
    let stored = Folder::new();
    let file = stored.file("terms.tsv").display().to_string();
    assert_eq!(run(&["run", old.path(), "--store", &file]).status, 0);
    let both = "me is not target and (some x owns target: once x share me)";
    let new = folder(&OLD.replace("some x owns target: once x share me", both), "");
    let said = revise(&stored, &new, &[]);
    assert_eq!((said.status, said.err.as_str()), (0, ""));
    let wanted = "Still remembered:\n- in load: A has at some time shared with you.\n\n\
                  A stands for any member who fits.\n\n\
                  No answer changes now.\n";
    assert_eq!(said.out, wanted);
}

#[test]
fn the_same_terms_change_nothing() {
    let said = revise(&folder(OLD, "share dora pete\n"), &folder(OLD, ""), &[]);
    let wanted = "The terms are the same: nothing changes.\n";
    assert_eq!((said.out.as_str(), said.err.as_str()), (wanted, ""));
}

/// A `first` line that is deleted takes nothing from anybody.
#[test]
fn first_edges_that_differ_are_told() {
    let old = "members a, b\nrelation knows, banned\nevent ask when me is not banned\n\
               first a is banned, a knows b\n";
    let new = old.replace("first a is banned, a knows b", "first a knows b, b knows a");
    let (old, new) = (folder(old, "ask b a\n"), folder(&new, ""));
    let wanted = "What is there from the start differs (`a is banned` is gone, `b knows a` is new), but a \
                  revision does not use it:\nrelations stay as they are, and change by events only.\n\n\
                  Else the terms are the same: nothing changes.\n";
    let later = Folder::new();
    let file = later.file("terms.tsv").display().to_string();
    let said = revise(&old, &new, &["--store", &file]);
    assert_eq!(said.out, format!("{wanted}\n{file} written\n"), "{}", said.err);
    let still = run_with(&["run", later.path(), "-"], "ask a b\n");
    assert!(still.out.contains("denied"), "{}{}", still.out, still.err);
}

/// A folder to store in is made, with the names.
#[test]
fn a_folder_to_store_in() {
    let parent = Folder::new();
    let later = parent.file("later").display().to_string();
    let old = folder(OLD, "share dora pete\n");
    let said = revise(&old, &folder(OLD, ""), &["--store", &later]);
    assert!(said.out.ends_with("later/terms.tsv written\n"), "{}{}", said.out, said.err);
    let said = run_with(&["run", &later, "-"], "load pete saw\n");
    assert_eq!(said.out, "1  load pete → saw  granted\n", "{}", said.err);
}

#[test]
fn the_definition_is_named() {
    let defined = "members a, b\nevent ask, load when me is welcome\n\
                   define x is welcome: never x ask someone\n";
    let old = folder("members a, b\nevent ask, load by anyone\n", "ask a b\n");
    let said = revise(&old, &folder(defined, ""), &[]);
    let wanted = "These begin now, at moment 1, and its event, ask a → b, counts:\n\
                  - in ask and load, under welcome: you have at some time asked some member.\n\n\
                  No longer allowed:\n- ask a → everybody\n- load a → everybody\n";
    assert_eq!((said.out.as_str(), said.err.as_str()), (wanted, ""));
}

/// The variable of a name counts, though nobody hears it.
#[test]
fn what_reads_alike_and_is_not_the_same() {
    let terms = |name: &str| {
        let policy = format!("once (some {name} ask me: some y ask target: y is not {name})");
        format!("members a, b\nevent ask by anyone\nevent go when {policy}\n")
    };
    let (old, new) = (folder(&terms("x2"), ""), folder(&terms("x3"), ""));
    let said = revise(&old, &new, &[]).out;
    assert!(
        said.contains("in the same words is not the same formula: variables\ndiffer"),
        "{said}"
    );
    assert!(!revise(&old, &old, &[]).out.contains("the same formula"));
}

/// What is long is said apart, under the number that it has read aloud.
#[test]
fn clauses_by_number() {
    let chain: String = (1..14).map(|n| format!("p{} knows some p{n}: ", n - 1)).collect();
    let policy = format!("once (as p0: {chain}p13 ask someone)");
    let head = "members a, b\nrelation knows\nevent ask";
    let old = folder(&format!("{head}, go by anyone\n"), "");
    let new = folder(&format!("{head} by anyone\nevent go when {policy}\n"), "");
    let said = revise(&old, &new, &[]).out;
    let clause = "  - clause 1 held of D\n\nClauses have the numbers that `cuckooormolu aloud` gives them.\n";
    assert!(said.contains(clause), "{said}");
    assert!(run(&["aloud", new.path()]).out.contains("- clause 1 held of D\n"));
}

#[test]
fn many_changes_are_grouped_and_cut() {
    let members: Vec<String> = (0..40).map(|number| format!("m{number}")).collect();
    let terms = |policy: &str| {
        let first = "first m0 knows m1, m2 knows m3 and m4";
        format!("members {}\nrelation knows\nevent go {policy}\n{first}\n", members.join(", "))
    };
    let (old, new) = (folder(&terms("by anyone"), ""), folder(&terms("when me is target"), ""));
    let said = revise(&old, &new, &[]).out;
    assert!(
        said.starts_with("Neither terms say anything about the past.\n\nNo longer allowed:"),
        "{said}"
    );
    assert!(said.contains("- go m0 → m1, m2, m3, m4, m5, m6 and 33 more\n"), "{said}");
    assert!(said.ends_with("- and 1170 pairs more\n"), "{said}");
    let said = revise(&new, &old, &[]).out;
    assert!(said.contains("Now allowed:\n- go m0 → m1, m2"), "{said}");
    let none = folder(&terms("when false"), "");
    let said = revise(&old, &none, &[]).out;
    assert!(said.contains("No longer allowed:\n- go everybody → everybody\n"), "{said}");
}

#[test]
fn other_sizes_are_refused() {
    let old = folder(OLD, "share dora pete\n");
    let new = folder(&OLD.replace("saw\nrelation owns", "saw, cleo\nrelations owns, likes"), "");
    let said = revise(&old, &new, &["--store", "never.tsv"]);
    assert_eq!((said.status, said.out.as_str()), (3, ""));
    let shown = format!("{}/terms.say", new.path());
    let old_path = old.path();
    for part in [
        format!("{shown}:1:26: refused: 4 members here and 3 in {old_path}: cleo is new\n"),
        " 1 | members dora, pete, saw, cleo\n   |                          ^^^^\n".to_string(),
        "revising keeps the members, as many and in the same order: leave out cleo; with others \
         start over, by the new terms alone"
            .to_string(),
        format!("{shown}:2:17: refused: 2 relations here and 1 in {old_path}: likes is new"),
    ] {
        assert!(said.err.contains(&part), "{part}\n{}", said.err);
    }
    let said = revise(&new, &old, &["--json"]);
    assert_eq!((said.status, said.err.as_str()), (3, ""));
    assert!(said.out.contains("3 members here and 4 in"), "{}", said.out);
    assert!(said.out.contains("cleo is missing"), "{}", said.out);
    assert!(said.out.contains("put back cleo"), "{}", said.out);
}

/// A terms file has no lines of declarations: the file is named.
#[test]
fn terms_files_are_refused_by_their_name() {
    let (old, new) = (Folder::new(), Folder::new());
    old.write("terms.tsv", "M\t2\nL\t0\t1\nF\t0\ttop\t0\t0\nP\t0\t0\n");
    new.write("terms.tsv", "M\t3\nL\t0\t1\nF\t0\ttop\t0\t0\nP\t0\t0\n");
    let said = revise(&old, &new, &[]);
    assert_eq!(said.status, 3);
    let wanted = format!(
        "cuckooormolu revise: {}/terms.tsv: refused: 3 members here and 2 in {}\n  revising \
         keeps the members, as many and in the same order; with others",
        new.path(),
        old.path()
    );
    assert!(said.err.starts_with(&wanted), "{}", said.err);
}

/// Numbers carry over: whoever has pete's number has what pete has done.
#[test]
fn other_names_are_refused_unless_renamed() {
    let old = folder(OLD, "share dora pete\n");
    let new = folder(&OLD.replace("pete", "cleo"), "");
    let said = revise(&old, &new, &[]);
    assert_eq!((said.status, said.out.as_str()), (3, ""));
    let wanted = format!(":1:15: member 1 is cleo here and pete in {}\n", old.path());
    assert!(said.err.contains(&wanted), "{}", said.err);
    assert!(said.err.contains("cleo would go on as pete; keep the members of"), "{}", said.err);
    assert!(said.err.contains("dora, pete, saw, or say --renamed"), "{}", said.err);
    let said = revise(&old, &new, &["--renamed"]);
    assert_eq!((said.status, said.err.as_str()), (0, ""));
    let warning = "WARNING: renamed, with all that they have and have done:\n\
                   - member 1, pete, is called cleo\n\n";
    assert!(said.out.starts_with(warning), "{}", said.out);
    let order = folder(&OLD.replace("share, withdraw", "withdraw, share"), "");
    let said = revise(&old, &order, &[]);
    assert_eq!(said.status, 3);
    assert!(said.err.contains("the events stand in another order than in"), "{}", said.err);
    assert!(said.err.contains("withdraw for share"), "{}", said.err);
}

/// What has no name in one of the two cannot be told apart: it is the same.
#[test]
fn names_may_be_missing() {
    let (old, new) = (Folder::new(), folder("members ann, ben\nevent go by anyone\n", ""));
    old.write("terms.tsv", "M\t2\nL\t0\t1\nF\t0\ttop\t0\t0\nP\t0\t0\n");
    assert_eq!(revise(&old, &new, &[]).status, 0);
    let file = new.file("later/terms.tsv").display().to_string();
    assert_eq!(revise(&new, &old, &["--store", &file]).status, 0);
    assert!(new.read("later/names.tsv").contains("member\t1\tben\n"));
}

#[test]
fn wrong_command_lines() {
    let old = folder(OLD, "");
    assert_eq!(run(&["revise", old.path()]).status, 2);
    assert_eq!(run(&["revise", old.path(), old.path(), "--strict"]).status, 2);
    assert_eq!(run(&["revise", old.path(), "no-such-folder"]).status, 3);
    let file = old.file("terms.tsv").display().to_string();
    let said = revise(&old, &old, &["--store", &file]);
    assert_eq!(said.status, 3);
    assert!(said.err.contains("has a terms.say, which is what runs there"), "{}", said.err);
}
