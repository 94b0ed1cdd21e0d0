//! `try`, with the lines piped in.

mod run_support;

use run_support::{example, preset, run, run_with, Folder};

#[test]
fn requests_looks_and_reasons() {
    let folder = preset();
    let typed = "load pete saw\nwhy\nshare dora pete\nlook load pete saw\nload pete → saw\n\
                 withdraw dora pete\nwhy load pete saw\nquit\nnever read\n";
    let said = run_with(&["try", folder.path(), "--first"], typed);
    assert_eq!(
        said.out,
        "denied
load pete → saw: denied
  dora owns saw, but dora has never shared with pete
granted; moment 1
would be granted
granted; moment 2
granted; moment 3
load pete → saw: denied
  dora owns saw, and dora shared with pete at moment 1, but dora withdrew from pete at moment 3
"
    );
    assert_eq!(said.status, 0);
}

#[test]
fn undo_takes_back_one_by_one() {
    let folder = preset();
    let typed =
        "share dora pete\nwithdraw dora pete\nundo\nload pete saw\nundo\nundo\nundo\nlist\n";
    let said = run_with(&["try", folder.path(), "--first"], typed);
    assert_eq!(
        said.out,
        "granted; moment 1
granted; moment 2
took back withdraw dora → pete, which was granted; moment 1
granted; moment 2
took back load pete → saw, which was granted; moment 1
took back share dora → pete, which was granted; moment 0
? there is nothing to take back
no requests so far
"
    );
    assert_eq!(said.status, 2);
}

#[test]
fn it_begins_after_the_folders_requests() {
    let folder = preset();
    let said = run_with(&["try", folder.path()], "list\nlook load pete saw\n");
    assert_eq!(said.out.lines().count(), 7);
    assert!(said.out.ends_with("would be denied\n"));
}

#[test]
fn saved_requests_are_run_again() {
    let folder = preset();
    let file = folder.file("saved.tsv");
    let typed = format!("load pete saw\nshare dora pete\nsave\nsave {}\n", file.display());
    let said = run_with(&["try", folder.path(), "--first"], &typed);
    assert!(said.out.contains("? the folder's requests have more than this"), "{}", said.out);
    assert_eq!(folder.read("saved.tsv"), "R\t2\t1\t2\nR\t0\t0\t1\n");
    folder.write("requests.tsv", "R\t0\t0\t1\n");
    let said = run_with(&["try", folder.path()], "load pete saw\nsave\n");
    assert!(said.out.contains("wrote 2 requests to"), "{}", said.out);
    assert_eq!(folder.read("requests.tsv"), "R\t0\t0\t1\nR\t2\t1\t2\n");
}

/// Names stay right when a member is put before the others; numbers would not.
#[test]
fn requests_of_a_source_are_saved_by_name() {
    const SOURCE: &str = "members dora, pete, saw\nrelation owns\nevent share by anyone\n\
        event load when some owner owns target: once owner share me\nfirst dora owns saw\n";
    let folder = Folder::new();
    folder.write("terms.say", SOURCE);
    let answers = || run(&["run", folder.path()]).out;
    let typed = "share dora pete\nload pete saw\nsave\n";
    let said = run_with(&["try", folder.path()], typed).out;
    let file = folder.file("requests.say");
    assert!(said.ends_with(&format!("wrote 2 requests to {}\n", file.display())), "{said}");
    assert_eq!(folder.read("requests.say"), "share dora pete\nload pete saw\n");
    assert!(!folder.file("requests.tsv").exists());
    let before = answers();
    assert_eq!(before.lines().count(), 2);
    folder.write("terms.say", &SOURCE.replace("members dora", "members quin, dora"));
    assert_eq!(answers(), before);
    // Of a file the ending tells the form.
    let files = ["a.tsv", "a.say", "a"].map(|name| folder.file(name).display().to_string());
    let typed: String = files.iter().map(|file| format!("save {file}\n")).collect();
    run_with(&["try", folder.path()], &typed);
    assert_eq!(folder.read("a.tsv"), "R\t0\t1\t2\nR\t1\t2\t3\n");
    assert_eq!(folder.read("a.say"), folder.read("requests.say"));
    assert_eq!(folder.read("a"), folder.read("requests.say"));
    // Requests with numbers are read, and saved with names beside them.
    std::fs::remove_file(file).unwrap();
    folder.write("requests.tsv", "R\t0\t1\t2\n");
    let said = run_with(&["try", folder.path()], "load pete saw\nsave\nsave\n").out;
    let replies: Vec<&str> = said.lines().skip(1).collect();
    assert!(replies[0].ends_with("requests.say, which is read instead of requests.tsv from now on"));
    assert!(replies[1].ends_with("requests.say"), "{said}");
    assert_eq!(folder.read("requests.say"), "share dora pete\nload pete saw\n");
    assert_eq!(folder.read("requests.tsv"), "R\t0\t1\t2\n");
    assert_eq!(answers(), before);
}

#[test]
fn mistakes_are_answered() {
    let folder = preset();
    let typed = "laod pete saw\nload pete swa\nwhi\nwho\nload pete\nhelp\n\n";
    let said = run_with(&["try", folder.path(), "--first"], typed);
    for wanted in [
        "? no event or command `laod`; did you mean `load`?",
        "? no member `swa`; did you mean `saw`?",
        "? no event or command `whi`; did you mean `why`?",
        "? like this: who EVENT; events: share, withdraw, load\n",
        "? like this: load FROM TO",
        "take back the last request",
    ] {
        assert!(said.out.contains(wanted), "{wanted}: {}", said.out);
    }
    assert_eq!(said.status, 2);
}

#[test]
fn new_terms_at_the_prompt() {
    let (old, new) = (example("revised"), example("revised/new"));
    let (old, new) = (old.to_str().unwrap(), new.display());
    let typed = format!(
        "share dora pete\nrevise {new}\nwhy\nload pete pad\nwhy\nthank pete dora\nload pete pad\nwhy\nsave\n\
         list\nundo\nundo\nundo\nundo\nwhy\nundo\n"
    );
    let said = run_with(&["try", old, "--first"], &typed);
    let revised = "granted; moment 1
Still remembered:
- in load: A has at some time shared with you and has not withdrawn from you since.

These begin now, at moment 1, and its event, share dora → pete, counts:
- in load: you have at some time thanked A.

These are dropped, with all that they remember:
- in star: you have at some time starred some member.

A stands for any member who fits.

No longer allowed:
- load pete → pad
? nothing was asked yet under the terms in use
denied
load pete → pad: denied
  dora owns pad, but since the terms were revised at moment 1 pete has never thanked dora
granted; moment 2
granted; moment 3
load pete → pad: granted
";
    assert!(said.out.starts_with(revised), "{}", said.out);
    let rest = format!(
        "? the terms were revised, and a file of requests has no word for that: undo it first, or use \
         `cuckooormolu revise` with --store
  1  share dora → pete: granted
     the terms of {new}
  2  load pete → pad: denied
  3  thank pete → dora: granted
  4  load pete → pad: granted
took back load pete → pad, which was granted; moment 2
took back thank pete → dora, which was granted; moment 1
took back load pete → pad, which was denied; moment 1
took back the terms of {new}; moment 1
share dora → pete: granted
  it is always allowed
took back share dora → pete, which was granted; moment 0
"
    );
    assert!(said.out.ends_with(&rest), "{}", said.out);
    assert_eq!(said.status, 2);
}

#[test]
fn refused_terms_at_the_prompt() {
    let folder = preset();
    let said = run_with(
        &["try", folder.path()],
        &format!(
            "revise {}\nrevise none\nrevise\nlook load pete saw\n",
            example("revised").display()
        ),
    );
    let out = &said.out;
    assert!(out.contains("refused: 4 members here and 3 in"), "{out}");
    assert!(out.contains("? there is no file or folder none"), "{out}");
    assert!(out.contains("? like this: revise DIR"), "{out}");
    assert!(out.ends_with("would be denied\n"), "{out}");
}
