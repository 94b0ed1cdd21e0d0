//! `run --store`: a folder that goes on, in little time, within the program's
//! limit.

mod run_support;

use run_support::{preset, run, run_with, Folder};
use std::time::{Duration, Instant};

#[test]
fn another_folder_goes_on() {
    let folder = preset();
    let other = folder.file("there/other");
    let file = other.join("terms.tsv").display().to_string();
    let said = run(&["run", folder.path(), "--store", &file]);
    assert_eq!((said.status, said.err.as_str()), (0, ""));
    let other = other.display().to_string();
    let said = run_with(&["try", &other], "share dora pete\nload pete saw\n");
    assert_eq!(said.out, "granted; moment 1\ngranted; moment 2\n");
}

#[test]
fn nothing_is_stored_where_it_would_not_run() {
    let (folder, other) = (preset(), Folder::new());
    let file = other.file("terms.tsv").display().to_string();
    other.write("names.tsv", "member\t0\tanna\n");
    let said = run(&["run", folder.path(), "--store", &file]);
    assert_eq!(said.status, 3);
    assert!(said.err.contains("names.tsv has other names"), "{}", said.err);
    other.write("terms.say", "members a\nevent e by anyone\n");
    let said = run(&["run", folder.path(), "--store", &file]);
    assert_eq!(said.status, 3);
    assert!(said.err.contains("has a terms.say, which is what runs there"), "{}", said.err);
    assert!(!other.file("terms.tsv").exists());
    // Nor is an answer shown that is not stored.
    assert_eq!(said.out, "");
    assert_eq!(run(&["run", folder.path(), "--store", "/proc/none/terms.tsv"]).out, "");
}

#[test]
fn a_new_file_takes_the_old_one_s_place() {
    let (folder, other) = (preset(), Folder::new());
    let (kept, linked) = (other.file("kept.tsv"), other.file("linked.tsv"));
    std::os::unix::fs::symlink(&kept, &linked).unwrap();
    for file in [&kept, &linked] {
        let said = run(&["run", folder.path(), "--store", file.to_str().unwrap()]);
        assert_eq!((said.status, said.err.as_str()), (0, ""));
    }
    assert!(kept.is_file() && linked.is_symlink());
    assert_eq!(std::fs::read_dir(other.path()).unwrap().count(), 2);
}

#[test]
fn a_link_stays_a_link() {
    let (folder, other) = (preset(), Folder::new());
    let store = |name: &str| {
        let file = other.file(name).display().to_string();
        run(&["run", folder.path(), "--store", &file])
    };
    let link = |to: &str, name: &str| std::os::unix::fs::symlink(to, other.file(name)).unwrap();
    // One that leads to nothing yet, through another.
    link("kept.tsv", "second.tsv");
    link("second.tsv", "first.tsv");
    let said = store("first.tsv");
    assert_eq!((said.status, said.err.as_str()), (0, ""));
    assert!(other.file("first.tsv").is_symlink() && other.file("second.tsv").is_symlink());
    assert!(other.read("kept.tsv").starts_with("S\t2\n"));
    link("nowhere/kept.tsv", "far.tsv");
    let said = store("far.tsv");
    assert_eq!((said.status, said.out.as_str()), (3, ""));
    assert!(said.err.contains("far.tsv, which leads to nowhere/kept.tsv: No such"), "{}", said.err);
    link("round.tsv", "round.tsv");
    let said = store("round.tsv");
    assert_eq!(said.status, 3);
    assert!(said.err.contains("lead round in a circle"), "{}", said.err);
    assert!(other.file("far.tsv").is_symlink() && other.file("round.tsv").is_symlink());
}

/// 64 members, each of whom has shared with many.
fn crowd(requests: usize) -> Folder {
    let folder = Folder::new();
    let members: Vec<String> = (0..64).map(|n| format!("m{n}")).collect();
    folder.write(
        "terms.say",
        &format!(
            "members {}\nrelations a, b\nevent share by anyone then add me a target, add target b me\n\
             event load when some x a target: not x share me since me share x\n\
             event keep when once target share me and never me share target\n",
            members.join(", ")
        ),
    );
    let line = |n: usize| format!("R\t0\t{}\t{}\n", n % 64, (n * 7 + n / 64) % 64);
    folder.write("requests.tsv", &(0..requests).map(line).collect::<String>());
    folder
}

#[test]
fn many_members_are_stored_soon() {
    let folder = crowd(60);
    let stored = folder.file("stored.tsv").display().to_string();
    let began = Instant::now();
    let said = run(&["run", folder.path(), "--store", &stored]);
    assert_eq!((said.status, said.err.as_str()), (0, ""));
    assert!(began.elapsed() < Duration::from_secs(20), "{:?}", began.elapsed());
    assert!(folder.read("stored.tsv").starts_with("S\t2\nM\t64\n"));
}

#[test]
fn one_rule_for_long_files() {
    let folder = crowd(2_400);
    let stored = folder.file("stored.tsv").display().to_string();
    let said = run(&["run", folder.path(), "--store", &stored]);
    assert_eq!(said.status, 3);
    assert!(
        said.err.contains("and the program opens at most 65536; fewer members"),
        "{}",
        said.err
    );
    assert!(!folder.file("stored.tsv").exists());
    folder.write("requests.tsv", &"R\t0\t0\t1\n".repeat(8_200));
    for command in ["run", "try", "why"] {
        let said = run(&[command, folder.path()]);
        assert_eq!((said.status, said.out.as_str()), (3, ""));
        assert!(said.err.contains("requests.tsv has 65600 bytes"), "{}", said.err);
    }
}

/// Requests that can't be read stop only what uses them.
#[test]
fn other_requests_are_made_beside_a_long_file() {
    let folder = preset();
    let path = folder.path();
    folder.write("requests.tsv", &"R\t0\t0\t1\n".repeat(8_200));
    folder.write("one.say", "load pete saw\n");
    let (one, page) = (folder.file("one.say"), folder.file("page.html"));
    let (one, page) = (one.to_str().unwrap(), page.to_str().unwrap());
    let denied = "1  load pete → saw  denied\n";
    assert_eq!(run(&["run", path, "--requests", one]).out, denied);
    assert_eq!(run_with(&["run", path, "-"], "load pete saw\n").out, denied);
    for arguments in [
        &["aloud", path][..],
        &["source", path],
        &["who", path, "load", "--first"],
        &["why", path, "--requests", one],
    ] {
        let said = run(arguments);
        assert_eq!((said.status, said.err.as_str()), (0, ""), "{arguments:?}");
    }
    let said = run(&["check", path]);
    assert_eq!((said.status, said.err.as_str()), (0, ""));
    let warning = "warning: the folder's requests cannot be read: ";
    assert!(said.out.contains(warning), "{}", said.out);
    assert!(said.out.contains("requests.tsv has 65600 bytes, and the program"), "{}", said.out);
    let said = run(&["check", path, "--json"]).out;
    assert!(said.contains("{\"warning\":\"requests\",\"file\":"), "{said}");
    for arguments in [
        &["run", path][..],
        &["who", path, "load"],
        &["report", path, "-o", page],
        &["revise", path, path],
        &["play", path],
    ] {
        let said = run(arguments);
        assert_eq!((said.status, said.out.as_str()), (3, ""), "{arguments:?}");
        assert!(said.err.contains("requests.tsv has 65600 bytes"), "{}", said.err);
    }
    // Nothing of the file is lost.
    let said = run_with(&["try", path, "--first"], "load pete saw\nsave\n");
    assert!(said.out.contains("? the folder's requests have more than this"), "{}", said.out);
    assert_eq!(folder.read("requests.tsv").len(), 65_600);
}

#[test]
fn an_option_is_given_once() {
    let (folder, other) = (preset(), Folder::new());
    let (one, two) = (other.file("one.tsv"), other.file("two.tsv"));
    let (one, two) = (one.to_str().unwrap(), two.to_str().unwrap());
    let said = run(&["run", folder.path(), "--store", one, "--store", two]);
    assert_eq!((said.status, said.out.as_str()), (2, ""));
    let twice = format!("--store is given twice, `{one}` and `{two}`; give it once\n");
    assert!(said.err.contains(&twice), "{}", said.err);
    assert_eq!(std::fs::read_dir(other.path()).unwrap().count(), 0);
}
