//! `new`: a folder to start from, which every command takes.

mod run_support;

use run_support::{run, run_with, Folder};

#[test]
fn a_folder_to_start_from() {
    let parent = Folder::new();
    let mine = parent.file("deep/mine").display().to_string();
    let said = run(&["new", &mine]);
    assert_eq!((said.status, said.err.as_str()), (0, ""));
    assert!(said.out.contains("terms.say written"), "{}", said.out);
    let checked = run(&["check", &mine]).out;
    assert_eq!(checked.lines().count(), 2, "{checked}");
    let typed = "load pete saw\nshare dora pete\nload pete saw\n";
    let said = run_with(&["try", &mine], typed);
    assert_eq!(said.out, "denied\ngranted; moment 1\ngranted; moment 2\n");
}

#[test]
fn nothing_is_written_over() {
    let folder = Folder::new();
    folder.write("terms.say", "members a\n");
    let said = run(&["new", folder.path()]);
    assert_eq!((said.status, said.out.as_str()), (3, ""));
    assert!(said.err.contains("terms.say is there already"), "{}", said.err);
    assert_eq!(folder.read("terms.say"), "members a\n");
}
