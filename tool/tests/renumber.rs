//! `renumber`: what it says, what it writes and what it refuses.

mod run_support;

use run_support::{example, run, Folder, Said};
use std::fs;
use std::path::Path;

/// Runs `renumber` on a folder by an order, with further arguments.
fn renumber(folder: &Path, order: &str, more: &[&str]) -> Said {
    run(&[&["renumber", folder.to_str().unwrap(), "--order", order], more].concat())
}

/// The same, which goes well, into a folder.
fn written(folder: &Path, order: &str, to: &Path) -> String {
    let said = renumber(folder, order, &["-o", to.to_str().unwrap()]);
    assert_eq!((said.status, said.err.as_str()), (0, ""));
    said.out
}

/// The files of both folders are the same.
fn same_files(one: &Path, other: &Path, names: &[&str]) {
    for name in names {
        let read = |folder: &Path| fs::read_to_string(folder.join(name)).unwrap();
        assert_eq!(read(one), read(other), "{name}");
    }
}

/// A folder with a source, and with requests by name.
fn folder(source: &str, requests: &str) -> Folder {
    let folder = Folder::new();
    folder.write("terms.say", source);
    folder.write("requests.say", requests);
    folder
}

fn path(folder: &Folder) -> &Path {
    Path::new(folder.path())
}

/// The order of the merged address list, and that of the two lists.
const MERGED: &str = "ann,dora,pad,pete,quin";
const LISTS: &str = "dora, pete, pad, ann, quin";

const SOURCE: &str = "# Who owns what.\nmembers dora, pete, saw # three\nrelation owns\n\
                      event share by anyone\nevent load when some x owns target: once x share me\n\
                      first dora owns saw\n";

#[test]
fn the_example() {
    let folder = Folder::new();
    let new = folder.file("new");
    let said = written(&example("merged/later"), MERGED, &new);
    let readme = fs::read_to_string(example("merged/README.md")).unwrap();
    let shown = readme.split("```renumber\n").nth(1).unwrap().split("```").next().unwrap();
    let files = "terms.tsv, names.tsv, requests.tsv, expected.tsv";
    assert_eq!(said, format!("{shown}\n{} written: {files}\n", new.display()));
    let names = ["terms.tsv", "names.tsv", "requests.tsv", "expected.tsv"];
    same_files(&new, &example("merged/renumbered"), &names);
    let answers = |folder: &Path| run(&["run", folder.to_str().unwrap()]).out;
    assert_eq!(answers(&new), answers(&example("merged/later")));
    // The other order undoes it.
    written(&new, LISTS, &folder.file("back"));
    same_files(&folder.file("back"), &example("merged/later"), &names);
}

/// The source is what runs, so its members are declared in the new order.
#[test]
fn a_source() {
    let folder = Folder::new();
    let new = folder.file("new");
    written(&example("merged"), MERGED, &new);
    let source = fs::read_to_string(example("merged/terms.say")).unwrap();
    let wanted = source.replace("dora, pete, pad, ann, quin", "ann, dora, pad, pete, quin");
    assert_eq!(folder.read("new/terms.say"), wanted);
    let all = ["terms.say", "terms.tsv", "names.tsv", "requests.tsv", "expected.tsv", "tests.say"];
    let terms = folder.read("new/terms.tsv");
    assert!(terms.ends_with("G\t0\t1\t2\n"), "{terms}");
    assert_eq!(run(&["compile", "--print", new.to_str().unwrap()]).out, terms);
    assert_eq!(run(&["test", new.to_str().unwrap()]).status, 0);
    let answers = |folder: &Path| run(&["run", folder.to_str().unwrap()]).out;
    assert_eq!(answers(&new), answers(&example("merged")));
    written(&new, LISTS, &folder.file("back"));
    same_files(&folder.file("back"), &example("merged"), &all);
}

/// A monitor that is stored after renumbering is the renumbered one of the monitor
/// that is stored first.
#[test]
fn storing_and_renumbering() {
    let folder = Folder::new();
    let (new, stored) = (folder.file("new"), folder.file("stored/terms.tsv"));
    written(&example("merged"), MERGED, &new);
    let said = run(&["run", new.to_str().unwrap(), "--store", stored.to_str().unwrap()]);
    assert_eq!(said.status, 0);
    let names = ["terms.tsv", "names.tsv"];
    same_files(&folder.file("stored"), &example("merged/renumbered"), &names);
}

/// Tables of two variables, and back again.
#[test]
fn a_past_of_three_members() {
    let (folder, later) = (Folder::new(), example("introduced/later"));
    let order = "bell, pete, dora, saw, dirk, pad, quin";
    let said = written(&later, order, &folder.file("new"));
    assert!(said.contains("dora  0 → 2\n"), "{said}");
    let terms = folder.read("new/terms.tsv");
    // Dora shared pad with quin.
    assert!(terms.contains("T\t1\t2\t5\t6\n"), "{terms}");
    let old = "dora, dirk, pete, quin, saw, pad, bell";
    written(&folder.file("new"), old, &folder.file("back"));
    same_files(&folder.file("back"), &later, &["terms.tsv", "names.tsv", "requests.tsv"]);
}

#[test]
fn for_programs() {
    let folder = Folder::new();
    let new = folder.file("new").display().to_string();
    let said = renumber(&example("merged/later"), MERGED, &["--json", "-o", &new]);
    let lines: Vec<&str> = said.out.lines().collect();
    assert_eq!(lines[0], r#"{"member":"dora","was":0,"number":1}"#);
    assert_eq!(lines[4], r#"{"member":"quin","was":4,"number":4}"#);
    assert_eq!(lines[5], r#"{"numbers":[1,3,2,0,4],"requests":8}"#);
    let files = r#"["terms.tsv","names.tsv","requests.tsv","expected.tsv"]"#;
    assert_eq!(lines[6], format!("{{\"folder\":\"{new}\",\"written\":{files}}}"));
    assert_eq!(lines.len(), 7);
    let said = renumber(&example("merged/later"), "dora", &["--json"]);
    assert_eq!((said.status, said.err.as_str()), (3, ""));
    assert!(said.out.starts_with("{\"error\":\"the order lacks pete, pad, ann and quin"));
}

/// Nothing is written without `-o`.
#[test]
fn what_would_be() {
    let old = folder(SOURCE, "load pete saw\nshare dora pete\nload pete saw\n");
    let said = renumber(path(&old), "saw, dora, pete", &[]);
    let wanted = "dora  0 → 1\npete  1 → 2\nsaw   2 → 0\n\n\
                  For hosts, the new number of each: 1 2 0\n\
                  All 3 requests get the same answers.\n";
    assert_eq!((said.out.as_str(), said.err.as_str()), (wanted, ""));
    let mut files: Vec<_> = fs::read_dir(old.path())
        .unwrap()
        .map(|file| file.unwrap().file_name().into_string().unwrap())
        .collect();
    files.sort();
    assert_eq!(files, ["requests.say", "terms.say"]);
    let same = renumber(path(&old), "dora, pete, saw", &[]).out;
    assert!(same.contains("the numbers that they have: nothing changes.\n"), "{same}");
}

#[test]
fn an_order_in_a_file() {
    let old = folder(SOURCE, "");
    old.write("order.txt", "# by the alphabet, backwards\nsaw\npete # him\n\n\"dora\",\n");
    let file = old.file("order.txt").display().to_string();
    let said = renumber(path(&old), &file, &[]);
    assert!(said.out.contains("the new number of each: 2 1 0\n"), "{}", said.out);
    old.write("order.txt", "saw\nsaw\npete\n");
    let said = renumber(path(&old), &file, &[]);
    assert_eq!(said.status, 3);
    let wanted = format!("cuckooormolu renumber: {file}: saw stands in the order twice");
    assert!(said.err.starts_with(&wanted), "{}", said.err);
}

/// Whatever stands in the new folder stays what it is.
#[test]
fn a_source_that_would_run_instead_is_told() {
    let folder = Folder::new();
    folder.write("terms.say", "members a\nevent e by anyone\n");
    let said = renumber(&example("merged/later"), MERGED, &["-o", folder.path()]);
    assert_eq!(said.status, 3);
    assert!(said.err.contains("terms.say is there already"), "{}", said.err);
    assert!(!folder.file("terms.tsv").exists());
}

#[test]
fn comments_that_name_members_are_told() {
    let folder = Folder::new();
    let source =
        "# dora comes first\nmembers dora, pete # and others\nevent e by anyone # as pete-like\n";
    folder.write("terms.say", source);
    let path = Path::new(folder.path());
    let said = renumber(path, "pete,dora", &[]).out;
    assert!(
        said.contains("name members and stay as they are; see that they are still true: line 1\n"),
        "{said}"
    );
    assert!(renumber(path, "pete,dora", &["--json"]).out.contains("\"comments\":[1]"));
    folder.write("terms.say", &source.replace("# dora", "# who"));
    assert!(!renumber(path, "pete,dora", &[]).out.contains("Comments"));
}

#[test]
fn a_file_that_is_not_there_is_told() {
    let said = renumber(&example("merged"), "nosuch.txt", &[]);
    assert_eq!(said.status, 3);
    assert!(
        said.err.contains("`nosuch.txt`") && said.err.contains("and there is no file nosuch.txt"),
        "{}",
        said.err
    );
}

#[test]
fn orders_that_number_nobody() {
    let old = folder(SOURCE, "");
    for (order, wanted) in [
        ("dora, saw", "the order lacks pete; it has to have each of the 3 members once"),
        (",", "the order lacks dora, pete and saw"),
        ("dora, pete, saw, dora", "dora stands in the order twice, and a member has one number"),
        ("dora, peet, saw", "no member `peet`; did you mean `pete`?"),
        ("dora, pete, 3", "no member `3`"),
    ] {
        let said = renumber(path(&old), order, &["-o", "never"]);
        assert_eq!((said.status, said.out.as_str()), (3, ""), "{order}");
        assert!(said.err.contains(wanted), "{}", said.err);
    }
    assert!(!Path::new("never").exists());
}

#[test]
fn a_folder_without_names() {
    let old = Folder::new();
    old.write("terms.tsv", "M\t3\nL\t1\t1\nF\t0\ttop\t0\t0\nP\t0\t0\nG\t0\t0\t1\n");
    old.write("requests.tsv", "R\t00\t2\t1\nR\t0\t9\t0\nno request\nR\t0\t0\t0");
    let new = old.file("new");
    let said = written(path(&old), "1,2,0", &new);
    assert!(said.starts_with("member 0  0 → 2\n"), "{said}");
    assert!(old.read("new/terms.tsv").ends_with("G\t0\t2\t0\n"));
    assert_eq!(old.read("new/requests.tsv"), "R\t0\t1\t0\nR\t0\t9\t2\nno request\nR\t0\t0\t0");
    assert!(!new.join("names.tsv").exists());
}

/// Comments stay where they are.
#[test]
fn the_text_of_a_source_stays() {
    let source = "members ann, # first\n  big-ben\nmember cleo\nevent go by anyone\n";
    let old = folder(source, "go big-ben cleo\n");
    written(path(&old), "cleo, ann, big-ben", &old.file("new"));
    let wanted = "members cleo, # first\n  ann\nmember big-ben\nevent go by anyone\n";
    assert_eq!(old.read("new/terms.say"), wanted);
    assert_eq!(old.read("new/requests.say"), "go big-ben cleo\n");
    assert!(old.read("new/names.tsv").starts_with("member\t0\tcleo\nmember\t1\tann\n"));
}

/// Members are numbered kind by kind, so a source keeps the kinds together.
#[test]
fn kinds_of_members() {
    let source = "members players: ben, cleo; presets: pad, saw\nevent load when me is player\n";
    let old = folder(source, "load ben pad\n");
    written(path(&old), "cleo, ben, saw, pad", &old.file("new"));
    let kinds = "members players: cleo, ben; presets: saw, pad\n";
    assert!(old.read("new/terms.say").starts_with(kinds));
    let said = renumber(path(&old), "ben, pad, cleo, saw", &["-o", "never"]);
    assert_eq!((said.status, said.out.as_str()), (3, ""));
    for part in [
        "terms.say:1:23: pad is one of presets, and would be declared here in the place of cleo, \
         one of players\n",
        "name an order that keeps the members of each kind together",
    ] {
        assert!(said.err.contains(part), "{}", said.err);
    }
    // A terms file says of each member which kind it is.
    assert_eq!(run(&["compile", old.path(), "-o", old.file("bare").to_str().unwrap()]).status, 0);
    written(&old.file("bare"), "ben, pad, cleo, saw", &old.file("mixed"));
    assert!(old.read("mixed/names.tsv").contains("member\t1\tpad\tpresets\n"));
    assert!(old.read("mixed/terms.tsv").ends_with("G\t0\t0\t0\nG\t0\t2\t2\n"));
}

/// What names a member by number in a file that goes by name would mean another.
#[test]
fn numbers_among_names() {
    for requests in ["load 1 saw\n", "R\t1\t1\t2\n"] {
        let old = folder(SOURCE, requests);
        let said = renumber(path(&old), "saw, dora, pete", &["-o", "never"]);
        assert_eq!((said.status, said.out.as_str()), (3, ""));
        let wanted = "requests.say names a member by number, which is another's then";
        assert!(said.err.contains(wanted), "{}", said.err);
    }
    let old = folder(SOURCE, "");
    old.write("tests.say", "test a load\n  given dora share pete\n  only pete may load saw\n");
    written(path(&old), "saw, dora, pete", &old.file("new"));
    same_files(path(&old), &old.file("new"), &["tests.say"]);
    old.write("tests.say", "test a load\n  given dora share 1\n  pete may load saw\n");
    let said = renumber(path(&old), "saw, dora, pete", &[]);
    assert_eq!(said.status, 3);
    assert!(said.err.contains("tests.say names a member by number"), "{}", said.err);
}

/// It is for one bank, and not for two that share relations.
#[test]
fn two_banks_are_refused() {
    let said = renumber(&example("two-banks"), "never", &[]);
    assert_eq!(said.status, 3);
    let old = folder(SOURCE, "left share dora pete\nright share dora pete\n");
    let said = renumber(path(&old), "saw, dora, pete", &["-o", "never"]);
    assert_eq!((said.status, said.out.as_str()), (3, ""));
    assert!(said.err.contains("names banks, and this works with one bank only"), "{}", said.err);
}

#[test]
fn nothing_is_written_over() {
    let old = folder(SOURCE, "");
    let said = renumber(path(&old), "saw, dora, pete", &["-o", old.path()]);
    assert_eq!((said.status, said.out.as_str()), (3, ""));
    let wanted = "terms.say is there already, and nothing is written over; name another folder";
    assert!(said.err.contains(wanted), "{}", said.err);
    assert_eq!(old.read("terms.say"), SOURCE);
}

#[test]
fn wrong_command_lines() {
    let old = folder(SOURCE, "");
    let said = run(&["renumber", old.path()]);
    assert_eq!(said.status, 2);
    assert!(said.err.contains("give --order NAMES, all members in their new order"));
    assert_eq!(run(&["renumber", "--order", "a"]).status, 2);
    assert_eq!(run(&["renumber", old.path(), old.path(), "--order", "a"]).status, 2);
    assert_eq!(renumber(path(&old), "dora, pete, saw", &["--strict"]).status, 2);
    assert_eq!(renumber(Path::new("no-such-folder"), "a", &[]).status, 3);
}
