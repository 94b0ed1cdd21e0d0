//! `check` of several folders, for a job that runs by the clock: what it prints where, and
//! its exit status.

mod run_support;

use run_support::{preset, run, Folder};

/// A folder with a source that is accepted without a warning.
fn sound() -> Folder {
    let folder = Folder::new();
    folder.write("terms.say", "members a, b\nevent share by anyone\n");
    folder
}

/// Terms of which a request takes minutes.
fn costly() -> Folder {
    let folder = Folder::new();
    let members: Vec<String> = (0..64).map(|n| format!("m{n}")).collect();
    folder.write(
        "terms.say",
        &format!(
            "members {}\nrelation friend\nevent meet when me friend some a: a friend some b: b friend some c: \
             c friend some d: d friend some e: e friend a and c friend e and d friend b\n",
            members.join(", ")
        ),
    );
    folder
}

#[test]
fn each_is_checked() {
    let (first, cut, last) = (sound(), preset(), sound());
    cut.write("terms.tsv", "M\t3\nL\t1\n");
    let said = run(&["check", first.path(), cut.path(), last.path()]);
    assert_eq!(said.status, 3);
    for folder in [&first, &cut, &last] {
        assert!(said.out.contains(&format!("{}:\n", folder.path())), "{}", said.out);
    }
    assert_eq!(said.out.matches("\naccepted: ").count(), 2, "{}", said.out);
    let told = format!("{}/terms.tsv: refused with 1 at line 2: ", cut.path());
    assert!(said.err.starts_with(&told), "{}", said.err);
    let json = run(&["check", first.path(), cut.path(), last.path(), "--json"]);
    assert_eq!((json.status, json.err.as_str()), (3, ""));
    let file = format!("{{\"accepted\":false,\"file\":\"{}/terms.tsv\",", cut.path());
    assert!(json.out.lines().nth(1).unwrap().starts_with(&file), "{}", json.out);
    assert_eq!(json.out.lines().count(), 3);
}

#[test]
fn mistakes_go_to_one_stream() {
    let (cut, wrong) = (preset(), sound());
    cut.write("terms.tsv", "M\t3\nL\t1\n");
    wrong.write("terms.say", "members a, b\nevnt share by anyone\n");
    for folder in [&cut, &wrong] {
        let said = run(&["check", folder.path()]);
        assert_eq!((said.status, said.out.as_str()), (3, ""));
        assert!(said.err.contains(&format!("{}/terms.", folder.path())), "{}", said.err);
        let said = run(&["check", folder.path(), "--json"]);
        assert_eq!((said.status, said.err.as_str()), (3, ""));
    }
    // Other commands name the file, and what to do.
    let said = run(&["run", cut.path()]).err;
    let why =
        format!("terms.tsv is refused with 1 at line 2; `cuckooormolu check {}` says", cut.path());
    assert!(said.contains(&why), "{said}");
}

#[test]
fn strict_and_effort() {
    let (sound, warned, costly) = (sound(), preset(), costly());
    warned.write("names.tsv", "member\t0\tdora\nmember\t1\tpete\n");
    assert_eq!(run(&["check", sound.path(), "--strict", "--effort", "1000"]).status, 0);
    let said = run(&["check", warned.path(), "--strict"]);
    assert_eq!(said.status, 1);
    assert!(said.out.contains("warning: names.tsv names 2 of 3 members\n"), "{}", said.out);
    assert_eq!(run(&["check", warned.path()]).status, 0);
    assert_eq!(run(&["check", sound.path(), warned.path(), "--strict"]).status, 1);
    let said = run(&["check", warned.path(), "--effort", "3"]);
    assert_eq!(said.status, 1);
    assert!(
        said.out.contains("\neffort: that is more than --effort allows, 3 rows\n"),
        "{}",
        said.out
    );
    // The most that is counted stands for more.
    let said = run(&["check", costly.path(), "--effort", "99999999999", "--json"]);
    assert_eq!(said.status, 1);
    let effort = "\"effort\":2147483648,\"or_more\":true,\"requests\":0,\"within\":false}";
    assert!(said.out.contains(effort), "{}", said.out);
    let said = run(&["check", sound.path(), "--effort", "many"]);
    assert_eq!(said.status, 2);
    assert!(said.err.contains("--effort takes a number of rows, such as 1000000"), "{}", said.err);
}

#[test]
fn names_of_other_terms_are_told() {
    let folder = preset();
    folder.write("names.tsv", "member\t0\tann\nmember\t1\tben\nmember\t2\tcid\nmember\t3\tdan\n");
    let said = run(&["run", folder.path()]);
    let told = format!(
        "warning: {}/names.tsv names member 3, and the terms have 3 members: is it of other terms?",
        folder.path()
    );
    assert!(said.status == 0 && said.err.starts_with(&told), "{}", said.err);
    folder.write("names.tsv", "member\t0\tann\nmember\t1\tben\n");
    let said = run(&["why", folder.path()]).err;
    assert!(said.contains("names.tsv names 2 of 3 members: is it of other terms?"), "{said}");
    folder.write("names.tsv", "event\t0\tshare\nevent\t1\twithdraw\nevent\t2\tload\n");
    assert_eq!(run(&["run", folder.path()]).err, "");
}

#[test]
fn a_warning_has_its_place() {
    let folder = Folder::new();
    folder.write("terms.say", "members a, b\nrelation owns\nevent load when me owns target\n");
    let said = run(&["check", folder.path(), "--json"]).out;
    let place = format!("\"file\":\"{}/terms.say\",\"line\":3,\"column\":", folder.path());
    assert!(said.lines().skip(1).any(|line| line.contains(&place)), "{said}");
}

#[test]
fn bytes_that_are_no_terms_are_cut() {
    let folder = Folder::new();
    let noise: Vec<u8> =
        (0..4_000u32).map(|n| (n * n * 31 % 251) as u8).filter(|b| *b != b'\n').collect();
    std::fs::write(folder.file("terms.tsv"), [&noise[..], b"\n"].concat()).unwrap();
    let said = run(&["check", folder.path()]);
    assert_eq!(said.status, 3);
    assert!(said.err.lines().all(|line| line.chars().count() < 240), "{}", said.err);
}
