//! `test`: tests that people write, and what is said where they fail.

mod run_support;

use run_support::{example, preset, run, Folder};
use std::fs;
use std::io::{BufRead, BufReader};
use std::process::{Command, Stdio};

const SOURCE: &str = "members dora, pete, saw, pad\nrelations owns, bank\n\
    event share, withdraw by anyone\n\
    event load when some owner owns target: not owner withdraw me since owner share me\n\
    event peek when me is bank\nkeep denied peek\n\
    event complain when once me denied peek target\n\
    first dora owns saw\n";

/// A folder with the source and these tests.
fn folder(tests: &str) -> Folder {
    let folder = Folder::new();
    folder.write("terms.say", SOURCE);
    folder.write("tests.say", tests);
    folder
}

#[test]
fn what_passes() {
    let folder = folder(
        "# a comment\ntest a share lasts until it is withdrawn\n\
           given not dora owns saw, dora owns pad\n\
           nobody may load saw\n\
           then dora share pete   # and so on\n\
           only pete may load pad\n\
           pete may load only pad\n\
           then dora withdraw pete,\n\
                pete denied peek dora\n\
           pete may not load pad and saw\n\
           pete may not load pad because dora\n\
           anyone may share pete\n\n\
         test \"attributes\"\n\
           given pete is bank, dora is owns of saw\n\
           pete may peek saw\n",
    );
    let said = run(&["test", folder.path()]);
    assert_eq!((said.err.as_str(), said.status), ("", 0));
    assert_eq!(said.out, "2 tests with 23 answers: 2 passed, 0 failed\n");
    let said = run(&["test", "--all", folder.path(), folder.path()]);
    assert_eq!(said.status, 0);
    assert!(said.out.contains("tests.say:14: attributes\n"), "{}", said.out);
    assert!(said.out.ends_with("4 tests with 46 answers: 4 passed, 0 failed\n"), "{}", said.out);
}

#[test]
fn what_fails_is_shown_with_what_was_expected() {
    let folder = folder(
        "test one\n  pete may load saw\n  pete may not share dora\n\
         test two\n  given dora share pete\n  pete may not load saw because suspended\n\
         test three\n  given pete peek saw\n  pete may load saw\n  pete may load pad\n\
         test four\n  dora may share pete\n",
    );
    let said = run(&["test", folder.path()]);
    assert_eq!(said.status, 1);
    for wanted in [
        "tests.say:1: one\n  line 2\n    expected: pete may load saw\n    \
         got:      pete may not load saw, because\n      ",
        "  line 3\n    expected: pete may not share dora\n    got:      pete may share dora, because\n      ",
        "tests.say:4: two\n  line 6\n    expected: pete may not load saw because suspended\n    \
         got:      pete may load",
        "  line 8\n    expected: pete peek saw\n    got:      pete denied peek saw, because\n      ",
        "  2 statements after it were left out\n",
        "\n4 tests with 6 answers: 1 passed, 3 failed\n",
    ] {
        assert!(said.out.contains(wanted), "{wanted}\n{}", said.out);
    }
    assert!(!said.out.contains("four"), "{}", said.out);
    let json = run(&["test", folder.path(), "--json"]);
    assert_eq!(json.status, 1);
    let lines: Vec<&str> = json.out.lines().collect();
    assert!(lines[0].contains("\"test\":\"one\",\"line\":1,\"passed\":false"), "{}", lines[0]);
    assert!(lines[2].contains("\"expected\":\"pete peek saw\""), "{}", lines[2]);
    assert!(lines[2].ends_with("\"skipped\":2}"), "{}", lines[2]);
    assert_eq!(lines[4], "{\"tests\":4,\"passed\":1,\"failed\":3,\"answers\":6,\"unusable\":0}");
}

#[test]
fn words_that_the_reason_lacks_are_named() {
    let folder = folder(
        "test one\n  pete may not load saw because dora is suspended\n\
         test two\n  pete may not load saw because saw owns dora\n",
    );
    let said = run(&["test", folder.path()]).out;
    assert!(said.contains("\n      not found: is suspended\n"), "{said}");
    assert!(said.contains("\n      not found in this order: saw owns dora\n"), "{said}");
}

#[test]
fn a_definition_cannot_be_given() {
    let folder = folder("test one\n  given pete is suspended\n  pete may not load max\n");
    folder.write(
        "terms.say",
        "members max, pete\nevent suspend, lift by anyone\n\
         define p is suspended: not someone lift p since someone suspend p\n\
         event load when me is not suspended\n",
    );
    let said = run(&["test", folder.path()]).err;
    assert!(said.contains("tests.say:2:17: `suspended` is a definition\n"), "{said}");
    let advice = "= make it true by an event, as in `given max suspend pete`\n";
    assert!(said.contains(advice), "{said}");
}

/// Each statement with the message and the cure that belong to it.
#[test]
fn mistakes_have_a_place_a_cause_and_a_cure() {
    let cases = [
        ("pete may lod saw", "no event `lod`; did you mean `load`?", ""),
        ("peet may load saw", "no member `peet`; did you mean `pete`?", ""),
        ("pete may owns saw", "`owns` is a relation", "given dora owns saw"),
        ("pete load saw", "nothing is asked here", "write `pete may load saw` to ask"),
        ("gven dora share pete", "nothing is asked here; did you mean `given`?", ""),
        ("pete quin may load saw", "expected `may`, or `and` and another member, found `quin`", ""),
        ("pete may load", "expected a member, found the end of the line", ""),
        ("pete may load saw because", "expected the words that `why` has to say", ""),
        (
            "pete may not load saw since dora withdraw",
            "a reason begins with `because`, not with `since`",
            "write `because dora withdraw`",
        ),
        (
            "pete may not load saw due to dora",
            "a reason begins with `because`, not with `due to`",
            "write `because dora`",
        ),
        (
            "pete may not load saw as dora",
            "a reason begins with `because`, not with `as`",
            "write `because dora`",
        ),
        ("pete may load saw now", "expected `because` or the end of the line, found `now`", ""),
        ("anyone may not load saw", "this can be understood in two ways", "`nobody may ...`"),
        ("given pete is suspended", "no relation or event `suspended`", "follows from them"),
        ("given dora ows saw", "no relation or event `ows`; did you mean `owns`?", ""),
        ("given dora owns saw both", "expected `ways` after `both`", ""),
        ("given dora owns saw pad", "expected `,` or the end of the line, found `pad`", ""),
        ("given not dora share pete", "did not happen needs no words", "leave it out"),
        ("given dora share pete, dora owns pad", "at the beginning of a test only", "put it first"),
        ("given dora owns saw,", "expected a member, found the end of the line", ""),
        ("pete cannot load saw", "a question has `may not`, not `cannot`", "write `may not`"),
        ("pete can load saw", "a question has `may`, not `can`", "write `may`"),
        ("pete should load saw", "a question has `may`, not `should`", "write `may`"),
        (
            "expect pete may load saw",
            "a question stands alone",
            "leave out `expect`: `pete may load saw`",
        ),
        (
            "then pete may load saw",
            "a question stands alone",
            "leave out `then`: `pete may load saw`",
        ),
        ("everyone may load saw", "no member `everyone`", "write `anyone`"),
        ("nobody except pete may load saw", "`nobody` takes no `except`", "write `only pete`"),
        ("no player may load saw", "no member `no`", "write `nobody`"),
        ("pete may load the saw", "no member `the`", "leave out `the`: write `saw`"),
        ("given share dora peet", "no member `peet`; did you mean `pete`?", ""),
    ];
    for (line, message, advice) in cases {
        let folder = folder(&format!("test one\n  {line}\n"));
        let said = run(&["test", folder.path()]);
        assert_eq!((said.status, said.out.as_str()), (3, ""), "{line}");
        assert!(said.err.contains("tests.say:2:"), "{line}: {}", said.err);
        assert!(said.err.contains(message) && said.err.contains(advice), "{line}: {}", said.err);
    }
    let folder = folder("test one\n peet may load saw\n pete may lod saw\n");
    let said = run(&["test", folder.path()]);
    assert!(said.err.contains("`peet`") && said.err.contains("`lod`"), "{}", said.err);
}

#[test]
fn tests_that_say_nothing() {
    for (text, message) in [
        ("", "has no test; `cuckooormolu test --help` shows one"),
        ("pete may load saw\n", "this stands in no test"),
        ("test one\ntest two\n pete may share saw\n", "this test asks nothing"),
        ("test\n  pete may share saw\n", "this test has no title"),
    ] {
        let said = run(&["test", folder(text).path()]);
        assert_eq!(said.status, 3, "{text}");
        assert!(said.err.contains(message), "{text}: {}", said.err);
    }
    let folder = Folder::new();
    folder.write("terms.say", SOURCE);
    let said = run(&["test", folder.path()]);
    assert_eq!(said.status, 3);
    assert!(said.err.contains("tests.say") && said.err.contains("--help"), "{}", said.err);
    assert_eq!(run(&["test"]).status, 2);
}

#[test]
fn kinds_stand_for_their_members() {
    let folder = folder("test kinds\n  people may share presets\n  only people may peek saw\n");
    let source = SOURCE
        .replace("members dora, pete, saw, pad", "members people: dora, pete; presets: saw, pad");
    folder.write("terms.say", &source.replace("peek when me is bank", "peek when me is people"));
    let said = run(&["test", folder.path()]);
    assert_eq!((said.err.as_str(), said.status), ("", 0), "{}", said.out);
    assert_eq!(said.out, "1 test with 8 answers: 1 passed, 0 failed\n");
}

#[test]
fn watched() {
    let folder = folder("test one\n  dora may share pete\n");
    let mut child = Command::new(env!("CARGO_BIN_EXE_cuckooormolu"))
        .args(["test", folder.path(), "--watch"])
        .stdout(Stdio::piped())
        .spawn()
        .unwrap();
    let mut lines = BufReader::new(child.stdout.take().unwrap()).lines();
    let mut next = |wanted: &str| {
        let line = lines.next().unwrap().unwrap();
        assert!(line.contains(wanted), "{line}");
    };
    next("1 passed, 0 failed");
    next("is watched; Ctrl-C ends");
    folder.write("tests.say", "test another\n  dora may not share pete\n");
    next("FAILED");
    child.kill().unwrap();
    child.wait().unwrap();
}

/// A folder that can't be tested does not keep the others from it.
#[test]
fn several_folders() {
    let (good, bare, wrong) = (preset(), preset(), preset());
    good.write("tests.say", "test one\n  dora may share pete\n");
    wrong.write("tests.say", "test two\n  dora may shar pete\n");
    let folders = ["test", bare.path(), wrong.path(), good.path(), "nosuch"];
    let said = run(&folders);
    assert_eq!((said.status, said.err.as_str()), (3, ""), "{}", said.out);
    for part in [
        &format!("UNUSABLE  {0}\n  {0} has no tests.say yet; `cuckooormolu test", bare.path()),
        &format!("UNUSABLE  {0}\n  {0}/tests.say:2:12: ", wrong.path()),
        "UNUSABLE  nosuch\n  there is no file or folder nosuch\n",
        "\n1 test with 1 answer: 1 passed, 0 failed; 3 folders not tested\n",
    ] {
        assert!(said.out.contains(part), "{part}\n\n{}", said.out);
    }
    let json = run(&[&folders[..], &["--json"]].concat());
    assert_eq!((json.status, json.out.lines().count()), (3, 5), "{}", json.out);
    assert_eq!(json.out.lines().filter(|line| line.starts_with("{\"error\":")).count(), 3);
    assert!(json.out.ends_with("\"failed\":0,\"answers\":1,\"unusable\":3}\n"), "{}", json.out);
    // A folder alone stops as everywhere.
    let alone = run(&["test", bare.path()]);
    assert_eq!((alone.status, alone.out.as_str()), (3, ""));
    assert!(alone.err.contains("has no tests.say yet"), "{}", alone.err);
}

/// What is not there is not waited for.
#[test]
fn nothing_to_watch() {
    for command in ["check", "test"] {
        let said = run(&[command, "nosuch", "--watch"]);
        assert_eq!((said.status, said.out.as_str()), (3, ""));
        assert!(said.err.contains("there is no file or folder nosuch"), "{}", said.err);
    }
}

/// Stored terms keep their past; edges can't be given to them.
#[test]
fn stored_terms() {
    let later = example("saved/later");
    let folder = Folder::new();
    for name in ["terms.tsv", "names.tsv"] {
        fs::copy(later.join(name), folder.file(name)).unwrap();
    }
    folder.write("tests.say", "test gone on\n  pete may load pad\n  pete may star nobody\n");
    assert_eq!(run(&["test", folder.path()]).out, "1 test with 5 answers: 1 passed, 0 failed\n");
    folder.write("tests.say", "test one\n  given dora owns pad\n  pete may load pad\n");
    let said = run(&["test", folder.path()]);
    assert_eq!(said.status, 3);
    assert!(said.err.contains("stored with a past"), "{}", said.err);
}

/// The tests of docs/LANGUAGE.md pass under the terms that it begins with.
#[test]
fn the_language_page() {
    let page = fs::read_to_string(example("../docs/LANGUAGE.md")).unwrap();
    let block = |heading: &str| {
        let section = page.split_once(&format!("\n## {heading}\n")).unwrap().1;
        let lines = section.lines().skip_while(|line| !line.starts_with("    "));
        let lines = lines.take_while(|line| line.is_empty() || line.starts_with("    "));
        lines.map(|line| format!("{}\n", line.trim_start_matches("    "))).collect::<String>()
    };
    let folder = Folder::new();
    folder.write("terms.say", &block("Five minutes"));
    folder.write("tests.say", &block("Tests"));
    let said = run(&["test", folder.path()]);
    assert_eq!((said.err.as_str(), said.status), ("", 0), "{}", said.out);
    assert!(page.contains(&format!("\n    {}", said.out)), "{}", said.out);
}

#[test]
fn the_examples_have_tests_that_pass() {
    let examples = fs::read_dir(example("")).unwrap().map(|entry| entry.unwrap().path());
    let folders: Vec<String> = examples
        .filter(|path| path.is_dir())
        .map(|path| path.to_str().unwrap().to_string())
        .collect();
    let mut arguments = vec!["test"];
    arguments.extend(folders.iter().map(String::as_str));
    let said = run(&arguments);
    assert_eq!((said.err.as_str(), said.status), ("", 0), "{}", said.out);
}

#[test]
fn words_of_a_reason_may_have_others_between_them() {
    let folder = Folder::new();
    folder.write(
        "terms.say",
        "members dora, pete, saw\nrelation owns\nevent share, withdraw by anyone\n\
         event load when me gets target\n\
         define p gets s: some o owns s: not o withdraw p since o share p\n\
         first dora owns saw\n",
    );
    folder.write(
        "tests.say",
        "test forms\n  given dora share pete\n  pete may load saw because dora shared pete\n\
         \x20 pete may load saw because pete gets saw dora share pete\n\
         \x20 dora may not load saw because dora gets saw\n",
    );
    let said = run(&["test", folder.path()]);
    assert_eq!(
        (said.status, said.out.as_str()),
        (0, "1 test with 4 answers: 1 passed, 0 failed\n")
    );
}

#[test]
fn an_event_may_come_first() {
    let folder = folder(
        "test one\n  given share dora pete\n  pete may load saw\n  then withdraw dora pete, denied load pete saw\n\
         \x20 pete may not load saw\n",
    );
    let said = run(&["test", folder.path()]);
    assert_eq!(said.out, "1 test with 5 answers: 1 passed, 0 failed\n");
}
